/*
 * Buffers as the C tests lend them to a call: guard bytes before and behind, and all of it compared after the call. Each is had twice,
 * as the archive is lent it and as it has to be afterwards; a model that is lent the second makes it so.
 */
#ifndef LENT_H
#define LENT_H

#include <stddef.h>
#include <stdint.h>

/* MOST bytes hold a sheet of 257 entries, a count that is 1 in a byte, and some behind it; and 1,000 readings of a counter */
enum { GUARD = 256, MOST = 4096, NO_PLACES = 4 };

/* guard, bytes, guard */
struct lent {
    uint8_t all[GUARD + MOST + GUARD];
    size_t length;
};

struct both {
    struct lent proved, plain;
};

/* where an empty buffer is said to lie: no pointer unless a test says so */
extern uint8_t *nowhere;

/* The header allows any pointer for an empty buffer. These are none, the least and the greatest address, a page that may not be read. */
uint8_t *no_place(unsigned which);

uint8_t *body(struct lent *b);

/* the pointer that a call is handed */
uint8_t *place(struct lent *b);

/* what the buffer holds when it is lent */
void lend(struct both *b, const uint8_t *bytes, size_t length);

/* a buffer to be written to: what it holds is no matter, and has to stay where nothing is written */
void lend_room(struct both *b, size_t length);

int same_bytes(const struct lent *a, const struct lent *b);

/* the archive left the buffer as it has to be */
int same(const struct both *b);

#endif
