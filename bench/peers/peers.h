/*
 * Two nodes in C to measure the proved one by, with the calls of pebrassola.h under other names. plain: an image is unpacked into structs,
 * checked, the rules run, and the row is stored back, as a firmware engineer would write it. lean: the best that we can do by hand on the
 * bytes where they lie, with the same ideas as the proved code. Both answer as the model does: tests/compare/run compares them.
 */
#ifndef PEERS_H
#define PEERS_H

#include <string.h>

#include "calls.h"

enum { HEADER = 32, ROW = 44, WINDOW = 128, INIT = 1, ECHO = 2 };

#define LAST_TICK PEBRASSOLA_LAST_TICK

/* big-endian fields: a load and a swap of bytes each */
static inline uint32_t get2(const uint8_t *b)
{
    return (uint32_t)b[0] << 8 | b[1];
}

static inline uint32_t get4(const uint8_t *b)
{
    return (uint32_t)b[0] << 24 | (uint32_t)b[1] << 16 | (uint32_t)b[2] << 8 | b[3];
}

static inline uint64_t get8(const uint8_t *b)
{
    return (uint64_t)get4(b) << 32 | get4(b + 4);
}

static inline void put2(uint8_t *b, uint32_t v)
{
    b[0] = (uint8_t)(v >> 8);
    b[1] = (uint8_t)v;
}

static inline void put4(uint8_t *b, uint32_t v)
{
    b[0] = (uint8_t)(v >> 24);
    b[1] = (uint8_t)(v >> 16);
    b[2] = (uint8_t)(v >> 8);
    b[3] = (uint8_t)v;
}

static inline void put8(uint8_t *b, uint64_t v)
{
    put4(b, (uint32_t)(v >> 32));
    put4(b + 4, (uint32_t)v);
}

static inline struct pebrassola_answer answer(uint32_t number, uint32_t records, uint32_t fired)
{
    struct pebrassola_answer a = {number, records, fired};
    return a;
}

static inline void put_record(uint8_t *out, unsigned records, uint32_t to, unsigned kind, unsigned flag, uint32_t tick)
{
    uint8_t *r = out + 12 * records;
    put4(r, to);
    put4(r + 4, (uint32_t)kind << 24 | (uint32_t)flag << 16);
    put4(r + 8, tick);
}

#endif
