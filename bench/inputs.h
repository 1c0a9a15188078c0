/* What the calls are measured on, in time (bench.c) and in stack (tests/stack): a recorded run, dear images, old images, sheets. */
#ifndef INPUTS_H
#define INPUTS_H

#include <stddef.h>
#include <stdint.h>

#include "pebrassola.h"

enum { MOST = PEBRASSOLA_MOST_CONTROLLERS, SIZES = 3, EVENTS = 4096, FAMILIES = 2 * 2 * 2 * 9 };

/* how many controllers there are where a figure is taken: 4, 7 and 32 */
extern const unsigned sizes[SIZES];

/* what a node is handed */
struct event {
    uint32_t port;
    uint8_t frame[PEBRASSOLA_FRAME_BYTES];
};

/* the roster of so many controllers as the one at a place fills it in, and the node that is booted with it */
void make_form(unsigned n, unsigned own, uint8_t *form);
size_t boot(unsigned n, unsigned own, uint8_t *image);

/* a run of n correct nodes, from the first boot on: what the node at place 0 is handed */
extern struct event events[EVENTS];
void record_run(unsigned n);

/* one of the families of dear images for a delivery, and what is then delivered; n is 4 or more */
struct event make_dear(unsigned n, unsigned family, uint8_t *image);

/* an image from before A8, as dear for convert as we know, or of a fresh node; gives its size */
size_t make_old(unsigned n, int dear, uint8_t *old);

/* makes the image of a fresh node, old or new, one that is not sound: all hold an echo far above the clock, so that a rule can fire */
void unsettle(unsigned n, int is_old, uint8_t *image);

/* the pack of the entry at a place; one set of entries in an order of its own and as the writer leaves it; how long each sheet is */
uint32_t pack_at(unsigned place, unsigned count);
extern uint8_t shuffled[PEBRASSOLA_SHEET_BYTES(PEBRASSOLA_MOST_ENTRIES)];
extern uint8_t ascending[PEBRASSOLA_SHEET_BYTES(PEBRASSOLA_MOST_ENTRIES)];
size_t make_sheets(unsigned count);

/* an idle active node that may ask for packs of these sheets */
void make_asking(unsigned n, uint8_t *image);

#endif
