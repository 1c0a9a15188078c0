/* A recorded run, dear images, old images and sheets. All are the same at each run: nothing here is drawn by lot. */
#include "inputs.h"

#include <stdio.h>
#include <stdlib.h>
#include <string.h>

#include "../tests/compare/words.h"

enum { PLACES = 65536, HEADER = PEBRASSOLA_IMAGE_BYTES(0), OLD_WINDOW = 64 };

const unsigned sizes[SIZES] = {4, 7, MOST};
struct event events[EVENTS];
uint8_t shuffled[PEBRASSOLA_SHEET_BYTES(PEBRASSOLA_MOST_ENTRIES)], ascending[sizeof shuffled];

static uint8_t out[PEBRASSOLA_OUT_BYTES];

/* what is measured has to be what it is called */
static void expect(int right, const char *what)
{
    if (right) return;
    printf("inputs: %s\n", what);
    exit(1);
}

static uint32_t serial(unsigned i)
{
    return 1000 + 37 * i;
}

void make_form(unsigned n, unsigned own, uint8_t *form)
{
    put4(form, n << 24 | PEBRASSOLA_FULL_FAULTS(n) << 16 | 8);
    put4(form + 4, serial(own));
    for (unsigned i = 0; i < n; i++) put4(form + PEBRASSOLA_FORM_BYTES(i), serial(i));
}

size_t boot(unsigned n, unsigned own, uint8_t *image)
{
    uint8_t form[PEBRASSOLA_FORM_BYTES(MOST)];
    size_t size = PEBRASSOLA_IMAGE_BYTES(n);
    make_form(n, own, form);
    expect(pebrassola_boot(form, PEBRASSOLA_FORM_BYTES(n), image, size, out, sizeof out).number == PEBRASSOLA_DONE, "a form is refused");
    return size;
}

/* ---- a recorded run: n correct nodes on a bus */

struct message {
    unsigned from, to;
    uint8_t frame[PEBRASSOLA_FRAME_BYTES];
};

static struct message bus[PLACES];
static unsigned first, waiting;

static void post(unsigned n, unsigned from, unsigned records)
{
    for (unsigned r = 0; r < records; r++)
        for (unsigned to = 0; to < n; to++) {
            struct message *m = &bus[(first + waiting) % PLACES];
            uint32_t destination = get4(out + 12 * r);
            if (waiting == PLACES || (destination && destination != serial(to))) continue;
            m->from = from;
            m->to = to;
            memcpy(m->frame, out + 12 * r + 4, sizeof m->frame);
            waiting++;
        }
}

void record_run(unsigned n)
{
    static uint8_t images[MOST][PEBRASSOLA_IMAGE_BYTES(MOST)];
    unsigned taken = 0;
    first = waiting = 0;
    for (unsigned i = 0; i < n; i++) {
        boot(n, i, images[i]);
        post(n, i, 1);
    }
    while (taken < EVENTS && waiting) {
        struct message m = bus[first];
        first = (first + 1) % PLACES;
        waiting--;
        if (m.to == 0) {
            events[taken].port = serial(m.from);
            memcpy(events[taken++].frame, m.frame, sizeof m.frame);
        }
        post(n, m.to,
             pebrassola_deliver(images[m.to], PEBRASSOLA_IMAGE_BYTES(n), serial(m.from), m.frame, sizeof m.frame, out, sizeof out).records);
    }
    expect(taken == EVENTS, "the recorded run ended early");
}

/* ---- dear images: every serial holds many ticks far above k, and none of them is held by more than f */

/* where a tick may be held by a row so that at most f rows hold it: by all of a group of f rows, or by f rows in turn */
static int may_hold(unsigned n, unsigned in_turn, uint32_t tick, unsigned i)
{
    return !in_turn || (tick + i) % n < PEBRASSOLA_FULL_FAULTS(n);
}

/* as many ticks from a top down as a window has; gives the place behind the set */
static uint8_t *put_dear_set(uint8_t *set, unsigned window, unsigned n, unsigned in_turn, uint32_t top, unsigned i)
{
    uint8_t *behind = set + 4 + window / 8;
    while (!may_hold(n, in_turn, top, i)) top--;
    put4(set, top);
    for (unsigned d = 0; d < window; d++)
        if (may_hold(n, in_turn, top - d, i)) behind[-1 - (int)(d / 8)] |= (uint8_t)(1 << d % 8);
    return behind;
}

/* tops a gap apart, alone or in groups of f; active, or passive with dear inits as well; the frame changes nothing, or makes the lowest
 * tick one that f + 1 hold, so that the node jumps and searches again */
struct event make_dear(unsigned n, unsigned family, uint8_t *image)
{
    static const uint32_t gaps[FAMILIES / 8] = {0, 1, 31, 63, 64, 65, 127, 128, 200};
    unsigned f = PEBRASSOLA_FULL_FAULTS(n), grouped = family & 1, passive = family >> 1 & 1, jumps = family >> 2 & 1;
    uint32_t gap = gaps[family >> 3], lowest = 1000;
    struct event dear = {serial(0), {jumps ? 2 : 1}};
    boot(n, 0, image);
    image[2] = !passive;
    for (unsigned i = 0; i < n; i++) {
        uint32_t top = 1000 + gap * (grouped ? i / f : i);
        unsigned in_turn = gap < PEBRASSOLA_WINDOW;
        uint8_t *echo = image + PEBRASSOLA_IMAGE_BYTES(n - 1 - i) + 4;
        uint8_t *init = put_dear_set(echo, PEBRASSOLA_WINDOW, n, in_turn, top, i);
        if (i == 0) lowest = get4(echo);
        if (passive) put_dear_set(init, PEBRASSOLA_WINDOW, n, in_turn, top, i);
    }
    put4(dear.frame + 4, jumps ? lowest : 9);
    expect(pebrassola_read(image, PEBRASSOLA_IMAGE_BYTES(n)).number != PEBRASSOLA_IMAGE, "a dear image is not sound");
    return dear;
}

/* ---- old images: passive, so that every rule is looked for */

size_t make_old(unsigned n, int dear, uint8_t *old)
{
    static uint8_t made[PEBRASSOLA_IMAGE_BYTES(MOST)];
    size_t size = PEBRASSOLA_OLD_IMAGE_BYTES(n), room = PEBRASSOLA_IMAGE_BYTES(n);
    memset(old, 0, size);
    put4(old, n << 24 | PEBRASSOLA_FULL_FAULTS(n) << 16);
    put4(old + 4, serial(0));
    put4(old + 16, (uint32_t)HEADER << 16 | (uint32_t)size);
    for (unsigned i = 0; i < n; i++) {
        uint8_t *row = old + PEBRASSOLA_OLD_IMAGE_BYTES(i);
        put4(row, serial(i));
        if (dear) put_dear_set(put_dear_set(row + 4, OLD_WINDOW, n, 1, 1000 + i, i), OLD_WINDOW, n, 1, 1000 + i, i);
    }
    expect(pebrassola_convert(old, size, made, room).number == PEBRASSOLA_DONE, "an old image is refused");
    return size;
}

void unsettle(unsigned n, int is_old, uint8_t *image)
{
    unsigned window = is_old ? OLD_WINDOW : PEBRASSOLA_WINDOW;
    for (unsigned i = 0; i < n; i++) {
        uint8_t *echo = image + (is_old ? PEBRASSOLA_OLD_IMAGE_BYTES(i) : PEBRASSOLA_IMAGE_BYTES(i)) + 4;
        put4(echo, 1000);
        echo[4 + window / 8 - 1] = 1;
    }
}

/* ---- sheets */

enum { CLOCK = 50 };

/* neighbours are far apart, and each pack from 1 on has its place */
uint32_t pack_at(unsigned place, unsigned count)
{
    return 1 + place * 77 % count;
}

size_t make_sheets(unsigned count)
{
    size_t length = PEBRASSOLA_SHEET_BYTES(count);
    put4(shuffled, (uint32_t)count << 16 | 4);
    for (unsigned i = 0; i < count; i++) {
        uint8_t *entry = shuffled + PEBRASSOLA_SHEET_BYTES(i);
        put4(entry, pack_at(i, count));
        put4(entry + 4, CLOCK - i % 3);
        put4(entry + 8, CLOCK + i % 3);
    }
    expect(pebrassola_write_sheet(shuffled + 4, length - 4, ascending, length).number == PEBRASSOLA_DONE, "a sheet is refused");
    return length;
}

void make_asking(unsigned n, uint8_t *image)
{
    boot(n, 0, image);
    image[2] = 1;
    put4(image + 8, CLOCK);
    put4(image + 12, CLOCK);
}
