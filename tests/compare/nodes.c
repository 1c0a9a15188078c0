/*
 * Compares boot, deliver and read with the model: long valid runs with faulty senders, random images, every single-bit damage of sound
 * images, every f in forms and images, every byte 3, ticks at each edge of the window and of a word of the mask, truncated and over-long
 * buffers, empty ones with a pointer that may not be read, forms, frames and ports of all kinds, and the deliveries that bring most. No
 * delivery may fire more rules or send more records than the header says, an f that is not the full one gives 2 or 21 in a form and 8 in
 * an image, and a byte 3 that is not 1 gives 8.
 */
#include <string.h>

#include "compare.h"
#include "lent.h"
#include "model.h"
#include "pebrassola.h"
#include "words.h"

enum { BOOT, DELIVER, READ, CALLS, NUMBERS = 64, MASK_BYTES = PEBRASSOLA_WINDOW / 8, SET_BYTES = 4 + MASK_BYTES };

static const char *const names[CALLS] = {"boot", "deliver", "read"};
static struct node_calls counted;
static unsigned long came[CALLS][NUMBERS]; /* how often each number came from each call */

/* ---- the three calls, on copies; the image that the model leaves is kept */

static struct both image, out, in;

static void lend_all(const uint8_t *given, size_t length, const uint8_t *kept, size_t i_length, size_t o_length)
{
    lend(&in, given, length);
    lend(&image, kept, i_length);
    lend_room(&out, o_length);
}

static uint32_t compare(unsigned call, uint32_t number, uint32_t value, uint32_t fired, struct model_result m, uint8_t *kept)
{
    if (m.number < NUMBERS) came[call][m.number]++;
    check(names[call], number == m.number && value == m.value && fired == m.fired && same(&image) && same(&out) && same(&in));
    if (image.plain.length) memcpy(kept, body(&image.plain), image.plain.length);
    return m.number;
}

/* holds what a delivery to a node of n controllers brought to the header's figures, and keeps the greatest */
static void hold_figures(struct pebrassola_answer r, unsigned n)
{
    struct figures *most = n == 1 ? &counted.alone : &counted.together;
    hold("deliver, rules fired", r.fired <= PEBRASSOLA_PROVED_FIRED(n));
    hold("deliver, records", r.records <= PEBRASSOLA_PROVED_RECORDS(n));
    if (most->fired < r.fired) most->fired = r.fired;
    if (most->records < r.records) most->records = r.records;
}

static uint32_t boot(const uint8_t *f, size_t f_length, uint8_t *kept, size_t i_length, size_t o_length)
{
    struct pebrassola_answer r;
    struct model_result m;
    lend_all(f, f_length, kept, i_length, o_length);
    r = pebrassola_boot(place(&in.proved), f_length, place(&image.proved), i_length, place(&out.proved), o_length);
    m = model_boot(place(&in.plain), f_length, place(&image.plain), i_length, place(&out.plain), o_length);
    return compare(BOOT, r.number, r.records, r.fired, m, kept);
}

uint32_t deliver(uint8_t *kept, size_t i_length, uint32_t port, const uint8_t *fr, size_t fr_length, size_t o_length)
{
    struct pebrassola_answer r;
    struct model_result m;
    uint32_t number;
    lend_all(fr, fr_length, kept, i_length, o_length);
    r = pebrassola_deliver(place(&image.proved), i_length, port, place(&in.proved), fr_length, place(&out.proved), o_length);
    m = model_deliver(place(&image.plain), i_length, port, place(&in.plain), fr_length, place(&out.plain), o_length);
    number = compare(DELIVER, r.number, r.records, r.fired, m, kept);
    if (number == 0) hold_figures(r, kept[0]);
    if (number == 0 && fr[0] == 2 && get4(fr + 4) == 0 && port != get4(kept + 4)) counted.zeros[fr[1]]++;
    return number;
}

uint32_t read_clock(uint8_t *kept, size_t i_length)
{
    struct pebrassola_reading r;
    struct model_result m;
    lend_all(NULL, 0, kept, i_length, 0);
    r = pebrassola_read(place(&image.proved), i_length);
    m = model_read(place(&image.plain), i_length);
    return compare(READ, r.number, r.clock, 0, m, kept);
}

/* ---- what is fed */

unsigned some_faults(unsigned n)
{
    unsigned full = PEBRASSOLA_FULL_FAULTS(n);
    switch (any(8)) {
    case 0: return full ? full - 1 : 0;
    case 1: return any(full + 1);
    case 2: return full + 1;
    case 3: return any(256);
    default: return full;
    }
}

size_t make_form(uint8_t *f, unsigned n, unsigned faults)
{
    f[0] = (uint8_t)n;
    f[1] = (uint8_t)faults;
    f[2] = 0;
    f[3] = 8;
    for (unsigned i = 0; i < n; i++) put4(f + 8 + 4 * i, 1 + i * 7919u + (any(2) ? 0x80000000u : 0));
    shuffle(f + 8, n, 4);
    memcpy(f + 4, f + 8 + 4 * any(n), 4);
    return 8 + 4 * (size_t)n;
}

/* byte 1: for an echo a broadcast's and an answer's as often, now and then one that the kind may not have */
static unsigned make_flag(unsigned kind)
{
    static const uint8_t wrong[] = {1, 2, 3, 128, 254, 255};
    if (any(16) == 0) return wrong[any(sizeof wrong)];
    return kind == 2 ? any(2) : 0;
}

void make_frame(uint8_t *b, const uint8_t *kept)
{
    enum { DISTANCES = 14 }; /* the first of these: about an edge of the window or of a word of the mask, and far beyond */
    static const uint32_t far[] = {0, 1, 2, 62, 63, 64, 65, 66, 126, 127, 128, 129, 130, 1000,
                                   3999999998u, 3999999999u, 4000000000u, 4000000001u, 0xFFFFFFFFu};
    uint32_t k = get4(kept + 8), tick;
    memset(b, 0, 8);
    b[0] = (uint8_t)(1 + any(2));
    b[1] = (uint8_t)make_flag(b[0]);
    switch (any(9)) {
    case 0: tick = far[any(sizeof far / sizeof far[0])]; break;
    case 1: tick = k + far[any(DISTANCES)]; break;
    case 2: tick = k - far[any(DISTANCES)]; break;
    case 3: tick = 0; break;
    default: tick = k + any(5) - (k > 1 ? 2 : 0); break;
    }
    put4(b + 4, tick);
    if (any(50) == 0) change_byte(b, 4);
}

size_t live(uint8_t *form, uint8_t *kept, unsigned n, unsigned frames)
{
    uint8_t fr[16];
    size_t size = PEBRASSOLA_IMAGE_BYTES(n), f_length = make_form(form, n, PEBRASSOLA_FULL_FAULTS(n));
    memset(kept, 0, size);
    boot(form, f_length, kept, size, 192);
    for (unsigned s = 0; s < frames; s++) {
        make_frame(fr, kept);
        deliver(kept, size, get4(form + 8 + 4 * any(n)), fr, 8, 192);
    }
    return size;
}

void set_clock(uint8_t *kept, unsigned mode, uint32_t k, uint32_t last_echo)
{
    kept[2] = (uint8_t)mode;
    put4(kept + 8, k);
    put4(kept + 12, last_echo);
}

static void run(unsigned n, unsigned steps)
{
    uint8_t f[MOST], kept[MOST], fr[16];
    size_t size = PEBRASSOLA_IMAGE_BYTES(n) + any(4), f_length = make_form(f, n, PEBRASSOLA_FULL_FAULTS(n));
    for (size_t i = 0; i < size; i++) kept[i] = (uint8_t)any(256);
    boot(f, f_length, kept, size, 192 + any(9));
    for (unsigned s = 0; s < steps; s++) {
        uint32_t port = get4(f + 8 + 4 * any(n));
        if (any(40) == 0) port = any(3) ? any(100) : 0;
        make_frame(fr, kept);
        size_t length = any(60) ? 8 : any(12), room = any(60) ? 192 + any(9) : any(193);
        deliver(kept, size, port, fr, length, room);
        if (s % 4 == 0) read_clock(kept, size);
    }
}

/* makes bit i of a mask that stands in so many bytes 1 */
static void put_bit(uint8_t *mask, unsigned bytes, unsigned i)
{
    mask[bytes - 1 - i / 8] |= (uint8_t)(1 << i % 8);
}

void make_set(uint8_t *b, unsigned mask_bytes, uint32_t base)
{
    uint32_t top = base > 4 && base < 3999999990u ? base - 4 + any(7) : base;
    unsigned thin = any(2);
    memset(b, 0, 4 + mask_bytes);
    if (any(5) == 0) return;
    put4(b, top);
    for (unsigned i = 0; i < mask_bytes; i++) {
        unsigned bits = any(256);
        if (thin) bits &= any(256);
        if (thin) bits &= any(256);
        if (top < 8 * i) bits = 0;
        else if (top < 8 * i + 7) bits &= (2u << (top - 8 * i)) - 1;
        b[4 + mask_bytes - 1 - i] = (uint8_t)bits;
    }
    put_bit(b + 4, mask_bytes, 0);
}

/* an image of right layout with any sets, and sometimes another f than the full one; some are sound, and those are delivered to */
static void random_image(unsigned n)
{
    static const uint32_t bases[] = {0, 1, 2, 3, 10, 62, 63, 64, 65, 126, 127, 128, 129, 5000, 3999999999u, 4000000000u};
    uint8_t f[MOST], kept[MOST], fr[16];
    size_t size = live(f, kept, n, 0);
    uint32_t base = bases[any(sizeof bases / sizeof bases[0])], k = base + any(4), last;
    for (unsigned i = 0; i < n; i++)
        for (unsigned kind = 0; kind < 2; kind++) make_set(kept + PEBRASSOLA_IMAGE_BYTES(i) + 4 + SET_BYTES * kind, MASK_BYTES, base);
    if (k > 4000000000u && any(20)) k = 4000000000u;
    last = k && any(3) == 0 ? k - 1 : k;
    set_clock(kept, any(4) != 0, k, last);
    if (any(8) == 0) kept[1] = (uint8_t)some_faults(n);
    if (read_clock(kept, size) != 8) counted.sound_images++;
    for (unsigned s = 0; s < 4; s++) {
        make_frame(fr, kept);
        deliver(kept, size, get4(f + 8 + 4 * any(n)), fr, 8, 192);
    }
}

/* a set of ticks from low on, up to three windows above it, none of which is then held by more than so many */
static void make_far_set(uint8_t *set, uint32_t low, uint8_t *holders, unsigned most)
{
    unsigned top = any(3 * PEBRASSOLA_WINDOW), thin = 1 + any(4);
    if (holders[top] >= most) return;
    put4(set, low + top);
    for (unsigned d = 0; d < PEBRASSOLA_WINDOW && d <= top; d++)
        if (holders[top - d] < most && (d == 0 || any(thin) == 0)) {
            put_bit(set + 4, MASK_BYTES, d);
            holders[top - d]++;
        }
}

/* an image in which many ticks far above the clock have f holders; with one more, which a frame brings, the node jumps or wakes */
static void far_image(unsigned n)
{
    static const uint32_t clocks[] = {0, 1, 62, 126, 1000, 3999999000u};
    uint8_t f[MOST], kept[MOST], fr[8], holders[2][3 * PEBRASSOLA_WINDOW] = {{0}};
    size_t size = live(f, kept, n, 0);
    uint32_t k = clocks[any(sizeof clocks / sizeof clocks[0])];
    set_clock(kept, any(2), k, k);
    for (unsigned i = 0; i < n; i++)
        for (unsigned kind = 0; kind < 2; kind++)
            make_far_set(kept + PEBRASSOLA_IMAGE_BYTES(i) + 4 + SET_BYTES * kind, k + 2, holders[kind], PEBRASSOLA_FULL_FAULTS(n));
    hold("read, ticks far above the clock", read_clock(kept, size) != PEBRASSOLA_IMAGE);
    for (unsigned s = 0; s < 3; s++) {
        put4(fr, (any(4) ? 2u : 1u) << 24);
        put4(fr + 4, k + 2 + any(3 * PEBRASSOLA_WINDOW));
        deliver(kept, size, get4(f + 8 + 4 * any(n)), fr, 8, 192);
    }
}

/* distances from a top at which an edge is: of a byte, of a word of the mask, of the window before A8 and of today's, and none */
static const uint32_t edges[] = {0, 1, 2, 3, 7, 8, 61, 62, 63, 64, 65, 66, 67, 125, 126, 127, 128, 129, 130, 191, 192, 1000};

enum { EDGES = sizeof edges / sizeof edges[0] };

/*
 * one of four that has heard a tick and another so far below it of one sender, or all between them; then a frame so far above the top, or
 * so far below. The clock is far from all of this, so that no rule can fire
 */
static void window_edge(unsigned kind, uint32_t below, int all, uint32_t by, int up)
{
    enum { TOP = 1000, CLOCK = 100000 };
    uint8_t f[MOST], kept[MOST], fr[8] = {(uint8_t)kind};
    size_t size = live(f, kept, 4, 0);
    unsigned row = any(4);
    uint8_t *set = kept + PEBRASSOLA_IMAGE_BYTES(row) + 4 + (kind == 1 ? SET_BYTES : 0);
    set_clock(kept, 1, CLOCK, CLOCK);
    put4(set, TOP);
    for (uint32_t i = 0; i <= below && i < PEBRASSOLA_WINDOW; i++)
        if (all || i == 0 || i == below) put_bit(set + 4, MASK_BYTES, i);
    put4(fr + 4, up ? TOP + by : TOP - by);
    hold("deliver, at an edge of the window", deliver(kept, size, get4(f + 8 + 4 * row), fr, 8, 192) == PEBRASSOLA_DONE);
    read_clock(kept, size);
}

static void window_edges(void)
{
    for (unsigned kind = 1; kind <= 2; kind++)
        for (unsigned below = 0; below < EDGES; below++)
            for (unsigned by = 0; by < EDGES; by++)
                for (unsigned which = 0; which < 4; which++) window_edge(kind, edges[below], which & 1, edges[by], which >> 1);
}

/* a sound image with each bit changed, those of f in byte 1 among them: 8 then, whatever the image holds */
static void damage(unsigned n, unsigned steps)
{
    uint8_t f[MOST], kept[MOST] = {0}, hurt[MOST], fr[16];
    size_t size = live(f, kept, n, steps);
    for (size_t bit = 0; bit < 8 * size; bit++) {
        int may_be_sound = bit / 8 != 1;
        memcpy(hurt, kept, size);
        hurt[bit / 8] ^= (uint8_t)(1 << bit % 8);
        hold("read, a bit of f changed", read_clock(hurt, size) == PEBRASSOLA_IMAGE || may_be_sound);
        make_frame(fr, kept);
        hold("deliver, a bit of f changed",
             deliver(hurt, size, get4(f + 8 + 4 * any(n)), fr, 8, 192) == PEBRASSOLA_IMAGE || may_be_sound);
    }
    for (size_t length = 0; length <= size + 3; length++) {
        memcpy(hurt, kept, size + 4);
        read_clock(hurt, length);
        deliver(hurt, length, get4(f + 8), fr, 8, 192);
        deliver(hurt, length, get4(f + 8), fr, 8, 191);
    }
    for (size_t length = 0; length <= 12; length++) deliver(kept, size, get4(f + 8), fr, length, 192);
}

/* every f that a byte can state, in the form of a node that has lived and in its image: one of them alone is taken */
static void every_faults(unsigned n, unsigned frames)
{
    uint8_t f[MOST], kept[MOST], hurt[MOST], fr[16];
    size_t size = live(f, kept, n, frames), f_length = PEBRASSOLA_FORM_BYTES(n);
    unsigned full = PEBRASSOLA_FULL_FAULTS(n);
    for (unsigned faults = 0; faults < 256; faults++) {
        uint32_t known = faults < full ? PEBRASSOLA_FORM_UNDERSTATED : faults > full ? PEBRASSOLA_FORM_LIMITS : PEBRASSOLA_DONE;
        f[1] = (uint8_t)faults;
        memcpy(hurt, kept, size);
        hold("boot, every f", boot(f, f_length, hurt, size, 192) == known);
        memcpy(hurt, kept, size);
        hurt[1] = (uint8_t)faults;
        hold("read, every f", (read_clock(hurt, size) == PEBRASSOLA_IMAGE) == (faults != full));
        make_frame(fr, kept);
        hold("deliver, every f", (deliver(hurt, size, get4(f + 8), fr, 8, 192) == PEBRASSOLA_IMAGE) == (faults != full));
    }
}

/* every byte 3 in the image of a node that has lived: 1 alone is taken */
static void every_mark(unsigned n, unsigned frames)
{
    uint8_t f[MOST], kept[MOST], hurt[MOST], fr[16];
    size_t size = live(f, kept, n, frames);
    for (unsigned mark = 0; mark < 256; mark++) {
        memcpy(hurt, kept, size);
        hurt[3] = (uint8_t)mark;
        hold("read, every byte 3", (read_clock(hurt, size) == PEBRASSOLA_IMAGE) == (mark != 1));
        make_frame(fr, kept);
        hold("deliver, every byte 3", (deliver(hurt, size, get4(f + 8), fr, 8, 192) == PEBRASSOLA_IMAGE) == (mark != 1));
    }
}

static void forms(unsigned rounds)
{
    uint8_t f[MOST], kept[MOST];
    memset(kept, 7, sizeof kept);
    for (unsigned r = 0; r < rounds; r++) {
        unsigned n = 1 + any(34), faults = some_faults(n), line = any(n);
        size_t length = make_form(f, n, faults), size = PEBRASSOLA_IMAGE_BYTES(n), room;
        switch (any(8)) {
        case 0: put4(f + 8 + 4 * line, 0); break;
        case 1: put4(f + 8 + 4 * line, get4(f + 8 + 4 * any(n))); break;
        case 2: put4(f + 4, any(3)); break;
        case 3: change_byte(f, 4); break;
        case 4: length = any((uint32_t)length + 6); break;
        default: break;
        }
        if (any(4) == 0) size = any((uint32_t)size + 40);
        room = any(4) ? 192 : any(200);
        boot(f, length, kept, size, room);
    }
}

/* a frame that a run takes; serial and tick are below 256, and the flag is 0 */
struct taken {
    uint8_t port, kind, tick;
};

static void settled_run(const uint8_t *form, const struct taken *frames, unsigned count)
{
    uint8_t kept[MOST] = {0};
    size_t size = PEBRASSOLA_IMAGE_BYTES(form[0]);
    boot(form, PEBRASSOLA_FORM_BYTES(form[0]), kept, size, 192);
    for (unsigned s = 0; s < count; s++) {
        uint8_t fr[8] = {frames[s].kind, 0, 0, 0, 0, 0, 0, frames[s].tick};
        deliver(kept, size, frames[s].port, fr, 8, 192);
    }
}

/*
 * the last frame of each run brings the most that one delivery can, where n is 1 and where it is more; random frames bring 6 firings and
 * 6 records, and 4 and 4
 */
static void greatest_figures(void)
{
    static const uint8_t one[] = {1, 0, 0, 8, 0, 0, 0, 7, 0, 0, 0, 7};
    static const uint8_t four[] = {4, 1, 0, 8, 0, 0, 0, 11, 0, 0, 0, 11, 0, 0, 0, 22, 0, 0, 0, 33, 0, 0, 0, 44};
    static const struct taken alone[] = {{7, 2, 0}, {7, 1, 4}, {7, 2, 3}, {7, 2, 4}, {7, 1, 8}, {7, 2, 7}};
    static const struct taken of_four[] = {{22, 1, 1}, {33, 1, 1}, {22, 1, 2}, {33, 1, 2}, {44, 2, 3}, {11, 2, 1}, {22, 2, 1}, {33, 2, 0}};
    settled_run(one, alone, sizeof alone / sizeof alone[0]);
    settled_run(four, of_four, sizeof of_four / sizeof of_four[0]);
}

/* each buffer of each call empty, alone and together with others */
static void empty_buffers(unsigned n)
{
    uint8_t f[MOST], kept[MOST], fr[8] = {2};
    size_t size = PEBRASSOLA_IMAGE_BYTES(n), f_length = make_form(f, n, PEBRASSOLA_FULL_FAULTS(n));
    memset(kept, 7, sizeof kept);
    for (unsigned p = 0; p < NO_PLACES; p++)
        for (unsigned empty = 0; empty < 8; empty++) {
            nowhere = NULL;
            boot(f, f_length, kept, size, 192);
            nowhere = no_place(p);
            boot(f, empty & 1 ? 0 : f_length, kept, empty & 2 ? 0 : size, empty & 4 ? 0 : 192);
            deliver(kept, empty & 2 ? 0 : size, get4(f + 8), fr, empty & 1 ? 0 : 8, empty & 4 ? 0 : 192);
            read_clock(kept, empty & 2 ? 0 : size);
        }
    nowhere = NULL;
}

static unsigned long rarest_number(void)
{
    /* those that each call can give; what is not written is 0, which each can give */
    static const uint8_t numbers[CALLS][9] = {{0, 1, 2, 21, 3, 4, 5, 6, 7}, {0, 7, 8, 9, 10, 11}, {0, 8, 12}};
    unsigned long rarest = came[BOOT][0];
    for (unsigned call = 0; call < CALLS; call++)
        for (unsigned i = 0; i < sizeof numbers[call]; i++)
            if (came[call][numbers[call][i]] < rarest) rarest = came[call][numbers[call][i]];
    return rarest;
}

struct node_calls compare_nodes(void)
{
    forms(20000);
    for (unsigned n = 1; n <= 32; n++) {
        for (unsigned round = 0; round < 6; round++) run(n, n == 4 || n == 7 ? 1500 : 600);
        every_faults(n, any(60));
        every_mark(n, any(60));
    }
    window_edges();
    for (unsigned round = 0; round < 400; round++) far_image(4 + any(29));
    for (unsigned round = 0; round < 12; round++) {
        damage(1, 20 * round);
        damage(3, 30 * round);
        damage(4, 30 * round);
        damage(7, 30 * round);
    }
    /* where f is 0, one sender is enough for much */
    for (unsigned round = 0; round < 40; round++) run(1 + any(3), 300);
    for (unsigned round = 0; round < 20000; round++) random_image(1 + any(32));
    greatest_figures();
    empty_buffers(1);
    empty_buffers(4);
    empty_buffers(32);
    counted.rarest_number = rarest_number();
    return counted;
}
