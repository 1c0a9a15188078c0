/*
 * Compares convert with the model: images that nodes lived to as they did before A8, random ones, every single-bit damage, every f and
 * every byte 3 of them, more controllers than there may be, truncated and over-long buffers, new images, and empty buffers with a pointer
 * that may not be read. What convert writes has to hold what the old image held, byte by byte, and is read and delivered to like any other
 * image.
 */
#include <string.h>

#include "compare.h"
#include "lent.h"
#include "model.h"
#include "pebrassola.h"
#include "words.h"

enum { NUMBERS = 64, HEADER = 32, OLD_MASK = 8, OLD_SET = 4 + OLD_MASK, NEW_MASK = 16, NEW_SET = 4 + NEW_MASK };

static unsigned long came[NUMBERS]; /* how often each number came */
static unsigned long sound_images;

/* ---- the call, on copies */

static struct both old, image;

static uint32_t convert(const uint8_t *o, size_t o_length, size_t i_length)
{
    struct pebrassola_written r;
    struct model_result m;
    lend(&old, o, o_length);
    lend_room(&image, i_length);
    r = pebrassola_convert(place(&old.proved), o_length, place(&image.proved), i_length);
    m = model_convert(place(&old.plain), o_length, place(&image.plain), i_length);
    check("convert", r.number == m.number && r.written == m.value && same(&old) && same(&image));
    if (m.number < NUMBERS) came[m.number]++;
    return m.number;
}

/* ---- what has to hold of a new image */

/* a set with its top, and its mask behind as many zeros as it has bytes */
static int same_set(const uint8_t *o, const uint8_t *made)
{
    static const uint8_t zeros[NEW_MASK - OLD_MASK];
    return memcmp(o, made, 4) == 0 && memcmp(made + 4, zeros, sizeof zeros) == 0 &&
           memcmp(o + 4, made + 4 + sizeof zeros, OLD_MASK) == 0;
}

/* whether a new image holds what an old one does: byte 3 and the size alone are others in the header */
static int same_node(const uint8_t *o, const uint8_t *made)
{
    unsigned n = o[0];
    if (memcmp(o, made, 3) != 0 || made[3] != 1 || memcmp(o + 4, made + 4, 14) != 0 || memcmp(o + 20, made + 20, 12) != 0) return 0;
    if ((unsigned)(made[18] << 8 | made[19]) != PEBRASSOLA_IMAGE_BYTES(n)) return 0;
    for (unsigned i = 0; i < n; i++) {
        const uint8_t *from = o + PEBRASSOLA_OLD_IMAGE_BYTES(i), *to = made + PEBRASSOLA_IMAGE_BYTES(i);
        if (memcmp(from, to, 4) != 0) return 0;
        if (!same_set(from + 4, to + 4) || !same_set(from + 4 + OLD_SET, to + 4 + NEW_SET)) return 0;
    }
    return 1;
}

/* reads a new image and lets it take some frames; it reads as the old one did, and is no old image itself */
static void go_on(const uint8_t *o, size_t o_length, uint8_t *made, size_t size, unsigned frames)
{
    uint8_t fr[16];
    struct model_result before = model_read_in(&model_old, o, o_length), after = model_read(made, size);
    hold("convert, and read", before.number == after.number && before.value == after.value);
    hold("read, of a converted image", read_clock(made, size) == before.number);
    hold("convert, of a converted image", convert(made, size, PEBRASSOLA_IMAGE_BYTES(made[0])) == PEBRASSOLA_IMAGE);
    for (unsigned s = 0; s < frames; s++) {
        make_frame(fr, made);
        hold("deliver, to a converted image",
             deliver(made, size, get4(made + PEBRASSOLA_IMAGE_BYTES(any(made[0]))), fr, 8, 192) != PEBRASSOLA_IMAGE);
    }
}

/* converts an old image, and goes on with the new one where there is one */
static uint32_t convert_and_go_on(const uint8_t *o, size_t o_length, size_t i_length, unsigned frames)
{
    uint8_t made[MOST];
    uint32_t number = convert(o, o_length, i_length);
    if (number != PEBRASSOLA_DONE) return number;
    memcpy(made, body(&image.plain), i_length);
    hold("convert, what is held", same_node(o, made));
    go_on(o, o_length, made, i_length, frames);
    return number;
}

/* ---- what is fed */

/* boots a node as it was before A8 and lets it take so many frames; gives the image's size */
static size_t live_old(uint8_t *kept, unsigned n, unsigned frames)
{
    uint8_t form[MOST], fr[16], out[PEBRASSOLA_OUT_BYTES];
    size_t size = PEBRASSOLA_OLD_IMAGE_BYTES(n), f_length = make_form(form, n, PEBRASSOLA_FULL_FAULTS(n));
    memset(kept, 0, size);
    hold("an old node boots", model_boot_in(&model_old, form, f_length, kept, size, out, sizeof out).number == PEBRASSOLA_DONE);
    for (unsigned s = 0; s < frames; s++) {
        make_frame(fr, kept);
        model_deliver_in(&model_old, kept, size, get4(form + 8 + 4 * any(n)), fr, 8, out, sizeof out);
    }
    return size;
}

/* as much room as a new image needs or about that, as an old one has, or any less */
static size_t some_room(unsigned n)
{
    size_t need = PEBRASSOLA_IMAGE_BYTES(n);
    switch (any(8)) {
    case 0: return need - 1;
    case 1: return need + any(200);
    case 2: return PEBRASSOLA_OLD_IMAGE_BYTES(n);
    case 3: return any((uint32_t)need);
    default: return need;
    }
}

/* a node that is converted again and again while it lives, with and without bytes behind its image, into rooms of all sizes */
static void old_run(unsigned n, unsigned rounds)
{
    uint8_t kept[MOST];
    for (unsigned round = 0; round < rounds; round++) {
        size_t size = live_old(kept, n, any(300)), behind = any(2) ? any(60) : 0;
        for (size_t i = 0; i < behind; i++) kept[size + i] = (uint8_t)any(256);
        hold("convert, of a sound image", convert_and_go_on(kept, size + behind, PEBRASSOLA_IMAGE_BYTES(n), 8) == PEBRASSOLA_DONE);
        convert(kept, size + behind, some_room(n));
        convert(kept, size, PEBRASSOLA_IMAGE_BYTES(n) - 1);
    }
}

/* an old image of right layout with any sets, and sometimes another f than the full one or another byte; some are sound */
static void random_old_image(unsigned n)
{
    static const uint32_t bases[] = {0, 1, 2, 3, 10, 62, 63, 64, 65, 5000, 3999999999u, 4000000000u};
    uint8_t kept[MOST];
    size_t size = live_old(kept, n, 0);
    uint32_t base = bases[any(sizeof bases / sizeof bases[0])], k = base + any(4), last;
    for (unsigned i = 0; i < n; i++)
        for (unsigned kind = 0; kind < 2; kind++) make_set(kept + PEBRASSOLA_OLD_IMAGE_BYTES(i) + 4 + OLD_SET * kind, OLD_MASK, base);
    if (k > 4000000000u && any(20)) k = 4000000000u;
    last = k && any(3) == 0 ? k - 1 : k;
    set_clock(kept, any(4) != 0, k, last);
    if (any(8) == 0) kept[1] = (uint8_t)some_faults(n);
    if (any(8) == 0) change_byte(kept, (uint32_t)size);
    if (model_read_in(&model_old, kept, size).number != PEBRASSOLA_IMAGE) sound_images++;
    convert_and_go_on(kept, size, some_room(n), 2);
}

/* a sound old image with each bit changed; of n, f and what is fixed in a header none may be */
static void old_damage(unsigned n, unsigned frames)
{
    uint8_t kept[MOST];
    size_t size = live_old(kept, n, frames);
    for (size_t bit = 0; bit < 8 * size; bit++) {
        size_t at = bit / 8;
        int may_be_sound = at == 2 || (at >= 4 && at < 16) || at >= HEADER;
        kept[at] ^= (uint8_t)(1 << bit % 8);
        hold("convert, a bit changed", convert_and_go_on(kept, size, PEBRASSOLA_IMAGE_BYTES(n), 1) == PEBRASSOLA_IMAGE || may_be_sound);
        kept[at] ^= (uint8_t)(1 << bit % 8);
    }
}

/* each length of a sound old image, and each room for the new one */
static void old_lengths(unsigned n, unsigned frames)
{
    uint8_t kept[MOST] = {0};
    size_t size = live_old(kept, n, frames), need = PEBRASSOLA_IMAGE_BYTES(n);
    for (size_t length = 0; length <= size + 3; length++)
        hold("convert, each length", convert(kept, length, need) == (length < size ? PEBRASSOLA_IMAGE : PEBRASSOLA_DONE));
    for (size_t room = 0; room <= need + 3; room++)
        hold("convert, each room", convert(kept, size, room) == (room < need ? PEBRASSOLA_IMAGE_ROOM : PEBRASSOLA_DONE));
}

/* every f and every byte 3 in the image of an old node that has lived: one alone is taken of each, and 8 goes before 6 */
static void every_old_header(unsigned n, unsigned frames)
{
    uint8_t kept[MOST];
    size_t size = live_old(kept, n, frames), need = PEBRASSOLA_IMAGE_BYTES(n);
    unsigned full = PEBRASSOLA_FULL_FAULTS(n);
    for (unsigned byte = 0; byte < 256; byte++) {
        kept[1] = (uint8_t)byte;
        hold("convert, every f", convert(kept, size, need) == (byte == full ? PEBRASSOLA_DONE : PEBRASSOLA_IMAGE));
        hold("convert, every f, no room", convert(kept, size, need - 1) == (byte == full ? PEBRASSOLA_IMAGE_ROOM : PEBRASSOLA_IMAGE));
        kept[1] = (uint8_t)full;
        kept[3] = (uint8_t)byte;
        hold("convert, every byte 3", convert(kept, size, need) == (byte == 0 ? PEBRASSOLA_DONE : PEBRASSOLA_IMAGE));
        kept[3] = 0;
    }
}

/* what looks like an old image or a new one, and is between them: byte 3 and the size of either, in a buffer as long as either is */
static void between_layouts(unsigned n)
{
    uint8_t form[MOST], kept[MOST] = {0};
    const size_t sizes[] = {PEBRASSOLA_OLD_IMAGE_BYTES(n), PEBRASSOLA_IMAGE_BYTES(n)};
    for (unsigned which = 0; which < 16; which++) {
        if (which & 1) live(form, kept, n, any(60));
        else live_old(kept, n, any(60));
        kept[3] = which >> 1 & 1;
        kept[18] = (uint8_t)(sizes[which >> 2 & 1] >> 8);
        kept[19] = (uint8_t)sizes[which >> 2 & 1];
        convert_and_go_on(kept, sizes[which >> 3], sizes[1], 1);
        read_clock(kept, sizes[which >> 3]);
    }
}

/* a header that agrees with itself and with its roster, of no controllers and of more than there may be */
static void too_many(void)
{
    uint8_t kept[MOST];
    for (unsigned n = 0; PEBRASSOLA_OLD_IMAGE_BYTES(n) <= MOST; n++) {
        size_t size = PEBRASSOLA_OLD_IMAGE_BYTES(n);
        if (n >= 1 && n <= PEBRASSOLA_MOST_CONTROLLERS) continue;
        live_old(kept, 1, 0);
        memset(kept + HEADER, 0, sizeof kept - HEADER);
        kept[0] = (uint8_t)n;
        kept[1] = (uint8_t)(n ? PEBRASSOLA_FULL_FAULTS(n) : 0);
        put4(kept + 4, 1);
        kept[18] = (uint8_t)(size >> 8);
        kept[19] = (uint8_t)size;
        for (unsigned i = 0; i < n; i++) put4(kept + PEBRASSOLA_OLD_IMAGE_BYTES(i), i + 1);
        hold("convert, too many", convert(kept, size, MOST) == PEBRASSOLA_IMAGE);
    }
}

/*
 * ticks as far apart as an old window has them; then, once converted, a frame that moves the top up, so that they lie about the end of the
 * new one. The clock is far from all of this, so that no rule can fire
 */
static void old_edges(void)
{
    enum { TOP = 1000, CLOCK = 100000 };
    for (unsigned kind = 1; kind <= 2; kind++)
        for (unsigned below = 0; below < 64; below++)
            for (uint32_t by = 125 - below; by <= 130 - below; by++) {
                uint8_t kept[MOST], made[MOST], fr[8] = {(uint8_t)kind}, *set = kept + HEADER + 4 + (kind == 1 ? OLD_SET : 0);
                size_t size = live_old(kept, 4, 0), need = PEBRASSOLA_IMAGE_BYTES(4);
                set_clock(kept, 1, CLOCK, CLOCK);
                put4(set, TOP);
                set[4 + OLD_MASK - 1] = 1;
                set[4 + OLD_MASK - 1 - below / 8] |= (uint8_t)(1 << below % 8);
                hold("convert, ticks apart", convert(kept, size, need) == PEBRASSOLA_DONE);
                memcpy(made, body(&image.plain), need);
                put4(fr + 4, TOP + by);
                hold("deliver, ticks apart", deliver(made, need, get4(kept + HEADER), fr, 8, 192) == PEBRASSOLA_DONE);
                read_clock(made, need);
            }
}

/* each buffer empty, alone and together with the other */
static void empty_buffers(unsigned n)
{
    uint8_t kept[MOST];
    size_t size = live_old(kept, n, 30);
    for (unsigned p = 0; p < NO_PLACES; p++)
        for (unsigned empty = 0; empty < 4; empty++) {
            nowhere = no_place(p);
            convert(kept, empty & 1 ? 0 : size, empty & 2 ? 0 : PEBRASSOLA_IMAGE_BYTES(n));
        }
    nowhere = NULL;
}

static struct conversion_calls count_calls(void)
{
    struct conversion_calls counted = {0, came[PEBRASSOLA_DONE], sound_images};
    static const uint8_t numbers[] = {PEBRASSOLA_DONE, PEBRASSOLA_IMAGE_ROOM, PEBRASSOLA_IMAGE};
    for (unsigned i = 0; i < sizeof numbers; i++) {
        counted.all += came[numbers[i]];
        if (came[numbers[i]] < counted.rarest) counted.rarest = came[numbers[i]];
    }
    return counted;
}

struct conversion_calls compare_conversions(void)
{
    for (unsigned n = 1; n <= PEBRASSOLA_MOST_CONTROLLERS; n++) {
        old_run(n, 8);
        every_old_header(n, any(60));
        between_layouts(n);
        empty_buffers(n);
    }
    for (unsigned round = 0; round < 5; round++) {
        old_damage(1, 20 * round);
        old_damage(3, 30 * round);
        old_damage(4, 30 * round);
        old_damage(7, 30 * round);
    }
    old_damage(13, 200);
    old_lengths(1, 20);
    old_lengths(4, 30);
    old_lengths(PEBRASSOLA_MOST_CONTROLLERS, 100);
    for (unsigned round = 0; round < 6000; round++) random_old_image(1 + any(PEBRASSOLA_MOST_CONTROLLERS));
    too_many();
    old_edges();
    return count_calls();
}
