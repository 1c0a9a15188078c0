/*
 * Compares pack and write_sheet with the model: sheets of 0 to 201 entries and more, in order, broken in each way and in several at
 * once, truncated and over-long; packs on the sheet and off it; nodes that are active at ticks around first and end, passive, damaged;
 * outputs of every length around the need; empty buffers with a pointer that may not be read. Whatever is asked or written is asked or
 * written once more with the entries in another order, and nothing may differ.
 */
#include <string.h>

#include "compare.h"
#include "lent.h"
#include "model.h"
#include "pebrassola.h"
#include "words.h"

enum { HEADER = 4, ENTRY = 12, MOST_ENTRIES = 200, NUMBERS = 17, LICENCES = 3 };

static const uint32_t last_tick = 4000000000u;

/* how often each number was given, and each licence */
static unsigned long asked[NUMBERS][LICENCES], written[NUMBERS];

/* ---- the two calls, on copies */

static struct both sheet, image, entries, out;

static struct pebrassola_licence ask_once(const uint8_t *s, size_t s_length, uint32_t pack, const uint8_t *i, size_t i_length)
{
    struct pebrassola_licence r;
    struct model_result m;
    lend(&sheet, s, s_length);
    lend(&image, i, i_length);
    r = pebrassola_pack(place(&sheet.proved), s_length, pack, place(&image.proved), i_length);
    m = model_pack(place(&sheet.plain), s_length, pack, place(&image.plain), i_length);
    check("pack", r.number == m.number && r.licence == m.value && same(&sheet) && same(&image));
    asked[m.number][m.value]++;
    return r;
}

static struct pebrassola_written write_once(const uint8_t *e, size_t e_length, size_t o_length)
{
    struct pebrassola_written r;
    struct model_result m;
    lend(&entries, e, e_length);
    lend_room(&out, o_length);
    r = pebrassola_write_sheet(place(&entries.proved), e_length, place(&out.proved), o_length);
    m = model_write_sheet(place(&entries.plain), e_length, place(&out.plain), o_length);
    check("write_sheet", r.number == m.number && r.written == m.value && same(&entries) && same(&out));
    written[m.number]++;
    return r;
}

/* what stands of whole entries behind a header, in another order */
static void reorder(uint8_t *turned, const uint8_t *s, size_t length, size_t header)
{
    if (length) memcpy(turned, s, length);
    if (length > header) shuffle(turned + header, (unsigned)((length - header) / ENTRY), ENTRY);
}

static void ask(const uint8_t *s, size_t s_length, uint32_t pack, const uint8_t *i, size_t i_length)
{
    uint8_t turned[MOST];
    struct pebrassola_licence r = ask_once(s, s_length, pack, i, i_length), again;
    reorder(turned, s, s_length, HEADER);
    again = ask_once(turned, s_length, pack, i, i_length);
    hold("pack, by another order", r.number == again.number && r.licence == again.licence);
}

static uint32_t write_sheet(const uint8_t *e, size_t e_length, size_t o_length)
{
    static struct lent before;
    uint8_t turned[MOST];
    struct pebrassola_written r = write_once(e, e_length, o_length), again;
    before = out.proved;
    reorder(turned, e, e_length, 0);
    again = write_once(turned, e_length, o_length);
    hold("write_sheet, by another order", r.number == again.number && r.written == again.written && same_bytes(&before, &out.proved));
    return r.number;
}

/* ---- what is fed */

/* a tick at or beside the clock, or at an edge of the numbers */
static uint32_t some_tick(uint32_t clock)
{
    static const uint32_t edges[] = {0, 1, 3999999999u, 4000000000u, 4000000001u, 0xFFFFFFFEu, 0xFFFFFFFFu};
    return any(3) ? clock + any(5) - 2 : edges[any(sizeof edges / sizeof edges[0])];
}

static void put_entry(uint8_t *b, uint32_t pack, uint32_t first, uint32_t end)
{
    put4(b, pack);
    put4(b + 4, first);
    put4(b + 8, end);
}

/* pack numbers are the first multiples of an odd number, so that none is 0 and none stands twice; by 1 they ascend, by -1 descend */
static uint32_t some_step(void)
{
    switch (any(4)) {
    case 0: return 1;
    case 1: return 0xFFFFFFFFu;
    default: return any(0x80000000u) * 2 + 1;
    }
}

/* entries that nobody can object to */
static size_t make_entries(uint8_t *b, unsigned count, uint32_t step, uint32_t clock)
{
    for (unsigned i = 0; i < count; i++) {
        uint32_t one = some_tick(clock), other = some_tick(clock);
        put_entry(b + ENTRY * i, (i + 1) * step, one < other ? one : other, one < other ? other : one);
    }
    if (any(2)) shuffle(b, count, ENTRY);
    return ENTRY * (size_t)count;
}

static void put_header(uint8_t *b, unsigned count, unsigned offset)
{
    put4(b, (uint32_t)count << 16 | offset);
}

static size_t make_sheet(uint8_t *b, unsigned count, uint32_t step, uint32_t clock)
{
    put_header(b, count, HEADER);
    return HEADER + make_entries(b + HEADER, count, step, clock);
}

/* any entry, and the last more often than others: there is always one, though it may stand behind the count */
static uint8_t *some_entry(uint8_t *b, unsigned count)
{
    return b + ENTRY * (count && any(4) ? any(count) : count ? count - 1 : 0);
}

static uint32_t but_for_a_bit(uint32_t pack)
{
    return pack ^ (uint32_t)1 << any(32);
}

/* one of the sheet's packs, or one that differs from it little, or 0, or any */
static uint32_t some_pack(uint8_t *s, unsigned count)
{
    uint32_t pack = get4(some_entry(s + HEADER, count));
    switch (any(8)) {
    case 0: return 0;
    case 1: return any(0xFFFFFFFFu);
    case 2: return but_for_a_bit(pack);
    default: return pack;
    }
}

/* each fault stands in one sheet of five: some sheets have none of them, and some have several */
static int now_and_then(void)
{
    return any(5) == 0;
}

static void spoil_entries(uint8_t *b, unsigned count)
{
    uint8_t *one = some_entry(b, count), *other = some_entry(b, count);
    if (now_and_then()) put4(one, but_for_a_bit(get4(other))); /* no fault, though it looks like one */
    if (now_and_then()) put4(one, 0);
    if (now_and_then()) memmove(one, other, 4);
    if (now_and_then()) put4(other + 4, get4(other + 8) + 1 + any(2));
}

static size_t spoil_length(size_t length)
{
    if (!now_and_then()) return length;
    return any(2) ? length + 1 + any(15) : any((uint32_t)length + 1);
}

static size_t spoil_sheet(uint8_t *b, unsigned count, size_t length)
{
    unsigned counted = count, offset = HEADER;
    spoil_entries(b + HEADER, count);
    if (now_and_then()) counted = any(3) ? count + any(3) - 1 : any(65536);
    if (any(10) == 0) offset = any(65536);
    put_header(b, counted & 0xFFFF, offset);
    return spoil_length(length);
}

/* a node that holds nothing, which is sound with any clock */
static size_t make_idle(uint8_t *kept, unsigned n, unsigned mode, uint32_t k)
{
    uint8_t form[MOST];
    size_t size = live(form, kept, n, 0);
    set_clock(kept, mode, k, k);
    return size;
}

/* an idle node or one that has lived, sometimes passive, with another f, damaged or cut */
static size_t make_node(uint8_t *kept)
{
    uint8_t form[MOST];
    uint32_t k = some_tick(any(1000));
    unsigned n = 1 + any(7);
    size_t size;
    if (any(32) == 0) size = live(form, kept, n, any(60));
    else size = make_idle(kept, n, any(8) != 0, k <= last_tick ? k : last_tick);
    if (any(16) == 0) kept[1] = (uint8_t)some_faults(n);
    if (any(16) == 0) change_byte(kept, (uint32_t)size);
    if (any(16) == 0) size = any((uint32_t)size + 1);
    return size;
}

/* ---- pack */

static void random_sheet(unsigned count)
{
    uint8_t s[MOST], kept[MOST];
    size_t size = make_node(kept), length;
    uint32_t step = some_step();
    memset(s, (int)any(256), sizeof s);
    length = spoil_sheet(s, count, make_sheet(s, count, step, get4(kept + 8)));
    for (unsigned round = 0; round < 4; round++) ask(s, length, some_pack(s, count), kept, size);
}

/* each first and each end about the clock and at the edges, alone on the sheet and beside another entry */
static void ticks(uint32_t clock)
{
    const uint32_t near[] = {0, 1, clock - 1, clock, clock + 1, last_tick - 1, last_tick, last_tick + 1, 0xFFFFFFFEu, 0xFFFFFFFFu};
    enum { TICKS = sizeof near / sizeof near[0] };
    uint8_t s[HEADER + 2 * ENTRY], kept[MOST];
    size_t size = make_idle(kept, 4, 1, clock);
    for (unsigned first = 0; first < TICKS; first++)
        for (unsigned end = 0; end < TICKS; end++)
            for (unsigned count = 1; count <= 2; count++) {
                put_header(s, count, HEADER);
                put_entry(s + HEADER, 7, near[first], near[end]);
                put_entry(s + HEADER + ENTRY, 9, 0, 0);
                for (uint32_t pack = 6; pack <= 9; pack++) ask(s, HEADER + ENTRY * (size_t)count, pack, kept, size);
            }
}

/* every length of a sheet of few entries, with counts and offsets that are right, beside that, or right but for a byte */
static void layouts(unsigned count)
{
    const unsigned counts[] = {count, count + 1, count ? count - 1 : 201, count + 256, count + 16384, count + 32768, 65535};
    static const unsigned offsets[] = {4, 0, 3, 5, 12, 0x0400, 0x0104};
    uint8_t s[MOST] = {0}, kept[MOST];
    size_t size = make_idle(kept, 1, 1, 5), length = make_sheet(s, count, 1, 5);
    for (unsigned c = 0; c < sizeof counts / sizeof counts[0]; c++)
        for (unsigned o = 0; o < sizeof offsets / sizeof offsets[0]; o++)
            for (size_t cut = 0; cut <= length + ENTRY + 1; cut++) {
                put_header(s, counts[c], offsets[o]);
                ask(s, cut, 1, kept, size);
            }
}

/* every single-bit damage and every length of an image, asked by a good sheet and by one that has every fault */
static void images(unsigned n, unsigned mode)
{
    uint8_t good[MOST], bad[] = {0, 3, 0, 5, 0, 0, 0, 0, 0, 0, 0, 9, 0, 0, 0, 8}, kept[MOST] = {0};
    size_t size = make_idle(kept, n, mode, 77), length = make_sheet(good, 3, 1, 77);
    for (size_t bit = 0; bit < 8 * size; bit++) {
        kept[bit / 8] ^= (uint8_t)(1 << bit % 8);
        ask(good, length, 2, kept, size);
        ask(bad, sizeof bad, 2, kept, size);
        kept[bit / 8] ^= (uint8_t)(1 << bit % 8);
    }
    for (size_t cut = 0; cut <= size + 3; cut++) {
        ask(good, length, 2, kept, cut);
        ask(bad, sizeof bad, 2, kept, cut);
    }
}

/* ---- write_sheet */

static void random_entries(unsigned count)
{
    uint8_t e[MOST];
    uint32_t step = some_step();
    size_t length, need = HEADER + ENTRY * (size_t)count;
    memset(e, (int)any(256), sizeof e);
    length = make_entries(e, count, step, any(1000));
    spoil_entries(e, count);
    length = spoil_length(length);
    write_sheet(e, length, any(3) ? need + any(5) : any((uint32_t)need + 5));
}

/* every room from one to another, for good entries, for those with each fault, and for lengths beside */
static void rooms(unsigned count, size_t from, size_t to)
{
    uint8_t e[MOST] = {0};
    for (unsigned fault = 0; fault < 4; fault++) {
        size_t length = make_entries(e, count, some_step(), 100);
        if (count && fault & 1) put4(e + ENTRY * any(count), 0);
        if (count && fault & 2) put_entry(e, get4(e), 9, 8);
        for (size_t room = from; room <= to; room++) {
            write_sheet(e, length, room);
            write_sheet(e, length + 1 + any(ENTRY - 1), room);
        }
    }
}

/* what was written is a sheet, and answers as the entries did in the order that they came in */
static void written_sheet(unsigned count)
{
    uint8_t s[MOST] = {0}, kept[MOST], made[MOST];
    uint32_t clock = any(1000), step = some_step();
    size_t size = make_idle(kept, 1, 1, clock), length = make_sheet(s, count, step, clock);
    hold("good entries are taken", write_sheet(s + HEADER, length - HEADER, length) == PEBRASSOLA_DONE);
    memcpy(made, body(&out.proved), length);
    for (unsigned round = 0; round < 4; round++) {
        uint32_t pack = some_pack(s, count);
        struct pebrassola_licence r = ask_once(s, length, pack, kept, size), again = ask_once(made, length, pack, kept, size);
        hold("pack, by a written sheet", r.number == again.number && r.licence == again.licence);
    }
}

/* ---- both */

/* each buffer of each call empty, alone and together with the other */
static void empty_buffers(void)
{
    uint8_t s[MOST], kept[MOST];
    size_t size = make_idle(kept, 4, 1, 10), length = make_sheet(s, 3, 1, 10);
    for (unsigned p = 0; p < NO_PLACES; p++)
        for (unsigned empty = 0; empty < 4; empty++) {
            nowhere = no_place(p);
            ask(s, empty & 1 ? 0 : length, 1, kept, empty & 2 ? 0 : size);
            write_sheet(s + HEADER, empty & 1 ? 0 : length - HEADER, empty & 2 ? 0 : length);
        }
    nowhere = NULL;
}

/* about the most that a sheet may have, and counts that would be 0 and 1 in a byte */
static void many_entries(void)
{
    static const unsigned counts[] = {MOST_ENTRIES - 1, MOST_ENTRIES, MOST_ENTRIES + 1, 256, 257};
    for (unsigned round = 0; round < 100; round++)
        for (unsigned c = 0; c < sizeof counts / sizeof counts[0]; c++) {
            random_sheet(counts[c]);
            random_entries(counts[c]);
        }
    rooms(MOST_ENTRIES, HEADER + ENTRY * MOST_ENTRIES - 3, HEADER + ENTRY * MOST_ENTRIES + 3);
    rooms(MOST_ENTRIES + 1, HEADER + ENTRY * MOST_ENTRIES - 3, HEADER + ENTRY * MOST_ENTRIES + 3);
    written_sheet(MOST_ENTRIES);
}

static struct sheet_calls count_calls(void)
{
    const unsigned long outcomes[] = {asked[0][0], asked[0][1], asked[0][2], asked[8][0], asked[12][0], asked[14][0], asked[15][0],
                                      asked[16][0], written[0], written[7], written[14], written[15], written[16]};
    struct sheet_calls counted = {0, outcomes[0]};
    for (unsigned i = 0; i < sizeof outcomes / sizeof outcomes[0]; i++) {
        counted.all += outcomes[i];
        if (outcomes[i] < counted.rarest) counted.rarest = outcomes[i];
    }
    return counted;
}

struct sheet_calls compare_sheets(void)
{
    static const uint32_t clocks[] = {0, 1, 2, 5000, 0x80000000u, 3999999999u, 4000000000u};
    for (unsigned round = 0; round < 30000; round++) {
        random_sheet(any(8));
        random_entries(any(12));
    }
    for (unsigned c = 0; c < sizeof clocks / sizeof clocks[0]; c++) ticks(clocks[c]);
    for (unsigned count = 0; count <= 3; count++) layouts(count);
    images(1, 1);
    images(4, 1);
    images(4, 0);
    for (unsigned count = 0; count <= 6; count++) {
        rooms(count, 0, HEADER + ENTRY * (size_t)count + 6);
        for (unsigned round = 0; round < 100; round++) written_sheet(count);
    }
    many_entries();
    empty_buffers();
    return count_calls();
}
