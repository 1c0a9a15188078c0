/*
 * The header against the archive, by answers that the papers settle, or that their rules give by hand, with no model between: W1 to W10
 * of document 01, a sheet for A1 of document 02, frames and two idle controllers for A2, the deliveries that bring most for A6, forms and
 * images beside the full f for A7, old images and what becomes of them for A8, corrections by hand for A13, and a call for each number.
 * The archive puts an answer's fields where its own struct has them, and a C compiler knows only the header's struct: so each field is
 * looked at where its value is known and any other field's is another. Sizes, places and numbers are looked at when this is compiled,
 * unless CALLS_ALONE is defined: then the calls have to notice by themselves. Prints what is wrong and a count; ends with status 1 where
 * something is.
 */
#include <stdio.h>
#include <string.h>

#include "../compare/words.h"
#include "pebrassola.h"

#ifndef CALLS_ALONE
#define SETTLED(name, fact) typedef char name##_is_settled[(fact) ? 1 : -1]
#define FIELD(type, field, at) SETTLED(type##_##field, offsetof(struct type, field) == (at) && sizeof(((struct type *)0)->field) == 4)
#define ANSWER(type, field, bytes) \
    FIELD(type, number, 0);        \
    FIELD(type, field, 4);         \
    SETTLED(type, sizeof(struct type) == (bytes))

ANSWER(pebrassola_answer, records, 12);
FIELD(pebrassola_answer, fired, 8);
ANSWER(pebrassola_reading, clock, 8);
ANSWER(pebrassola_licence, licence, 8);
ANSWER(pebrassola_written, written, 8);
FIELD(pebrassola_correction, number, 0);
SETTLED(pebrassola_correction_correction, offsetof(struct pebrassola_correction, correction) == 8);
SETTLED(pebrassola_correction, sizeof(struct pebrassola_correction) == 16);

/* 01, "Numbers given back", by the names of their rows */
SETTLED(numbers_of_all, PEBRASSOLA_DONE == 0);
SETTLED(numbers_of_forms, PEBRASSOLA_FORM_LAYOUT == 1 && PEBRASSOLA_FORM_LIMITS == 2 && PEBRASSOLA_FORM_ZERO == 3);
SETTLED(more_numbers_of_forms, PEBRASSOLA_FORM_TWICE == 4 && PEBRASSOLA_FORM_OWN == 5);
SETTLED(numbers_of_rooms, PEBRASSOLA_IMAGE_ROOM == 6 && PEBRASSOLA_OUT_ROOM == 7);
SETTLED(numbers_of_images, PEBRASSOLA_IMAGE == 8 && PEBRASSOLA_PASSIVE == 12);
SETTLED(numbers_of_frames, PEBRASSOLA_PORT == 9 && PEBRASSOLA_FRAME == 10 && PEBRASSOLA_FRAME_TICK == 11);

/* A7, and the full f of some n by hand */
SETTLED(number_of_understated_forms, PEBRASSOLA_FORM_UNDERSTATED == 21);
SETTLED(full_faults_of_few, PEBRASSOLA_FULL_FAULTS(1) == 0 && PEBRASSOLA_FULL_FAULTS(3) == 0 && PEBRASSOLA_FULL_FAULTS(4) == 1);
SETTLED(full_faults, PEBRASSOLA_FULL_FAULTS(6) == 1 && PEBRASSOLA_FULL_FAULTS(7) == 2 && PEBRASSOLA_FULL_FAULTS(32) == 10);
#if PEBRASSOLA_FULL_FAULTS(7) != 2 || PEBRASSOLA_FULL_FAULTS(PEBRASSOLA_MOST_CONTROLLERS) != 10
#error "the full f is no number that the preprocessor can compare"
#endif

/* A1, in the order that it names them */
SETTLED(numbers_of_sheets, PEBRASSOLA_SHEET_LAYOUT == 14 && PEBRASSOLA_SHEET_PACK == 15 && PEBRASSOLA_SHEET_TICKS == 16);
SETTLED(licences, PEBRASSOLA_NOT_LICENSED == 0 && PEBRASSOLA_NOT_IN_FORCE == 1 && PEBRASSOLA_IN_FORCE == 2);
SETTLED(sheets, PEBRASSOLA_SHEET_BYTES(0) == 4 && PEBRASSOLA_SHEET_BYTES(200) == 2404);
SETTLED(entries, PEBRASSOLA_ENTRY_BYTES == 12 && PEBRASSOLA_MOST_ENTRIES == 200);

/* A13 */
SETTLED(number_of_readings, PEBRASSOLA_READINGS == 29);

/* 01, "Layouts" and "Limits", and A8 */
SETTLED(forms, PEBRASSOLA_FORM_BYTES(4) == 24 && PEBRASSOLA_MOST_CONTROLLERS == 32);
SETTLED(images, PEBRASSOLA_IMAGE_BYTES(1) == 76 && PEBRASSOLA_IMAGE_BYTES(4) == 208 && PEBRASSOLA_IMAGE_BYTES(32) == 1440);
SETTLED(old_images, PEBRASSOLA_OLD_IMAGE_BYTES(1) == 60 && PEBRASSOLA_OLD_IMAGE_BYTES(4) == 144 && PEBRASSOLA_OLD_IMAGE_BYTES(32) == 928);
SETTLED(windows, PEBRASSOLA_WINDOW == 128);
SETTLED(frames, PEBRASSOLA_FRAME_BYTES == 8 && PEBRASSOLA_LAST_TICK == 4000000000u);
SETTLED(outputs, PEBRASSOLA_RECORD_BYTES == 12 && PEBRASSOLA_OUT_BYTES == 192);

/* A6, and what is proved beyond it, which most_alone and most_of_four attain */
SETTLED(most_fired, PEBRASSOLA_MOST_FIRED == 15 && (PEBRASSOLA_MOST_FIRED + 1) * PEBRASSOLA_RECORD_BYTES == PEBRASSOLA_OUT_BYTES);
SETTLED(fired, PEBRASSOLA_PROVED_FIRED(1) == 7 && PEBRASSOLA_PROVED_FIRED(2) == 4 && PEBRASSOLA_PROVED_FIRED(32) == 4);
SETTLED(records, PEBRASSOLA_PROVED_RECORDS(1) == 7 && PEBRASSOLA_PROVED_RECORDS(2) == 5 && PEBRASSOLA_PROVED_RECORDS(32) == 5);
#if PEBRASSOLA_PROVED_FIRED(4) > PEBRASSOLA_MOST_FIRED || PEBRASSOLA_PROVED_RECORDS(4) * PEBRASSOLA_RECORD_BYTES > PEBRASSOLA_OUT_BYTES
#error "a figure of one delivery is above the allowance or the room that the request fixes"
#endif
#endif

/* bytes 0 and 1 of a frame, as one number: kind and flag (A2) */
enum { INIT = 0x0100, ECHO = 0x0200, ECHO_ANSWER = 0x0201 };

/* bytes of the greatest image, of the story's, and of a controller's that is alone */
enum { MOST_IMAGE = 1440, STORY_IMAGE = 208, ALONE_IMAGE = 76 };

static uint8_t image[MOST_IMAGE], out[192];
static size_t size = STORY_IMAGE, room = sizeof out; /* how much of the two is lent */
static unsigned answers, wrong;

static void expect(const char *call, uint32_t number, uint32_t value, uint32_t known, uint32_t known_value)
{
    answers++;
    if (number == known && value == known_value) return;
    wrong++;
    printf("%s: number %u with %u, and the papers say %u with %u\n", call, number, value, known, known_value);
}

static void expect_answer(const char *call, struct pebrassola_answer a, uint32_t known, uint32_t known_records, uint32_t known_fired)
{
    answers++;
    if (a.number == known && a.records == known_records && a.fired == known_fired) return;
    wrong++;
    printf("%s: number %u with %u records, %u fired, and the papers say %u with %u, %u fired\n", call, a.number, a.records, a.fired, known,
           known_records, known_fired);
}

static void expect_bytes(const char *call, size_t from, const uint8_t *known, size_t length)
{
    answers++;
    if (memcmp(out + from, known, length) == 0) return;
    wrong++;
    printf("%s: the output from byte %u on is not what the papers say\n", call, (unsigned)from);
}

static void expect_image(const char *call, size_t from, const uint8_t *known, size_t length)
{
    answers++;
    if (memcmp(image + from, known, length) == 0) return;
    wrong++;
    printf("%s: the image from byte %u on is not what the papers say\n", call, (unsigned)from);
}

static void put_frame(uint8_t *frame, unsigned head, uint32_t tick)
{
    put4(frame, (uint32_t)head << 16);
    put4(frame + 4, tick);
}

static void expect_record(const char *call, unsigned place, uint32_t to, unsigned head, uint32_t tick)
{
    uint8_t record[12];
    put4(record, to);
    put_frame(record + 4, head, tick);
    expect_bytes(call, 12 * place, record, sizeof record);
}

/* boots the node of the whole case (n = 4, f = 1, own serial 11) by its form with one byte set */
static void boot(const char *call, unsigned place, unsigned byte, uint32_t known)
{
    uint8_t form[24] = {4, 1, 0, 8, 0, 0, 0, 11, 0, 0, 0, 11, 0, 0, 0, 22, 0, 0, 0, 33, 0, 0, 0, 44};
    form[place] = (uint8_t)byte;
    expect_answer(call, pebrassola_boot(form, sizeof form, image, size, out, room), known, known == 0, 0);
}

static struct pebrassola_answer take(uint32_t port, unsigned head, uint32_t tick)
{
    uint8_t frame[8];
    put_frame(frame, head, tick);
    return pebrassola_deliver(image, size, port, frame, sizeof frame, out, room);
}

static void deliver(const char *call, uint32_t port, unsigned head, uint32_t tick, uint32_t known_records, uint32_t known_fired)
{
    expect_answer(call, take(port, head, tick), 0, known_records, known_fired);
}

static void try_deliver(const char *call, uint32_t port, unsigned head, uint32_t tick, uint32_t known)
{
    expect_answer(call, take(port, head, tick), known, 0, 0);
}

static void read_clock(const char *call, uint32_t known, uint32_t known_clock)
{
    struct pebrassola_reading r = pebrassola_read(image, size);
    expect(call, r.number, r.clock, known, known_clock);
}

/* 01, "Settled examples" */
static void story(void)
{
    boot("W1", 0, 4, 0);
    expect_record("W1", 0, 0, ECHO, 0);
    read_clock("W1 read", 12, 0);
    deliver("W2", 11, ECHO, 0, 0, 0);
    deliver("W3", 22, ECHO, 0, 1, 0);
    expect_record("W3", 0, 22, ECHO_ANSWER, 0);
    deliver("W4", 33, ECHO, 0, 2, 1);
    expect_record("W4", 0, 33, ECHO_ANSWER, 0);
    expect_record("W4", 1, 0, INIT, 1);
    read_clock("W4 read", 12, 0);
    deliver("W5", 11, INIT, 1, 0, 0);
    deliver("W6", 22, INIT, 1, 1, 2); /* R1 sends echo 1, and R5 wakes the node without a record */
    expect_record("W6", 0, 0, ECHO, 1);
    read_clock("W6 read", 0, 1);
    deliver("W7", 44, ECHO, 1, 0, 0);
    deliver("W7", 33, ECHO, 5, 0, 0);
    deliver("W8", 22, ECHO, 6, 1, 1);
    expect_record("W8", 0, 0, ECHO, 4);
    read_clock("W8 read", 0, 4);
    deliver("W9", 44, ECHO, 4, 2, 2);
    expect_record("W9", 0, 0, INIT, 5);
    expect_record("W9", 1, 0, ECHO, 5);
    read_clock("W9 read", 0, 5);
}

/* W10 as A8 works it again: from what W9 leaves, 22 sends one echo more, and this is its row then. Its init set is {1} since W6 */
static void row_of_22(const char *call, uint32_t tick, uint64_t known_high, uint64_t known_low)
{
    uint8_t row[44] = {0, 0, 0, 22};
    deliver(call, 22, ECHO, tick, 0, 0);
    put4(row + 4, tick);
    put4(row + 8, (uint32_t)(known_high >> 32));
    put4(row + 12, (uint32_t)known_high);
    put4(row + 16, (uint32_t)(known_low >> 32));
    put4(row + 20, (uint32_t)known_low);
    put4(row + 24, 1);
    put4(row + 40, 1);
    expect_image(call, 32 + 44, row, sizeof row);
    read_clock(call, 0, 5);
}

static void windows(void)
{
    uint8_t w9[STORY_IMAGE];
    memcpy(w9, image, sizeof w9);
    /* of 6, 5, 4 and 0 all stay: they lie 63, 64, 65 and 69 below */
    row_of_22("W10, echo 69", 69, 0x23, 0x8000000000000007u);
    memcpy(image, w9, sizeof w9);
    /* 6 lies 127 below, 5 and the others more */
    row_of_22("W10, echo 133", 133, 0x8000000000000000u, 7);
    memcpy(image, w9, sizeof w9);
    row_of_22("W10, echo 134", 134, 0, 7);
    memcpy(image, w9, sizeof w9);
}

/* 01, "Numbers given back", on the image that W9 leaves; the calls of the story have 0 and 12 */
static void refusals(void)
{
    boot("offset 9", 3, 9, 1);
    boot("f = 2", 1, 2, 2);
    boot("f = 0", 1, 0, 21);
    boot("own serial 0", 7, 0, 3);
    boot("11 twice", 15, 11, 4);
    boot("own serial 12", 7, 12, 5);
    size = STORY_IMAGE - 1;
    boot("an image a byte too short", 0, 4, 6);
    try_deliver("an image a byte too short", 22, ECHO, 1, 8);
    read_clock("an image a byte too short", 8, 0);
    size = 144;
    boot("an image as long as it was before A8", 0, 4, 6);
    size = STORY_IMAGE;
    room = 191;
    boot("output of 191 bytes", 0, 4, 7);
    try_deliver("output of 191 bytes", 22, ECHO, 1, 7);
    room = 192;
    try_deliver("port 12", 12, ECHO, 1, 9);
    try_deliver("kind 3", 22, 0x0300, 1, 10);
    try_deliver("after the last tick", 22, ECHO, 4000000001u, 11);
    deliver("the last tick", 22, ECHO, 4000000000u, 0, 0);
}

/* ---- A2 */

static void flags(void)
{
    boot("a fresh node", 0, 4, 0);
    deliver("an answer", 22, ECHO_ANSWER, 0, 0, 0);
    deliver("a broadcast after an answer", 22, ECHO, 0, 1, 0);
    expect_record("a broadcast after an answer", 0, 22, ECHO_ANSWER, 0);
    deliver("an answer again", 22, ECHO_ANSWER, 0, 0, 0);
    deliver("an answer of its own", 11, ECHO_ANSWER, 0, 0, 0);
    deliver("W4 by an answer", 33, ECHO_ANSWER, 0, 1, 1); /* 11, 22 and 33 hold echo 0, as they do in W4 */
    expect_record("W4 by an answer", 0, 0, INIT, 1);
    deliver("an answer of tick 5", 33, ECHO_ANSWER, 5, 0, 0);
    deliver("another of tick 5", 44, ECHO_ANSWER, 5, 1, 1); /* f + 1 hold it: the node jumps to 4 */
    expect_record("another of tick 5", 0, 0, ECHO, 4);
    deliver("echo 0 when 4 was sent", 44, ECHO, 0, 1, 0);
    expect_record("echo 0 when 4 was sent", 0, 44, ECHO_ANSWER, 4);
    try_deliver("an init with flag 1", 22, 0x0101, 1, 10);
    try_deliver("an echo with flag 2", 22, 0x0202, 0, 10);
    try_deliver("an echo with flag 255", 22, 0x02FF, 0, 10);
    try_deliver("an answer after the last tick", 22, ECHO_ANSWER, 4000000001u, 11);
}

/* two controllers that are up, and the frames under way between them */
static const uint32_t serials[2] = {11, 22};
static uint8_t images[2][STORY_IMAGE];
static struct {
    unsigned from, to;
    uint8_t frame[8];
} line[64];
static unsigned carried, under_way;

static void carry(unsigned from, uint32_t records)
{
    for (uint32_t i = 0; i < records; i++)
        for (unsigned to = 0; to < 2; to++) {
            uint32_t dest = get4(out + 12 * i);
            if ((dest != 0 && dest != serials[to]) || carried + under_way == 64) continue;
            line[carried + under_way].from = from;
            line[carried + under_way].to = to;
            memcpy(line[carried + under_way++].frame, out + 12 * i + 4, 8);
        }
}

/* what A2 was asked for: each of the two hears both boot messages and one answer, six frames in all, and then the line is still */
static void idle(void)
{
    for (unsigned i = 0; i < 2; i++) {
        boot("one of two idle controllers", 7, serials[i], 0);
        memcpy(images[i], image, sizeof images[i]);
        carry(i, 1);
    }
    while (under_way > 0) {
        unsigned to = line[carried].to;
        struct pebrassola_answer a = pebrassola_deliver(images[to], sizeof images[to], serials[line[carried].from], line[carried].frame,
                                                        sizeof line[carried].frame, out, room);
        carried++;
        under_way--;
        carry(to, a.records);
    }
    expect("two idle controllers: frames carried, and under way", carried, under_way, 6, 0);
}

/* ---- A6 */

/* a controller that is alone; its last frame brings R2 and R3 three times each, at ticks 5, 6 and 7, and R1 at tick 8 */
static void most_alone(void)
{
    static const uint8_t form[12] = {1, 0, 0, 8, 0, 0, 0, 7, 0, 0, 0, 7};
    expect_answer("alone", pebrassola_boot(form, sizeof form, image, size, out, room), 0, 1, 0);
    deliver("alone, echo 0", 7, ECHO, 0, 1, 1);
    deliver("alone, init 4", 7, INIT, 4, 1, 1);
    deliver("alone, echo 3", 7, ECHO, 3, 2, 2);
    deliver("alone, echo 4", 7, ECHO, 4, 1, 1);
    deliver("alone, init 8", 7, INIT, 8, 0, 0);
    deliver("alone, echo 7", 7, ECHO, 7, 7, 7);
    expect_record("alone, echo 7", 0, 0, ECHO, 5);
    expect_record("alone, echo 7", 6, 0, ECHO, 8);
    read_clock("alone, read", 0, 8);
}

/* one of four; the last frame is answered, and brings R3 and R1 twice each */
static void most_of_four(void)
{
    boot("of four", 0, 4, 0);
    deliver("of four, init 1", 22, INIT, 1, 0, 0);
    deliver("of four, init 1 again", 33, INIT, 1, 0, 1); /* R5 without a record: the node wakes at tick 0, whose echo was sent at boot */
    deliver("of four, init 2", 22, INIT, 2, 0, 0);
    deliver("of four, init 2 again", 33, INIT, 2, 0, 0);
    deliver("of four, echo 3", 44, ECHO, 3, 0, 0);
    deliver("of four, echo 1", 11, ECHO, 1, 0, 0);
    deliver("of four, echo 1 again", 22, ECHO, 1, 0, 0);
    deliver("of four, echo 0", 33, ECHO, 0, 5, 4);
    expect_record("of four, echo 0", 0, 33, ECHO_ANSWER, 0);
    expect_record("of four, echo 0", 4, 0, ECHO, 2);
    read_clock("of four, read", 0, 2);
}

/* ---- A1 */

/* asks a pack by the sheet (7 from tick 10, ended at 20; 9 from tick 15, ended at 15) with one byte set */
static void pack(const char *call, unsigned place, unsigned byte, uint32_t asked, uint32_t known, uint32_t known_licence)
{
    uint8_t sheet[28] = {0, 2, 0, 4, 0, 0, 0, 7, 0, 0, 0, 10, 0, 0, 0, 20, 0, 0, 0, 9, 0, 0, 0, 15, 0, 0, 0, 15};
    struct pebrassola_licence l;
    sheet[place] = (uint8_t)byte;
    l = pebrassola_pack(sheet, sizeof sheet, asked, image, size);
    expect(call, l.number, l.licence, known, known_licence);
}

/* the same by the sheet as it is, at a tick */
static void pack_at(const char *call, uint32_t clock, uint32_t asked, uint32_t known_licence)
{
    put4(image + 8, clock);
    put4(image + 12, clock);
    pack(call, 0, 0, asked, 0, known_licence);
}

/* writes a sheet of the same two entries, given in descending pack number, with one byte set */
static void write_sheet(const char *call, unsigned place, unsigned byte, size_t length, uint32_t known)
{
    uint8_t entries[24] = {0, 0, 0, 9, 0, 0, 0, 15, 0, 0, 0, 15, 0, 0, 0, 7, 0, 0, 0, 10, 0, 0, 0, 20};
    struct pebrassola_written w;
    entries[place] = (uint8_t)byte;
    w = pebrassola_write_sheet(entries, length, out, room);
    expect(call, w.number, w.written, known, known == 0 ? 28 : 0);
}

static void sheets(void)
{
    static const uint8_t known[] = {0, 2, 0, 4, 0, 0, 0, 7, 0, 0, 0, 10, 0, 0, 0, 20, 0, 0, 0, 9, 0, 0, 0, 15, 0, 0, 0, 15, 0xEE};
    static const uint8_t unchanged[] = {0xEE, 0xEE, 0xEE, 0xEE};
    boot("a fresh node", 0, 4, 0);
    pack("passive", 0, 0, 7, 12, 0);
    pack("passive, offset 5", 3, 5, 7, 12, 0);
    image[2] = 1; /* active; a node that holds nothing is sound with any clock */
    pack_at("before first", 9, 7, PEBRASSOLA_NOT_IN_FORCE);
    pack_at("at first", 10, 7, PEBRASSOLA_IN_FORCE);
    pack_at("before end", 19, 7, PEBRASSOLA_IN_FORCE);
    pack_at("at end", 20, 7, PEBRASSOLA_NOT_IN_FORCE);
    pack_at("first is end", 15, 9, PEBRASSOLA_NOT_IN_FORCE);
    pack_at("not on the sheet", 15, 8, PEBRASSOLA_NOT_LICENSED);
    pack_at("pack 0", 15, 0, PEBRASSOLA_NOT_LICENSED);
    pack("offset 5", 3, 5, 7, 14, 0);
    pack("three entries", 1, 3, 7, 14, 0);
    pack("an entry of pack 0", 7, 0, 9, 15, 0);
    pack("9 twice", 7, 9, 9, 15, 0);
    pack("first 21, end 20", 11, 21, 9, 16, 0);
    size = STORY_IMAGE - 1;
    pack("an image a byte too short", 0, 0, 7, 8, 0);
    size = STORY_IMAGE;
    memset(out, 0xEE, sizeof out);
    write_sheet("23 bytes of entries", 0, 0, 23, 14);
    write_sheet("7 twice", 3, 7, 24, 15);
    write_sheet("first 21, end 20", 19, 21, 24, 16);
    room = 27;
    write_sheet("output of 27 bytes", 0, 0, 24, 7);
    expect_bytes("after refusals", 0, unchanged, sizeof unchanged);
    room = 28;
    write_sheet("output of 28 bytes", 0, 0, 24, 0);
    room = 192;
    write_sheet("two entries", 0, 0, 24, 0);
    expect_bytes("two entries", 0, known, sizeof known);
}

/* ---- A7 */

/* the form of so many controllers, 1 to n, as the last of them fills it in */
static size_t make_form(uint8_t *form, unsigned n, unsigned f)
{
    put4(form, n << 24 | f << 16 | 8);
    put4(form + 4, n);
    for (unsigned i = 0; i < n; i++) put4(form + 8 + 4 * i, i + 1);
    return 8 + 4 * (size_t)n;
}

static uint8_t image_before[sizeof image], out_before[sizeof out];

static void keep_bytes(void)
{
    memcpy(image_before, image, sizeof image);
    memcpy(out_before, out, sizeof out);
}

static void expect_kept(const char *call)
{
    answers++;
    if (memcmp(image_before, image, sizeof image) == 0 && memcmp(out_before, out, sizeof out) == 0) return;
    wrong++;
    printf("%s: a refusal changed the image or the output\n", call);
}

static void boot_form(const char *call, const uint8_t *form, size_t length, uint32_t known)
{
    keep_bytes();
    expect_answer(call, pebrassola_boot(form, length, image, size, out, room), known, known == 0, 0);
    if (known != 0) expect_kept(call);
}

static void boot_of(const char *call, unsigned n, unsigned f, uint32_t known)
{
    uint8_t form[8 + 4 * 33];
    boot_form(call, form, make_form(form, n, f), known);
}

/* the form of 7 controllers with f = 1 and with another word at some place */
static void boot_less(const char *call, unsigned place, uint32_t word, uint32_t known)
{
    uint8_t form[36];
    size_t length = make_form(form, 7, 1);
    put4(form + place, word);
    boot_form(call, form, length, known);
}

static void full_faults(void)
{
    memset(image, 0xEE, sizeof image);
    memset(out, 0xEE, sizeof out);
    size = MOST_IMAGE;
    boot_of("n = 7, f = 0", 7, 0, 21);
    boot_of("n = 7, f = 1", 7, 1, 21);
    boot_of("n = 7, f = 3", 7, 3, 2);
    boot_of("n = 32, f = 9", 32, 9, 21);
    boot_of("n = 32, f = 11", 32, 11, 2);
    boot_of("n = 33, f = 0", 33, 0, 2);
    boot_of("n = 33, f = 10", 33, 10, 2);
    boot_less("f = 1 of 7, offset 9", 0, 0x07010009, 1);
    boot_less("f = 1 of 7, own serial 0", 4, 0, 21);
    boot_less("f = 1 of 7, a serial 0", 8, 0, 21);
    boot_less("f = 1 of 7, 2 twice", 8, 2, 21);
    boot_less("f = 1 of 7, own serial 8", 4, 8, 21);
    size = 0;
    boot_of("f = 1 of 7, no image", 7, 1, 21);
    boot_of("f = 2 of 7, no image", 7, 2, 6);
    size = MOST_IMAGE;
    room = 0;
    boot_of("f = 1 of 7, no output", 7, 1, 21);
    boot_of("f = 2 of 7, no output", 7, 2, 7);
    room = sizeof out;
    boot_of("n = 7, f = 2", 7, 2, 0);
    boot_of("n = 32, f = 10", 32, 10, 0);
    for (unsigned n = 1; n <= 3; n++) boot_of("f = 0 of 1 to 3", n, 0, 0);
    for (unsigned n = 1; n <= PEBRASSOLA_MOST_CONTROLLERS; n++) {
        boot_of("the full f", n, PEBRASSOLA_FULL_FAULTS(n), 0);
        boot_of("one more", n, PEBRASSOLA_FULL_FAULTS(n) + 1, 2);
        if (n > 3) boot_of("one less", n, PEBRASSOLA_FULL_FAULTS(n) - 1, 21);
    }
}

/* an active node of 7 controllers in which nothing is held, so that no rule can fire with any f below 7; its image states this one */
static void images_of(const char *call, unsigned f)
{
    image[1] = (uint8_t)f;
    keep_bytes();
    read_clock(call, 8, 0);
    try_deliver(call, 7, ECHO, 1, 8);
    pack(call, 0, 0, 7, 8, 0);
    pack(call, 3, 5, 7, 8, 0);
    expect_kept(call);
}

static void full_faults_of_images(void)
{
    boot_of("7 controllers", 7, 2, 0);
    image[2] = 1;
    put4(image + 8, 10);
    put4(image + 12, 10);
    images_of("an image of 7 with f = 1", 1);
    images_of("an image of 7 with f = 0", 0);
    images_of("an image of 7 with f = 3", 3);
    image[1] = 2;
    read_clock("an image of 7 with f = 2", 0, 10);
    pack("an image of 7 with f = 2", 0, 0, 7, 0, PEBRASSOLA_IN_FORCE);
    deliver("an image of 7 with f = 2", 7, ECHO, 1, 0, 0);
    size = STORY_IMAGE;
}

/* ---- A8 */

/* bytes of the story's image before A8, and of a controller's that is alone */
enum { OLD_STORY_IMAGE = 144, OLD_ALONE_IMAGE = 60 };

/* an image of n controllers that has sent echo k, in the old form or, where its mark is 1, in the new one; nothing is held */
static void put_header(uint8_t *b, unsigned mark, unsigned n, unsigned f, unsigned mode, uint32_t own, uint32_t k)
{
    unsigned bytes = 32 + (mark ? 44 : 28) * n;
    memset(b, 0, bytes);
    put4(b, n << 24 | f << 16 | mode << 8 | mark);
    put4(b + 4, own);
    put4(b + 8, k);
    put4(b + 12, k);
    put4(b + 16, 32u << 16 | bytes);
}

/* a serial and its two sets; a mask has 8 bytes in the old form and 8 zeros before them in the new one */
static void put_row(uint8_t *b, unsigned mark, unsigned i, uint32_t serial, uint32_t echo, uint64_t echoes, uint32_t init, uint64_t inits)
{
    unsigned zeros = mark ? 8 : 0;
    uint8_t *row = b + 32 + (28 + 2 * zeros) * i, *behind = row + 16 + zeros;
    put4(row, serial);
    put4(row + 4, echo);
    put4(row + 8 + zeros, (uint32_t)(echoes >> 32));
    put4(row + 12 + zeros, (uint32_t)echoes);
    put4(behind, init);
    put4(behind + 4 + zeros, (uint32_t)(inits >> 32));
    put4(behind + 8 + zeros, (uint32_t)inits);
}

/* what W9 leaves: 11 holds echo 0, 22 echo 6, 5, 4 and 0, 33 echo 5, 4, 3 and 0, 44 echo 4 to 0; 11 and 22 hold init 1 */
static void put_w9(uint8_t *b, unsigned mark)
{
    put_header(b, mark, 4, 1, 1, 11, 5);
    put_row(b, mark, 0, 11, 0, 1, 1, 1);
    put_row(b, mark, 1, 22, 6, 0x47, 1, 1);
    put_row(b, mark, 2, 33, 5, 0x27, 0, 0);
    put_row(b, mark, 3, 44, 4, 0x1F, 0, 0);
}

/* a controller that is alone at tick 9 and has sent echo 8; echo 10 is held, and init 63 and 0, as far apart as an old set can have them */
static void put_wide(uint8_t *b, unsigned mark)
{
    put_header(b, mark, 1, 0, 1, 7, 9);
    put4(b + 12, 8);
    put_row(b, mark, 0, 7, 10, 1, 63, 0x8000000000000001u);
}

/* converts into the image buffer, where bytes behind have to stay; `known` is the new image, or NULL with the number of a refusal */
static void convert(const char *call, const uint8_t *old, size_t length, uint32_t number, const uint8_t *known, size_t known_length)
{
    struct pebrassola_written w;
    memset(image, 0xEE, sizeof image);
    keep_bytes();
    w = pebrassola_convert(old, length, image, size);
    expect(call, w.number, w.written, number, (uint32_t)known_length);
    if (known) memcpy(image_before, known, known_length);
    expect_image(call, 0, image_before, sizeof image);
}

static void refuse(const char *call, const uint8_t *old, size_t length, uint32_t number)
{
    convert(call, old, length, number, NULL, 0);
}

/* the old image of W9 with one byte set */
static void refuse_w9(const char *call, unsigned at, unsigned byte)
{
    uint8_t old[OLD_STORY_IMAGE];
    put_w9(old, 0);
    old[at] = (uint8_t)byte;
    refuse(call, old, sizeof old, 8);
}

static void old_images(void)
{
    static const uint8_t fresh[OLD_ALONE_IMAGE + 3] = {[0] = 1, [7] = 7, [17] = 32, [19] = 60, [35] = 7, [60] = 0xEE, [62] = 1};
    static const uint8_t made[ALONE_IMAGE] = {[0] = 1, [3] = 1, [7] = 7, [17] = 32, [19] = 76, [35] = 7};
    uint8_t old[OLD_ALONE_IMAGE], new[ALONE_IMAGE];
    size = MOST_IMAGE;
    convert("a fresh one", fresh, OLD_ALONE_IMAGE, 0, made, sizeof made);
    convert("a fresh one with bytes behind", fresh, sizeof fresh, 0, made, sizeof made);
    put_wide(old, 0);
    put_wide(new, 1);
    convert("ticks 63 apart", old, sizeof old, 0, new, sizeof new);
    size = ALONE_IMAGE;
    convert("room for the image alone", old, sizeof old, 0, new, sizeof new);
    size = ALONE_IMAGE - 1;
    refuse("a byte of room too little", old, sizeof old, 6);
    size = 0;
    refuse("no room", old, sizeof old, 6);
    old[3] = 1;
    refuse("byte 3 is 1, and no room", old, sizeof old, 8);
    refuse("nothing, and no room", NULL, 0, 8);
    size = MOST_IMAGE;
    refuse("byte 3 is 1", old, sizeof old, 8);
    refuse("nothing", NULL, 0, 8);
    refuse("a new image", new, sizeof new, 8);
    new[3] = 0;
    refuse("a new image with byte 3 of an old one", new, sizeof new, 8);
}

/* seven controllers of which nothing is held, with the f that A7 asks and with less */
static void old_faults(void)
{
    uint8_t old[228], new[340];
    put_header(old, 0, 7, 2, 1, 7, 10);
    put_header(new, 1, 7, 2, 1, 7, 10);
    for (unsigned i = 0; i < 7; i++) {
        put_row(old, 0, i, i + 1, 0, 0, 0, 0);
        put_row(new, 1, i, i + 1, 0, 0, 0, 0);
    }
    convert("f = 2 of 7", old, sizeof old, 0, new, sizeof new);
    old[1] = 1;
    refuse("f = 1 of 7", old, sizeof old, 8);
}

/* each of these differs from the old image of W9 in one byte, and is not sound by another of document 01's conditions */
static void unsound_old_images(void)
{
    uint8_t old[OLD_STORY_IMAGE];
    put_w9(old, 0);
    refuse("an old image that is cut", old, sizeof old - 1, 8);
    refuse_w9("n = 3", 0, 3);
    refuse_w9("f = 0 of 4", 1, 0);
    refuse_w9("mode 2", 2, 2);
    refuse_w9("byte 3 is 2", 3, 2);
    refuse_w9("own serial 12", 7, 12);
    refuse_w9("offset 33", 17, 33);
    refuse_w9("the size of a new image", 19, 208);
    refuse_w9("byte 31", 31, 1);
    refuse_w9("22 twice", 35, 22);
    refuse_w9("last echo 6", 15, 6);
    refuse_w9("bit 7 of top 6", 75, 0xC7);
    refuse_w9("bit 63 of top 6", 68, 0x80);
    refuse_w9("bit 0 clear", 75, 0x46);
    refuse_w9("top 1 of an empty set", 107, 1);
    refuse_w9("echo 5 unsent", 15, 4); /* R2 could fire, as 22 and 33 hold echo 5 */
    refuse_w9("passive", 2, 0);        /* R5: 11 and 22 hold init 1 */
}

/* the converted image of W9 is the one that W9 leaves, and lives on; the old one is refused by the calls of a node */
static void converted_story(void)
{
    static const uint8_t marks[] = {0, 2, 3, 128, 255};
    uint8_t old[OLD_STORY_IMAGE], known[STORY_IMAGE];
    put_w9(old, 0);
    put_w9(known, 1);
    size = STORY_IMAGE;
    memcpy(image, old, sizeof old);
    read_clock("an old image", 8, 0);
    try_deliver("an old image", 22, ECHO, 69, 8);
    pack("an old image", 0, 0, 7, 8, 0);
    story();
    expect_image("W9", 0, known, sizeof known);
    convert("W9", old, sizeof old, 0, known, sizeof known);
    windows();
    for (unsigned i = 0; i < sizeof marks; i++) {
        image[3] = marks[i];
        read_clock("another byte 3", 8, 0);
        try_deliver("another byte 3", 22, ECHO, 69, 8);
        pack("another byte 3", 0, 0, 7, 8, 0);
    }
}

/* ---- A13: four readings at most, of which as many are lent as are said to be */

static void correct(const char *call, uint32_t n, uint32_t f, const uint32_t *readings, size_t count, uint32_t expected, uint32_t known,
                    int64_t known_correction)
{
    struct pebrassola_correction r = pebrassola_correct(n, f, readings, count, expected);
    answers++;
    if (r.number == known && r.correction == known_correction) return;
    wrong++;
    printf("%s: number %u with correction %lld, and the papers say %u with %lld\n", call, (unsigned)r.number,
           (long long)r.correction, known, (long long)known_correction);
}

static void correct_four(const char *call, uint32_t a, uint32_t b, uint32_t c, uint32_t d, uint32_t expected, int64_t known)
{
    const uint32_t readings[] = {a, b, c, d};
    correct(call, 4, 1, readings, 4, expected, 0, known);
}

static void corrections(void)
{
    static const uint32_t below[] = {0xFFFFFFFFu, 0xFFFFFFFEu, 0x80000000u, 0x7FFFFFFFu, 5};
    correct("half a turn below", 1, 0, below + 2, 1, 0, 0, 2147483648);
    correct("half a turn above, less one", 1, 0, below + 3, 1, 0, 0, -2147483647);
    correct("as expected", 1, 0, below + 4, 1, 5, 0, 0);
    correct("past the wrap", 1, 0, below + 4, 1, 0xFFFFFFFFu, 0, -6);
    correct("-1 and -2, halved downwards", 2, 0, below, 2, 0, 0, 2);
    correct_four("the least and the greatest dropped", 100, 2, 7, 0x80000000u, 0, -4);
    correct_four("the same in another order", 0x80000000u, 7, 100, 2, 0, -4);
    correct_four("equal readings count each", 9, 9, 9, 50, 10, 1);
    correct_four("one bad reading of four", 1000, 3000000000u, 1000, 1000, 990, -10);
    correct("n = 0", 0, 0, below, 0, 0, 2, 0);
    correct("n = 33", 33, 10, below, 5, 0, 2, 0);
    correct("f = 1 of 3", 3, 1, below, 3, 0, 2, 0);
    correct("an f of which thrice as much and one is 0 in 32 bits", 4, 0x55555555u, below, 4, 0, 2, 0);
    correct("f = 0 of 4", 4, 0, below, 4, 0, 21, 0);
    correct("f = 0 of 4, and three readings", 4, 0, below, 3, 0, 21, 0);
    correct("three readings of four", 4, 1, below, 3, 0, 29, 0);
    correct("five readings of four", 4, 1, below, 5, 0, 29, 0);
    correct("no readings", 1, 0, NULL, 0, 0, 29, 0);
}

int main(void)
{
    story();
    windows();
    refusals();
    flags();
    idle();
    most_alone();
    most_of_four();
    sheets();
    full_faults();
    full_faults_of_images();
    old_images();
    old_faults();
    unsound_old_images();
    converted_story();
    corrections();
    printf("header: %u answers, %u wrong\n", answers, wrong);
    return wrong != 0;
}
