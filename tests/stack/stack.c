/*
 * The deepest stack of each exported call, by painting the stack that it runs on: over a recorded run, on the dearest images that we know,
 * on old images, on images that are not sound, on a full sheet and on n readings, at n = 4, 7 and 32. Reads what the code of each call
 * takes at most for any input (bounds.py), prints both beside what the header says, and holds them to one another, to 2 KiB and to less
 * than an unpacked image takes (02, A3).
 */
#define _XOPEN_SOURCE 600
#include <stdio.h>
#include <string.h>
#include <ucontext.h>

#include "../../bench/inputs.h"

#if !PEBRASSOLA_BOOT_STACK_BYTES || !PEBRASSOLA_DELIVER_STACK_BYTES || !PEBRASSOLA_READ_STACK_BYTES || \
    !PEBRASSOLA_PACK_STACK_BYTES || !PEBRASSOLA_WRITE_SHEET_STACK_BYTES || !PEBRASSOLA_CONVERT_STACK_BYTES || \
    !PEBRASSOLA_CORRECT_STACK_BYTES || !PEBRASSOLA_STACK_BYTES
#error "a figure of the stack is no number that the preprocessor can budget with"
#endif

enum { LIMIT = 2048, UNPACKED = PEBRASSOLA_IMAGE_BYTES(MOST), RED_ZONE = 128, PAINTED = 1 << 14 };

/* ---- the calls, and calls of the same shape that only note where the stack pointer of their caller stands */

struct calls {
    struct pebrassola_answer (*boot)(const uint8_t *, size_t, uint8_t *, size_t, uint8_t *, size_t);
    struct pebrassola_answer (*deliver)(uint8_t *, size_t, uint32_t, const uint8_t *, size_t, uint8_t *, size_t);
    struct pebrassola_reading (*read)(const uint8_t *, size_t);
    struct pebrassola_licence (*pack)(const uint8_t *, size_t, uint32_t, const uint8_t *, size_t);
    struct pebrassola_written (*write_sheet)(const uint8_t *, size_t, uint8_t *, size_t);
    struct pebrassola_written (*convert)(const uint8_t *, size_t, uint8_t *, size_t);
    struct pebrassola_correction (*correct)(uint32_t, uint32_t, const uint32_t *, size_t, uint32_t);
};

static uint8_t *volatile caller;

/* the frame of the function that says this begins with the caller's frame pointer, and above that lies the return address */
#define NOTE_CALLER() (caller = (uint8_t *)__builtin_frame_address(0) + 2 * sizeof(void *))

#pragma GCC diagnostic push
#pragma GCC diagnostic ignored "-Wunused-parameter"
static struct pebrassola_answer note_boot(const uint8_t *form, size_t form_length, uint8_t *image, size_t image_length, uint8_t *out,
                                          size_t out_length)
{
    NOTE_CALLER();
    return (struct pebrassola_answer){0, 0, 0};
}

static struct pebrassola_answer note_deliver(uint8_t *image, size_t image_length, uint32_t port, const uint8_t *frame, size_t frame_length,
                                             uint8_t *out, size_t out_length)
{
    NOTE_CALLER();
    return (struct pebrassola_answer){0, 0, 0};
}

static struct pebrassola_reading note_read(const uint8_t *image, size_t image_length)
{
    NOTE_CALLER();
    return (struct pebrassola_reading){0, 0};
}

static struct pebrassola_licence note_pack(const uint8_t *sheet, size_t sheet_length, uint32_t pack, const uint8_t *image,
                                           size_t image_length)
{
    NOTE_CALLER();
    return (struct pebrassola_licence){0, 0};
}

static struct pebrassola_written note_write_sheet(const uint8_t *entries, size_t entries_length, uint8_t *out, size_t out_length)
{
    NOTE_CALLER();
    return (struct pebrassola_written){0, 0};
}

static struct pebrassola_written note_convert(const uint8_t *old, size_t old_length, uint8_t *image, size_t image_length)
{
    NOTE_CALLER();
    return (struct pebrassola_written){0, 0};
}

static struct pebrassola_correction note_correct(uint32_t count, uint32_t faults, const uint32_t *readings, size_t readings_count,
                                                 uint32_t expected)
{
    NOTE_CALLER();
    return (struct pebrassola_correction){0, 0};
}
#pragma GCC diagnostic pop

static const struct calls exported = {pebrassola_boot,        pebrassola_deliver, pebrassola_read,   pebrassola_pack,
                                      pebrassola_write_sheet, pebrassola_convert, pebrassola_correct};
static const struct calls noting = {note_boot, note_deliver, note_read, note_pack, note_write_sheet, note_convert, note_correct};

/* ---- one call with what is lent to it, by whichever of the two */

static const struct calls *volatile by;
static volatile uint32_t number;

static unsigned n;
static uint32_t pack;
static struct event event;
static uint8_t form[PEBRASSOLA_FORM_BYTES(MOST)], image[PEBRASSOLA_IMAGE_BYTES(MOST)], out[PEBRASSOLA_OUT_BYTES], made[sizeof shuffled];
static uint8_t old[PEBRASSOLA_OLD_IMAGE_BYTES(MOST)];
static uint32_t readings[MOST];

static void boot_once(void)
{
    number = by->boot(form, PEBRASSOLA_FORM_BYTES(n), image, PEBRASSOLA_IMAGE_BYTES(n), out, sizeof out).number;
}

static void deliver_once(void)
{
    number = by->deliver(image, PEBRASSOLA_IMAGE_BYTES(n), event.port, event.frame, sizeof event.frame, out, sizeof out).number;
}

static void read_once(void)
{
    number = by->read(image, PEBRASSOLA_IMAGE_BYTES(n)).number;
}

static void pack_once(void)
{
    number = by->pack(shuffled, sizeof shuffled, pack, image, PEBRASSOLA_IMAGE_BYTES(n)).number;
}

static void write_sheet_once(void)
{
    number = by->write_sheet(shuffled + 4, sizeof shuffled - 4, made, sizeof made).number;
}

static void convert_once(void)
{
    number = by->convert(old, PEBRASSOLA_OLD_IMAGE_BYTES(n), image, PEBRASSOLA_IMAGE_BYTES(n)).number;
}

static void correct_once(void)
{
    number = by->correct(n, PEBRASSOLA_FULL_FAULTS(n), readings, n, 0).number;
}

/* ---- painting */

enum { BOOT, DELIVER, READ, PACK, WRITE_SHEET, CONVERT, CORRECT, ROWS };

static struct row {
    const char *name;
    void (*once)(void);
    unsigned header, most, painted[SIZES]; /* as the header says; what the code takes at most; what calls took at each n */
} rows[ROWS] = {
    {"pebrassola_boot", boot_once, PEBRASSOLA_BOOT_STACK_BYTES, 0, {0}},
    {"pebrassola_deliver", deliver_once, PEBRASSOLA_DELIVER_STACK_BYTES, 0, {0}},
    {"pebrassola_read", read_once, PEBRASSOLA_READ_STACK_BYTES, 0, {0}},
    {"pebrassola_pack", pack_once, PEBRASSOLA_PACK_STACK_BYTES, 0, {0}},
    {"pebrassola_write_sheet", write_sheet_once, PEBRASSOLA_WRITE_SHEET_STACK_BYTES, 0, {0}},
    {"pebrassola_convert", convert_once, PEBRASSOLA_CONVERT_STACK_BYTES, 0, {0}},
    {"pebrassola_correct", correct_once, PEBRASSOLA_CORRECT_STACK_BYTES, 0, {0}},
};

/* each call runs on two stacks of its own, since the lowest byte that it writes may have the colour of one */
enum { PAINTS = 2 };

static const uint8_t paints[PAINTS] = {0xC7, 0x38};
static uint8_t stacks[ROWS][PAINTS][PAINTED];
static unsigned painted_calls, wrong;

static void run_on(unsigned w, unsigned p, const struct calls *which)
{
    static ucontext_t here, there;
    by = which;
    getcontext(&there);
    there.uc_stack.ss_sp = stacks[w][p];
    there.uc_stack.ss_size = PAINTED;
    there.uc_link = &here;
    makecontext(&there, rows[w].once, 0);
    swapcontext(&here, &there);
}

/* one call, which has to give this number; the image is as one call leaves it */
static void call(unsigned w, uint32_t expected)
{
    static uint8_t before[sizeof image];
    memcpy(before, image, sizeof image);
    for (unsigned p = 0; p < PAINTS; p++) {
        memcpy(image, before, sizeof image);
        run_on(w, p, &exported);
        if (number != expected) printf("stack: %s gave %u and not %u\n", rows[w].name, number, expected), wrong++;
    }
    painted_calls++;
}

/* what takes an image, which is passive where byte 2 is 0; pack, which takes long on a full sheet, on some only */
static void call_with_image(int asks)
{
    uint32_t expected = image[2] ? PEBRASSOLA_DONE : PEBRASSOLA_PASSIVE;
    call(READ, expected);
    if (asks) call(PACK, expected);
    call(DELIVER, PEBRASSOLA_DONE);
}

/* a rule that can fire is looked for to its end, and only in an image that is refused for it */
static void call_unsettled(void)
{
    boot(n, 0, image);
    unsettle(n, 0, image);
    call(READ, PEBRASSOLA_IMAGE);
    call(PACK, PEBRASSOLA_IMAGE);
    call(DELIVER, PEBRASSOLA_IMAGE);
    unsettle(n, 1, old);
    call(CONVERT, PEBRASSOLA_IMAGE);
}

static void call_all(void)
{
    make_sheets(PEBRASSOLA_MOST_ENTRIES);
    pack = pack_at(PEBRASSOLA_MOST_ENTRIES - 1, PEBRASSOLA_MOST_ENTRIES);
    call(WRITE_SHEET, PEBRASSOLA_DONE);
    make_form(n, 0, form);
    call(BOOT, PEBRASSOLA_DONE);
    record_run(n);
    for (unsigned e = 0; e < EVENTS; e++) {
        event = events[e];
        call_with_image(e % 64 == 0);
    }
    for (unsigned family = 0; family < FAMILIES; family++) {
        event = make_dear(n, family, image);
        call_with_image(1);
    }
    make_asking(n, image);
    call(PACK, PEBRASSOLA_DONE);
    for (unsigned i = 0; i < n; i++) readings[i] = 0x9E3779B9u * i; /* on both sides of what is expected, and no two of them equal */
    call(CORRECT, PEBRASSOLA_DONE);
    for (int dear = 1; dear >= 0; dear--) {
        make_old(n, dear, old);
        call(CONVERT, PEBRASSOLA_DONE);
    }
    call_unsettled();
}

static void measure(unsigned s)
{
    n = sizes[s];
    for (unsigned w = 0; w < ROWS; w++)
        for (unsigned p = 0; p < PAINTS; p++) memset(stacks[w][p], paints[p], PAINTED);
    call_all();
    for (unsigned w = 0; w < ROWS; w++)
        for (unsigned p = 0; p < PAINTS; p++) {
            const uint8_t *low = stacks[w][p];
            while (low < stacks[w][p] + PAINTED && *low == paints[p]) low++;
            run_on(w, p, &noting);
            if (rows[w].painted[s] < caller - low) rows[w].painted[s] = (unsigned)(caller - low);
        }
}

/* ---- the verdict */

static void hold(const char *name, unsigned figure, const char *what, unsigned most)
{
    if (figure <= most) return;
    printf("stack: %s %s: %u bytes, above %u\n", name, what, figure, most);
    wrong++;
}

/* a line for each exported function; one that is not painted here is no longer measured */
static void read_bounds(void)
{
    char name[64];
    unsigned most;
    int parts;
    while ((parts = scanf("%63s %u", name, &most)) == 2) {
        unsigned w = 0;
        while (w < ROWS && strcmp(name, rows[w].name)) w++;
        if (w < ROWS) rows[w].most = most;
        else printf("stack: %s is exported and not measured\n", name), wrong++;
    }
    if (parts != EOF) puts("stack: a line of the bounds is no name and number"), wrong++;
    for (unsigned w = 0; w < ROWS; w++)
        if (!rows[w].most) printf("stack: nothing says what %s takes at most\n", rows[w].name), wrong++;
}

static void judge(const struct row *r)
{
    unsigned painted = 0;
    for (unsigned s = 0; s < SIZES; s++)
        if (painted < r->painted[s]) painted = r->painted[s];
    hold(r->name, painted, "took more than its code can", r->most);
    hold(r->name, painted, "took more than A3 allows", LIMIT);
    hold(r->name, r->most, "can take more than was painted, and 128 bytes besides", painted + RED_ZONE);
    hold(r->name, r->most, "can take more than A3 allows", LIMIT);
    hold(r->name, r->most, "has room to unpack an image", UNPACKED - 1);
    hold(r->name, r->most, "can take more than the header says", r->header);
    hold(r->name, r->header, "may by the header take more than A3 allows", LIMIT);
}

int main(void)
{
    unsigned greatest = 0;
    read_bounds();
    for (unsigned s = 0; s < SIZES; s++) measure(s);
    printf("| stack, bytes | n = %u | n = %u | n = %u | at most | header |\n|---|---|---|---|---|---|\n", sizes[0], sizes[1], sizes[2]);
    for (unsigned w = 0; w < ROWS; w++) {
        const struct row *r = &rows[w];
        printf("| %s | %u | %u | %u | %u | %u |\n", r->name, r->painted[0], r->painted[1], r->painted[2], r->most, r->header);
        if (greatest < r->header) greatest = r->header;
    }
    for (unsigned w = 0; w < ROWS; w++) judge(&rows[w]);
    if (PEBRASSOLA_STACK_BYTES != greatest) puts("stack: PEBRASSOLA_STACK_BYTES is not the greatest of the header's figures"), wrong++;
    if (!wrong) printf("stack: no call takes more than %u of %u bytes\n", greatest, LIMIT);
    printf("stack: %u calls painted, %u wrong\n", painted_calls, wrong);
    return wrong != 0;
}
