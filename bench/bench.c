/*
 * What a call costs, the proved one beside others that do the same, all in one program on one machine.
 *
 * Nodes: boot, a typical deliver, the dearest, and read, at n = 4, 7 and 32, beside the two peers of bench/peers. A typical deliver is one
 * of a recorded run of 4,096; the dearest is that of the dearest image among the families of inputs.c, of each peer its own. The floor
 * reads an image's bytes once and does nothing else. Old images and sheets: beside the plain model of tests/compare.
 *
 * With no word it tells nanoseconds, the least of many rounds. With -DCOUNTED it has callgrind count instructions, to be run under it with
 * --instr-atstart=no: each figure is the difference of two dumps, of more rounds and of fewer, so that what is done once falls out. Either
 * way a line is: what, n, who, figure. bench/table makes the tables of docs/PERFORMANCE.md of them.
 */
#define _XOPEN_SOURCE 600
#include <stdio.h>
#include <string.h>
#include <time.h>

#include "../tests/compare/model.h"
#include "inputs.h"
#include "peers/calls.h"

#ifdef COUNTED
#include <valgrind/callgrind.h>
#endif

/* ---- who */

typedef struct pebrassola_answer boot_call(const uint8_t *, size_t, uint8_t *, size_t, uint8_t *, size_t);
typedef struct pebrassola_answer deliver_call(uint8_t *, size_t, uint32_t, const uint8_t *, size_t, uint8_t *, size_t);
typedef struct pebrassola_reading read_call(const uint8_t *, size_t);

static const struct peer {
    const char *name;
    boot_call *boot;
    deliver_call *deliver;
    read_call *read;
} peers[] = {
    {"proved", pebrassola_boot, pebrassola_deliver, pebrassola_read},
    {"plain", plain_boot, plain_deliver, plain_read},
    {"lean", lean_boot, lean_deliver, lean_read},
};

enum { PEERS = sizeof peers / sizeof *peers };

/* ---- what a round of each does */

static const struct peer *peer;
static size_t size, form_size, old_size;
static uint8_t form[PEBRASSOLA_FORM_BYTES(MOST)], fresh[PEBRASSOLA_IMAGE_BYTES(MOST)], image[sizeof fresh], out[PEBRASSOLA_OUT_BYTES];
static uint8_t old[PEBRASSOLA_OLD_IMAGE_BYTES(MOST)];
static struct event dear;
static volatile uint64_t sink;

static void boots(void)
{
    sink += peer->boot(form, form_size, image, size, out, sizeof out).number;
}

static void delivers_run(void)
{
    memcpy(image, fresh, size);
    for (unsigned e = 0; e < EVENTS; e++)
        sink += peer->deliver(image, size, events[e].port, events[e].frame, sizeof events[e].frame, out, sizeof out).records;
}

static void copies(void)
{
    memcpy(image, fresh, size);
}

static void delivers_dear(void)
{
    copies();
    sink += peer->deliver(image, size, dear.port, dear.frame, sizeof dear.frame, out, sizeof out).records;
}

static void reads(void)
{
    sink += peer->read(image, size).number;
}

static void reads_bytes(void)
{
    uint64_t all = 0, eight;
    for (size_t i = 0; i + sizeof eight <= size; i += sizeof eight) {
        memcpy(&eight, image + i, sizeof eight);
        all ^= eight;
    }
    sink += all;
}

/* ---- sheets, asked by an idle node of four, and old images */

enum { ASKING = 4 };

static const uint8_t *sheet;
static uint8_t made[sizeof shuffled];
static unsigned entries;

static void proved_packs(void)
{
    for (unsigned e = 0; e < entries; e++)
        sink += pebrassola_pack(sheet, PEBRASSOLA_SHEET_BYTES(entries), pack_at(e, entries), image, PEBRASSOLA_IMAGE_BYTES(ASKING)).licence;
}

static void model_packs(void)
{
    for (unsigned e = 0; e < entries; e++)
        sink += model_pack(sheet, PEBRASSOLA_SHEET_BYTES(entries), pack_at(e, entries), image, PEBRASSOLA_IMAGE_BYTES(ASKING)).value;
}

static void proved_writes(void)
{
    sink += pebrassola_write_sheet(sheet + 4, PEBRASSOLA_SHEET_BYTES(entries) - 4, made, sizeof made).written;
}

static void model_writes(void)
{
    sink += model_write_sheet(sheet + 4, PEBRASSOLA_SHEET_BYTES(entries) - 4, made, sizeof made).value;
}

static void proved_converts(void)
{
    sink += pebrassola_convert(old, old_size, image, sizeof image).written;
}

static void model_converts(void)
{
    sink += model_convert(old, old_size, image, sizeof image).value;
}

/* ---- figures */

#ifdef COUNTED

/* dumps are told apart by their labels; the table takes their difference */
static void measure(const char *what, unsigned n, const char *who, void (*round)(void), unsigned calls, unsigned rounds)
{
    char label[99];
    unsigned some[] = {1, 1 + rounds / 8 + 1};
    round();
    for (unsigned s = 0; s < 2; s++) {
        CALLGRIND_START_INSTRUMENTATION;
        CALLGRIND_ZERO_STATS;
        for (unsigned r = 0; r < some[s]; r++) round();
        sprintf(label, "%s;%u;%s;%u", what, n, who, some[s] * calls);
        CALLGRIND_DUMP_STATS_AT(label);
        CALLGRIND_STOP_INSTRUMENTATION;
    }
}

#else

static double now(void)
{
    struct timespec t;
    clock_gettime(CLOCK_MONOTONIC, &t);
    return 1e9 * (double)t.tv_sec + (double)t.tv_nsec;
}

/* one call of the batch that took least; a batch is long enough for the clock */
static void measure(const char *what, unsigned n, const char *who, void (*round)(void), unsigned calls, unsigned rounds)
{
    enum { BATCHES = 25 };
    double least = 1e18;
    round();
    for (unsigned batch = 0; batch < BATCHES; batch++) {
        double start = now(), taken;
        for (unsigned r = 0; r < rounds; r++) round();
        taken = now() - start;
        if (taken < least) least = taken;
    }
    printf("%s;%u;%s;%.1f\n", what, n, who, least / rounds / calls);
}

#endif

static void measure_nodes(unsigned n)
{
    record_run(n);
    make_form(n, 0, form);
    form_size = PEBRASSOLA_FORM_BYTES(n);
    size = boot(n, 0, fresh);
    for (peer = peers; peer < peers + PEERS; peer++) {
        measure("boot", n, peer->name, boots, 1, 100);
        boot(n, 0, fresh);
        measure("deliver, typical", n, peer->name, delivers_run, EVENTS, 2);
        measure("read", n, peer->name, reads, 1, 100);
    }
    measure("floor", n, "floor", reads_bytes, 1, 100);
    measure("copy", n, "copy", copies, 1, 100);
    for (unsigned family = 0; family < FAMILIES; family++) {
        dear = make_dear(n, family, fresh);
        for (peer = peers; peer < peers + PEERS; peer++) measure("deliver, dearest", n, peer->name, delivers_dear, 1, 8);
    }
}

static void measure_old(unsigned n)
{
    static const char *const kinds[] = {"convert, fresh", "convert, dear"};
    for (int kind = 0; kind < 2; kind++) {
        old_size = make_old(n, kind, old);
        measure(kinds[kind], n, "proved", proved_converts, 1, 64);
        measure(kinds[kind], n, "plain", model_converts, 1, 64);
    }
}

static void measure_sheets(unsigned count)
{
    static const char *const packs[] = {"pack, ascending", "pack, shuffled"};
    static const char *const writes[] = {"write_sheet, of ascending", "write_sheet, of shuffled"};
    make_asking(ASKING, image);
    make_sheets(count);
    entries = count;
    for (int order = 0; order < 2; order++) {
        sheet = order ? shuffled : ascending;
        measure(packs[order], count, "proved", proved_packs, count, 1);
        measure(packs[order], count, "plain", model_packs, count, 1);
        measure(writes[order], count, "proved", proved_writes, 1, 16);
        measure(writes[order], count, "plain", model_writes, 1, 16);
    }
}

int main(void)
{
    for (unsigned s = 0; s < SIZES; s++) measure_nodes(sizes[s]);
    for (unsigned s = 0; s < SIZES; s++) measure_old(sizes[s]);
    measure_sheets(1);
    measure_sheets(20);
    measure_sheets(PEBRASSOLA_MOST_ENTRIES);
    return 0;
}
