/*
 * Feeds the proved calls and the plain model the same calls and compares numbers, counts and every byte of every buffer, with guard
 * bytes around each: nodes.c boot, deliver and read, conversions.c convert, sheets.c pack and write_sheet, corrections.c correct. Fixed
 * seed. Prints the greatest figures of one delivery beside the header's, the calls and the differences; ends with status 1 where there is
 * one, or where too little was compared.
 */
#include "compare.h"

#include <stdio.h>
#include <string.h>

#include "pebrassola.h"

static unsigned long calls, differences;
static uint64_t seed = 0x9E3779B97F4A7C15u;

uint32_t any(uint32_t below)
{
    seed ^= seed << 13;
    seed ^= seed >> 7;
    seed ^= seed << 17;
    return (uint32_t)((seed >> 16) % below);
}

void change_byte(uint8_t *bytes, uint32_t length)
{
    uint8_t *byte = bytes + any(length);
    *byte ^= (uint8_t)(1 + any(255));
}

void shuffle(uint8_t *items, unsigned count, size_t bytes)
{
    uint8_t held[16];
    for (unsigned i = count; i > 1; i--) {
        uint8_t *last = items + bytes * (i - 1), *other = items + bytes * any(i);
        memcpy(held, last, bytes);
        memmove(last, other, bytes);
        memcpy(other, held, bytes);
    }
}

void hold(const char *fact, int holds)
{
    if (holds) return;
    differences++;
    if (differences <= 10) printf("differs: %s, call %lu\n", fact, calls);
}

void check(const char *call, int same)
{
    calls++;
    hold(call, same);
}

/* whether a delivery brought as much as the header allows one of n controllers */
static int reached(struct figures most, unsigned n)
{
    return most.fired == PEBRASSOLA_PROVED_FIRED(n) && most.records == PEBRASSOLA_PROVED_RECORDS(n);
}

int main(void)
{
    struct node_calls nodes = compare_nodes();
    struct sheet_calls sheets = compare_sheets();
    struct conversion_calls conversions = compare_conversions();
    struct correction_calls corrections = compare_corrections();
    printf("compare: one delivery brought up to %u of %u firings and %u of %u records where n is 1, %u of %u and %u of %u where it is "
           "more\n",
           nodes.alone.fired, PEBRASSOLA_PROVED_FIRED(1), nodes.alone.records, PEBRASSOLA_PROVED_RECORDS(1), nodes.together.fired,
           PEBRASSOLA_PROVED_FIRED(2), nodes.together.records, PEBRASSOLA_PROVED_RECORDS(2));
    printf("compare: %lu conversions (%lu random sound images from before A8), each number %lu times or more\n", conversions.all,
           conversions.sound_images, conversions.rarest);
    printf("compare: %lu corrections, each number and each end of the range %lu times or more\n", corrections.all, corrections.rarest);
    printf("compare: %lu calls (%lu random sound images; echo 0 of another %lu times as a broadcast, %lu times as an answer; each number "
           "%lu times or more; %lu calls of sheets, each outcome %lu times or more), %lu differences\n",
           calls, nodes.sound_images, nodes.zeros[0], nodes.zeros[1], nodes.rarest_number, sheets.all, sheets.rarest, differences);
    if (calls < 600000 || nodes.sound_images < 1000 || nodes.zeros[0] < 1000 || nodes.zeros[1] < 1000) return 1;
    if (nodes.rarest_number < 500) return 1;
    if (!reached(nodes.alone, 1) || !reached(nodes.together, 2)) return 1;
    if (corrections.all < 50000 || corrections.rarest < 500) return 1;
    if (conversions.all < 50000 || conversions.sound_images < 1000 || conversions.rarest < 2000) return 1;
    return differences != 0 || sheets.all < 200000 || sheets.rarest < 1000;
}
