/*
 * Compares correct with the model: readings about what was expected, about half a turn from it and anywhere, many of them equal, few and
 * all n of them bad; every n and f about the limits, n and f of which thrice as much wraps; a reading too few and too many, and none, with
 * a pointer that may not be read. Whatever is asked is asked once more with the readings in another order, and once more with all of them
 * and the expected one turned on by the same amount, and nothing may differ.
 */
#include <string.h>

#include "compare.h"
#include "lent.h"
#include "model.h"
#include "pebrassola.h"

enum { READINGS = 40, NUMBERS = 30, MOST_CONTROLLERS = 32 };

static unsigned long all, came[NUMBERS]; /* calls, and how often each number came */
static unsigned long ends[2];            /* how often the least and the greatest correction came */

static const uint32_t half_a_turn = 0x80000000u;

/* ---- the call, on a copy */

static struct both lent;

static struct pebrassola_correction correct_once(uint32_t n, uint32_t f, const uint32_t *readings, size_t count, uint32_t expected)
{
    struct pebrassola_correction r;
    struct model_correction m;
    lend(&lent, (const uint8_t *)readings, count * sizeof *readings);
    r = pebrassola_correct(n, f, (const uint32_t *)(const void *)place(&lent.proved), count, expected);
    m = model_correct(n, f, readings, count, expected);
    check("correct", r.number == m.number && r.correction == m.correction && same(&lent));
    all++;
    came[m.number]++;
    ends[0] += m.correction == -2147483647;
    ends[1] += m.correction == 2147483648;
    return r;
}

static void correct(uint32_t n, uint32_t f, const uint32_t *readings, size_t count, uint32_t expected)
{
    uint32_t others[READINGS] = {0}, more = any(0xFFFFFFFFu);
    struct pebrassola_correction r = correct_once(n, f, readings, count, expected), again;
    memcpy(others, readings, count * sizeof *readings);
    shuffle((uint8_t *)others, (unsigned)count, sizeof *others);
    again = correct_once(n, f, others, count, expected);
    hold("correct, by another order", r.number == again.number && r.correction == again.correction);
    for (size_t i = 0; i < count; i++) others[i] += more;
    again = correct_once(n, f, others, count, expected + more);
    hold("correct, by a counter that is turned on", r.number == again.number && r.correction == again.correction);
}

/* ---- what is fed */

/* about what was expected, about half a turn from it, or anywhere */
static uint32_t some_reading(uint32_t expected)
{
    switch (any(4)) {
    case 0: return any(0xFFFFFFFFu);
    case 1: return expected + half_a_turn + any(5) - 2;
    default: return expected + any(9) - 4;
    }
}

static uint32_t some_expected(void)
{
    static const uint32_t edges[] = {0, 1, 0x7FFFFFFFu, 0x80000000u, 0x80000001u, 0xFFFFFFFFu};
    return any(2) ? edges[any(sizeof edges / sizeof edges[0])] : any(0xFFFFFFFFu);
}

/* good readings, few apart, with bad ones among them anywhere */
static void make_readings(uint32_t *readings, unsigned count, uint32_t expected, unsigned bad)
{
    uint32_t good = any(3) ? expected + any(1000) - 500 : some_reading(expected), spread = any(3) ? any(20) + 1 : 1;
    for (unsigned i = 0; i < count; i++) readings[i] = i < bad ? some_reading(expected) : good + any(spread);
    shuffle((uint8_t *)readings, count, sizeof *readings);
}

static void random_readings(unsigned n)
{
    uint32_t readings[READINGS] = {0}, expected = some_expected();
    unsigned f = PEBRASSOLA_FULL_FAULTS(n);
    make_readings(readings, n, expected, any(3) ? f : n);
    correct(n, f, readings, n, expected);
}

/* all at one end of the range, but for f of them */
static void at_an_end(unsigned n)
{
    uint32_t readings[READINGS] = {0}, expected = some_expected(), end = expected + half_a_turn - any(2);
    for (unsigned i = 0; i < n; i++) readings[i] = i < PEBRASSOLA_FULL_FAULTS(n) ? some_reading(expected) : end;
    correct(n, PEBRASSOLA_FULL_FAULTS(n), readings, n, expected);
}

/* every f about the full one, and some of which thrice as much and one is about n once it has wrapped */
static void limits(uint32_t n)
{
    static const uint32_t wraps[] = {0x55555555u, 0x55555556u, 0xAAAAAAAAu, 0xAAAAAAABu, 0xFFFFFFFFu, 0x80000000u, 256, 65536};
    uint32_t readings[READINGS] = {0};
    size_t count = n < READINGS ? n : READINGS;
    make_readings(readings, (unsigned)count, 5, 3);
    for (uint32_t f = 0; f <= 12; f++) {
        correct(n, f, readings, count, 5);
        if (count > 0) correct(n, f, readings, count - 1, 5);
        if (count < READINGS) correct(n, f, readings, count + 1, 5);
    }
    for (unsigned i = 0; i < sizeof wraps / sizeof wraps[0]; i++) correct(n, wraps[i], readings, count, 5);
}

/* every count of readings for an n and its f, and none of them at each place that may not be read */
static void counts(unsigned n)
{
    uint32_t readings[READINGS] = {0};
    make_readings(readings, READINGS, 0, 3);
    for (size_t count = 0; count <= READINGS; count++) correct(n, PEBRASSOLA_FULL_FAULTS(n), readings, count, 0);
    for (unsigned p = 0; p < NO_PLACES; p++) {
        nowhere = no_place(p);
        correct(n, PEBRASSOLA_FULL_FAULTS(n), readings, 0, 0);
    }
    nowhere = NULL;
}

struct correction_calls compare_corrections(void)
{
    static const uint32_t others[] = {0, 33, 34, 37, 256, 65536, 0x80000000u, 0xFFFFFFFFu};
    static const unsigned numbers[] = {0, 2, 21, 29};
    struct correction_calls told;
    for (unsigned n = 1; n <= MOST_CONTROLLERS; n++) {
        for (unsigned round = 0; round < 800; round++) random_readings(n);
        for (unsigned round = 0; round < 20; round++) at_an_end(n);
        limits(n);
        counts(n);
    }
    for (unsigned i = 0; i < sizeof others / sizeof others[0]; i++) limits(others[i]);
    told.all = all;
    told.rarest = ends[0] < ends[1] ? ends[0] : ends[1];
    for (unsigned i = 0; i < sizeof numbers / sizeof numbers[0]; i++)
        if (came[numbers[i]] < told.rarest) told.rarest = came[numbers[i]];
    return told;
}
