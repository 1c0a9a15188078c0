/*
 * A truck with four controllers on a bus in memory, powered up one after another. Three run Pebrassola; the fourth lies: it answers
 * whatever it hears with frames of its own making, another one to each. Prints a line whenever a clock moves and whenever a pack of
 * the truck's sheet starts or ends on a controller, until the three are active and ten ticks on; then how many rules a delivery fired at
 * most, beside what a scheduler has to allow for.
 */
#include <stdio.h>
#include <string.h>

#include "pebrassola.h"

enum { NODES = 4, LIAR = 3, PLACES = 4096, POWER_UP_EVERY = 12, PACKS = 2 };

static const uint32_t serials[NODES] = {1107, 2040, 3313, 4096};

/* the truck's licences as the dealer noted them, in no order: in force from tick first until the tick before end */
static const struct {
    uint32_t pack, first, end;
} sold[PACKS] = {{52, 3, 6}, {17, 5, 9}};

struct message {
    unsigned from, to;
    uint8_t frame[PEBRASSOLA_FRAME_BYTES];
};

struct controller {
    int powered, uses[PACKS];
    uint8_t image[PEBRASSOLA_IMAGE_BYTES(NODES)];
};

static struct controller nodes[NODES];
static uint8_t sheet[PEBRASSOLA_SHEET_BYTES(PACKS)];
static struct message bus[PLACES];
static unsigned first, waiting;
static uint32_t most_fired; /* by one delivery */

static void put_word(uint8_t *b, uint32_t v)
{
    for (int i = 3; i >= 0; i--, v >>= 8) b[i] = (uint8_t)v;
}

static uint32_t word(const uint8_t *b)
{
    return (uint32_t)b[0] << 24 | (uint32_t)b[1] << 16 | (uint32_t)b[2] << 8 | b[3];
}

/* what finds no place on the bus is lost, as on a wire that is jammed */
static void post(unsigned from, unsigned to, const uint8_t *frame)
{
    struct message *m = &bus[(first + waiting) % PLACES];
    if (waiting == PLACES) return;
    m->from = from;
    m->to = to;
    memcpy(m->frame, frame, sizeof m->frame);
    waiting++;
}

/* a record's destination is a serial, or 0 for all, the sender included */
static void send_records(unsigned from, const uint8_t *out, uint32_t records)
{
    for (uint32_t r = 0; r < records; r++, out += PEBRASSOLA_RECORD_BYTES)
        for (unsigned to = 0; to < NODES; to++)
            if (word(out) == 0 || word(out) == serials[to]) post(from, to, out + 4);
}

static int power_up(unsigned i)
{
    uint8_t form[PEBRASSOLA_FORM_BYTES(NODES)] = {NODES, PEBRASSOLA_FULL_FAULTS(NODES), 0, 8}, out[PEBRASSOLA_OUT_BYTES];
    struct pebrassola_answer a;
    put_word(form + 4, serials[i]);
    for (unsigned line = 0; line < NODES; line++) put_word(form + 8 + 4 * line, serials[line]);
    a = pebrassola_boot(form, sizeof form, nodes[i].image, sizeof nodes[i].image, out, sizeof out);
    if (a.number != PEBRASSOLA_DONE) return printf("boot of %u refused with %u\n", serials[i], a.number), 0;
    nodes[i].powered = 1;
    send_records(i, out, a.records);
    return 1;
}

/* the truck has one sheet, and each controller reads it */
static int write_sheet(void)
{
    uint8_t entries[PACKS * PEBRASSOLA_ENTRY_BYTES], *entry = entries;
    struct pebrassola_written w;
    for (unsigned p = 0; p < PACKS; p++, entry += PEBRASSOLA_ENTRY_BYTES) {
        put_word(entry, sold[p].pack);
        put_word(entry + 4, sold[p].first);
        put_word(entry + 8, sold[p].end);
    }
    w = pebrassola_write_sheet(entries, sizeof entries, sheet, sizeof sheet);
    if (w.number != PEBRASSOLA_DONE) return printf("sheet refused with %u\n", w.number), 0;
    return 1;
}

/* a refusal is no licence: a passive node, for one, has no clock yet */
static int may_use(const struct controller *c, uint32_t pack)
{
    struct pebrassola_licence l = pebrassola_pack(sheet, sizeof sheet, pack, c->image, sizeof c->image);
    return l.number == PEBRASSOLA_DONE && l.licence == PEBRASSOLA_IN_FORCE;
}

/* to each controller another story: an init or an echo of some tick near the one heard */
static void lie(const uint8_t *heard)
{
    static uint32_t turn;
    uint8_t frame[PEBRASSOLA_FRAME_BYTES] = {0};
    unsigned to = turn++ % LIAR;
    frame[0] = (uint8_t)(1 + turn % 2);
    put_word(frame + 4, word(heard + 4) + turn % 9);
    post(LIAR, to, frame);
}

static int take(const struct message *m)
{
    uint8_t out[PEBRASSOLA_OUT_BYTES];
    struct controller *c = &nodes[m->to];
    struct pebrassola_answer a;
    if (m->to == LIAR) return lie(m->frame), 1;
    if (!c->powered) return 1;
    a = pebrassola_deliver(c->image, sizeof c->image, serials[m->from], m->frame, sizeof m->frame, out, sizeof out);
    if (a.number != PEBRASSOLA_DONE) return printf("%u refused a frame with %u\n", serials[m->to], a.number), 0;
    if (most_fired < a.fired) most_fired = a.fired;
    send_records(m->to, out, a.records);
    return 1;
}

/* prints the clocks if one of them moved; gives the ticks that the slowest has, 0 while one is passive */
static uint32_t show(unsigned step)
{
    static char before[128];
    char line[128];
    int at = 0;
    uint32_t slowest = UINT32_MAX;
    for (unsigned i = 0; i < LIAR; i++) {
        struct pebrassola_reading r = pebrassola_read(nodes[i].image, sizeof nodes[i].image);
        const char *state = !nodes[i].powered ? "off" : r.number == PEBRASSOLA_PASSIVE ? "passive" : 0;
        if (state) at += sprintf(line + at, "  %u %-7s", serials[i], state);
        else at += sprintf(line + at, "  %u %-7u", serials[i], r.clock);
        if (state) r.clock = 0;
        if (r.clock < slowest) slowest = r.clock;
    }
    if (strcmp(line, before) != 0) printf("%5u%s\n", step, line);
    strcpy(before, line);
    return slowest;
}

/* prints where a pack starts or ends */
static void show_packs(void)
{
    for (unsigned i = 0; i < LIAR; i++)
        for (unsigned p = 0; p < PACKS; p++) {
            int now = may_use(&nodes[i], sold[p].pack);
            if (now == nodes[i].uses[p]) continue;
            printf("       pack %u %s on %u at tick %u\n", sold[p].pack, now ? "starts" : "ends", serials[i],
                   pebrassola_read(nodes[i].image, sizeof nodes[i].image).clock);
            nodes[i].uses[p] = now;
        }
}

int main(void)
{
    uint32_t goal = 0;
    if (!write_sheet()) return 1;
    for (unsigned step = 0; step < 100000; step++) {
        uint32_t slowest;
        if (step % POWER_UP_EVERY == 0 && step / POWER_UP_EVERY < LIAR && !power_up(step / POWER_UP_EVERY)) return 1;
        if (waiting) {
            struct message m = bus[first];
            first = (first + 1) % PLACES;
            waiting--;
            if (!take(&m)) return 1;
        }
        slowest = show(step);
        show_packs();
        if (slowest && !goal) goal = slowest + 10;
        if (goal && slowest >= goal) {
            printf("no delivery fired more than %u rules; a scheduler allows for %u\n", most_fired, PEBRASSOLA_PROVED_FIRED(NODES));
            return 0;
        }
    }
    puts("no common clock after 100000 steps");
    return 1;
}
