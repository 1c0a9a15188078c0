/*
 * The best that we can do by hand, on the bytes where they lie: one pass over the rows tells all that soundness and the first rule ask,
 * twins are looked for by buckets, a look at the tops tells where a search can find nothing, else it walks along the tops in order, and
 * after a credit only the ticks that it brought are looked at. After a rule has fired, which few deliveries come to, the rules are asked
 * anew.
 */
#include "peers.h"

struct set {
    uint32_t top;
    uint64_t high, low;
};

static inline struct set get_set(const uint8_t *b)
{
    struct set s = {get4(b), get8(b + 4), get8(b + 12)};
    return s;
}

static inline unsigned held(struct set s, uint32_t t)
{
    uint32_t d = s.top - t;
    if (t > s.top || d >= WINDOW) return 0;
    return (unsigned)((d < 64 ? s.low >> d : s.high >> (d - 64)) & 1);
}

static inline int proper(struct set s)
{
    if (!(s.low & 1)) return !(s.low | s.high | s.top);
    if (s.top >= WINDOW - 1) return s.top <= LAST_TICK;
    return s.top >= 63 ? s.high >> (s.top - 63) == 0 : s.high == 0 && s.low >> s.top >> 1 == 0;
}

/* ---- the roster */

static inline unsigned limits(unsigned n, unsigned f)
{
    if (n - 1 > 31 || n < 3 * f + 1) return PEBRASSOLA_FORM_LIMITS;
    return n > 3 * f + 3 ? PEBRASSOLA_FORM_UNDERSTATED : PEBRASSOLA_DONE;
}

enum { BUCKETS = 256 };

static inline unsigned bucket(uint32_t serial)
{
    return serial * 2654435769u >> 24;
}

static int stands(const uint8_t *from, const uint8_t *to, size_t apart, uint32_t serial)
{
    for (; from < to; from += apart)
        if (get4(from) == serial) return 1;
    return 0;
}

/* ---- the greatest tick that m rows hold: down along the tops in order, and where m rows cover a tick, 64 ticks at a time */

static uint64_t held_by(const uint8_t *sets, unsigned n, unsigned m, uint64_t x)
{
    uint64_t ones, twos, fours, eights, sixteens, over = 0;
    unsigned from = 32 - m;
    ones = (uint64_t)0 - (from & 1);
    twos = (uint64_t)0 - (from >> 1 & 1);
    fours = (uint64_t)0 - (from >> 2 & 1);
    eights = (uint64_t)0 - (from >> 3 & 1);
    sixteens = (uint64_t)0 - (from >> 4 & 1);
    for (unsigned i = 0; i < n; i++, sets += ROW) {
        uint64_t y = (uint64_t)get4(sets) + 1, a, carry;
        if (y + 64 <= x || x + WINDOW <= y) continue;
        if (y < x) {
            a = get8(sets + 12) << (x - y);
        } else {
            uint64_t d = y - x, low = get8(sets + 12), high = get8(sets + 4);
            a = d < 64 ? low >> d | (d ? high << (64 - d) : 0) : high >> (d - 64);
        }
        carry = ones & a, ones ^= a;
        a = carry, carry = twos & a, twos ^= a;
        a = carry, carry = fours & a, fours ^= a;
        a = carry, carry = eights & a, eights ^= a;
        a = carry, carry = sixteens & a, sixteens ^= a;
        over |= carry;
    }
    return over;
}

/* as tick + 1, at least low + 1; 0 for none. The tops that reach so far are put in order; of the windows that have not ended, m have
 * begun from the top of the m-th of them on, so that the walk goes there at once. */
static uint64_t greatest(const uint8_t *sets, unsigned n, unsigned m, uint64_t low)
{
    uint64_t ys[PEBRASSOLA_MOST_CONTROLLERS], x;
    unsigned many = 0, begun = 0, ended = 0;
    for (unsigned i = 0; i < n; i++, sets += ROW) {
        uint64_t y = (uint64_t)get4(sets) + 1;
        unsigned k = many;
        if (y <= low) continue;
        for (; k > 0 && ys[k - 1] < y; k--) ys[k] = ys[k - 1];
        ys[k] = y;
        many++;
    }
    sets -= (size_t)ROW * n;
    x = m <= many ? ys[m - 1] : 0;
    while (low < x) {
        uint64_t over;
        while (begun < many && ys[begun] >= x) begun++;
        while (ended < many && ys[ended] >= x + WINDOW) ended++;
        if (begun - ended < m) {
            x = ended + m <= many ? ys[ended + m - 1] : 0;
            continue;
        }
        over = held_by(sets, n, m, x);
        if (over) {
            uint64_t best = x - (uint64_t)__builtin_ctzll(over);
            return best > low ? best : 0;
        }
        x = x < 64 ? 0 : x - 64;
    }
    return 0;
}

/* ---- the header, and one pass over the rows */

struct node {
    unsigned n, f, mode;
    uint32_t own, k, sent;
};

/* how many hold (init, k) and (echo, k), how many have an echo above k + 1, how many have an init at all */
struct counts {
    unsigned inits, echoes, above, some;
};

static inline void count(struct counts *c, struct set echo, struct set init, uint32_t k)
{
    c->inits += held(init, k);
    c->echoes += held(echo, k);
    c->above += echo.top > k + 1;
    c->some += (unsigned)(init.low & 1);
}

static inline int get_node(struct node *p, const uint8_t *b, size_t length)
{
    if (length < HEADER) return 0;
    p->n = b[0];
    p->f = b[1];
    p->mode = b[2];
    p->own = get4(b + 4);
    p->k = get4(b + 8);
    p->sent = get4(b + 12);
    if (b[3] != 1 || get4(b + 16) != ((uint32_t)HEADER << 16 | (uint32_t)PEBRASSOLA_IMAGE_BYTES(p->n))) return 0;
    if (length < PEBRASSOLA_IMAGE_BYTES(p->n) || (get4(b + 20) | get8(b + 24))) return 0;
    return !limits(p->n, p->f) && p->own && p->mode <= 1 && p->sent <= p->k && p->k <= LAST_TICK;
}

/* whether the rows are proper and the roster is; what they count, and the row of the port */
static inline int look(const struct node *p, const uint8_t *rows, uint32_t port, struct counts *c, const uint8_t **row)
{
    uint8_t met[BUCKETS] = {0};
    const uint8_t *at = rows, *end = rows + ROW * p->n;
    unsigned found = 0;
    for (; at < end; at += ROW) {
        uint32_t serial = get4(at);
        unsigned b = bucket(serial);
        struct set echo = get_set(at + 4), init = get_set(at + 24);
        if (!serial || (met[b] && stands(rows, at, ROW, serial))) return 0;
        met[b] = 1;
        found |= serial == p->own;
        if (serial == port) *row = at;
        if (!proper(echo) || !proper(init)) return 0;
        count(c, echo, init, p->k);
    }
    return (int)found;
}

/* ---- the rules */

enum rule { REST, R12, R3, R4, R5 };

static inline enum rule counted_rule(const struct node *p, const struct counts *c)
{
    if (p->sent < p->k && (c->inits > p->f || c->echoes > p->f)) return R12;
    return p->k < LAST_TICK && c->echoes >= p->n - p->f ? R3 : REST;
}

/* with the tick of R4 or R5 */
static enum rule next_rule(const struct node *p, const uint8_t *rows, const struct counts *c, uint32_t *tick)
{
    enum rule rule = counted_rule(p, c);
    uint64_t x = 0;
    if (rule != REST) return rule;
    if (c->above > p->f) x = greatest(rows + 4, p->n, p->f + 1, (uint64_t)p->k + 2);
    *tick = (uint32_t)(x - 1);
    if (x) return R4;
    if (!p->mode && c->some > p->f) x = greatest(rows + 24, p->n, p->f + 1, 0);
    *tick = (uint32_t)(x - 1);
    return x ? R5 : REST;
}

static struct counts count_all(const struct node *p, const uint8_t *rows)
{
    struct counts c = {0, 0, 0, 0};
    for (unsigned i = 0; i < p->n; i++, rows += ROW) count(&c, get_set(rows + 4), get_set(rows + 24), p->k);
    return c;
}

static unsigned fire(struct node *p, enum rule rule, uint32_t t, uint8_t *out, unsigned records)
{
    uint32_t before = p->sent;
    if (rule == R3) {
        p->k++;
        put_record(out, records, 0, INIT, 0, p->k);
        return records + 1;
    }
    if (rule == R4) {
        p->k = t - 1;
    } else if (rule == R5) {
        p->mode = 1;
        if (t > 0 && t - 1 > p->k) p->k = t - 1;
        if (before >= p->k) return records;
    }
    p->sent = p->k;
    put_record(out, records, 0, ECHO, 0, p->k);
    return records + 1;
}

/* ---- one delivery */

static struct set raised(struct set s, uint32_t t)
{
    uint32_t up = t - s.top;
    if (t <= s.top) {
        uint32_t d = s.top - t;
        if (!(s.low & 1)) {
            s.top = t;
            s.low = 1;
        } else if (d < 64) {
            s.low |= (uint64_t)1 << d;
        } else if (d < WINDOW) {
            s.high |= (uint64_t)1 << (d - 64);
        }
        return s;
    }
    if (up < 64) {
        s.high = s.high << up | s.low >> (64 - up);
        s.low = s.low << up;
    } else {
        s.high = up < WINDOW ? s.low << (up - 64) : 0;
        s.low = 0;
    }
    s.low |= 1;
    s.top = t;
    return s;
}

static inline struct set after(struct set s, unsigned kind, uint32_t j)
{
    s = raised(s, j);
    if (kind == ECHO && j > 0) s = raised(s, j - 1);
    if (kind == ECHO && j > 1) s = raised(s, j - 2);
    return s;
}

static unsigned holders(const uint8_t *sets, unsigned n, uint32_t t)
{
    unsigned count = 0;
    for (unsigned i = 0; i < n; i++, sets += ROW) count += held(get_set(sets), t);
    return count;
}

/* the rule after a credit to a sound image: what m rows did not hold before, they can only hold where the credit brought it */
static enum rule rule_after(const struct node *p, const uint8_t *rows, const struct counts *c, unsigned kind, struct set before,
                            uint32_t j, uint32_t *tick)
{
    enum rule rule = counted_rule(p, c);
    if (rule != REST) return rule;
    if (kind == INIT) {
        *tick = j;
        return !p->mode && c->some > p->f && !held(before, j) && holders(rows + 24, p->n, j) > p->f ? R5 : REST;
    }
    if (c->above <= p->f) return REST;
    for (unsigned d = 0; d < 3 && j >= d && j - d > p->k + 1; d++) {
        *tick = j - d;
        if (!held(before, j - d) && holders(rows + 4, p->n, j - d) > p->f) return R4;
    }
    return REST;
}

/* ---- the calls */

struct pebrassola_answer lean_boot(const uint8_t *form, size_t form_length, uint8_t *image, size_t image_length, uint8_t *out,
                                   size_t out_length)
{
    uint8_t met[BUCKETS] = {0};
    const uint8_t *serials = form + 8, *end = form + form_length;
    unsigned n, number, found = 0, twice = 0;
    uint32_t own;
    if (form_length < 8 || get2(form + 2) != 8 || form_length != PEBRASSOLA_FORM_BYTES(form[0]))
        return answer(PEBRASSOLA_FORM_LAYOUT, 0, 0);
    n = form[0];
    own = get4(form + 4);
    number = limits(n, form[1]);
    if (number) return answer(number, 0, 0);
    if (!own) return answer(PEBRASSOLA_FORM_ZERO, 0, 0);
    for (const uint8_t *at = serials; at < end; at += 4) {
        uint32_t serial = get4(at);
        unsigned b = bucket(serial);
        if (!serial) return answer(PEBRASSOLA_FORM_ZERO, 0, 0);
        if (met[b]) twice |= (unsigned)stands(serials, at, 4, serial);
        met[b] = 1;
        found |= serial == own;
    }
    if (twice) return answer(PEBRASSOLA_FORM_TWICE, 0, 0);
    if (!found) return answer(PEBRASSOLA_FORM_OWN, 0, 0);
    if (image_length < PEBRASSOLA_IMAGE_BYTES(n)) return answer(PEBRASSOLA_IMAGE_ROOM, 0, 0);
    if (out_length < PEBRASSOLA_OUT_BYTES) return answer(PEBRASSOLA_OUT_ROOM, 0, 0);
    memset(image, 0, PEBRASSOLA_IMAGE_BYTES(n));
    put4(image, (uint32_t)n << 24 | (uint32_t)form[1] << 16 | 1);
    put4(image + 4, own);
    put4(image + 16, (uint32_t)HEADER << 16 | (uint32_t)PEBRASSOLA_IMAGE_BYTES(n));
    for (unsigned i = 0; i < n; i++) memcpy(image + HEADER + ROW * i, serials + 4 * i, 4);
    put_record(out, 0, 0, ECHO, 0, 0);
    return answer(PEBRASSOLA_DONE, 1, 0);
}

struct pebrassola_answer lean_deliver(uint8_t *image, size_t image_length, uint32_t port, const uint8_t *frame, size_t frame_length,
                                      uint8_t *out, size_t out_length)
{
    struct node p;
    struct counts c = {0, 0, 0, 0};
    struct set before, now;
    const uint8_t *row = 0;
    uint8_t *rows = image + HEADER, *at;
    unsigned kind, flag, records = 0, fired = 0;
    uint32_t tick, t = 0;
    enum rule rule;
    if (out_length < PEBRASSOLA_OUT_BYTES) return answer(PEBRASSOLA_OUT_ROOM, 0, 0);
    if (!get_node(&p, image, image_length) || !look(&p, rows, port, &c, &row) || next_rule(&p, rows, &c, &t) != REST)
        return answer(PEBRASSOLA_IMAGE, 0, 0);
    if (!row) return answer(PEBRASSOLA_PORT, 0, 0);
    if (frame_length != 8) return answer(PEBRASSOLA_FRAME, 0, 0);
    kind = frame[0];
    flag = frame[1];
    if (kind - INIT > 1 || flag > (kind == ECHO) || frame[2] || frame[3]) return answer(PEBRASSOLA_FRAME, 0, 0);
    tick = get4(frame + 4);
    if (tick > LAST_TICK) return answer(PEBRASSOLA_FRAME_TICK, 0, 0);
    at = rows + (row - rows) + (kind == ECHO ? 4 : 24);
    before = get_set(at);
    now = after(before, kind, tick);
    put4(at, now.top);
    put8(at + 4, now.high);
    put8(at + 12, now.low);
    if (kind == ECHO) {
        c.echoes += held(now, p.k) - held(before, p.k);
        c.above += (now.top > p.k + 1) - (before.top > p.k + 1);
        if (flag == 0 && tick == 0 && port != p.own) put_record(out, records++, port, ECHO, 1, p.sent);
    } else {
        c.inits += held(now, p.k) - held(before, p.k);
        c.some += 1 - (unsigned)(before.low & 1);
    }
    rule = rule_after(&p, rows, &c, kind, before, tick, &t);
    while (rule != REST) {
        records = fire(&p, rule, t, out, records);
        fired++;
        c = count_all(&p, rows);
        rule = next_rule(&p, rows, &c, &t);
    }
    if (fired) {
        image[2] = (uint8_t)p.mode;
        put4(image + 8, p.k);
        put4(image + 12, p.sent);
    }
    return answer(PEBRASSOLA_DONE, records, fired);
}

struct pebrassola_reading lean_read(const uint8_t *image, size_t image_length)
{
    struct node p;
    struct counts c = {0, 0, 0, 0};
    struct pebrassola_reading r = {PEBRASSOLA_IMAGE, 0};
    const uint8_t *row = 0;
    uint32_t t;
    if (!get_node(&p, image, image_length) || !look(&p, image + HEADER, 0, &c, &row)) return r;
    if (next_rule(&p, image + HEADER, &c, &t) != REST) return r;
    r.number = p.mode ? PEBRASSOLA_DONE : PEBRASSOLA_PASSIVE;
    r.clock = p.mode ? p.k : 0;
    return r;
}
