/* A node as a firmware engineer would write it: unpack the image into structs, check them, run the rules, store back what changed. */
#include "peers.h"

struct set {
    uint32_t top;
    uint64_t high, low;
};

struct row {
    uint32_t serial;
    struct set echo, init;
};

struct node {
    unsigned n, f, mode;
    uint32_t own, k, sent;
    struct row rows[PEBRASSOLA_MOST_CONTROLLERS];
};

/* ---- the roster */

static unsigned limits(unsigned n, unsigned f)
{
    if (n < 1 || n > PEBRASSOLA_MOST_CONTROLLERS || n < 3 * f + 1) return PEBRASSOLA_FORM_LIMITS;
    return n > 3 * f + 3 ? PEBRASSOLA_FORM_UNDERSTATED : PEBRASSOLA_DONE;
}

static unsigned judge_serials(const struct node *p)
{
    int found = 0;
    if (p->own == 0) return PEBRASSOLA_FORM_ZERO;
    for (unsigned i = 0; i < p->n; i++) {
        if (p->rows[i].serial == 0) return PEBRASSOLA_FORM_ZERO;
        found |= p->rows[i].serial == p->own;
    }
    for (unsigned i = 0; i < p->n; i++)
        for (unsigned j = i + 1; j < p->n; j++)
            if (p->rows[i].serial == p->rows[j].serial) return PEBRASSOLA_FORM_TWICE;
    return found ? PEBRASSOLA_DONE : PEBRASSOLA_FORM_OWN;
}

/* ---- sets */

static int held(const struct set *s, uint32_t t)
{
    uint32_t d = s->top - t;
    if (s->top < t || d >= WINDOW) return 0;
    return (int)((d < 64 ? s->low >> d : s->high >> (d - 64)) & 1);
}

static void add(struct set *s, uint32_t t)
{
    if (s->high == 0 && s->low == 0) {
        s->top = t;
        s->low = 1;
    } else if (t > s->top) {
        uint32_t up = t - s->top;
        if (up >= WINDOW) {
            s->high = s->low = 0;
        } else if (up >= 64) {
            s->high = s->low << (up - 64);
            s->low = 0;
        } else {
            s->high = s->high << up | s->low >> (64 - up);
            s->low <<= up;
        }
        s->low |= 1;
        s->top = t;
    } else if (s->top - t < 64) {
        s->low |= (uint64_t)1 << (s->top - t);
    } else if (s->top - t < WINDOW) {
        s->high |= (uint64_t)1 << (s->top - t - 64);
    }
}

static int proper(const struct set *s)
{
    if (s->top > LAST_TICK) return 0;
    if (s->high == 0 && s->low == 0) return s->top == 0;
    if (!(s->low & 1)) return 0;
    if (s->top >= WINDOW - 1) return 1;
    return s->top >= 63 ? s->high >> (s->top - 63) == 0 : s->high == 0 && s->low >> (s->top + 1) == 0;
}

static unsigned echoes(const struct node *p, uint32_t t)
{
    unsigned count = 0;
    for (unsigned i = 0; i < p->n; i++) count += (unsigned)held(&p->rows[i].echo, t);
    return count;
}

static unsigned inits(const struct node *p, uint32_t t)
{
    unsigned count = 0;
    for (unsigned i = 0; i < p->n; i++) count += (unsigned)held(&p->rows[i].init, t);
    return count;
}

/* the greatest tick from low on, as tick + 1, that f + 1 serials hold; 0 for none */
static uint64_t greatest(const struct node *p, unsigned (*holders)(const struct node *, uint32_t), size_t place, uint64_t low)
{
    uint64_t best = low;
    for (unsigned i = 0; i < p->n; i++) {
        const struct set *s = (const struct set *)((const char *)&p->rows[i] + place);
        for (uint32_t d = 0; d < WINDOW && d <= s->top && best < (uint64_t)s->top + 1 - d; d++)
            if (held(s, s->top - d) && holders(p, s->top - d) > p->f) best = (uint64_t)s->top + 1 - d;
    }
    return best > low ? best : 0;
}

/* ---- the rules */

enum rule { REST, R12, R3, R4, R5 };

static enum rule next_rule(const struct node *p, uint32_t *tick)
{
    uint64_t x;
    if (p->sent < p->k && (inits(p, p->k) > p->f || echoes(p, p->k) > p->f)) return R12;
    if (p->k < LAST_TICK && echoes(p, p->k) >= p->n - p->f) return R3;
    x = greatest(p, echoes, offsetof(struct row, echo), (uint64_t)p->k + 2);
    *tick = (uint32_t)(x - 1);
    if (x) return R4;
    if (p->mode) return REST;
    x = greatest(p, inits, offsetof(struct row, init), 0);
    *tick = (uint32_t)(x - 1);
    return x ? R5 : REST;
}

/* fires rules until none can; gives the records behind those that are there */
static unsigned settle(struct node *p, uint8_t *out, unsigned records, unsigned *fired)
{
    uint32_t t;
    enum rule rule;
    for (; (rule = next_rule(p, &t)) != REST; ++*fired) switch (rule) {
        case R12:
            p->sent = p->k;
            put_record(out, records++, 0, ECHO, 0, p->k);
            break;
        case R3:
            p->k++;
            put_record(out, records++, 0, INIT, 0, p->k);
            break;
        case R4:
            p->k = p->sent = t - 1;
            put_record(out, records++, 0, ECHO, 0, p->k);
            break;
        default:
            if (t > 0 && t - 1 > p->k) p->k = t - 1;
            p->mode = 1;
            if (p->sent < p->k) {
                p->sent = p->k;
                put_record(out, records++, 0, ECHO, 0, p->k);
            }
        }
    return records;
}

/* ---- the image */

static void unpack_set(struct set *s, const uint8_t *b)
{
    s->top = get4(b);
    s->high = get8(b + 4);
    s->low = get8(b + 12);
}

static int unpack(struct node *p, const uint8_t *b, size_t length)
{
    uint32_t t;
    if (length < HEADER) return 0;
    p->n = b[0];
    p->f = b[1];
    p->mode = b[2];
    p->own = get4(b + 4);
    p->k = get4(b + 8);
    p->sent = get4(b + 12);
    if (b[3] != 1 || get2(b + 16) != HEADER || get2(b + 18) != PEBRASSOLA_IMAGE_BYTES(p->n)) return 0;
    if (length < get2(b + 18) || get4(b + 20) || get8(b + 24)) return 0;
    if (limits(p->n, p->f) || p->mode > 1 || p->sent > p->k || p->k > LAST_TICK) return 0;
    for (unsigned i = 0; i < p->n; i++) {
        struct row *row = &p->rows[i];
        const uint8_t *r = b + HEADER + ROW * i;
        row->serial = get4(r);
        unpack_set(&row->echo, r + 4);
        unpack_set(&row->init, r + 24);
        if (!proper(&row->echo) || !proper(&row->init)) return 0;
    }
    return !judge_serials(p) && next_rule(p, &t) == REST;
}

static void store_set(uint8_t *b, const struct set *s)
{
    put4(b, s->top);
    put8(b + 4, s->high);
    put8(b + 12, s->low);
}

static void store_clock(const struct node *p, uint8_t *b)
{
    b[2] = (uint8_t)p->mode;
    put4(b + 8, p->k);
    put4(b + 12, p->sent);
}

/* ---- the calls */

struct pebrassola_answer plain_boot(const uint8_t *form, size_t form_length, uint8_t *image, size_t image_length, uint8_t *out,
                                    size_t out_length)
{
    struct node p;
    unsigned number;
    if (form_length < 8 || get2(form + 2) != 8 || form_length != PEBRASSOLA_FORM_BYTES(form[0]))
        return answer(PEBRASSOLA_FORM_LAYOUT, 0, 0);
    p.n = form[0];
    p.f = form[1];
    p.own = get4(form + 4);
    number = limits(p.n, p.f);
    if (number) return answer(number, 0, 0);
    for (unsigned i = 0; i < p.n; i++) p.rows[i].serial = get4(form + PEBRASSOLA_FORM_BYTES(i));
    number = judge_serials(&p);
    if (number) return answer(number, 0, 0);
    if (image_length < PEBRASSOLA_IMAGE_BYTES(p.n)) return answer(PEBRASSOLA_IMAGE_ROOM, 0, 0);
    if (out_length < PEBRASSOLA_OUT_BYTES) return answer(PEBRASSOLA_OUT_ROOM, 0, 0);
    memset(image, 0, PEBRASSOLA_IMAGE_BYTES(p.n));
    image[0] = (uint8_t)p.n;
    image[1] = (uint8_t)p.f;
    image[3] = 1;
    put4(image + 4, p.own);
    put2(image + 16, HEADER);
    put2(image + 18, (uint32_t)PEBRASSOLA_IMAGE_BYTES(p.n));
    for (unsigned i = 0; i < p.n; i++) put4(image + HEADER + ROW * i, p.rows[i].serial);
    put_record(out, 0, 0, ECHO, 0, 0);
    return answer(PEBRASSOLA_DONE, 1, 0);
}

struct pebrassola_answer plain_deliver(uint8_t *image, size_t image_length, uint32_t port, const uint8_t *frame, size_t frame_length,
                                       uint8_t *out, size_t out_length)
{
    struct node p;
    struct set *s;
    unsigned i = 0, kind, flag, records = 0, fired = 0;
    uint32_t tick;
    if (out_length < PEBRASSOLA_OUT_BYTES) return answer(PEBRASSOLA_OUT_ROOM, 0, 0);
    if (!unpack(&p, image, image_length)) return answer(PEBRASSOLA_IMAGE, 0, 0);
    while (i < p.n && p.rows[i].serial != port) i++;
    if (i == p.n) return answer(PEBRASSOLA_PORT, 0, 0);
    if (frame_length != 8 || frame[2] || frame[3]) return answer(PEBRASSOLA_FRAME, 0, 0);
    kind = frame[0];
    flag = frame[1];
    if (!(kind == INIT && flag == 0) && !(kind == ECHO && flag <= 1)) return answer(PEBRASSOLA_FRAME, 0, 0);
    tick = get4(frame + 4);
    if (tick > LAST_TICK) return answer(PEBRASSOLA_FRAME_TICK, 0, 0);
    s = kind == ECHO ? &p.rows[i].echo : &p.rows[i].init;
    add(s, tick);
    if (kind == ECHO && tick > 0) add(s, tick - 1);
    if (kind == ECHO && tick > 1) add(s, tick - 2);
    if (kind == ECHO && flag == 0 && tick == 0 && port != p.own) put_record(out, records++, port, ECHO, 1, p.sent);
    records = settle(&p, out, records, &fired);
    store_set(image + HEADER + ROW * i + (kind == ECHO ? 4 : 24), s);
    store_clock(&p, image);
    return answer(PEBRASSOLA_DONE, records, fired);
}

struct pebrassola_reading plain_read(const uint8_t *image, size_t image_length)
{
    struct node p;
    struct pebrassola_reading r = {PEBRASSOLA_IMAGE, 0};
    if (!unpack(&p, image, image_length)) return r;
    r.number = p.mode ? PEBRASSOLA_DONE : PEBRASSOLA_PASSIVE;
    r.clock = p.mode ? p.k : 0;
    return r;
}
