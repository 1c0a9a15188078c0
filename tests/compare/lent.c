/* Lent buffers with guard bytes: lent.h says what each function is for. */
#define _DEFAULT_SOURCE
#include "lent.h"

#include <stdio.h>
#include <stdlib.h>
#include <string.h>
#include <sys/mman.h>

enum { PAGE = 65536, GUARD_BYTE = 0xA5, ROOM_BYTE = 0x3C };

uint8_t *nowhere;

uint8_t *no_place(unsigned which)
{
    static uint8_t *page;
    if (!page) page = mmap(NULL, PAGE, PROT_NONE, MAP_PRIVATE | MAP_ANONYMOUS, -1, 0);
    if (page == MAP_FAILED) {
        puts("no page that may not be read");
        exit(2);
    }
    switch (which) {
    case 0: return NULL;
    case 1: return (uint8_t *)1;
    case 2: return page;
    default: return (uint8_t *)UINTPTR_MAX;
    }
}

uint8_t *body(struct lent *b)
{
    return b->all + GUARD;
}

uint8_t *place(struct lent *b)
{
    return b->length ? body(b) : nowhere;
}

static size_t watched(size_t length)
{
    return GUARD + length + GUARD;
}

void lend(struct both *b, const uint8_t *bytes, size_t length)
{
    memset(b->proved.all, GUARD_BYTE, watched(length));
    if (length) memcpy(body(&b->proved), bytes, length);
    memcpy(b->plain.all, b->proved.all, watched(length));
    b->proved.length = b->plain.length = length;
}

void lend_room(struct both *b, size_t length)
{
    uint8_t filled[MOST];
    memset(filled, ROOM_BYTE, length);
    lend(b, filled, length);
}

int same_bytes(const struct lent *a, const struct lent *b)
{
    return a->length == b->length && memcmp(a->all, b->all, watched(a->length)) == 0;
}

int same(const struct both *b)
{
    return same_bytes(&b->proved, &b->plain);
}
