/* Numbers of four bytes, big-endian, for the C programs that feed the calls. */
#ifndef WORDS_H
#define WORDS_H

#include <stdint.h>

static inline void put4(uint8_t *b, uint32_t v)
{
    for (int i = 3; i >= 0; i--, v >>= 8) b[i] = (uint8_t)v;
}

static inline uint32_t get4(const uint8_t *b)
{
    return (uint32_t)b[0] << 24 | (uint32_t)b[1] << 16 | (uint32_t)b[2] << 8 | b[3];
}

#endif
