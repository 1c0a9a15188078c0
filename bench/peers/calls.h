/* The calls of the two peers, those of pebrassola.h under other names. */
#ifndef PEER_CALLS_H
#define PEER_CALLS_H

#include "pebrassola.h"

#define PEER(NAME)                                                                                                                         \
    struct pebrassola_answer NAME##_boot(const uint8_t *form, size_t form_length, uint8_t *image, size_t image_length, uint8_t *out,       \
                                         size_t out_length);                                                                               \
    struct pebrassola_answer NAME##_deliver(uint8_t *image, size_t image_length, uint32_t port, const uint8_t *frame,                      \
                                            size_t frame_length, uint8_t *out, size_t out_length);                                         \
    struct pebrassola_reading NAME##_read(const uint8_t *image, size_t image_length)

PEER(plain);
PEER(lean);

#endif
