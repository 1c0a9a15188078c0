/* A peer in the place of the archive's boot, deliver and read, so that tests/compare holds it to the model: -DPEER_NAME=plain or lean. */
#include "peers.h"

#define JOINED(NAME, CALL) NAME##_##CALL
#define OF(NAME, CALL) JOINED(NAME, CALL)

struct pebrassola_answer pebrassola_boot(const uint8_t *form, size_t form_length, uint8_t *image, size_t image_length, uint8_t *out,
                                         size_t out_length)
{
    return OF(PEER_NAME, boot)(form, form_length, image, image_length, out, out_length);
}

struct pebrassola_answer pebrassola_deliver(uint8_t *image, size_t image_length, uint32_t port, const uint8_t *frame, size_t frame_length,
                                            uint8_t *out, size_t out_length)
{
    return OF(PEER_NAME, deliver)(image, image_length, port, frame, frame_length, out, out_length);
}

struct pebrassola_reading pebrassola_read(const uint8_t *image, size_t image_length)
{
    return OF(PEER_NAME, read)(image, image_length);
}
