/*
 * A plain model of document 01's three calls, of A1's two, of A8's and of A13's, written from the papers and sharing nothing with the
 * Rattle code.
 * The layout of an image is a parameter, so that nodes can live as they did before A8.
 */
#ifndef MODEL_H
#define MODEL_H

#include <stddef.h>
#include <stdint.h>

struct model_result {
    uint32_t number;
    uint32_t value; /* records, the clock, the licence, or the bytes written */
    uint32_t fired; /* how many times a rule fired, which only a delivery can do */
};

struct model_correction {
    uint32_t number;
    int64_t correction;
};

/* the form of an image: byte 3, and how many ticks a window has, of which a mask has a bit each */
struct model_layout {
    unsigned mark, window;
};

/* before A8, and since */
extern const struct model_layout model_old, model_new;

/* bytes of a row, and of an image of n controllers */
size_t model_image_bytes(const struct model_layout *l, unsigned n);

struct model_result model_boot_in(const struct model_layout *l, const uint8_t *form, size_t form_length, uint8_t *image,
                                  size_t image_length, uint8_t *out, size_t out_length);
struct model_result model_deliver_in(const struct model_layout *l, uint8_t *image, size_t image_length, uint32_t port,
                                     const uint8_t *frame, size_t frame_length, uint8_t *out, size_t out_length);
struct model_result model_read_in(const struct model_layout *l, const uint8_t *image, size_t image_length);

/* the calls as they are exported: images have the new layout, but for the one that convert reads */
struct model_result model_boot(const uint8_t *form, size_t form_length, uint8_t *image, size_t image_length, uint8_t *out,
                               size_t out_length);
struct model_result model_deliver(uint8_t *image, size_t image_length, uint32_t port, const uint8_t *frame, size_t frame_length,
                                  uint8_t *out, size_t out_length);
struct model_result model_read(const uint8_t *image, size_t image_length);
struct model_result model_convert(const uint8_t *old, size_t old_length, uint8_t *image, size_t image_length);
struct model_result model_pack(const uint8_t *sheet, size_t sheet_length, uint32_t pack, const uint8_t *image, size_t image_length);
struct model_result model_write_sheet(const uint8_t *entries, size_t entries_length, uint8_t *out, size_t out_length);
struct model_correction model_correct(uint32_t n, uint32_t f, const uint32_t *readings, size_t count, uint32_t expected);

#endif
