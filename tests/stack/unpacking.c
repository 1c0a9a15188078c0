/*
 * The calls by the plain model of tests/compare, which unpacks an image into a struct on the stack first: linked in the archive's place,
 * a node such as the stack's figures rule out.
 */
#include "../compare/model.h"
#include "pebrassola.h"

struct pebrassola_answer pebrassola_boot(const uint8_t *form, size_t form_length, uint8_t *image, size_t image_length, uint8_t *out,
                                         size_t out_length)
{
    struct model_result r = model_boot(form, form_length, image, image_length, out, out_length);
    return (struct pebrassola_answer){r.number, r.value, r.fired};
}

struct pebrassola_answer pebrassola_deliver(uint8_t *image, size_t image_length, uint32_t port, const uint8_t *frame, size_t frame_length,
                                            uint8_t *out, size_t out_length)
{
    struct model_result r = model_deliver(image, image_length, port, frame, frame_length, out, out_length);
    return (struct pebrassola_answer){r.number, r.value, r.fired};
}

struct pebrassola_reading pebrassola_read(const uint8_t *image, size_t image_length)
{
    struct model_result r = model_read(image, image_length);
    return (struct pebrassola_reading){r.number, r.value};
}

struct pebrassola_written pebrassola_convert(const uint8_t *old, size_t old_length, uint8_t *image, size_t image_length)
{
    struct model_result r = model_convert(old, old_length, image, image_length);
    return (struct pebrassola_written){r.number, r.value};
}

struct pebrassola_licence pebrassola_pack(const uint8_t *sheet, size_t sheet_length, uint32_t pack, const uint8_t *image,
                                          size_t image_length)
{
    struct model_result r = model_pack(sheet, sheet_length, pack, image, image_length);
    return (struct pebrassola_licence){r.number, r.value};
}

struct pebrassola_written pebrassola_write_sheet(const uint8_t *entries, size_t entries_length, uint8_t *out, size_t out_length)
{
    struct model_result r = model_write_sheet(entries, entries_length, out, out_length);
    return (struct pebrassola_written){r.number, r.value};
}

struct pebrassola_correction pebrassola_correct(uint32_t n, uint32_t f, const uint32_t *readings, size_t readings_count, uint32_t expected)
{
    struct model_correction r = model_correct(n, f, readings, readings_count, expected);
    return (struct pebrassola_correction){r.number, r.correction};
}
