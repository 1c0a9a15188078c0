/* What the parts of the comparison share: random numbers, the count of calls and differences, nodes to ask, and the parts themselves. */
#ifndef COMPARE_H
#define COMPARE_H

#include <stddef.h>
#include <stdint.h>

/* a random number below this one, the same in each run */
uint32_t any(uint32_t below);

/* gives one of so many bytes another value. (A call has one random number in its arguments at most: C leaves their order open.) */
void change_byte(uint8_t *bytes, uint32_t length);

/* exchanges items of so many bytes at random */
void shuffle(uint8_t *items, unsigned count, size_t bytes);

/* counts a call, and a difference where the archive's outcome is another than the model's */
void check(const char *call, int same);

/* counts a difference where a fact about calls that are counted already does not hold */
void hold(const char *fact, int holds);

/* ---- nodes.c */

struct figures {
    uint32_t fired, records; /* of one delivery, the greatest that came */
};

struct node_calls {
    unsigned long sound_images;     /* random images that were sound */
    unsigned long zeros[2];         /* how often echo 0 of another serial was taken, by its flag: as a broadcast, as an answer */
    unsigned long rarest_number;    /* how often the number came that came least, of all that the three calls can give */
    struct figures alone, together; /* where n is 1, and where it is more */
};

/* every comparison of boot, deliver and read */
struct node_calls compare_nodes(void);

/* one comparison of a delivery or a reading; gives the number, and leaves the image as the model does */
uint32_t deliver(uint8_t *kept, size_t i_length, uint32_t port, const uint8_t *fr, size_t fr_length, size_t o_length);
uint32_t read_clock(uint8_t *kept, size_t i_length);

/* a form of n controllers in any order, of which any one fills it in; gives its length */
size_t make_form(uint8_t *f, unsigned n, unsigned faults);

/* a frame that a node with this image may be handed, right or wrong: mostly about its clock, or at an edge of its window */
void make_frame(uint8_t *b, const uint8_t *kept);

/* a set about a tick with so many bytes of mask, as an image may hold it: empty, thick or thin */
void make_set(uint8_t *b, unsigned mask_bytes, uint32_t base);

/* an f for n controllers: mostly the full one, else one less or more, or any */
unsigned some_faults(unsigned n);

/* boots a node of n controllers in any order, with its form, and lets it take so many frames; gives the image's size */
size_t live(uint8_t *form, uint8_t *kept, unsigned n, unsigned frames);

/* writes mode, k and last echo over those of an image */
void set_clock(uint8_t *kept, unsigned mode, uint32_t k, uint32_t last_echo);

/* ---- conversions.c */

struct conversion_calls {
    unsigned long all, rarest;  /* calls, and how often the number came that came least */
    unsigned long sound_images; /* random old images that were sound */
};

/* every comparison of convert, and of deliver and read on what it writes */
struct conversion_calls compare_conversions(void);

/* ---- sheets.c */

struct sheet_calls {
    unsigned long all, rarest; /* calls of both kinds, and how often the outcome came that came least */
};

/* every comparison of pack and write_sheet */
struct sheet_calls compare_sheets(void);

/* ---- corrections.c */

struct correction_calls {
    unsigned long all, rarest; /* calls, and how often the number or the end of the range came that came least */
};

/* every comparison of correct */
struct correction_calls compare_corrections(void);

#endif
