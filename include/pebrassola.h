/*
 * Pebrassola: one node of a fault-tolerant clock for up to 32 controllers, of which fewer than a third may misbehave in any way.
 *
 * Boot, deliver and read run a node. Convert is for service: it makes an image of today out of one from before A8. A sheet says which
 * packs are licensed from which tick to which: pack tells whether one is in force at the tick that a node's clock has, and write_sheet
 * makes a sheet. Correct is for modules with a counter of microseconds, and needs no node.
 *
 * All are calls on byte buffers that the caller owns, but for correct, which reads an array of words. Nothing has to be checked before a
 * call: every form, image, port, frame, sheet, pack number, reading and buffer is handled, or refused with a number of enum
 * pebrassola_number. A refusal reports nothing else (every other field of the answer is 0) and changes no byte.
 *
 * The caller's duty: each pointer is to real memory of the stated length, an array of words lies where the machine has words, and the
 * buffers of one call do not overlap. A buffer of length 0 may have any pointer. Interrupts have a stack of their own (see the figures of
 * the stack). Nothing is kept between calls: a node is its image and nothing else, so one program may run any number of nodes, and an image
 * may be copied, stored and moved between calls. The calls use no heap and no global data, and call nothing outside the archive: it links
 * without a C library.
 *
 * Link with libpebrassola.a: `bin/archive` writes one for x86-64 and one for 64-bit Arm (aarch64-unknown-linux-gnu, little-endian), and
 * prints where they lie.
 */
#ifndef PEBRASSOLA_H
#define PEBRASSOLA_H

#include <stddef.h>
#include <stdint.h>

#ifdef __cplusplus
extern "C" {
#endif

/*
 * Bytes of a roster form and of a node image for n controllers, of an image from before A8, of a frame, of a record to send, and of the
 * output of boot and deliver. Words are big-endian. A frame is kind (byte 0: 1 init, 2 echo), flag (byte 1), two zero bytes, then the
 * tick in 4 bytes. The flag is 1 in an answer, which is an echo to one controller alone, and 0 in a broadcast. A record is the serial
 * that it goes to, 0 for all (the sender included), then a frame: the wiring carries all 8 bytes of the frame as they are, the flag among
 * them.
 */
#define PEBRASSOLA_FORM_BYTES(n) (8u + 4u * (size_t)(n))
#define PEBRASSOLA_IMAGE_BYTES(n) (32u + 44u * (size_t)(n))
#define PEBRASSOLA_OLD_IMAGE_BYTES(n) (32u + 28u * (size_t)(n))
#define PEBRASSOLA_FRAME_BYTES 8u
#define PEBRASSOLA_RECORD_BYTES 12u
#define PEBRASSOLA_OUT_BYTES 192u
#define PEBRASSOLA_MOST_CONTROLLERS 32u
#define PEBRASSOLA_LAST_TICK 4000000000u

/*
 * How many ticks a node remembers of what a controller sent, for each kind of frame: the greatest, and those less than this many below
 * it. Before A8 it was 64. An image has a bit for each of them, so images are longer now: firmware that lends boot the
 * PEBRASSOLA_OLD_IMAGE_BYTES(n) of then gets 6.
 */
#define PEBRASSOLA_WINDOW 128u

/*
 * The f that a form of n controllers, 1 to 32, has to state: the greatest number of faulty ones that n allows, (n - 1) / 3 rounded down.
 * With a smaller f, f + 1 faulty controllers could move the others' clocks although n allows for that many. An image has to state it,
 * too: one that an older archive booted with a smaller f is refused with 8 for good. Boot every controller of such a truck again, with
 * forms that state this f; their clocks begin at 0.
 */
#define PEBRASSOLA_FULL_FAULTS(n) (((n) - 1u) / 3u)

/*
 * Bytes of a sheet with so many entries, and of an entry. A sheet is the count of entries in 2 bytes, where they stand in 2 (always 4),
 * then the entries: pack number, first tick, end (the first tick that is no longer licensed), 4 bytes each.
 */
#define PEBRASSOLA_SHEET_BYTES(entries) (4u + PEBRASSOLA_ENTRY_BYTES * (size_t)(entries))
#define PEBRASSOLA_ENTRY_BYTES 12u
#define PEBRASSOLA_MOST_ENTRIES 200u

/*
 * What a call of the archive for x86-64 takes of the stack at most, in bytes, whatever it is handed, its return address included; the
 * last is the greatest of the seven. The caller adds its own frames and the last argument of deliver, which passes on the stack. That for
 * Arm takes less by the frames that its compiler states, which no test holds.
 *
 * The calls keep to the System V convention, by which a function may use the 128 bytes below its stack pointer; the figures count them.
 * An interrupt that the processor puts on the same stack would overwrite these bytes: interrupts need a stack of their own. Signals of an
 * operating system step over them.
 */
#define PEBRASSOLA_BOOT_STACK_BYTES 496u
#define PEBRASSOLA_DELIVER_STACK_BYTES 1088u
#define PEBRASSOLA_READ_STACK_BYTES 928u
#define PEBRASSOLA_PACK_STACK_BYTES 976u
#define PEBRASSOLA_WRITE_SHEET_STACK_BYTES 432u
#define PEBRASSOLA_CONVERT_STACK_BYTES 544u
#define PEBRASSOLA_CORRECT_STACK_BYTES 184u
#define PEBRASSOLA_STACK_BYTES PEBRASSOLA_DELIVER_STACK_BYTES

/*
 * For a scheduler that allows each delivery a fixed time, and each controller a fixed share of the line. A delivery fires rules until
 * none can fire; each firing takes another round of looks at the image's rows, and sends one record at most. The first figure is the
 * allowance that request A6 fixes, and that the output's room is made for: how many rules one delivery may fire. The others are what is
 * proved of this release where there are n controllers: how many rules one delivery fires at most, and how many records it sends at
 * most, an answer among them; there are runs of 1 and of 4 controllers that attain them. Budgets may be checked where the firmware is
 * compiled, as in
 *     #if BASE_NANOSECONDS + FIRING_NANOSECONDS * PEBRASSOLA_PROVED_FIRED(4) > DELIVERY_NANOSECONDS
 */
#define PEBRASSOLA_MOST_FIRED 15u
#define PEBRASSOLA_PROVED_FIRED(n) ((n) < 2 ? 7u : 4u)
#define PEBRASSOLA_PROVED_RECORDS(n) ((n) < 2 ? 7u : 5u)

/*
 * The number given back; the first that applies, in the order that each call names. For a form the order is 1, 2, 21, 3, 4, 5, as they
 * stand here.
 */
enum pebrassola_number {
    PEBRASSOLA_DONE = 0,              /* success */
    PEBRASSOLA_FORM_LAYOUT = 1,       /* form shorter than 8, offset not 8, or length not 8 + 4n */
    PEBRASSOLA_FORM_LIMITS = 2,       /* n not 1..32, or f greater than n allows: n < 3f + 1 */
    PEBRASSOLA_FORM_UNDERSTATED = 21, /* f less than n allows: below (n - 1) / 3 rounded down */
    PEBRASSOLA_FORM_ZERO = 3,         /* a serial or the own serial is 0 */
    PEBRASSOLA_FORM_TWICE = 4,        /* a serial stands twice */
    PEBRASSOLA_FORM_OWN = 5,          /* own serial not in the list */
    PEBRASSOLA_IMAGE_ROOM = 6,        /* image buffer to be written shorter than 32 + 44n */
    PEBRASSOLA_OUT_ROOM = 7,          /* output shorter than 192 bytes; for write_sheet, than the sheet */
    PEBRASSOLA_IMAGE = 8,             /* image buffer shorter than 32 or than its stated size, or image not sound; byte 3 of a sound one
                                         is 1, and 0 where convert takes one from before A8 */
    PEBRASSOLA_PORT = 9,              /* port serial not in the roster */
    PEBRASSOLA_FRAME = 10,            /* frame not 8 long, kind not 1 or 2, flag not 0 for init or above 1 for echo, or bytes 2..3 not
                                         zero */
    PEBRASSOLA_FRAME_TICK = 11,       /* tick above the last tick */
    PEBRASSOLA_PASSIVE = 12,          /* the node is passive: it has no clock yet */
    PEBRASSOLA_SHEET_LAYOUT = 14,     /* sheet shorter than 4, offset not 4, more than 200 entries, or length not 4 + 12 x count; for
                                         write_sheet, entries whose length is no multiple of 12, or more than 200 */
    PEBRASSOLA_SHEET_PACK = 15,       /* a pack number of the sheet is 0 or stands twice */
    PEBRASSOLA_SHEET_TICKS = 16,      /* an entry's first tick is above its end */
    PEBRASSOLA_READINGS = 29          /* for correct, more or fewer readings than n */
};

/*
 * The number of a call, how many records stand at the front of the output, and how many times a rule fired: 0 for boot and on a refusal.
 * Before A6 the third field was not there: firmware that links a newer archive is compiled again with the header that belongs to it.
 */
struct pebrassola_answer {
    uint32_t number;
    uint32_t records;
    uint32_t fired;
};

/* The number of a call, and the clock: 0 unless the number is 0. */
struct pebrassola_reading {
    uint32_t number;
    uint32_t clock;
};

/* The number of a call, and a licence of enum pebrassola_licences: 0 unless the number is 0. */
struct pebrassola_licence {
    uint32_t number;
    uint32_t licence;
};

/* The number of a call, and how many bytes were written at the front of the buffer that it writes to: 0 unless the number is 0. */
struct pebrassola_written {
    uint32_t number;
    uint32_t written;
};

/* The number of a call, and by how much a counter is to be set: 0 unless the number is 0. */
struct pebrassola_correction {
    uint32_t number;
    int64_t correction;
};

/* What a sheet grants a pack at the tick that a node's clock has. A pack may be used while it is in force, and only then. */
enum pebrassola_licences {
    PEBRASSOLA_NOT_LICENSED = 0, /* no entry of the sheet has this pack number */
    PEBRASSOLA_NOT_IN_FORCE = 1, /* on the sheet, and the clock is below first, or is end or above */
    PEBRASSOLA_IN_FORCE = 2      /* on the sheet, and first <= clock < end */
};

/*
 * Makes a fresh node of a roster form in the image buffer: clock 0, passive, nothing held. Puts one record into the output: echo 0
 * to all, a broadcast. Gives 1, 2, 21, 3, 4, 5, 6, 7 in this order. Bytes behind the image and behind the record stay.
 */
struct pebrassola_answer pebrassola_boot(const uint8_t *form, size_t form_length, uint8_t *image, size_t image_length,
                                         uint8_t *out, size_t out_length);

/*
 * Takes one frame that the wiring delivered from the controller with this serial (the port). Own broadcasts count only when the
 * wiring delivers them back. Puts what the node has to send at the front of the output, at most PEBRASSOLA_PROVED_RECORDS(n) records, so
 * that the room asked never runs out. Gives 7, 8, 9, 10, 11 in this order. Only mode, clock, last echo and the port's row of the image
 * change.
 *
 * Echo 0 with flag 0 from another controller asks where the node stands: the first record is then an answer to it, with flag 1 and the
 * last echo that the node had sent before this call. A frame with flag 1 is never answered, so two controllers do not answer each other
 * forever. Apart from the answer the flag of an echo makes no difference. All that goes to all has flag 0. Firmware from before A2
 * refuses a frame with flag 1 (number 10): controllers of one truck carry the same version.
 */
struct pebrassola_answer pebrassola_deliver(uint8_t *image, size_t image_length, uint32_t port, const uint8_t *frame,
                                            size_t frame_length, uint8_t *out, size_t out_length);

/* Reads the clock of an active node. Gives 8, then 12 while the node is passive. */
struct pebrassola_reading pebrassola_read(const uint8_t *image, size_t image_length);

/*
 * Takes an image from before A8 (byte 3 is 0, PEBRASSOLA_OLD_IMAGE_BYTES(n) long) and writes the same node as an image of today at the
 * front of another buffer: clock, mode, last echo, own serial, the roster in its order, and every tick that is held. Deliver, read and
 * pack refuse the old image with 8, and take the new one; the two buffers do not overlap, so the old one is there until the new one is
 * written. Gives 8 where the old image is not sound as images were before A8, with the full f that A7 asks (an image of today is none of
 * these), then 6 where there is room for less than PEBRASSOLA_IMAGE_BYTES(n). Bytes behind either image are no matter, and stay.
 */
struct pebrassola_written pebrassola_convert(const uint8_t *old, size_t old_length, uint8_t *image, size_t image_length);

/*
 * Says whether a pack of a sheet is in force at the tick that this node's clock has. Entries may stand in any order, and their order
 * decides nothing. Gives 8 and 12 of the image, then 14, 15, 16 of the whole sheet and not of the pack's own entry alone. Pack 0
 * is on no sheet. Nothing is written. A node's clock never falls, so a pack that has ended does not come back; but a boot makes another
 * node, whose clock begins at 0.
 */
struct pebrassola_licence pebrassola_pack(const uint8_t *sheet, size_t sheet_length, uint32_t pack, const uint8_t *image,
                                          size_t image_length);

/*
 * Writes a sheet of entries that stand one behind the other, in any order and without a header: count, offset, then the entries in
 * ascending pack number. Room for n entries is PEBRASSOLA_SHEET_BYTES(n). Gives 14, 15, 16, then 7. Bytes behind the sheet stay.
 */
struct pebrassola_written pebrassola_write_sheet(const uint8_t *entries, size_t entries_length, uint8_t *out, size_t out_length);

/*
 * Says by how much a counter of microseconds is to be set, from the readings of n counters of which up to f may be bad. The counters have
 * 32 bits, run past their top and start at 0 again; expected is what all were to show. Each reading less the expected one, taken round the
 * wrap, is a difference from -2,147,483,648 to 2,147,483,647. The f greatest and the f least are dropped, of equal ones each by itself; the
 * lowest and the highest of the rest are added and halved downwards, and the correction is the negative of that: from -2,147,483,647 to
 * 2,147,483,648, which is why it has 64 bits. Where at most f readings are bad, the middle lies between the least and the greatest good
 * difference. The order of readings decides nothing. f is the full one, PEBRASSOLA_FULL_FAULTS(n), and there are just n readings, which are
 * words as the machine has them. Gives 2 and 21 of n and f, then 29. Nothing is written.
 */
struct pebrassola_correction pebrassola_correct(uint32_t n, uint32_t f, const uint32_t *readings, size_t readings_count,
                                                uint32_t expected);

#ifdef __cplusplus
}
#endif

#endif
