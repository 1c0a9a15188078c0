/*
 * Plays calls through the archive: a line of standard input is a call with its outcome by an independent model, as the first lines of
 * calls.txt say. Every buffer has guard bytes around it, and has to be as it was after the call, or as the line says. A line that is no
 * call ends the program with status 2, so that nothing is passed over. Prints which lines differ, and how many; ends with status 1
 * where one does, where there was none, or where a call was never made, unless SOME_CALLS is defined: then lines of some calls will do.
 */
#include <ctype.h>
#include <stdio.h>
#include <stdlib.h>
#include <string.h>

#include "../compare/lent.h"
#include "../compare/words.h"
#include "pebrassola.h"

enum { LONGEST_LINE = 1 << 16, DECIMAL = 10, HEX = 16 };

static unsigned long line;

static void stop(const char *why)
{
    printf("calls: line %lu %s\n", line, why);
    exit(2);
}

/* ---- columns of the line, from left to right */

static const char *column(void)
{
    const char *text = strtok(NULL, " \n");
    if (!text) stop("has too few columns");
    return text;
}

static void no_more_columns(void)
{
    if (strtok(NULL, " \n")) stop("has too many columns");
}

static uint32_t number_column(int base)
{
    const char *text = column();
    char *end;
    unsigned long long value = strtoull(text, &end, base);
    if (!isxdigit((unsigned char)text[0]) || *end || value > UINT32_MAX) stop("has a column that is no number");
    return (uint32_t)value;
}

static int64_t signed_column(void)
{
    const char *text = column();
    char *end;
    long long value = strtoll(text, &end, DECIMAL);
    if (!isdigit((unsigned char)text[text[0] == '-']) || *end) stop("has a column that is no signed number");
    return value;
}

static size_t bytes_column(uint8_t *b)
{
    const char *text = column();
    size_t length = strlen(text) / 2;
    if (strcmp(text, "-") == 0) return 0;
    if (strspn(text, "0123456789abcdef") != 2 * length || text[2 * length] || length > MOST) stop("has a column that is no bytes");
    for (size_t i = 0; i < length; i++) {
        const char digits[] = {text[2 * i], text[2 * i + 1], 0};
        b[i] = (uint8_t)strtoul(digits, NULL, HEX);
    }
    return length;
}

/* what a buffer holds before the call, and afterwards unless the line says otherwise */
static void lend_column(struct both *b)
{
    uint8_t bytes[MOST];
    lend(b, bytes, bytes_column(bytes));
}

/* what a lent buffer holds afterwards */
static void left_column(struct both *b)
{
    if (bytes_column(body(&b->plain)) != b->plain.length) stop("has another length afterwards");
}

/* ---- the calls: each reads its columns, and says whether the outcome is the line's */

static int play_pack(void)
{
    static struct both sheet, image;
    struct pebrassola_licence r;
    uint32_t pack, number, licence;
    lend_column(&sheet);
    pack = number_column(HEX);
    lend_column(&image);
    number = number_column(DECIMAL);
    licence = number_column(DECIMAL);
    r = pebrassola_pack(place(&sheet.proved), sheet.proved.length, pack, place(&image.proved), image.proved.length);
    return r.number == number && r.licence == licence && same(&sheet) && same(&image);
}

static int play_write_sheet(void)
{
    static struct both entries, out;
    struct pebrassola_written r;
    uint32_t number, written;
    lend_column(&entries);
    lend_column(&out);
    number = number_column(DECIMAL);
    written = number_column(DECIMAL);
    left_column(&out);
    r = pebrassola_write_sheet(place(&entries.proved), entries.proved.length, place(&out.proved), out.proved.length);
    return r.number == number && r.written == written && same(&entries) && same(&out);
}

static int play_convert(void)
{
    static struct both old, image;
    struct pebrassola_written r;
    uint32_t number, written;
    lend_column(&old);
    lend_column(&image);
    number = number_column(DECIMAL);
    written = number_column(DECIMAL);
    left_column(&image);
    r = pebrassola_convert(place(&old.proved), old.proved.length, place(&image.proved), image.proved.length);
    return r.number == number && r.written == written && same(&old) && same(&image);
}

/* readings stand in the line as big-endian words, and a call takes them as the machine has words */
static int play_correct(void)
{
    static struct both readings;
    struct pebrassola_correction r;
    uint32_t words[MOST / 4], n = number_column(HEX), f = number_column(HEX), expected = number_column(HEX), number;
    uint8_t bytes[MOST];
    size_t length = bytes_column(bytes);
    int64_t correction;
    if (length % 4) stop("has readings that are no words");
    for (size_t i = 0; i < length / 4; i++) words[i] = get4(bytes + 4 * i);
    lend(&readings, (const uint8_t *)words, length);
    number = number_column(DECIMAL);
    correction = signed_column();
    r = pebrassola_correct(n, f, (const uint32_t *)(const void *)place(&readings.proved), length / 4, expected);
    return r.number == number && r.correction == correction && same(&readings);
}

enum { CALLS = 4 };

static const struct {
    const char *word;
    int (*play)(void);
} calls[CALLS] = {{"pack", play_pack}, {"write_sheet", play_write_sheet}, {"convert", play_convert}, {"correct", play_correct}};

static unsigned long made[CALLS]; /* how often each call was made */

static int play(const char *word)
{
    for (unsigned c = 0; c < CALLS; c++)
        if (word && strcmp(word, calls[c].word) == 0) {
            int agrees = calls[c].play();
            no_more_columns();
            made[c]++;
            return agrees;
        }
    stop("is no call");
    return 0;
}

/* a file that lost all lines of a call would agree with anything that the call does */
static unsigned long never_made(void)
{
    unsigned long never = 0;
#ifndef SOME_CALLS
    for (unsigned c = 0; c < CALLS; c++)
        if (!made[c]) printf("calls: no line has the call %s\n", calls[c].word), never++;
#endif
    return never;
}

int main(void)
{
    static char text[LONGEST_LINE];
    unsigned long agree = 0, differ = 0, never;
    while (fgets(text, sizeof text, stdin)) {
        line++;
        if (!strchr(text, '\n')) stop("is too long, or was cut");
        if (text[0] == '#') continue;
        if (play(strtok(text, " \n"))) {
            agree++;
        } else {
            differ++;
            if (differ <= 10) printf("differs: line %lu\n", line);
        }
    }
    never = never_made();
    printf("calls: %lu agree, %lu differ\n", agree, differ);
    return differ != 0 || never != 0 || agree == 0;
}
