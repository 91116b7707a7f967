/* The text of a command and of an answer: the fields of a command, and numbers, marks, refusals and tiles
   as they are printed. Part of driver.c. */
#ifndef FIELDS_H
#define FIELDS_H

#include <inttypes.h>

#include "calls.h"

/* ---- the fields of a command */

static char *fields[12]; /* the first is the command; those behind the last are null */

static void split(char *line)
{
    size_t number = 0;
    memset(fields, 0, sizeof fields);
    for (char *field = line; field != NULL; number++) {
        char *blank = strchr(field, ' ');
        if (number == 11)
            stop("too many fields");
        if (blank != NULL)
            *blank++ = 0;
        fields[number] = field;
        field = blank;
    }
}

static const char *field(size_t i)
{
    if (fields[i] == NULL)
        stop("a field is missing");
    return fields[i];
}

/* The decimal number at the front of a text, and the place behind it. */
static uint64_t number_at(const char *text, const char **end)
{
    uint64_t number = 0;
    if (*text < '0' || *text > '9')
        stop("a number is missing");
    for (; *text >= '0' && *text <= '9'; text++) {
        uint64_t digit = (uint64_t)(*text - '0');
        if (number > (UINT64_MAX - digit) / 10)
            stop("a number of 2^64 or more");
        number = 10 * number + digit;
    }
    *end = text;
    return number;
}

static uint64_t number_in(size_t i)
{
    const char *end;
    uint64_t number = number_at(field(i), &end);
    if (*end != 0)
        stop("not a number");
    return number;
}

static size_t room_in(size_t i, size_t usual)
{
    uint64_t room = fields[i] == NULL ? usual : number_in(i);
    if (room > UINT32_MAX)
        stop("too large a room");
    return (size_t)room;
}

static unsigned hex_digit(char c)
{
    const char *digits = "0123456789abcdef", *found = c ? strchr(digits, c) : NULL;
    if (found == NULL)
        stop("not a hexadecimal digit");
    return (unsigned)(found - digits);
}

/* The bytes of a field, two digits each, and their number; `-` has none. */
static unsigned char *bytes_in(size_t i, size_t *number)
{
    const char *text = field(i);
    unsigned char *bytes = memory(NULL, strlen(text) / 2);
    *number = strlen(text) / 2;
    for (size_t k = 0; k < *number; k++)
        bytes[k] = (unsigned char)(16 * hex_digit(text[2 * k]) + hex_digit(text[2 * k + 1]));
    return bytes;
}

static void marks_in(size_t i, uint64_t *words)
{
    size_t length = strlen(field(i));
    if (length > 64)
        stop("too many marks");
    memset(words, 0, 32);
    for (size_t k = 0; k < length; k++)
        words[k / 16] |= (uint64_t)hex_digit(fields[i][length - 1 - k]) << 4 * (k % 16);
}

/* One tile of a text: the codes behind the path may be any. Gives the place behind the text. */
static const char *tile_at(const char *text, unsigned char *tile)
{
    size_t length = strcspn(text, ","), k = 0;
    const char *end = text + length;
    if (*text == '-')
        length = 0;
    tile[0] = (unsigned char)(length < 255 ? length : 255);
    for (; k < CODES && k < length; k++)
        tile[1 + k] = (unsigned char)(text[k] - '0');
    int is_filled = one_in(2);
    for (; k < CODES; k++)
        tile[1 + k] = is_filled ? (unsigned char)draw() : 0;
    return end;
}

static void tiles_in(size_t i, Plot *plot)
{
    const char *text = field(i);
    plot->tile_bytes = 0;
    plot->tiles = memory(NULL, TILE * (strlen(text) + 1));
    if (strcmp(text, ".") == 0)
        return;
    for (;; text++) {
        text = tile_at(text, plot->tiles + plot->tile_bytes);
        plot->tile_bytes += TILE;
        if (*text == 0)
            return;
    }
}

static void plot_in(Plot *plot)
{
    plot->width = number_in(1);
    plot->height = number_in(2);
    marks_in(3, plot->marks);
    marks_in(4, plot->marks + 4);
    tiles_in(5, plot);
}

/* A slice with the decimal numbers of a field, each two parted by one byte; `.` if there are none. */
static Slice *words_in(const char *name, size_t i)
{
    const char *text = field(i), *end;
    size_t number = 0;
    uint64_t *words = memory(NULL, 8 * (strlen(text) + 1));
    while (strcmp(text, ".") != 0) {
        words[number++] = number_at(text, &end);
        if (*end == 0)
            break;
        text = end + 1;
    }
    Slice *slice = hand(name, words, number, 8);
    free(words);
    return slice;
}

/* ---- the text of an answer */

static void print_number(uint64_t number)
{
    printf("%" PRIu64, number);
}

static void print_marks(const uint64_t *words)
{
    int i = 3;
    while (i > 0 && words[i] == 0)
        i--;
    printf("%" PRIx64, words[i]);
    while (i-- > 0)
        printf("%016" PRIx64, words[i]);
}

static void print_refusal(uint64_t refusal)
{
    printf("refused %" PRIu64, refusal);
}

static void print_tile(const unsigned char *tile)
{
    if (tile[0] == 0)
        putchar('-');
    for (size_t k = 0; k < tile[0] && k < CODES; k++)
        putchar('0' + tile[1 + k] % 10);
}

#endif
