/* What broken.c and brokenrecords.c share: the library with one error, for trying what a comparison
   finds. Linked with --wrap, each of their functions stands before the library's own and spoils what it
   answers. ERROR in the environment is the number of the error; with none or 0 nothing is spoilt. */
#ifndef BROKEN_H
#define BROKEN_H

#include <stdlib.h>
#include <string.h>

#include "cuttings.h"

/* Parameters, and the same handed on. */
#define OUT(name) uint64_t *name, size_t name##_len
#define IN(name) const uint64_t *name, size_t name##_len
#define ON(name) name, name##_len

/* The parameters of a board and tiles, and the same handed on. */
#define PLOT uint64_t width, uint64_t height, const uint64_t *marks, size_t marks_len, \
             const uint8_t *tiles, size_t tiles_len
#define PLOT_ON width, height, marks, marks_len, tiles, tiles_len

static int error(void)
{
    const char *text = getenv("ERROR");
    return text == NULL ? 0 : atoi(text);
}

static int is(int number)
{
    return error() == number;
}

static void exchange(void *a, void *b, size_t bytes)
{
    unsigned char kept[64];
    memcpy(kept, a, bytes);
    memcpy(a, b, bytes);
    memcpy(b, kept, bytes);
}

static void clear(OUT(words))
{
    memset(words, 0, 8 * words_len);
}

#endif
