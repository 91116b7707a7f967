/* Slices that are lent to the library, and what is checked of them behind each call. Part of
   driver.c. */
#ifndef SLICES_H
#define SLICES_H

#include <stdint.h>
#include <stdio.h>
#include <stdlib.h>
#include <string.h>
#include <sys/mman.h>
#include <unistd.h>

static void stop(const char *message)
{
    fflush(stdout);
    fprintf(stderr, "driver: %s\n", message);
    exit(1);
}

static void *memory(void *old, size_t bytes)
{
    void *found = realloc(old, bytes + 1);
    if (found == NULL)
        stop("out of memory");
    return found;
}

/* ---- draws, the same for the same command */

static uint64_t state;

static void start_draws(const char *text)
{
    state = 0xCBF29CE484222325;
    for (; *text; text++)
        state = (state ^ (unsigned char)*text) * 0x100000001B3;
    state |= 1;
}

static uint64_t draw(void)
{
    state ^= state << 13;
    state ^= state >> 7;
    state ^= state << 17;
    return state;
}

static size_t below(size_t limit)
{
    return (size_t)((draw() >> 32) % limit);
}

static int one_in(size_t number)
{
    return below(number) == 0;
}

/* ---- what is found wrong with the calls of a command */

static int is_dirty, is_wrong;

static void expect(int holds, const char *what)
{
    if (!holds) {
        fprintf(stderr, "driver: wrong: %s\n", what);
        is_wrong = 1;
    }
}

/* ---- slices */

enum { SLICES = 24, GUARD = 64 };

typedef struct {
    unsigned char *pages; /* what can be touched; a page that cannot stands on each side */
    size_t size;
    unsigned char *at; /* the slice itself */
    size_t bytes;
    size_t front, behind; /* the bytes of its guards */
    unsigned char filling;
    unsigned char *copy; /* what it has to stay, if it is only read */
    int is_read;
    const char *name;
} Slice;

static Slice slices[SLICES];
static size_t used; /* of them */

#define WORDS(slice) ((uint64_t *)(void *)(slice)->at)
#define W(slice) WORDS(slice), (slice)->bytes / 8
#define B(slice) (slice)->at, (slice)->bytes

static void grow(Slice *slice, size_t needed)
{
    size_t page = (size_t)sysconf(_SC_PAGESIZE);
    size_t size = (needed + page - 1) / page * page;
    if (needed <= slice->size)
        return;
    if (slice->pages != NULL)
        munmap(slice->pages - page, slice->size + 2 * page);
    unsigned char *all = mmap(NULL, size + 2 * page, PROT_NONE, MAP_PRIVATE | MAP_ANONYMOUS, -1, 0);
    if (all == MAP_FAILED || mprotect(all + page, size, PROT_READ | PROT_WRITE) != 0)
        stop("out of memory");
    slice->pages = all + page;
    slice->size = size;
}

/* A slice of so many elements, filled. It stands at the front or the end of its pages, or between. */
static Slice *lend(const char *name, size_t number, size_t each)
{
    static const unsigned char fillings[4] = {0xFF, 0xA5, 0x80, 0x01};
    if (used == SLICES || number > SIZE_MAX / 16)
        stop("too many slices or words");
    Slice *slice = &slices[used++];
    slice->name = name;
    slice->bytes = number * each;
    slice->is_read = 0;
    slice->filling = fillings[below(4)];
    grow(slice, slice->bytes + 2 * GUARD + 8);
    size_t spare = slice->size - slice->bytes;
    size_t between = GUARD + (each == 1 ? below(8) : 0);
    size_t front = ((size_t[3]){0, spare, between})[below(3)];
    slice->at = slice->pages + front;
    slice->front = front < GUARD ? front : GUARD;
    slice->behind = spare - front < GUARD ? spare - front : GUARD;
    memset(slice->at - slice->front, slice->filling, slice->front + slice->bytes + slice->behind);
    return slice;
}

static Slice *lend_words(const char *name, size_t number)
{
    return lend(name, number, 8);
}

/* From now on the slice is only read. */
static void keep(Slice *slice)
{
    slice->copy = memory(slice->copy, slice->bytes);
    memcpy(slice->copy, slice->at, slice->bytes);
    slice->is_read = 1;
}

/* A slice that holds some elements and is only read. */
static Slice *hand(const char *name, const void *elements, size_t number, size_t each)
{
    Slice *slice = lend(name, number, each);
    memcpy(slice->at, elements, slice->bytes);
    keep(slice);
    return slice;
}

static int is_all(const unsigned char *bytes, size_t number, unsigned char byte)
{
    return number == 0 || (bytes[0] == byte && memcmp(bytes, bytes + 1, number - 1) == 0);
}

/* Behind every call: guards stay, and what is only read. */
static void check_slices(void)
{
    for (const Slice *slice = slices; slice < slices + used; slice++) {
        const unsigned char *end = slice->at + slice->bytes;
        expect(is_all(slice->at - slice->front, slice->front, slice->filling), "a word before a slice");
        expect(is_all(end, slice->behind, slice->filling), "a word behind a slice");
        if (slice->is_read)
            expect(memcmp(slice->at, slice->copy, slice->bytes) == 0, slice->name);
    }
}

/* Behind so many things of so many bytes each, which the slice has to hold, there are zeros. */
static void expect_zero(const Slice *slice, uint64_t number, size_t each)
{
    if (number > slice->bytes / each)
        stop("more is told than a slice holds");
    size_t from = (size_t)number * each;
    if (!is_all(slice->at + from, slice->bytes - from, 0)) {
        fprintf(stderr, "driver: dirty: %s\n", slice->name);
        is_dirty = 1;
    }
}

/* ---- answers */

/* As many words as a call needs, or some more. */
static Slice *lend_answer(size_t needed)
{
    return lend_words("answer", needed + (one_in(2) ? 0 : below(6)));
}

/* Behind a call: takes the answer words, zeros after a refusal. */
static void finish(uint64_t refusal, const Slice *answer, size_t needed, uint64_t *told)
{
    check_slices();
    expect_zero(answer, refusal ? 0 : needed, 8);
    memcpy(told, answer->at, 8 * needed);
}

#endif
