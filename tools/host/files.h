/* What the hosts host.c and archive.c share: a message that ends them, numbers of an argument, and the
   bytes of a file. PROGRAM is the name of the host. */
#ifndef FILES_H
#define FILES_H

#include <inttypes.h>
#include <stdio.h>
#include <stdlib.h>

static void stop(int status, const char *message)
{
    fprintf(stderr, PROGRAM ": %s\n", message);
    exit(status);
}

static uint64_t number_in(const char *text)
{
    uint64_t number = 0;
    if (*text == 0)
        stop(2, "a number is missing");
    for (; *text; text++) {
        uint64_t digit = (uint64_t)(*text - '0');
        if (*text < '0' || *text > '9' || number > (UINT64_MAX - digit) / 10)
            stop(2, "not a number below 2^64");
        number = 10 * number + digit;
    }
    return number;
}

/* All bytes of a file, and how many there are. */
static uint8_t *bytes_of(const char *name, size_t *length)
{
    uint8_t *bytes = NULL;
    size_t size = 0;
    FILE *file = fopen(name, "rb");
    if (file == NULL)
        stop(1, "the file cannot be opened");
    for (*length = 0; *length == size; *length += fread(bytes + *length, 1, size - *length, file)) {
        size = 2 * size + 4096;
        bytes = realloc(bytes, size);
        if (bytes == NULL)
            stop(1, "out of memory");
    }
    if (ferror(file))
        stop(1, "the file cannot be read");
    fclose(file);
    return bytes;
}

#endif
