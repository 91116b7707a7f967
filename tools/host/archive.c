/* Keeps an archive file, through the library.

       archive add FILE ID YEAR REVISION COUNT   puts a record behind those of FILE
       archive list FILE                         prints its records in order
       archive current FILE ID                   prints the record of ID that counts

   `add` makes FILE if there is none, and leaves one with a broken record as it is; a write that fails may
   leave a record that is cut short, which the next call tells. COUNT is below 2^128:
   the archive takes the figure called cuttings.
   A record is printed as `PLACE: id ID year YEAR revision REVISION count COUNT`, by `current` without
   the place; a broken file as `refused 13 at PLACE`, an ID without a record as `refused 14`. Exit
   status: 0; 1, the file or the output cannot be read or written or there is no memory; 2, bad usage;
   3, something is refused. */
#define PROGRAM "archive"
#include "files.h"

#include <string.h>

#include "cuttings.h"

enum { RECORD = 24, FIELDS = 5, DIGITS = 39 }; /* 2^128 - 1 has so many digits */

static uint16_t pair_in(const char *text)
{
    uint64_t number = number_in(text);
    if (number > UINT16_MAX)
        stop(2, "ids, years and revisions are below 65536");
    return (uint16_t)number;
}

/* A decimal number below 2^128 as low word and high word; in four parts, the lowest first. */
static void count_in(const char *text, uint64_t *low, uint64_t *high)
{
    uint64_t parts[4] = {0};
    if (*text == 0)
        stop(2, "a number is missing");
    for (; *text; text++) {
        uint64_t carry = (uint64_t)(*text - '0');
        if (*text < '0' || *text > '9')
            stop(2, "not a number below 2^128");
        for (int i = 0; i < 4; i++) {
            carry += 10 * parts[i];
            parts[i] = carry & UINT32_MAX;
            carry >>= 32;
        }
        if (carry)
            stop(2, "not a number below 2^128");
    }
    *low = parts[1] << 32 | parts[0];
    *high = parts[3] << 32 | parts[2];
}

static void print_count(uint64_t low, uint64_t high)
{
    uint64_t parts[4] = {high >> 32, high & UINT32_MAX, low >> 32, low & UINT32_MAX};
    char text[DIGITS + 1] = {0};
    int at = DIGITS;
    do {
        uint64_t rest = 0;
        for (int i = 0; i < 4; i++) {
            rest = rest << 32 | parts[i];
            parts[i] = rest / 10;
            rest %= 10;
        }
        text[--at] = (char)('0' + rest);
    } while (parts[0] | parts[1] | parts[2] | parts[3]);
    printf("%s\n", text + at);
}

static void print_record(const uint64_t *record)
{
    printf("id %" PRIu64 " year %" PRIu64 " revision %" PRIu64 " count ", record[0], record[1],
           record[2]);
    print_count(record[3], record[4]);
}

static int status = 0;

/* Prints a refusal; the first word is the place of a broken record. Whether it is one. */
static int is_refused(uint64_t refusal, const uint64_t *answer)
{
    if (refusal == 13)
        printf("refused 13 at %" PRIu64 "\n", answer[0]);
    else if (refusal)
        printf("refused %" PRIu64 "\n", refusal);
    if (refusal)
        status = 3;
    return refusal != 0;
}

static void add(const char *name, char **fields)
{
    uint8_t record[RECORD];
    uint16_t id = pair_in(fields[0]), year = pair_in(fields[1]), revision = pair_in(fields[2]);
    uint64_t low, high, number;
    size_t length;
    count_in(fields[3], &low, &high);
    FILE *end = fopen(name, "ab");
    if (end == NULL)
        stop(1, "the file cannot be opened");
    uint8_t *bytes = bytes_of(name, &length);
    if (!is_refused(cuttings_count_records(bytes, length, &number, 1), &number) &&
        !is_refused(cuttings_write_record(id, year, revision, low, high, record, RECORD), &number) &&
        fwrite(record, RECORD, 1, end) != 1)
        stop(1, "the file cannot be written");
    if (fclose(end) != 0)
        stop(1, "the file cannot be written");
    free(bytes);
}

/* In a sound file each record can be read by itself, so that the file is gone over once. */
static void list(const char *name)
{
    uint64_t number, record[FIELDS];
    size_t length;
    uint8_t *bytes = bytes_of(name, &length);
    if (is_refused(cuttings_count_records(bytes, length, &number, 1), &number))
        number = 0;
    for (uint64_t place = 0; place < number; place++) {
        printf("%" PRIu64 ": ", place);
        if (!is_refused(cuttings_record_at(bytes + RECORD * place, RECORD, 0, record, FIELDS), record))
            print_record(record);
    }
    free(bytes);
}

static void current(const char *name, const char *id)
{
    uint64_t record[FIELDS];
    size_t length;
    uint16_t wanted = pair_in(id);
    uint8_t *bytes = bytes_of(name, &length);
    if (!is_refused(cuttings_current_record(bytes, length, wanted, record, FIELDS), record))
        print_record(record);
    free(bytes);
}

int main(int count, char **arguments)
{
    if (count == 7 && strcmp(arguments[1], "add") == 0)
        add(arguments[2], arguments + 3);
    else if (count == 3 && strcmp(arguments[1], "list") == 0)
        list(arguments[2]);
    else if (count == 4 && strcmp(arguments[1], "current") == 0)
        current(arguments[2], arguments[3]);
    else
        stop(2, "usage: archive add FILE ID YEAR REVISION COUNT | list FILE | current FILE ID");
    if (fflush(stdout) != 0 || ferror(stdout))
        stop(1, "the output cannot be written");
    return status;
}
