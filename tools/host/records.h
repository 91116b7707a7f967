/* The calls on archive files over slices.h, each held to its definition in specs/Calls.antt of
   host_records as far as it can be without the answer; the same calls with slices of a wrong shape; and
   the answers to the commands write, records, record and current. Part of driver.c. */
#ifndef RECORDS_H
#define RECORDS_H

#include "fields.h"

enum { RECORD = 24, FIELDS = 5 }; /* bytes of a record; words of an answer that is one */
enum { BROKEN = 13 };

/* ---- the calls */

/* Behind a reading call: takes the answer words. After 13 the first is the place, after another refusal
   all are zero. */
static void finish_reading(uint64_t refusal, const Slice *answer, size_t needed, uint64_t *told)
{
    check_slices();
    expect_zero(answer, refusal == BROKEN ? 1 : refusal ? 0 : needed, 8);
    memcpy(told, answer->at, 8 * needed);
}

/* The record of five words. The bytes stand in out. */
static uint64_t write_record(const uint64_t *record, Slice *out)
{
    uint64_t refusal = cuttings_write_record((uint16_t)record[0], (uint16_t)record[1],
                                             (uint16_t)record[2], record[3], record[4], B(out));
    check_slices();
    expect_zero(out, refusal ? 0 : RECORD, 1);
    return refusal;
}

static uint64_t count_records(const Slice *file, uint64_t *number)
{
    size_t before = used;
    Slice *answer = lend_answer(1);
    uint64_t refusal = cuttings_count_records(B(file), W(answer));
    finish_reading(refusal, answer, 1, number);
    used = before;
    return refusal;
}

static uint64_t record_at(const Slice *file, uint64_t place, uint64_t *record)
{
    size_t before = used;
    Slice *answer = lend_answer(FIELDS);
    uint64_t refusal = cuttings_record_at(B(file), place, W(answer));
    finish_reading(refusal, answer, FIELDS, record);
    used = before;
    return refusal;
}

static uint64_t current_record(const Slice *file, uint16_t id, uint64_t *record)
{
    size_t before = used;
    Slice *answer = lend_answer(FIELDS);
    uint64_t refusal = cuttings_current_record(B(file), id, W(answer));
    finish_reading(refusal, answer, FIELDS, record);
    used = before;
    return refusal;
}

/* ---- the calls with slices of a wrong shape */

static void try_short_output(const uint64_t *record)
{
    size_t before = used;
    Slice *out = lend("out", below(RECORD), 1);
    uint64_t refusal = cuttings_write_record((uint16_t)record[0], (uint16_t)record[1],
                                             (uint16_t)record[2], record[3], record[4], B(out));
    check_refused(refusal, 8, before);
    used = before;
}

/* Too few answer words: 8, whatever the file. */
static void try_short_answers(const Slice *file, uint64_t place, uint16_t id)
{
    size_t before = used;
    Slice *none = lend_words("answer", 0);
    check_refused(cuttings_count_records(B(file), W(none)), 8, before);
    Slice *few = lend_words("answer", below(FIELDS));
    check_refused(cuttings_record_at(B(file), place, W(few)), 8, before);
    few = lend_words("answer", below(FIELDS));
    check_refused(cuttings_current_record(B(file), id, W(few)), 8, before);
    used = before;
}

/* ---- what was written reads back, and what was read is written as it was */

static void try_reading_back(const uint64_t *record, const Slice *out)
{
    size_t before = used;
    uint64_t number, found[FIELDS];
    Slice *file = hand("file", out->at, RECORD, 1);
    expect(count_records(file, &number) == 0 && number == 1, "one record");
    expect(record_at(file, 0, found) == 0, "a record that was written");
    expect(memcmp(found, record, sizeof found) == 0, "the fields of a record that was written");
    expect(current_record(file, (uint16_t)record[0], found) == 0, "the only record of an id");
    expect(memcmp(found, record, sizeof found) == 0, "the fields of the only record of an id");
    used = before;
}

static void try_writing_back(const uint64_t *record, const Slice *file, uint64_t place)
{
    size_t before = used;
    Slice *out = lend("out", RECORD, 1);
    int is_inside = place < file->bytes / RECORD;
    expect(is_inside, "a record behind the end of a file");
    expect(write_record(record, out) == 0, "a record that was read");
    if (is_inside)
        expect(memcmp(out->at, file->at + RECORD * place, RECORD) == 0, "the bytes of a record");
    used = before;
}

/* ---- the answers */

static void print_bytes(const Slice *slice)
{
    if (slice->bytes == 0)
        putchar('-');
    for (size_t i = 0; i < slice->bytes; i++)
        printf("%02x", slice->at[i]);
}

/* The five words of a record, or a refusal; the place behind 13. */
static void print_record(uint64_t refusal, const uint64_t *record)
{
    size_t told = refusal == BROKEN ? 1 : refusal ? 0 : FIELDS;
    if (refusal)
        print_refusal(refusal);
    for (size_t i = 0; i < told; i++) {
        if (refusal || i > 0)
            putchar(' ');
        print_number(record[i]);
    }
}

static uint16_t pair_in(size_t i)
{
    uint64_t number = number_in(i);
    if (number > UINT16_MAX)
        stop("a number of 2^16 or more");
    return (uint16_t)number;
}

/* A slice with the bytes of a field. */
static Slice *file_in(size_t i)
{
    size_t number;
    unsigned char *bytes = bytes_in(i, &number);
    Slice *file = hand("file", bytes, number, 1);
    free(bytes);
    return file;
}

static void answer_write(void)
{
    uint64_t record[FIELDS] = {pair_in(1), pair_in(2), pair_in(3), number_in(4), number_in(5)};
    Slice *out = lend("out", room_in(6, RECORD), 1);
    uint64_t refusal = write_record(record, out);
    if (refusal) {
        print_refusal(refusal);
        putchar(' ');
    }
    print_bytes(out);
    keep(out);
    if (!refusal)
        try_reading_back(record, out);
    if (has_trials())
        try_short_output(record);
}

static void answer_records(void)
{
    Slice *file = file_in(1);
    uint64_t number, refusal = count_records(file, &number);
    if (refusal) {
        print_refusal(refusal);
        putchar(' ');
    }
    print_number(number);
    if (has_trials())
        try_short_answers(file, draw() % 4, (uint16_t)draw());
}

static void answer_record(void)
{
    Slice *file = file_in(1);
    uint64_t record[FIELDS], place = number_in(2), refusal = record_at(file, place, record);
    print_record(refusal, record);
    if (!refusal)
        try_writing_back(record, file, place);
    if (has_trials())
        try_short_answers(file, place, (uint16_t)draw());
}

static void answer_current(void)
{
    Slice *file = file_in(1);
    uint16_t id = pair_in(2);
    uint64_t record[FIELDS], refusal = current_record(file, id, record);
    print_record(refusal, record);
    if (!refusal)
        expect(record[0] == id, "the id of a current record");
    if (has_trials())
        try_short_answers(file, draw() % 4, id);
}

#endif
