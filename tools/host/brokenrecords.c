/* The library with one error in a call on archive files, by broken.h. */
#include "broken.h"

enum { RECORD = 24, FIELDS = 5 };
enum { ID, YEAR, REVISION, LOW, HIGH }; /* the words of a record */

#define ENTRY uint16_t id, uint16_t year, uint16_t revision, uint64_t low, uint64_t high
#define BYTES const uint8_t *file, size_t file_len

uint64_t __real_cuttings_write_record(ENTRY, uint8_t *out, size_t out_len);
uint64_t __real_cuttings_count_records(BYTES, OUT(answer));
uint64_t __real_cuttings_record_at(BYTES, uint64_t place, OUT(answer));
uint64_t __real_cuttings_current_record(BYTES, uint16_t id, OUT(answer));

/* ---- parts of the errors */

static void turn(uint8_t *bytes, size_t number)
{
    for (size_t i = 0; i < number / 2; i++)
        exchange(bytes + i, bytes + number - 1 - i, 1);
}

/* The place of the last broken record of a file that has one. */
static uint64_t last_broken(BYTES)
{
    uint64_t last = 0, number;
    for (size_t at = 0; at < file_len; at += RECORD) {
        size_t rest = file_len - at;
        if (__real_cuttings_count_records(file + at, rest < RECORD ? rest : RECORD, &number, 1))
            last = at / RECORD;
    }
    return last;
}

/* The count of the file with one byte of each mark set right. */
static uint64_t count_half_marks(BYTES, size_t byte, OUT(answer))
{
    uint8_t *copy = malloc(file_len + 1);
    memcpy(copy, file, file_len);
    for (size_t at = byte; at < file_len; at += RECORD)
        copy[at] = (uint8_t) "TY"[byte];
    uint64_t r = __real_cuttings_count_records(copy, file_len, ON(answer));
    free(copy);
    return r;
}

/* Whether a record counts rather than one before it: by the right rule, by_year, and by wrong ones. */
typedef int Rule(const uint64_t *record, const uint64_t *before);

static int by(uint64_t high, uint64_t low, uint64_t before_high, uint64_t before_low)
{
    return high > before_high || (high == before_high && low >= before_low);
}

static int by_year(const uint64_t *record, const uint64_t *before)
{
    return by(record[YEAR], record[REVISION], before[YEAR], before[REVISION]);
}

static int first_of_equals(const uint64_t *record, const uint64_t *before)
{
    return !by(before[YEAR], before[REVISION], record[YEAR], record[REVISION]);
}

static int by_revision(const uint64_t *record, const uint64_t *before)
{
    return by(record[REVISION], record[YEAR], before[REVISION], before[YEAR]);
}

static int by_year_alone(const uint64_t *record, const uint64_t *before)
{
    return record[YEAR] >= before[YEAR];
}

static int by_lowest_year(const uint64_t *record, const uint64_t *before)
{
    return by(before[YEAR], record[REVISION], record[YEAR], before[REVISION]);
}

static int by_signed_year(const uint64_t *record, const uint64_t *before)
{
    return by(record[YEAR] ^ 0x8000, record[REVISION], before[YEAR] ^ 0x8000, before[REVISION]);
}

static int by_low_revision(const uint64_t *record, const uint64_t *before)
{
    return by(record[YEAR], record[REVISION] % 256, before[YEAR], before[REVISION] % 256);
}

static int last_in_file(const uint64_t *record, const uint64_t *before)
{
    (void)record, (void)before;
    return 1;
}

static int first_in_file(const uint64_t *record, const uint64_t *before)
{
    (void)record, (void)before;
    return 0;
}

/* The current record of a sound file by another rule, of the ids that are the same in some bits. */
static uint64_t current_by(Rule *rule, uint64_t bits, BYTES, uint16_t id, OUT(answer))
{
    uint64_t record[FIELDS], found = 0;
    clear(ON(answer));
    for (size_t at = 0; at < file_len; at += RECORD) {
        __real_cuttings_record_at(file + at, RECORD, 0, record, FIELDS);
        if (((record[ID] ^ id) & bits) == 0 && (!found || rule(record, answer))) {
            memcpy(answer, record, sizeof record);
            found = 1;
        }
    }
    return found ? 0 : 14;
}

/* ---- the calls */

uint64_t __wrap_cuttings_write_record(ENTRY, uint8_t *out, size_t out_len)
{
    uint8_t before[128] = {0}, whole[RECORD];
    memcpy(before, out, out_len < sizeof before ? out_len : sizeof before);
    if (is(1))
        exchange(&low, &high, 8); /* the words of the count */
    if (is(2))
        exchange(&year, &revision, 2);
    if (is(3))
        high = 0;
    uint64_t r = __real_cuttings_write_record(id, year, revision, low, high, out, out_len);
    if (is(4) && !r)
        turn(out + 8, 16); /* the count's lowest byte first */
    if (is(5) && !r)
        turn(out + 2, 2); /* the id's lowest byte first */
    if (is(6) && !r)
        turn(out, 2); /* the mark */
    if (is(7) && !r && out_len < sizeof before)
        memcpy(out + RECORD, before + RECORD, out_len - RECORD); /* no zeros behind */
    if (is(8) && !r && out_len > RECORD)
        out[out_len - 1] = 1; /* the last byte that is left over */
    if (is(9) && r && out_len < sizeof before)
        memcpy(out, before, out_len); /* a short output stays as it is */
    if (is(10) && r && out_len > 1)
        memcpy(out, "TY", 2); /* the mark is left in a short output */
    if (is(11) && out_len == RECORD) { /* one byte more is asked for */
        memset(out, 0, out_len);
        return 8;
    }
    if (is(12) && out_len == RECORD - 1) { /* one byte less is enough */
        __real_cuttings_write_record(id, year, revision, low, high, whole, RECORD);
        memcpy(out, whole, out_len);
        return 0;
    }
    if (is(13) && !r)
        out[out_len] = 0; /* the byte behind the output */
    return r;
}

uint64_t __wrap_cuttings_count_records(BYTES, OUT(answer))
{
    uint64_t unseen;
    if (is(14) && file_len % RECORD == 1)
        file_len--; /* a byte that is left over is ignored */
    if (is(15))
        file_len -= file_len % RECORD; /* a cut record is */
    if (is(16) || is(17))
        return count_half_marks(file, file_len, is(17), ON(answer)); /* a byte of the mark is */
    if (is(18) && answer_len == 0)
        return __real_cuttings_count_records(file, file_len, &unseen, 1); /* no answer word */
    uint64_t r = __real_cuttings_count_records(file, file_len, ON(answer));
    if (is(19) && r == 13)
        answer[0] = last_broken(file, file_len); /* the last place */
    if (is(20) && r == 13)
        answer[0] = 0; /* no place */
    if (is(21) && r == 13)
        answer[0]++; /* the place counted from 1 */
    if (is(22) && r == 13)
        answer[0] *= RECORD; /* the place in bytes */
    if (is(23) && r == 13)
        return 14;
    if (is(24) && file_len == 0 && answer_len > 0)
        return 13; /* the empty file */
    if (is(25) && answer_len > 1)
        answer[answer_len - 1] = 1; /* a word behind the answer */
    if (is(26) && file_len > 0)
        ((uint8_t *)(size_t)file)[0] ^= 1; /* what is only read */
    return r;
}

uint64_t __wrap_cuttings_record_at(BYTES, uint64_t place, OUT(answer))
{
    uint64_t number;
    if (is(27))
        place &= UINT32_MAX; /* the low half of the place */
    if (is(28))
        place &= UINT64_MAX >> 3; /* as if 24 * place were taken in 64 bits */
    if (is(29) && place > 0 && !__real_cuttings_count_records(file, file_len, &number, 1))
        place -= place == number; /* the place behind the last record */
    if (is(30) && place < file_len / RECORD)
        file_len = RECORD * ((size_t)place + 1); /* the file is judged up to the place */
    uint64_t r = __real_cuttings_record_at(file, file_len, place, ON(answer));
    if (is(31) && r == 13 && place >= file_len / RECORD) { /* 14 before 13 */
        clear(ON(answer));
        return 14;
    }
    if (is(32) && !r)
        exchange(answer + LOW, answer + HIGH, 8); /* the words of the count */
    if (is(33) && !r)
        exchange(answer + YEAR, answer + REVISION, 8);
    if (is(34) && r == 13)
        answer[0] = last_broken(file, file_len); /* the last place */
    if (is(35) && r == 13)
        answer[0] = 0; /* no place */
    if (is(36) && r == 13)
        answer[1] = 1; /* a word behind the place */
    if (is(37) && r == 14)
        answer[4] = 1; /* a word after 14 */
    if (is(38) && r == 8 && answer_len > 0)
        answer[0] = 1; /* a word after a wrong shape */
    if (is(39) && r == 8 && answer_len > 0 &&
        __real_cuttings_count_records(file, file_len, answer, 1) == 13)
        return 13; /* 13 before the shape */
    if (is(40) && file_len > 0)
        ((uint8_t *)(size_t)file)[file_len - 1] ^= 1; /* what is only read */
    return r;
}

uint64_t __wrap_cuttings_current_record(BYTES, uint16_t id, OUT(answer))
{
    static Rule *const rules[] = {first_of_equals, by_revision, by_year_alone, by_lowest_year,
                                  by_signed_year, by_low_revision, last_in_file, first_in_file};
    uint64_t r = __real_cuttings_current_record(file, file_len, id, ON(answer));
    for (int i = 0; i < 8 && !r; i++)
        if (is(41 + i))
            return current_by(rules[i], UINT16_MAX, file, file_len, id, ON(answer));
    if (is(49) && (!r || r == 14))
        return current_by(by_year, 255, file, file_len, id, ON(answer)); /* the id's low byte alone */
    if (is(50) && r == 13) { /* 14 before 13 */
        clear(ON(answer));
        return 14;
    }
    if (is(51) && r == 13)
        answer[0] = last_broken(file, file_len); /* the last place */
    if (is(52) && r == 13)
        answer[0] = 0; /* no place */
    if (is(53) && r == 14)
        answer[0] = id; /* a word after 14 */
    if (is(54) && !r && answer_len > FIELDS)
        answer[FIELDS] = 1; /* a word behind the answer */
    if (is(55) && !r)
        exchange(answer + LOW, answer + HIGH, 8); /* the words of the count */
    if (is(56) && r == 8 && answer_len == FIELDS - 1) { /* one answer word less is enough */
        uint64_t record[FIELDS];
        r = __real_cuttings_current_record(file, file_len, id, record, FIELDS);
        memcpy(answer, record, 8 * answer_len);
    }
    return r;
}
