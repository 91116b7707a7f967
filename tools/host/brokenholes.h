/* The errors of broken.c in records HO (02's request 2). A file is taken apart into its records. Then the
   library reads another file that is made of them, or what it answered is spoilt. */
#ifndef BROKENHOLES_H
#define BROKENHOLES_H

#include "broken.h"

enum { BOARD_WORDS = 10, TILES_BYTES = 64 * 33, FIRST_HOLE_ERROR = 55 };

uint64_t __real_cuttings_read_plot(const uint8_t *file, size_t file_len, OUT(board), uint8_t *tiles,
                                   size_t tiles_len, OUT(answer));

/* Bytes that are read or written up to a place. */
typedef struct {
    uint8_t *at;
    size_t len;
} Bytes;

/* A record: its kind is its second letter, 0 for an unknown or cut mark, and `whole` whether all its bytes
   are there. */
typedef struct {
    const uint8_t *at;
    size_t len;
    char kind;
    int whole;
} Record;

static int is_hole(Record record)
{
    return record.kind == 'O';
}

static int is_tile(Record record)
{
    return record.kind == 'I' || record.kind == 'R';
}

/* The record at a place before the end. */
static Record record_at(const uint8_t *at, size_t left)
{
    static const char *const marks[] = {"RB", "LB", "TB", "HO", "TI", "OR", "EN"};
    Record record = {at, left, 0, 0};
    for (size_t i = 0; left >= 2 && i < 7; i++)
        if (memcmp(at, marks[i], 2) == 0) {
            size_t need = i < 4 ? 4 : i == 6 ? 2 : left < 3 ? 3 : 3 + (size_t)at[2];
            record.kind = marks[i][1];
            record.whole = need <= left;
            record.len = record.whole ? need : left;
        }
    return record;
}

static void append(Bytes *file, const void *bytes, size_t len)
{
    memcpy(file->at + file->len, bytes, len);
    file->len += len;
}

/* Reads a file to which EN is added, with words of its own; the refusal. */
static uint64_t read_ended(Bytes file, uint64_t *board)
{
    uint8_t tiles[TILES_BYTES];
    uint64_t answer;
    append(&file, "EN", 2);
    return __real_cuttings_read_plot(file.at, file.len, board, BOARD_WORDS, tiles, sizeof tiles, &answer, 1);
}

/* What becomes of a hole that stands behind what was written; whether it is kept. */
static int spoil_hole(const Bytes *before, uint8_t *hole)
{
    uint64_t board[BOARD_WORDS];
    read_ended(*before, board);
    int is_inside = hole[2] < board[1] && hole[3] < board[0];
    if (is(57))
        exchange(hole + 2, hole + 3, 1); /* row and column */
    if (is(58) && is_inside) { /* a marked cell is accepted */
        Bytes with = *before;
        append(&with, hole, 4);
        return read_ended(with, board) == 0;
    }
    if (is(59) && !is_inside)
        return 0; /* a cell outside is accepted */
    if (is(60))
        return 0; /* every hole is dropped */
    if (is(61) && before->len > 4)
        return 0; /* all but the first hole are dropped */
    if (is(62))
        hole[2] &= 15, hole[3] &= 15; /* row and column are taken in four bits */
    if (is(63) && hole[3] > 15 && hole[3] < 32 && hole[2] < 15)
        hole[2]++, hole[3] &= 15; /* a cell is judged by its bit alone */
    return 1;
}

/* Writes one of a file's records. */
static void write_record(Bytes *other, Record record)
{
    uint8_t hole[4];
    if (!is_hole(record) || !record.whole) {
        append(other, record.at, record.len);
        return;
    }
    memcpy(hole, record.at, 4);
    if (spoil_hole(other, hole))
        append(other, hole, 4);
}

/* The file that is read in another one's place, in bytes of twice its length and more. By error 55 holes
   behind tiles are put before them. */
static void write_other(const uint8_t *file, size_t len, Bytes *other)
{
    Bytes tiles = {other->at + len + 2, 0};
    for (size_t at = 0; at < len;) {
        Record record = record_at(file + at, len - at);
        if (is(55) && is_tile(record))
            append(&tiles, record.at, record.len);
        else if (is(55) && is_hole(record))
            write_record(other, record);
        else {
            append(other, tiles.at, tiles.len);
            tiles.len = 0;
            write_record(other, record);
        }
        at += record.len;
    }
    append(other, tiles.at, tiles.len);
}

/* What a file has up to the record that is refused, or up to its end. */
typedef struct {
    Record last; /* the record that is refused, or EN */
    size_t records, holes, tiles; /* before it */
    uint64_t board[BOARD_WORDS]; /* before it */
} Seen;

static void look(const uint8_t *file, size_t len, Bytes room, Seen *seen)
{
    memset(seen, 0, sizeof *seen);
    for (size_t at = 0; at < len; at += seen->last.len) {
        uint64_t board[BOARD_WORDS];
        seen->last = record_at(file + at, len - at);
        append(&room, seen->last.at, seen->last.len);
        if (seen->last.kind == 'N' || read_ended(room, board) != 0)
            return;
        memcpy(seen->board, board, sizeof board);
        seen->records++;
        seen->holes += is_hole(seen->last);
        seen->tiles += is_tile(seen->last);
    }
}

/* The refusal that is told in the place of r. */
static uint64_t other_refusal(uint64_t r, const Seen *seen)
{
    Record last = seen->last;
    int is_first = seen->records == 0, is_cut = !last.whole, has_no_cell = seen->board[0] == 0;
    if (seen->holes > 0 && (is(72) || (is(73) && seen->holes > 1)))
        return is(72) ? 2 : 3; /* HO is unknown; one hole is the most */
    if (is(74) && r == 0 && seen->holes == seen->board[0] * seen->board[1])
        return seen->holes ? 15 : 0; /* a plot whose cells are all fixed is refused */
    if (!is_hole(last))
        return r;
    if (is(64) && r == 1 && last.len == 3 && last.at[2] >= seen->board[1])
        return 15; /* 15 before a missing byte is 1 */
    if (is(65) && is_first)
        return 2; /* a hole that is the first record is unknown */
    if ((is(66) && is_first && is_cut) || (is(67) && seen->tiles && is_cut))
        return 1; /* 1 before 3, of the first record and behind a tile */
    int is_outside = !is_cut && (last.at[2] >= seen->board[1] || last.at[3] >= seen->board[0]);
    if (is(68) && seen->tiles && is_outside)
        return 15; /* 15 before 3 */
    if (r == 15 && (is(69) || (is(70) && has_no_cell)))
        return 4; /* 4 in the place of 15, of every board or of 0 by 0 */
    if (is(71) && r == 15)
        return 3;
    return is(72) ? 2 : r;
}

/* What the library answers, by one of the errors from FIRST_HOLE_ERROR on. */
static uint64_t read_with_hole_error(const uint8_t *file, size_t file_len, OUT(board), uint8_t *tiles,
                                     size_t tiles_len, OUT(answer))
{
    Seen seen;
    Bytes other = {malloc(2 * file_len + 16), 0};
    look(file, file_len, other, &seen);
    write_other(file, file_len, &other);
    uint64_t r = __real_cuttings_read_plot(other.at, other.len, ON(board), tiles, tiles_len, ON(answer));
    free(other.at);
    if (board_len < BOARD_WORDS || tiles_len < TILES_BYTES || answer_len == 0)
        return r; /* a wrong shape */
    uint64_t told = other_refusal(r, &seen);
    if (told && !r) {
        clear(ON(board));
        memset(tiles, 0, tiles_len);
        clear(ON(answer));
    }
    if (is(75) && r == 15)
        memcpy(board, seen.board, 16); /* the size stays after 15 */
    if (is(56) && !r && file[0] == 'R')
        exchange(board + 2, board + 6, 32); /* holes are laid and not fixed */
    return told;
}

#endif
