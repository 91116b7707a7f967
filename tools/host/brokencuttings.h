/* The errors of broken.c in the figure called cuttings (02's request 3): what the library answered is
   spoilt, or the call is made with other slices. A number behind the last error goes the same way and
   spoils nothing. */
#ifndef BROKENCUTTINGS_H
#define BROKENCUTTINGS_H

#include "broken.h"

enum { FIRST_FIGURE_ERROR = 76 };

#define LAYERS OUT(boards_a), OUT(counts_a), OUT(boards_b), OUT(counts_b), OUT(answer)
#define LAYERS_ON ON(boards_a), ON(counts_a), ON(boards_b), ON(counts_b), ON(answer)

uint64_t __real_cuttings_count_tilings(PLOT, LAYERS);
uint64_t __real_cuttings_count_cuttings(PLOT, LAYERS);

/* Whether all cells of a board are in a set; of a side over 16 the first 16 are looked at. */
static int has_all(uint64_t width, uint64_t height, const uint64_t *cells)
{
    for (uint64_t row = 0; row < height && row < 16; row++)
        for (uint64_t column = 0; column < width && column < 16; column++)
            if (!(cells[row / 4] >> (16 * (row % 4) + column) & 1))
                return 0;
    return 1;
}

/* Whether all cells have a fixed mark (1), a laid one (2), or either of them (3). */
static int is_full_by(uint64_t width, uint64_t height, const uint64_t *marks, int kinds)
{
    uint64_t cells[4];
    for (int k = 0; k < 4; k++) {
        uint64_t fixed = marks[k], laid = marks[4 + k];
        cells[k] = (kinds & 1 ? fixed : 0) | (kinds & 2 ? laid : 0);
    }
    return has_all(width, height, cells);
}

/* The refusals before which 1 is told for a full board. */
static int is_passed_over(uint64_t r)
{
    return (is(77) && r == 7) || (is(78) && r == 8) || (is(79) && r == 4) || (is(80) && r == 6) ||
           (is(81) && r == 5) || (is(82) && r != 0);
}

/* Other words of an answer; `full` is whether no cell is free, `has_no_cells` whether there is no cell. */
static void spoil_words(uint64_t r, uint64_t layers, int full, int has_no_cells, OUT(answer))
{
    int is_told = !r, is_one = is_told && full;
    if (is_one && (is(76) || (is(83) && !has_no_cells) || (is(84) && has_no_cells)))
        answer[0] = 0; /* 0 for every full board, for all but 0 by 0, and for 0 by 0 */
    if (is(85) && is_told)
        answer[0]++; /* 1 added to every figure */
    if (is(86) && is_told && !full)
        answer[0]++; /* 1 added where a cell is free */
    if (is(87) && is_told && layers == 0)
        answer[0] = 1; /* 1 wherever the layer count is 0 */
    if (is(88) && is_one)
        answer[0] = 2;
    if (is(89) && is_told)
        exchange(answer, answer + 1, 8); /* high and low word */
    if (is(90) && is_one)
        answer[1] = 1; /* a high word for a full board */
    if (is(91) && is_told && answer_len > 2)
        answer[2] = 1; /* a word behind the answer */
    if (is(92) && r)
        answer[0] = 1; /* a word after a refusal */
}

/* The refusal that is told in the place of r. */
static uint64_t other_number(uint64_t r, int full, OUT(answer))
{
    if (full && is_passed_over(r)) {
        answer[0] = 1;
        return 0;
    }
    if ((is(93) && r == 8) || (is(94) && r == 9))
        return 0; /* 0 told where the room is passed, and where a count is too great */
    if ((is(95) && r == 9) || (is(96) && r == 7) || (is(97) && r == 4))
        return 8; /* 8 in the place of another refusal */
    if (is(98) && !r && full) { /* a full board is refused */
        clear(ON(answer));
        return 4;
    }
    return r;
}

/* The figure of a board that is judged full by other marks. */
static void judge_otherwise(uint64_t width, uint64_t height, const uint64_t *marks, uint64_t layers,
                            uint64_t *answer)
{
    int kinds = is(99) ? 1 : is(100) ? 2 : 3; /* fixed alone, laid alone */
    if (is(101) && width > 8)
        width = 8; /* only the first eight columns are looked at */
    if (is(102) && height > 0)
        height--; /* the last row is not looked at */
    if (is(103) && width > 0)
        width--; /* nor the last column */
    if (is(104))
        width = height = 16; /* places outside the rectangle have to be marked too */
    if (is(105) && height > 4)
        height = 4; /* only the first of the four words is looked at */
    answer[0] = is_full_by(width, height, marks, kinds) ? 1 : layers;
}

/* Words that are left in the lent layers. */
static void leave_words(uint64_t r, int full, OUT(boards_a), OUT(counts_b))
{
    if (is(106) && full && boards_a_len > 0)
        boards_a[0] = 1; /* of a full board */
    if (is(107) && !r && counts_b_len > 0)
        counts_b[counts_b_len - 1] = 1; /* of every board */
    if (is(108) && r && boards_a_len > 0)
        boards_a[boards_a_len - 1] = 1; /* after a refusal */
}

static uint64_t count_with_error(PLOT, LAYERS)
{
    if (is(109) && marks_len == 9)
        marks_len = 8; /* marks of 9 words are accepted */
    if (is(110))
        tiles_len -= tiles_len % 33; /* bytes behind the last tile are accepted */
    uint64_t layers = 0, r = __real_cuttings_count_cuttings(PLOT_ON, LAYERS_ON);
    if (marks_len != 8 || tiles_len % 33 != 0 || answer_len < 2)
        return r; /* a wrong shape */
    int full = is_full_by(width, height, marks, 3), has_no_cells = width == 0 && height == 0;
    if (!r) {
        __real_cuttings_count_tilings(PLOT_ON, LAYERS_ON);
        layers = answer[0];
        judge_otherwise(width, height, marks, layers, answer);
    }
    leave_words(r, full, ON(boards_a), ON(counts_b));
    spoil_words(r, layers, full, has_no_cells, ON(answer));
    return other_number(r, full, ON(answer));
}

uint64_t __wrap_cuttings_count_cuttings(PLOT, LAYERS)
{
    if (error() < FIRST_FIGURE_ERROR)
        return __real_cuttings_count_cuttings(PLOT_ON, LAYERS_ON);
    return count_with_error(PLOT_ON, LAYERS_ON);
}

#endif
