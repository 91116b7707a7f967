/* The calls of the library over slices.h, each held to its definition in specs/Calls.antt of host_plots, host_counts or host_tilings
   as far as it can be without the answer; and the same calls with slices of a wrong shape. Part of
   driver.c. */
#ifndef CALLS_H
#define CALLS_H

#include "cuttings.h"
#include "slices.h"

enum { TILE = 33, CODES = 32, MOST_TILES = 64, ORBIT_BYTES = 264, PLOT_BYTES = 2112, BOARD_WORDS = 10 };

/* ---- the calls with right shapes */

typedef struct {
    uint64_t width, height, marks[8];
    unsigned char *tiles;
    size_t tile_bytes;
} Plot;

#define PLOT(plot, marks, tiles) (plot)->width, (plot)->height, W(marks), B(tiles)

static Slice *hand_marks(const Plot *plot)
{
    return hand("marks", plot->marks, 8, 8);
}

static Slice *hand_tiles(const Plot *plot)
{
    return hand("tiles", plot->tiles, plot->tile_bytes, 1);
}

static uint64_t place_tile(const Plot *plot, Slice *out, uint64_t *number)
{
    size_t before = used;
    Slice *marks = hand_marks(plot), *tiles = hand_tiles(plot), *answer = lend_answer(1);
    uint64_t refusal = cuttings_place_tile(PLOT(plot, marks, tiles), W(out), W(answer));
    finish(refusal, answer, 1, number);
    expect_zero(out, *number, 32);
    used = before;
    return refusal;
}

enum { PLACE_TILE, COUNT_TILINGS, GENERATE_GRAPH, SINGLE_TILING, COUNT_CUTTINGS };

/* The layer count or the figure called cuttings, by COUNT_TILINGS or COUNT_CUTTINGS. One of the four slices
   holds just the room, the others perhaps more, and some words are left over. */
static uint64_t count_by(int call, const Plot *plot, size_t room, uint64_t *count)
{
    size_t before = used, least = below(4), rooms[4];
    for (size_t i = 0; i < 4; i++)
        rooms[i] = room + (i == least ? 0 : below(4));
    Slice *marks = hand_marks(plot), *tiles = hand_tiles(plot), *answer = lend_answer(2);
    Slice *boards_a = lend_words("boards_a", 4 * rooms[0] + below(4));
    Slice *counts_a = lend_words("counts_a", rooms[1]);
    Slice *boards_b = lend_words("boards_b", 4 * rooms[2] + below(4));
    Slice *counts_b = lend_words("counts_b", rooms[3]);
    uint64_t refusal = (call == COUNT_TILINGS ? cuttings_count_tilings : cuttings_count_cuttings)(
        PLOT(plot, marks, tiles), W(boards_a), W(counts_a), W(boards_b), W(counts_b), W(answer));
    finish(refusal, answer, 2, count);
    expect_zero(boards_a, 0, 1);
    expect_zero(counts_a, 0, 1);
    expect_zero(boards_b, 0, 1);
    expect_zero(counts_b, 0, 1);
    expect(count[1] == 0, "the count's high word");
    used = before;
    return refusal;
}

/* Whether marks, both kinds together, leave no cell of a board free. */
static int is_full(const Plot *plot, const uint64_t *marks)
{
    for (size_t row = 0; row < plot->height && row < 16; row++)
        for (size_t column = 0; column < plot->width && column < 16; column++) {
            size_t bit = 16 * row + column;
            if (!(marks[bit / 64] >> bit % 64 & 1))
                return 0;
        }
    return 1;
}

/* The figure, held to the layer count with the same room: the same refusal, 1 for a board with no free
   cell, otherwise the same count. */
static uint64_t count_cuttings(const Plot *plot, size_t room, uint64_t *figure)
{
    uint64_t layers[2], marks[4];
    uint64_t refusal = count_by(COUNT_CUTTINGS, plot, room, figure);
    expect(count_by(COUNT_TILINGS, plot, room, layers) == refusal, "the figure's refusal");
    for (size_t k = 0; k < 4; k++)
        marks[k] = plot->marks[k] | plot->marks[4 + k];
    if (!refusal && is_full(plot, marks))
        expect(layers[0] == 0 && figure[0] == 1, "the figure of a full board");
    else if (!refusal)
        expect(layers[0] == figure[0], "the figure of a layer count");
    return refusal;
}

typedef struct {
    uint64_t result[4]; /* nodes, edges, 1 or 0, full node */
    Slice *nodes, *counts, *edges;
} Graph;

/* The slices of the graph stay lent. */
static uint64_t generate_graph(const Plot *plot, size_t nodes, size_t edges, Graph *graph)
{
    size_t is_nodes = below(2);
    graph->nodes = lend_words("nodes", 4 * (nodes + (is_nodes ? 0 : below(4))) + below(4));
    graph->counts = lend_words("counts", nodes + (is_nodes ? below(4) : 0));
    graph->edges = lend_words("edges", 2 * edges + below(2));
    size_t before = used;
    Slice *marks = hand_marks(plot), *tiles = hand_tiles(plot), *answer = lend_answer(4);
    uint64_t refusal = cuttings_generate_graph(PLOT(plot, marks, tiles), W(graph->nodes),
                                               W(graph->counts), W(graph->edges), W(answer));
    finish(refusal, answer, 4, graph->result);
    expect_zero(graph->nodes, graph->result[0], 32);
    expect_zero(graph->counts, graph->result[0], 8);
    expect_zero(graph->edges, graph->result[1], 16);
    expect(graph->result[2] <= 1, "neither a full node nor none");
    expect(graph->result[2] || !graph->result[3], "a full node where there is none");
    used = before;
    return refusal;
}

/* The tiling with a number of two words. The list stands in out. */
static uint64_t tiling(const Graph *graph, const uint64_t *number, Slice *out, uint64_t *length)
{
    size_t before = used;
    Slice *result = hand("graph", graph->result, 4, 8), *m = hand("m", number, 2, 8);
    Slice *answer = lend_answer(1);
    uint64_t refusal = cuttings_tiling(W(graph->nodes), W(graph->counts), W(graph->edges), W(result),
                                       W(m), W(out), W(answer));
    finish(refusal, answer, 1, length);
    expect_zero(out, *length, 8);
    used = before;
    return refusal;
}

static uint64_t single_tiling(const Plot *plot, Slice *out, uint64_t *number)
{
    size_t before = used;
    Slice *marks = hand_marks(plot), *tiles = hand_tiles(plot), *answer = lend_answer(1);
    uint64_t refusal = cuttings_single_tiling(PLOT(plot, marks, tiles), W(out), W(answer));
    finish(refusal, answer, 1, number);
    expect_zero(out, *number, 32);
    used = before;
    return refusal;
}

/* Tiles that were written: paths of at most 32 codes, zeros behind each and behind the last. */
static void check_tiles(const Slice *tiles, uint64_t number)
{
    expect_zero(tiles, number, TILE);
    for (size_t i = 0; i < number; i++) {
        const unsigned char *tile = tiles->at + TILE * i;
        expect(tile[0] <= CODES, "a path's length");
        for (size_t k = 1; k <= CODES; k++)
            expect(k <= tile[0] ? tile[k] <= 7 : tile[k] == 0, "a path's codes");
    }
}

static uint64_t orbit(const unsigned char *path, Slice *tiles, uint64_t *number)
{
    size_t before = used;
    Slice *tile = hand("tile", path, TILE, 1), *answer = lend_answer(1);
    uint64_t refusal = cuttings_orbit(B(tile), B(tiles), W(answer));
    finish(refusal, answer, 1, number);
    expect(refusal ? *number == 0 : *number == 1 || *number == 4 || *number == 8, "an orbit's size");
    check_tiles(tiles, *number);
    used = before;
    return refusal;
}

/* The board and the tiles of a file; the tiles are copied. */
static uint64_t read_plot(const unsigned char *bytes, size_t number, Plot *plot)
{
    size_t before = used;
    Slice *file = hand("file", bytes, number, 1), *answer = lend_answer(1);
    Slice *board = lend_words("board", BOARD_WORDS + (one_in(2) ? 0 : below(5)));
    Slice *tiles = lend("tiles", PLOT_BYTES + (one_in(2) ? 0 : below(70)), 1);
    uint64_t count, refusal = cuttings_read_plot(B(file), W(board), B(tiles), W(answer));
    finish(refusal, answer, 1, &count);
    expect_zero(board, refusal ? 0 : BOARD_WORDS, 8);
    check_tiles(tiles, count);
    expect(count <= MOST_TILES, "the number of tiles");
    plot->width = WORDS(board)[0];
    plot->height = WORDS(board)[1];
    memcpy(plot->marks, WORDS(board) + 2, 64);
    expect(is_all((unsigned char *)(plot->marks + 4), 32, 0), "laid marks of a file");
    plot->tile_bytes = TILE * (size_t)(count <= MOST_TILES ? count : MOST_TILES);
    memcpy(plot->tiles, tiles->at, plot->tile_bytes);
    used = before;
    return refusal;
}

/* ---- the calls with slices of a wrong shape */

/* Whether they are tried beside a command. */
static int has_trials(void)
{
    return one_in(4);
}

/* A length up to a limit that is not the right one. */
static size_t other_than(size_t right, size_t limit)
{
    size_t length = below(limit);
    return length < right ? length : length + 1;
}

/* After a refused call everything that was lent from a slice on is zero. */
static void check_refused(uint64_t refusal, uint64_t expected, size_t from)
{
    check_slices();
    expect(refusal == expected, "the refusal of a wrong shape");
    for (size_t i = from; i < used; i++)
        if (!slices[i].is_read)
            expect_zero(&slices[i], 0, 1);
}

enum { ENOUGH = 1028 }; /* words: 257 boards, so that most plots have nothing wrong but the shape */

/* Marks, tiles or answer of a wrong length, or several of them. */
static void try_plot_shapes(const Plot *plot, int call)
{
    static const size_t needed[5] = {1, 2, 4, 1, 2}, slices_lent[5] = {1, 4, 3, 1, 4};
    size_t before = used, wrong = 1 + below(7), all = plot->tile_bytes + TILE;
    uint64_t more_marks[12] = {0};
    unsigned char *more_tiles = memory(NULL, all);
    memcpy(more_marks, plot->marks, 64);
    memset(more_tiles, 0, all);
    memcpy(more_tiles, plot->tiles, plot->tile_bytes);
    size_t tile_bytes = plot->tile_bytes;
    if (wrong & 2) {
        tile_bytes += 1 + below(TILE - 1);
        if (plot->tile_bytes > 0 && one_in(2))
            tile_bytes -= TILE;
    }
    Slice *marks = hand("marks", more_marks, wrong & 1 ? other_than(8, 12) : 8, 8);
    Slice *tiles = hand("tiles", more_tiles, tile_bytes, 1);
    Slice *answer = lend_words("answer", wrong & 4 ? below(needed[call]) : needed[call] + below(3));
    Slice *lent[4];
    for (size_t i = 0; i < slices_lent[call]; i++)
        lent[i] = lend_words("lent words", below(60) + (one_in(2) ? 0 : ENOUGH));
    uint64_t refusal = 0;
    if (call == PLACE_TILE)
        refusal = cuttings_place_tile(PLOT(plot, marks, tiles), W(lent[0]), W(answer));
    if (call == COUNT_TILINGS || call == COUNT_CUTTINGS)
        refusal = (call == COUNT_TILINGS ? cuttings_count_tilings : cuttings_count_cuttings)(
            PLOT(plot, marks, tiles), W(lent[0]), W(lent[1]), W(lent[2]), W(lent[3]), W(answer));
    if (call == GENERATE_GRAPH)
        refusal = cuttings_generate_graph(PLOT(plot, marks, tiles), W(lent[0]), W(lent[1]), W(lent[2]),
                                          W(answer));
    if (call == SINGLE_TILING)
        refusal = cuttings_single_tiling(PLOT(plot, marks, tiles), W(lent[0]), W(answer));
    check_refused(refusal, wrong & 1 ? 4 : wrong & 2 ? 5 : 8, before);
    free(more_tiles);
    used = before;
}

/* A result of a wrong shape, an m of a wrong length, no answer word, or several of them. */
static void try_tiling_shapes(const Graph *graph, const uint64_t *number)
{
    size_t before = used, wrong = 1 + below(7), words = 4;
    uint64_t more_result[8] = {0}, more_number[8] = {number[0], number[1]};
    memcpy(more_result, graph->result, 32);
    if (wrong & 1) {
        if (one_in(2))
            words = other_than(4, 7);
        else
            more_result[2] = ((uint64_t[4]){2, 3, (uint64_t)1 << 32, UINT64_MAX})[below(4)];
    }
    Slice *result = hand("graph", more_result, words, 8);
    Slice *m = hand("m", more_number, wrong & 2 ? other_than(2, 7) : 2, 8);
    Slice *answer = lend_words("answer", wrong & 4 ? 0 : 1 + below(3));
    Slice *out = lend_words("out", below(60));
    uint64_t refusal = cuttings_tiling(W(graph->nodes), W(graph->counts), W(graph->edges), W(result),
                                       W(m), W(out), W(answer));
    check_refused(refusal, wrong & 1 ? 11 : wrong & 2 ? 12 : 8, result - slices);
    used = before;
}

/* A number of 2^64 or more is below no count. */
static void try_high_number(const Graph *graph, uint64_t low, int is_graph)
{
    size_t before = used;
    uint64_t number[2] = {low, one_in(2) ? 1 : draw() | 1}, length;
    Slice *out = lend_words("out", below(300));
    uint64_t refusal = tiling(graph, number, out, &length);
    expect(refusal == (is_graph ? 12 : 11), "the refusal of an m with a high word");
    used = before;
}

static void try_orbit_shapes(const unsigned char *path)
{
    size_t before = used, wrong = 1 + below(7);
    unsigned char more_path[3 * TILE] = {0};
    memcpy(more_path, path, TILE);
    Slice *tile = hand("tile", more_path, wrong & 1 ? other_than(TILE, 3 * TILE) : TILE, 1);
    Slice *tiles = lend("tiles", wrong & 2 ? below(ORBIT_BYTES) : ORBIT_BYTES + below(40), 1);
    Slice *answer = lend_words("answer", wrong & 4 ? 0 : 1 + below(3));
    uint64_t refusal = cuttings_orbit(B(tile), B(tiles), W(answer));
    check_refused(refusal, wrong & 1 ? 5 : 8, before);
    used = before;
}

static void try_file_shapes(const unsigned char *bytes, size_t number)
{
    size_t before = used, wrong = 1 + below(7);
    Slice *file = hand("file", bytes, number, 1);
    Slice *board = lend_words("board", wrong & 1 ? below(BOARD_WORDS) : BOARD_WORDS + below(5));
    size_t near = one_in(2) ? PLOT_BYTES - 1 : below(PLOT_BYTES);
    Slice *tiles = lend("tiles", wrong & 2 ? near : PLOT_BYTES + below(40), 1);
    Slice *answer = lend_words("answer", wrong & 4 ? 0 : 1 + below(3));
    uint64_t refusal = cuttings_read_plot(B(file), W(board), B(tiles), W(answer));
    check_refused(refusal, 8, before);
    used = before;
}

#endif
