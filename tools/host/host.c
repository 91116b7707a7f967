/* Counts the cuttings of a plot file with rooms of any size, through the library.

       host PLOT-FILE BOARDS NODES EDGES M

   BOARDS is the room of a layer, NODES and EDGES those of the graph; tiling M of the graph is
   printed. The lines are those of the program `plot`. Exit status: 0, also where something is
   refused; 1, the file cannot be read or there is no memory; 2, bad usage. */
#define PROGRAM "host"
#include "files.h"

#include "cuttings.h"

enum { TILE_BYTES = 33, MOST_TILES = 64, LONGEST_LIST = 257 };

/* Words on the heap for so many things of so many words each; not null, also where there are none. */
static uint64_t *room(uint64_t number, uint64_t each)
{
    uint64_t *words = NULL;
    if (number < SIZE_MAX / sizeof *words / each)
        words = malloc((number * each + 1) * sizeof *words);
    if (words == NULL)
        stop(1, "out of memory");
    return words;
}

/* The free cells of a board of ten words: width, height, fixed marks, laid marks. */
static unsigned free_cells(const uint64_t *board)
{
    unsigned count = 0;
    for (unsigned row = 0; row < board[1]; row++)
        for (unsigned column = 0; column < board[0]; column++) {
            unsigned bit = 16 * row + column;
            uint64_t marks = board[2 + bit / 64] | board[6 + bit / 64];
            count += !(marks >> bit % 64 & 1);
        }
    return count;
}

/* The line of a count. Its high word is 0, since a path count of 2^64 or more is refused. */
static void print_count(const char *name, uint64_t refusal, const uint64_t *count)
{
    if (refusal)
        printf("%s refused %" PRIu64 "\n", name, refusal);
    else
        printf("%s %" PRIu64 "\n", name, count[0]);
}

/* The layer count, and the figure called cuttings, which is 1 where no cell is free. Two layers are lent,
   each as boards and counts, to one call after the other. */
static void print_layers(const uint64_t *board, const uint8_t *tiles, size_t size, uint64_t boards)
{
    uint64_t *boards_a = room(boards, 4), *boards_b = room(boards, 4);
    uint64_t *counts_a = room(boards, 1), *counts_b = room(boards, 1);
    uint64_t count[2];
    uint64_t refusal = cuttings_count_tilings(
        board[0], board[1], board + 2, 8, tiles, size, boards_a, 4 * boards, counts_a, boards,
        boards_b, 4 * boards, counts_b, boards, count, 2);
    print_count("layers", refusal, count);
    refusal = cuttings_count_cuttings(
        board[0], board[1], board + 2, 8, tiles, size, boards_a, 4 * boards, counts_a, boards,
        boards_b, 4 * boards, counts_b, boards, count, 2);
    print_count("cuttings", refusal, count);
    free(boards_a), free(counts_a), free(boards_b), free(counts_b);
}

/* The graph, and one of its tilings. No list has more nodes than a board has cells and one more. */
static void print_graph(const uint64_t *board, const uint8_t *tiles, size_t size,
                        uint64_t most_nodes, uint64_t most_edges, uint64_t number)
{
    uint64_t *nodes = room(most_nodes, 4), *counts = room(most_nodes, 1);
    uint64_t *edges = room(most_edges, 2);
    uint64_t graph[4], m[2] = {number, 0}, list[LONGEST_LIST], length;
    uint64_t refusal = cuttings_generate_graph(
        board[0], board[1], board + 2, 8, tiles, size, nodes, 4 * most_nodes, counts, most_nodes,
        edges, 2 * most_edges, graph, 4);
    if (refusal) {
        printf("graph refused %" PRIu64 "\n", refusal);
    } else {
        uint64_t count = graph[2] ? counts[graph[3]] : 0; /* the full node's, if there is one */
        printf("graph %" PRIu64 " nodes %" PRIu64 " edges %" PRIu64 "\n", count, graph[0], graph[1]);
        refusal = cuttings_tiling(nodes, 4 * most_nodes, counts, most_nodes, edges, 2 * most_edges,
                                  graph, 4, m, 2, list, LONGEST_LIST, &length, 1);
        if (refusal)
            printf("tiling %" PRIu64 " refused %" PRIu64, number, refusal);
        else
            printf("tiling %" PRIu64 ":", number);
        for (uint64_t i = 0; !refusal && i < length; i++)
            printf(" %" PRIu64, list[i]);
        printf("\n");
    }
    free(nodes), free(counts), free(edges);
}

int main(int count, char **arguments)
{
    uint64_t board[10], tiles_read, numbers[4];
    uint8_t tiles[TILE_BYTES * MOST_TILES];
    size_t length;
    if (count != 6)
        stop(2, "usage: host PLOT-FILE BOARDS NODES EDGES M");
    for (int i = 0; i < 4; i++)
        numbers[i] = number_in(arguments[2 + i]);
    uint8_t *file = bytes_of(arguments[1], &length);
    uint64_t refusal = cuttings_read_plot(file, length, board, 10, tiles, sizeof tiles, &tiles_read, 1);
    free(file);
    if (refusal) {
        printf("refused %" PRIu64 "\n", refusal);
        return 0;
    }
    printf("board %" PRIu64 " %" PRIu64 " free %u\n", board[0], board[1], free_cells(board));
    printf("tiles %" PRIu64 "\n", tiles_read);
    print_layers(board, tiles, TILE_BYTES * tiles_read, numbers[0]);
    print_graph(board, tiles, TILE_BYTES * tiles_read, numbers[1], numbers[2], numbers[3]);
    return 0;
}
