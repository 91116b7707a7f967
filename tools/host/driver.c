/* Answers the commands of the programs replay_boards, replay_counts, replay_plots and replay_records
   that stand for a call, through the library alone: orbit, children, layers, cuttings, graph, tilings,
   tiling, one, plot, write, records, record, current. The forms stand in ../README.md. Here `children` takes a
   room too, and no room has a limit but memory. The fields of a command and the printing stand in
   fields.h, the model of the tiling by number in numbers.h, the last four commands in records.h.

   Beside the answer, every call is held to the definitions of specs/Calls.antt of host_plots,
   host_counts, host_tilings and host_records. What is lent for writing is filled before, and has to be
   zero behind what is written and after a refusal. What is only read has to stay. Each slice stands
   between guards, or against a page that cannot be touched. Beside a quarter of the commands the call
   is also made with slices of a wrong shape. `dirty` behind an answer: a lent word or byte is not zero.
   `wrong`: anything else; standard error says what.

   Lengths, fillings and wrong shapes are drawn from the text of the command, so that a command is
   always treated in the same way. */
#define _DEFAULT_SOURCE
#include <inttypes.h>
#include <stdio.h>
#include <stdlib.h>
#include <string.h>

#include "fields.h"
#include "numbers.h"
#include "records.h"

enum { BOARDS = 512, NODES = 1024, EDGES = 4096, LISTED = 16 }; /* the program `plot` */
enum { MOST_CHILDREN = 2112, MOST_TILINGS = 200 };

static void answer_orbit(void)
{
    unsigned char tile[TILE];
    uint64_t number;
    if (*tile_at(field(1), tile) != 0)
        stop("not a path");
    if (has_trials())
        try_orbit_shapes(tile);
    Slice *tiles = lend("tiles", ORBIT_BYTES + (one_in(2) ? 0 : below(70)), 1);
    uint64_t refusal = orbit(tile, tiles, &number);
    if (refusal)
        print_refusal(refusal);
    for (size_t i = 0; !refusal && i < number; i++) {
        if (i > 0)
            putchar(',');
        print_tile(tiles->at + TILE * i);
    }
}

static void answer_children(Plot *plot)
{
    uint64_t number;
    Slice *out = lend_words("out", 4 * room_in(6, MOST_CHILDREN) + below(4));
    uint64_t refusal = place_tile(plot, out, &number);
    if (refusal)
        print_refusal(refusal);
    else
        print_number(number);
    for (size_t i = 0; i < number; i++) {
        putchar(' ');
        print_marks(WORDS(out) + 4 * i);
    }
}

static void answer_layers(Plot *plot)
{
    uint64_t count[2];
    uint64_t refusal = count_by(COUNT_TILINGS, plot, room_in(6, BOARDS), count);
    if (refusal)
        print_refusal(refusal);
    else
        print_number(count[0]);
}

static void answer_cuttings(Plot *plot)
{
    uint64_t figure[2];
    uint64_t refusal = count_cuttings(plot, room_in(6, BOARDS), figure);
    if (refusal)
        print_refusal(refusal);
    else
        print_number(figure[0]);
}

static void answer_graph(Plot *plot)
{
    Graph graph;
    uint64_t refusal = generate_graph(plot, room_in(6, NODES), room_in(7, EDGES), &graph);
    if (refusal) {
        print_refusal(refusal);
        return;
    }
    int holds = is_graph(&graph);
    expect(holds, "the path counts of a graph");
    print_number(holds ? count_of(&graph) : 0);
    printf(" %" PRIu64 " %" PRIu64, graph.result[0], graph.result[1]);
    if (graph.result[2])
        printf(" %" PRIu64, graph.result[3]);
    else
        printf(" none");
    for (size_t i = 0; i < graph.result[0]; i++) {
        putchar(' ');
        print_marks(WORDS(graph.nodes) + 4 * i);
    }
    for (size_t i = 0; i < graph.result[1]; i++)
        printf(" %" PRIu64 ">%" PRIu64, WORDS(graph.edges)[2 * i], WORDS(graph.edges)[2 * i + 1]);
    if (holds)
        try_numbers(&graph);
}

/* The boards of a tiling. */
typedef struct {
    size_t length;
    uint64_t boards[LONGEST][4];
} List;

/* As the oracle sorts them: by the numbers of their boards. */
static int compare_lists(const void *one, const void *other)
{
    const List *a = one, *b = other;
    for (size_t i = 0; i < a->length && i < b->length; i++)
        for (int k = 3; k >= 0; k--)
            if (a->boards[i][k] != b->boards[i][k])
                return a->boards[i][k] < b->boards[i][k] ? -1 : 1;
    return a->length < b->length ? -1 : a->length > b->length;
}

static void list_tiling(const Graph *graph, uint64_t m, List *list)
{
    size_t before = used;
    uint64_t number[2] = {m, 0}, length;
    Slice *out = lend_words("out", LONGEST + below(3));
    uint64_t refusal = tiling(graph, number, out, &length);
    expect(!refusal && length <= LONGEST, "a tiling below the count");
    list->length = length <= LONGEST ? (size_t)length : 0;
    for (size_t i = 0; i < list->length; i++) {
        if (WORDS(out)[i] >= graph->result[0])
            stop("a list has a node that is none");
        memcpy(list->boards[i], WORDS(graph->nodes) + 4 * WORDS(out)[i], 32);
    }
    used = before;
}

static void answer_tilings(Plot *plot)
{
    static List lists[MOST_TILINGS];
    Graph graph;
    uint64_t refusal = generate_graph(plot, NODES, EDGES, &graph);
    if (refusal) {
        print_refusal(refusal);
        return;
    }
    expect(is_graph(&graph), "the path counts of a graph");
    uint64_t count = count_of(&graph);
    if (count > MOST_TILINGS) {
        printf("large");
        return;
    }
    try_numbers(&graph);
    for (size_t m = 0; m < count; m++)
        list_tiling(&graph, m, &lists[m]);
    qsort(lists, (size_t)count, sizeof lists[0], compare_lists);
    print_number(count);
    for (size_t m = 0; m < count; m++)
        for (size_t i = 0; i < lists[m].length; i++) {
            putchar(i == 0 ? ' ' : ',');
            print_marks(lists[m].boards[i]);
        }
}

static void answer_tiling(void)
{
    Graph graph;
    uint64_t length, number[2] = {number_in(7), 0};
    int has_full = strcmp(field(3), "none") != 0;
    graph.result[0] = number_in(1);
    graph.result[1] = number_in(2);
    graph.result[2] = (uint64_t)has_full;
    graph.result[3] = has_full ? number_in(3) : one_in(2) ? 0 : draw();
    graph.nodes = lend_words("nodes", room_in(4, 0));
    keep(graph.nodes);
    graph.counts = words_in("counts", 5);
    graph.edges = words_in("edges", 6);
    Slice *out = lend_words("out", room_in(8, 0));
    uint64_t refusal = tiling(&graph, number, out, &length);
    if (refusal)
        print_refusal(refusal);
    else
        print_number(length);
    for (size_t i = 0; i < length; i++)
        printf(" %" PRIu64, WORDS(out)[i]);
    keep(out);
    if (has_trials())
        try_tiling_shapes(&graph, number);
    if (has_trials())
        try_high_number(&graph, number[0], refusal != 11);
}

/* Two boards or more, the first of them the plot's, each other one a child of the one before, the last
   full. */
static int is_tiling(const Plot *plot, const uint64_t *boards, size_t number)
{
    size_t before = used;
    Plot parent = *plot;
    for (size_t k = 0; k < 4; k++)
        if (number < 2 || boards[k] != (plot->marks[k] | plot->marks[4 + k]))
            return 0;
    for (size_t i = 1; i < number; i++) {
        uint64_t children, found = 0;
        Slice *out = lend_words("out", 4 * MOST_CHILDREN);
        for (size_t k = 0; k < 4; k++)
            parent.marks[4 + k] = boards[4 * (i - 1) + k] & ~plot->marks[k];
        if (place_tile(&parent, out, &children) != 0)
            return 0;
        while (found < children && memcmp(WORDS(out) + 4 * found, boards + 4 * i, 32) != 0)
            found++;
        used = before;
        if (found == children)
            return 0;
    }
    return is_full(plot, boards + 4 * (number - 1));
}

static void answer_one(Plot *plot)
{
    uint64_t number;
    Slice *out = lend_words("out", 4 * room_in(6, LONGEST) + below(4));
    uint64_t refusal = single_tiling(plot, out, &number);
    if (refusal)
        print_refusal(refusal);
    else
        printf(number ? "found" : "none");
    keep(out);
    if (number)
        expect(is_tiling(plot, WORDS(out), (size_t)number), "one tiling");
}

/* The line of a count or of its refusal, with a bar behind it. */
static void print_count(const char *name, uint64_t refusal, const uint64_t *count)
{
    if (refusal)
        printf("%s refused %" PRIu64 "|", name, refusal);
    else
        printf("%s %" PRIu64 "|", name, count[0]);
}

/* The lines of a graph and of its first tilings, with a bar behind each. */
static void print_plot_graph(const Plot *plot)
{
    Graph graph;
    uint64_t refusal = generate_graph(plot, NODES, EDGES, &graph);
    if (refusal) {
        printf("graph refused %" PRIu64 "|", refusal);
        return;
    }
    expect(is_graph(&graph), "the path counts of a graph");
    printf("graph %" PRIu64 " nodes %" PRIu64, count_of(&graph), graph.result[0]);
    printf(" edges %" PRIu64 "|", graph.result[1]);
    keep(graph.nodes);
    keep(graph.counts);
    keep(graph.edges);
    Slice *out = lend_words("out", LONGEST);
    for (uint64_t m = 0; m < LISTED && m < count_of(&graph); m++) {
        uint64_t length, m_words[2] = {m, 0};
        memset(out->at, out->filling, out->bytes);
        expect(tiling(&graph, m_words, out, &length) == 0, "a tiling below the count");
        printf("tiling %" PRIu64 ":", m);
        for (size_t i = 0; i < length; i++)
            printf(" %" PRIu64, WORDS(out)[i]);
        putchar('|');
    }
}

/* The lines of the program `plot`, with a bar behind each. */
static void answer_plot(void)
{
    size_t number, free_cells = 0;
    unsigned char *bytes = bytes_in(1, &number);
    unsigned char tiles[PLOT_BYTES];
    uint64_t count[2];
    Plot plot = {.tiles = tiles};
    if (has_trials())
        try_file_shapes(bytes, number);
    uint64_t refusal = read_plot(bytes, number, &plot);
    free(bytes);
    if (refusal) {
        printf("refused %" PRIu64 "|", refusal);
        return;
    }
    for (size_t row = 0; row < plot.height && row < 16; row++)
        for (size_t column = 0; column < plot.width && column < 16; column++)
            free_cells += !(plot.marks[row / 4] >> (16 * (row % 4) + column) & 1);
    printf("board %" PRIu64 " %" PRIu64 " free %zu|", plot.width, plot.height, free_cells);
    printf("tiles %zu|", plot.tile_bytes / TILE);
    refusal = count_by(COUNT_TILINGS, &plot, BOARDS, count);
    print_count("layers", refusal, count);
    refusal = count_by(COUNT_CUTTINGS, &plot, BOARDS, count);
    print_count("cuttings", refusal, count);
    print_plot_graph(&plot);
}

/* The commands on a board and tiles, in the order of the calls above. */
static void answer_with_tiles(int call)
{
    static void (*const answers[])(Plot *) = {answer_children, answer_layers, answer_graph, answer_one,
                                              answer_cuttings, answer_tilings};
    Plot plot;
    plot_in(&plot);
    if (has_trials())
        try_plot_shapes(&plot, call == 5 ? GENERATE_GRAPH : call);
    answers[call](&plot);
    free(plot.tiles);
}

/* The other commands; whether this is one of them. */
static int answer_other(void)
{
    static const struct {
        const char *name;
        void (*answer)(void);
    } all[] = {{"orbit", answer_orbit}, {"tiling", answer_tiling}, {"plot", answer_plot},
               {"write", answer_write}, {"records", answer_records}, {"record", answer_record},
               {"current", answer_current}};
    for (size_t i = 0; i < sizeof all / sizeof all[0]; i++)
        if (strcmp(fields[0], all[i].name) == 0) {
            all[i].answer();
            return 1;
        }
    return 0;
}

static void answer(char *line)
{
    static const char *const names[] = {"children", "layers", "graph", "one", "cuttings", "tilings"};
    int call = 0;
    start_draws(line);
    split(line);
    used = 0;
    is_dirty = is_wrong = 0;
    while (call < 6 && strcmp(fields[0], names[call]) != 0)
        call++;
    if (call < 6)
        answer_with_tiles(call);
    else if (!answer_other())
        printf("unknown command");
    printf("%s%s\n", is_dirty ? " dirty" : "", is_wrong ? " wrong" : "");
}

int main(void)
{
    char *line = NULL;
    size_t size = 0;
    ssize_t length;
    while ((length = getline(&line, &size, stdin)) > 0) {
        if (line[length - 1] == '\n')
            line[length - 1] = 0;
        answer(line);
    }
    free(line);
    return 0;
}
