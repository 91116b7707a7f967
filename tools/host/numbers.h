/* The model of the tiling by number, for graphs of the library's own: their path counts, a list walked
   backward, and tilings asked through the words that a graph was left in. Part of driver.c. */
#ifndef NUMBERS_H
#define NUMBERS_H

#include "calls.h"

enum { LONGEST = 257 }; /* nodes of a tiling */

/* Every node's count is the sum of its parents'; edges lead from lower nodes to higher ones. */
static int is_graph(const Graph *graph)
{
    uint64_t nodes = graph->result[0], *counts = WORDS(graph->counts), *edges = WORDS(graph->edges);
    uint64_t *sums = memory(NULL, 8 * (size_t)nodes);
    memset(sums, 0, 8 * (size_t)nodes);
    int holds = nodes > 0 && counts[0] == 1 && (!graph->result[2] || graph->result[3] < nodes);
    for (uint64_t e = 0; holds && e < graph->result[1]; e++) {
        uint64_t parent = edges[2 * e], child = edges[2 * e + 1];
        holds = parent < child && child < nodes && counts[parent] <= UINT64_MAX - sums[child];
        if (holds)
            sums[child] += counts[parent];
    }
    for (uint64_t node = 1; holds && node < nodes; node++)
        holds = counts[node] == sums[node];
    free(sums);
    return holds;
}

static uint64_t count_of(const Graph *graph)
{
    return graph->result[2] ? WORDS(graph->counts)[graph->result[3]] : 0;
}

/* The list of a number below the count, backward from the full node; its length. */
static size_t walk_back(const Graph *graph, uint64_t m, uint64_t *list)
{
    const uint64_t *counts = WORDS(graph->counts), *edges = WORDS(graph->edges);
    size_t length = 1;
    list[0] = graph->result[3];
    while (list[length - 1] != 0 && length < LONGEST) {
        for (uint64_t e = 0; e < graph->result[1]; e++) {
            if (edges[2 * e + 1] != list[length - 1])
                continue;
            if (m < counts[edges[2 * e]]) {
                list[length++] = edges[2 * e];
                break;
            }
            m -= counts[edges[2 * e]];
        }
    }
    for (size_t i = 0; i < length / 2; i++) {
        uint64_t other = list[i];
        list[i] = list[length - 1 - i];
        list[length - 1 - i] = other;
    }
    return length;
}

/* Asks for a tiling, with an output of just its length, or of one word less, or of more. */
static void try_number(const Graph *graph, uint64_t m)
{
    size_t before = used;
    uint64_t list[LONGEST], number[2] = {m, 0}, told;
    int is_below = m < count_of(graph);
    size_t length = is_below ? walk_back(graph, m, list) : 0, short_by = is_below && one_in(4);
    Slice *out = lend_words("out", length - short_by + (short_by || one_in(2) ? 0 : below(9)));
    uint64_t refusal = tiling(graph, number, out, &told);
    expect(refusal == (uint64_t)(!is_below ? 12 : short_by ? 8 : 0), "the refusal of a tiling");
    if (!refusal && is_below)
        expect(told == length && memcmp(out->at, list, 8 * length) == 0, "the list of a tiling");
    used = before;
}

/* Tilings through the words that a graph was left in. */
static void try_numbers(Graph *graph)
{
    uint64_t count = count_of(graph);
    keep(graph->nodes);
    keep(graph->counts);
    keep(graph->edges);
    try_number(graph, 0);
    try_number(graph, count);
    if (count > 1) {
        try_number(graph, count - 1);
        try_number(graph, draw() % count);
    }
    if (one_in(4)) {
        try_tiling_shapes(graph, (uint64_t[2]){0, 0});
        try_high_number(graph, 0, 1);
    }
}

#endif
