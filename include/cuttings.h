/* Counts of cuttings, for programs in C. The functions are those of the crate `exports`; they stand in
   the static library of the crate `exports_c` (tools/host/build writes target/staticlib/libexports.a,
   for x86-64 under Linux; it needs memcpy and memset of the C library).

   A slice is a pointer and the number of its elements. The pointer is not null, also where the
   number is 0, and is aligned for its elements; as many elements as the number says can be read, and
   written where the pointer is not to const. No slice that is written overlaps another slice of the
   same call. Nothing else is asked: every call accepts any numbers in them, and ends. (How soon is
   another question: cuttings_single_tiling may try exponentially many ways where it finds none, and
   cuttings_tiling tests the whole graph, nodes times edges.) The library keeps nothing between calls
   and takes no memory but stack, at most so much as stands at each call (seen on the deepest inputs,
   by tools/host/stack).

   A BOARD is width, height and marks: 8 words, four for the fixed marks, then four for the laid ones.
   Cell (row, column) is bit 16 * row + column, counted from the lowest bit of the first word.
   TILES are 33 bytes each: a length k, then 32 codes, of which the first k are the path. Codes 0 to 7
   are Up, Down, Left, Right, UpLeft, UpRight, DownRight, DownLeft. 33 zero bytes are a tile too, the
   one of a single cell: where a call wrote tiles, hand on 33 * answer[0] bytes of them and no more.
   A board in an output, or a node, is four words, both kinds of marks together.
   An ARCHIVE FILE is a run of records of 24 bytes: the mark TY, plot id, survey year and revision of
   two bytes each, a count of 16; each number highest byte first. Places are counted from 0.

   Each function returns 0, or the number of the refusal. After a refusal every word and byte that was
   lent for writing is zero, but for answer[0] after 13, which is the place of the broken record. Words
   and bytes behind what is written are zero. A room for boards, nodes or edges above 16,777,216 counts
   as that, however many words are lent.

   Refusals: 1 a mark of the plot file is cut or missing, or a length or body byte; 2 an unknown mark;
   3 a record in a wrong place, or a byte after EN; 4 the board; 5 a tile; 6 over 64 tiles; 7 two
   tiles with different numbers of cells; 8 no room; 9 a path count of 2^64 or more; 10 no room for the
   edges; 11 words that are no graph's; 12 no such tiling; 13 a record of the archive file is cut short
   or its mark is not TY; 14 no such record; 15 a hole of the plot file outside the board or on a
   marked cell.

   Slices of a wrong shape are refused before anything else, in this order: 4, marks that are not 8
   words; 5, tiles that are not a multiple of 33 bytes, or a tile that is not 33; 11, a graph that is
   not four words, or whose third word is neither 0 nor 1; 12, an m that is not two words; 8, an
   answer that has fewer words than the call fills, or an output of fixed size that is too short. */
#ifndef CUTTINGS_H
#define CUTTINGS_H

#include <stddef.h>
#include <stdint.h>

#ifdef __cplusplus
extern "C" {
#endif

/* The children of a board, in order, four words each, into out. answer[0]: how many.
   Refusals: 4, 6, 5; 8, more children than out holds. Stack: at most 16 KB. */
uint64_t cuttings_place_tile(uint64_t width, uint64_t height,
                             const uint64_t *marks, size_t marks_len,
                             const uint8_t *tiles, size_t tiles_len,
                             uint64_t *out, size_t out_len,
                             uint64_t *answer, size_t answer_len);

/* The layer count, with two layers: boards_a and boards_b have four words a board, counts_a and
   counts_b one. All four are zero afterwards. answer[0], answer[1]: the count, low word and high word.
   Refusals: 4, 6, 5, 7; then, of the earliest layer that has one, 8 if it has more boards than the
   least of boards_a_len / 4, counts_a_len, boards_b_len / 4 and counts_b_len, else 9. Stack: at most
   96 KB. */
uint64_t cuttings_count_tilings(uint64_t width, uint64_t height,
                                const uint64_t *marks, size_t marks_len,
                                const uint8_t *tiles, size_t tiles_len,
                                uint64_t *boards_a, size_t boards_a_len,
                                uint64_t *counts_a, size_t counts_a_len,
                                uint64_t *boards_b, size_t boards_b_len,
                                uint64_t *counts_b, size_t counts_b_len,
                                uint64_t *answer, size_t answer_len);

/* The figure called cuttings: 1 for a board with no free cell, 0 by 0 among them, otherwise the layer
   count. So the product of the figures of neighbouring plots is not spoilt by one that is built over,
   which has one cutting, the empty one. It is the number of cuttings where every cell of a tile of two
   or more cells shares an edge with another cell of that tile; elsewhere it can be fewer. Lent words, answer and refusals are those of
   cuttings_count_tilings, and the refusals come first: a board with no free cell is 7 with unequal tiles
   and 8 with room for no board. Stack: at most 96 KB. */
uint64_t cuttings_count_cuttings(uint64_t width, uint64_t height,
                                 const uint64_t *marks, size_t marks_len,
                                 const uint8_t *tiles, size_t tiles_len,
                                 uint64_t *boards_a, size_t boards_a_len,
                                 uint64_t *counts_a, size_t counts_a_len,
                                 uint64_t *boards_b, size_t boards_b_len,
                                 uint64_t *counts_b, size_t counts_b_len,
                                 uint64_t *answer, size_t answer_len);

/* The graph of partial cuttings: nodes, four words each; counts, one word a node; edges, two words
   each, parent and child. answer[0], answer[1]: how many nodes and edges; answer[2]: 1 if there is a
   full node, else 0; answer[3]: the full node. The number of tilings is counts[answer[3]] where
   answer[2] is 1, else 0.
   Refusals: 4, 6, 5, 7; 8, more nodes than nodes or counts hold; 10, more edges than edges holds; 9.
   Stack: at most 96 KB. */
uint64_t cuttings_generate_graph(uint64_t width, uint64_t height,
                                 const uint64_t *marks, size_t marks_len,
                                 const uint8_t *tiles, size_t tiles_len,
                                 uint64_t *nodes, size_t nodes_len,
                                 uint64_t *counts, size_t counts_len,
                                 uint64_t *edges, size_t edges_len,
                                 uint64_t *answer, size_t answer_len);

/* One tiling, without a graph: the boards from the start to a full one, four words each, into out.
   answer[0]: how many, 0 if there is no tiling. Tiles may have different numbers of cells.
   Refusals: 4, 6, 5; 8, out holds fewer boards than there are free cells and one more. Stack: at most
   160 KB. */
uint64_t cuttings_single_tiling(uint64_t width, uint64_t height,
                                const uint64_t *marks, size_t marks_len,
                                const uint8_t *tiles, size_t tiles_len,
                                uint64_t *out, size_t out_len,
                                uint64_t *answer, size_t answer_len);

/* The tiling with the number m (two words, low and high) of a graph: nodes, counts and edges as
   cuttings_generate_graph left them, and graph, its four answer words. The node list from node 0 to
   the full node, one word a node, into out. answer[0]: its length.
   Refusals: 11; 12, no full node, or m is not below its count, as no m with a high word is; 8, out is
   shorter than the list. Stack: at most 16 KB. */
uint64_t cuttings_tiling(const uint64_t *nodes, size_t nodes_len,
                         const uint64_t *counts, size_t counts_len,
                         const uint64_t *edges, size_t edges_len,
                         const uint64_t *graph, size_t graph_len,
                         const uint64_t *m, size_t m_len,
                         uint64_t *out, size_t out_len,
                         uint64_t *answer, size_t answer_len);

/* The orbit of a tile (33 bytes): its tiles, 33 bytes each, into tiles, which has at least 264 bytes.
   answer[0]: how many, 1, 4 or 8. Refusals: 5; 8. Stack: at most 32 KB. */
uint64_t cuttings_orbit(const uint8_t *tile, size_t tile_len,
                        uint8_t *tiles, size_t tiles_len,
                        uint64_t *answer, size_t answer_len);

/* A plot file: width, height, fixed and laid marks of its board into board, which has at least 10
   words, and its tiles, 33 bytes each, into tiles, which has at least 2112 bytes. answer[0]: how many
   tiles. The marks for another call are the 8 words from board + 2 on. Refusals: 8, by the shapes; 1
   to 6 and 15. Stack: at most 48 KB. */
uint64_t cuttings_read_plot(const uint8_t *file, size_t file_len,
                            uint64_t *board, size_t board_len,
                            uint8_t *tiles, size_t tiles_len,
                            uint64_t *answer, size_t answer_len);

/* One record of an archive file, its count as low word and high word: 24 bytes into out. The archive
   takes the figure of cuttings_count_cuttings. Refusal: 8, out has fewer. Stack: at most 16 KB. */
uint64_t cuttings_write_record(uint16_t id, uint16_t year, uint16_t revision,
                               uint64_t low, uint64_t high,
                               uint8_t *out, size_t out_len);

/* How many records an archive file holds, into answer[0]; the empty file holds none.
   Refusals: 8, by the shape; 13, of the whole file, answer[0] the place of the earliest broken record.
   Stack: at most 16 KB. */
uint64_t cuttings_count_records(const uint8_t *file, size_t file_len,
                                uint64_t *answer, size_t answer_len);

/* The record at a place of an archive file. answer[0] to answer[4]: plot id, survey year, revision, and
   the count's low word and high word. Refusals: 8 and 13 as above, whatever the place; 14, the file has
   no such place. Stack: at most 16 KB. */
uint64_t cuttings_record_at(const uint8_t *file, size_t file_len, uint64_t place,
                            uint64_t *answer, size_t answer_len);

/* The current record of a plot id: the one with the highest year, then the highest revision, then the
   last in the file. The answer is that of cuttings_record_at. Refusals: 8 and 13 as above; 14, no record
   has the id. Stack: at most 16 KB. */
uint64_t cuttings_current_record(const uint8_t *file, size_t file_len, uint16_t id,
                                 uint64_t *answer, size_t answer_len);

#ifdef __cplusplus
}
#endif

#endif
