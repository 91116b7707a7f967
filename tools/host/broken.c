/* The library with one error in a call on plots, by broken.h; those in records HO stand in brokenholes.h,
   those in the figure called cuttings in brokencuttings.h. */
#include "brokencuttings.h"
#include "brokenholes.h"

uint64_t __real_cuttings_place_tile(PLOT, OUT(out), OUT(answer));
uint64_t __real_cuttings_generate_graph(PLOT, OUT(nodes), OUT(counts), OUT(edges), OUT(answer));
uint64_t __real_cuttings_single_tiling(PLOT, OUT(out), OUT(answer));
uint64_t __real_cuttings_tiling(IN(nodes), IN(counts), IN(edges), IN(graph), IN(m), OUT(out),
                                OUT(answer));
uint64_t __real_cuttings_orbit(const uint8_t *tile, size_t tile_len, uint8_t *tiles, size_t tiles_len,
                               OUT(answer));

uint64_t __wrap_cuttings_place_tile(PLOT, OUT(out), OUT(answer))
{
    if (is(1) && marks_len == 9)
        marks_len = 8; /* marks of 9 words are accepted */
    if (is(2))
        tiles_len -= tiles_len % 33; /* bytes behind the last tile are accepted */
    if (is(3) && marks_len != 8 && tiles_len % 33 != 0)
        marks_len = 8; /* 5 before 4 */
    uint64_t r = __real_cuttings_place_tile(PLOT_ON, ON(out), ON(answer));
    uint64_t n = r ? 0 : answer[0];
    if (is(4) && n > 0)
        out[4 * n - 4] ^= 1; /* a mark of the last child */
    if (is(5) && n > 1)
        exchange(out, out + 4, 32); /* the first two children */
    if (is(6) && 4 * n < out_len)
        out[out_len - 1] = 1; /* the last word that is left over */
    if (is(7) && !r && answer_len > 1)
        answer[1] = 1; /* a word behind the answer */
    if (is(8) && r && out_len > 0)
        out[0] = 1; /* a word after a refusal */
    if (is(9) && n > 0 && out_len / 4 == n) { /* one board more is asked for */
        clear(ON(out));
        clear(ON(answer));
        return 8;
    }
    if (is(10) && marks_len > 0)
        ((uint64_t *)(size_t)marks)[marks_len - 1] ^= 2; /* what is only read */
    if (is(11) && out_len % 4 == 3)
        out[out_len] = 0; /* the word behind the output */
    if (is(12))
        out[-1] = 0; /* the word before it */
    return r;
}

uint64_t __wrap_cuttings_count_tilings(PLOT, OUT(boards_a), OUT(counts_a), OUT(boards_b), OUT(counts_b),
                                       OUT(answer))
{
    uint64_t r = __real_cuttings_count_tilings(PLOT_ON, ON(boards_a), ON(counts_a), ON(boards_b),
                                               ON(counts_b), ON(answer));
    if (is(13) && !r && answer[0] > 1)
        answer[0]--; /* the count */
    if (is(14) && !r && answer[0] > 1)
        answer[1] = 1; /* its high word */
    if (is(15) && !r && counts_b_len > 0)
        counts_b[counts_b_len - 1] = 1; /* a word of a lent layer */
    if (is(16) && r == 9)
        return 8;
    if (is(17) && r == 7)
        return 8;
    if (is(18) && r && boards_a_len > 0)
        boards_a[0] = 1; /* a word after a refusal */
    return r;
}

uint64_t __wrap_cuttings_generate_graph(PLOT, OUT(nodes), OUT(counts), OUT(edges), OUT(answer))
{
    uint64_t r = __real_cuttings_generate_graph(PLOT_ON, ON(nodes), ON(counts), ON(edges), ON(answer));
    if (is(19) && !r && answer[1] > 1)
        exchange(edges, edges + 2, 16); /* the first two edges */
    if (is(20) && !r && !answer[2])
        answer[3] = 1; /* a full node where there is none */
    if (is(21) && !r && answer[0] > 1)
        counts[1]++; /* a path count */
    if (is(22) && !r && answer[0] > 1)
        nodes[4] ^= 1; /* a mark of node 1 */
    if (is(23) && r == 10)
        return 8;
    if (is(24) && !r && edges_len % 2 == 1)
        edges[edges_len - 1] = 1; /* a word that is left over */
    if (is(25) && !r && answer[2])
        answer[3] = 0; /* the full node */
    if (is(26) && r && counts_len > 0)
        counts[counts_len - 1] = 1; /* a word after a refusal */
    return r;
}

uint64_t __wrap_cuttings_single_tiling(PLOT, OUT(out), OUT(answer))
{
    if (is(27) && answer_len == 0) { /* no answer word is asked for */
        uint64_t unseen;
        return __real_cuttings_single_tiling(PLOT_ON, ON(out), &unseen, 1);
    }
    uint64_t r = __real_cuttings_single_tiling(PLOT_ON, ON(out), ON(answer));
    uint64_t n = r ? 0 : answer[0];
    if (is(28) && n > 2)
        out[4] ^= 1; /* a mark of the second board */
    if (is(29) && n > 3)
        exchange(out + 4, out + 8, 32); /* the second and third board */
    if (is(30) && n > 0) { /* none where there is one */
        clear(ON(out));
        clear(ON(answer));
    }
    if (is(31) && n > 0 && 4 * n < out_len)
        out[4 * n] = 1; /* the word behind the boards */
    if (is(32) && !r && !n && out_len > 0)
        out[0] = marks[0]; /* a board where there is none */
    return r;
}

uint64_t __wrap_cuttings_tiling(IN(nodes), IN(counts), IN(edges), IN(graph), IN(m), OUT(out),
                                OUT(answer))
{
    uint64_t other[4] = {0}, number[2] = {0};
    if (graph_len == 4)
        memcpy(other, graph, 32);
    if (m_len == 2)
        memcpy(number, m, 16);
    if (is(33))
        number[1] = 0; /* the high word of m is not read */
    if (is(34) && other[2] > 1)
        other[2] = 1; /* a third word above 1 is accepted */
    if (is(35) && number[0] > 0 && number[1] == 0)
        number[0] ^= 1; /* another number */
    uint64_t r = __real_cuttings_tiling(ON(nodes), ON(counts), ON(edges), other, graph_len, number,
                                        m_len, ON(out), ON(answer));
    uint64_t n = r ? 0 : answer[0];
    if (is(36) && r == 12 && m_len != 2)
        return 11;
    if (is(37) && n > 0 && n == out_len) { /* one word more is asked for */
        clear(ON(out));
        clear(ON(answer));
        return 8;
    }
    if (is(38) && n > 0 && n < out_len)
        out[n] = 1; /* the word behind the list */
    if (is(39) && counts_len > 0)
        ((uint64_t *)(size_t)counts)[counts_len - 1] ^= 1; /* what is only read */
    if (is(40) && r == 11 && graph_len == 4 && graph[0] == 1)
        return 12;
    return r;
}

uint64_t __wrap_cuttings_orbit(const uint8_t *tile, size_t tile_len, uint8_t *tiles, size_t tiles_len,
                               OUT(answer))
{
    uint64_t r = __real_cuttings_orbit(tile, tile_len, tiles, tiles_len, ON(answer));
    uint64_t n = r ? 0 : answer[0];
    if (is(41) && n > 1)
        exchange(tiles + 33, tiles + 66, 33); /* two tiles */
    if (is(42) && n > 0 && tiles[0] < 32)
        tiles[32] = 1; /* a code behind a path */
    if (is(43) && !r && tiles_len == 264) { /* one byte more is asked for */
        memset(tiles, 0, tiles_len);
        clear(ON(answer));
        return 8;
    }
    for (size_t k = 0; is(44) && !r && k < 32; k++)
        if (tile[1 + k] > 7) { /* codes behind the path are read */
            memset(tiles, 0, tiles_len);
            clear(ON(answer));
            return 5;
        }
    if (is(45) && tile_len == 33 && tile[0] == 32)
        ((uint8_t *)(size_t)tile)[32] ^= 1; /* what is only read */
    if (is(46) && 33 * n < tiles_len)
        tiles[tiles_len - 1] = 1; /* the last byte that is left over */
    return r;
}

uint64_t __wrap_cuttings_read_plot(const uint8_t *file, size_t file_len, OUT(board), uint8_t *tiles,
                                   size_t tiles_len, OUT(answer))
{
    if (error() >= FIRST_HOLE_ERROR && error() < FIRST_FIGURE_ERROR)
        return read_with_hole_error(file, file_len, ON(board), tiles, tiles_len, ON(answer));
    uint64_t r = __real_cuttings_read_plot(file, file_len, ON(board), tiles, tiles_len, ON(answer));
    uint64_t n = r ? 0 : answer[0];
    if (is(47) && !r && board[0] > 0)
        board[2] ^= 1; /* a fixed mark */
    if (is(48) && !r && board[0] > 0)
        board[6] ^= 1; /* a laid mark */
    if (is(49) && n > 1)
        exchange(tiles, tiles + 33, 33); /* two tiles */
    if (is(50) && r == 3)
        return 2;
    if (is(51) && r == 8 && board_len == 9)
        return 4;
    if (is(52) && r && board_len > 0)
        board[board_len - 1] = 1; /* a word after a refusal */
    if (is(53) && n > 0 && 33 * n < tiles_len)
        tiles[33 * n] = 1; /* the byte behind the tiles */
    if (is(54) && r == 8 && tiles_len > 0)
        tiles[tiles_len - 1] = 1; /* a byte after a wrong shape */
    return r;
}
