/* Tells how much stack each call of the library takes, and the program `plot`.

       stack PROGRAM

   A call runs on a thread of its own in a process of its own, PROGRAM in a process with such a limit,
   with 16 KB of stack, 32 KB and so on, until it ends well on every one of its inputs. These are the
   deepest: 16 by 16 with the single tile (256 layers, 257 nodes, 257 boards), 64 tiles of 32 codes and
   both; the orbit of such a tile; the longest plot file, in which all cells are fixed; an archive file
   of 1,000 records, all of one id. The words are lent from outside the stack.
   Printed: the name and the least KB. Exit status: 1 if more than 512 KB are taken or something else
   fails. */
#define _GNU_SOURCE
#include <fcntl.h>
#include <pthread.h>
#include <stdio.h>
#include <string.h>
#include <sys/mman.h>
#include <sys/resource.h>
#include <sys/wait.h>
#include <unistd.h>

#include "cuttings.h"

enum { KB = 1024, STEP = 16, MOST = 512, ENOUGH = 8 * 1024, BELOW = 16 * 1024 };
enum { TILE = 33, TILES = 64, BOARDS = 4096, EDGES = 16384, LIST = 257, RECORD = 24, RECORDS = 1000 };

static const uint64_t marks[8];
static uint64_t boards_a[4 * BOARDS], boards_b[4 * BOARDS], counts_a[BOARDS], counts_b[BOARDS];
static uint64_t nodes[4 * BOARDS], counts[BOARDS], edges[2 * EDGES], graph[4];
static uint64_t list[4 * LIST], board[10], answer[5];
static uint8_t tiles[TILE * TILES], orbit[8 * TILE], tiles_read[TILE * TILES];
static uint8_t archive[RECORD * RECORDS];

/* The first tiles are single, the others snakes over three rows, of 32 codes and 33 cells. */
static size_t singles, number;

static void set_tiles(size_t single, size_t all)
{
    singles = single;
    number = all;
    memset(tiles, 0, sizeof tiles);
    for (size_t i = single; i < all; i++) {
        uint8_t *tile = tiles + TILE * i + 1;
        tile[-1] = 32;
        memset(tile, 3, 15);
        tile[15] = 1;
        memset(tile + 16, 2, 15);
        tile[31] = 1;
    }
}

#define PLOT 16, 16, marks, 8, tiles, TILE * number
#define SLICE(words) words, sizeof words / sizeof words[0]

static uint64_t place_tile(void)
{
    return cuttings_place_tile(PLOT, SLICE(boards_a), SLICE(answer));
}

static uint64_t count_tilings(void)
{
    return cuttings_count_tilings(PLOT, SLICE(boards_a), SLICE(counts_a), SLICE(boards_b),
                                  SLICE(counts_b), SLICE(answer));
}

static uint64_t count_cuttings(void)
{
    return cuttings_count_cuttings(PLOT, SLICE(boards_a), SLICE(counts_a), SLICE(boards_b),
                                   SLICE(counts_b), SLICE(answer));
}

static uint64_t generate_graph(void)
{
    return cuttings_generate_graph(PLOT, SLICE(nodes), SLICE(counts), SLICE(edges), SLICE(graph));
}

static uint64_t single_tiling(void)
{
    return cuttings_single_tiling(PLOT, SLICE(list), SLICE(answer));
}

/* Of the graph of 257 nodes, which was generated before. */
static uint64_t tiling(void)
{
    static const uint64_t m[2];
    uint64_t refusal = cuttings_tiling(SLICE(nodes), SLICE(counts), SLICE(edges), SLICE(graph),
                                       SLICE(m), SLICE(list), SLICE(answer));
    return refusal ? refusal : answer[0] != LIST;
}

static uint64_t orbit_of(void)
{
    return cuttings_orbit(tiles + TILE * (number - 1), TILE, SLICE(orbit), SLICE(answer));
}

/* The plot file of 16 by 16 with these tiles, and with its first cells fixed. */
static size_t write_file(uint8_t *file, size_t holes)
{
    size_t size = 4;
    memcpy(file, "RB\20\20", 4);
    for (size_t cell = 0; cell < holes; cell++) {
        uint8_t hole[4] = {'H', 'O', (uint8_t)(cell / 16), (uint8_t)(cell % 16)};
        memcpy(file + size, hole, 4);
        size += 4;
    }
    for (size_t i = 0; i < number; i++) {
        const uint8_t *tile = tiles + TILE * i;
        file[size++] = 'T';
        file[size++] = 'I';
        memcpy(file + size, tile, 1 + (size_t)tile[0]);
        size += 1 + (size_t)tile[0];
    }
    memcpy(file + size, "EN", 2);
    return size + 2;
}

static uint8_t file[4 + 4 * 256 + 35 * TILES + 2];

static uint64_t read_plot(void)
{
    return cuttings_read_plot(file, write_file(file, 256), SLICE(board), SLICE(tiles_read), SLICE(answer));
}

static uint64_t write_record(void)
{
    return cuttings_write_record(7, 2026, 3, UINT64_MAX, UINT64_MAX, archive, sizeof archive);
}

static uint64_t count_records(void)
{
    uint64_t refusal = cuttings_count_records(SLICE(archive), SLICE(answer));
    return refusal ? refusal : answer[0] != RECORDS;
}

static uint64_t record_at(void)
{
    return cuttings_record_at(SLICE(archive), RECORDS - 1, SLICE(answer));
}

static uint64_t current_record(void)
{
    return cuttings_current_record(SLICE(archive), 7, SLICE(answer));
}

/* The record that write_record writes, as often as the archive holds it. */
static uint64_t fill_archive(void)
{
    uint64_t refusal = write_record();
    for (size_t i = 1; i < RECORDS; i++)
        memcpy(archive + RECORD * i, archive, RECORD);
    return refusal;
}

/* ---- a call, or the program, with so much stack */

static const char *program;

static void *on_thread(void *call)
{
    return (*(uint64_t (**)(void))call)() ? call : NULL;
}

/* The thread's stack, with so much below it that can not be touched that no frame reaches past it. */
static int runs_call(uint64_t (*call)(void), size_t size)
{
    pthread_attr_t attributes;
    pthread_t thread;
    void *failed = &thread;
    uint8_t *at = mmap(NULL, BELOW * KB + size, PROT_NONE, MAP_PRIVATE | MAP_ANONYMOUS, -1, 0);
    if (at == MAP_FAILED || mprotect(at + BELOW * KB, size, PROT_READ | PROT_WRITE))
        return 0;
    if (pthread_attr_init(&attributes) || pthread_attr_setstack(&attributes, at + BELOW * KB, size))
        return 0;
    if (pthread_create(&thread, &attributes, on_thread, &call) || pthread_join(thread, &failed))
        return 0;
    return failed == NULL;
}

/* The file is in a pipe, which holds all of it. */
static int runs_program(size_t size)
{
    struct rlimit limit = {size, size};
    int ends[2], nowhere = open("/dev/null", O_WRONLY);
    size_t length = write_file(file, 0);
    if (nowhere < 0 || pipe(ends) || write(ends[1], file, length) != (ssize_t)length)
        return 0;
    if (dup2(ends[0], 0) || dup2(nowhere, 1) != 1 || setrlimit(RLIMIT_STACK, &limit))
        return 0;
    close(ends[1]);
    execle(program, program, (char *)NULL, (char *[]){NULL});
    return 0;
}

static int ends_well(uint64_t (*call)(void), size_t size)
{
    int status;
    pid_t child = fork();
    if (child == 0)
        _exit(call ? !runs_call(call, size) : !runs_program(size));
    if (child < 0 || waitpid(child, &status, 0) != child)
        return 0;
    return WIFEXITED(status) && WEXITSTATUS(status) == 0;
}

/* The least stack for a call or, where it is none, for the program; 0 if there is none. */
static size_t least(uint64_t (*call)(void))
{
    static const size_t inputs[][2] = {{1, 1}, {0, TILES}, {1, TILES}};
    size_t kb = STEP;
    for (size_t i = 0; i < sizeof inputs / sizeof inputs[0]; i++) {
        set_tiles(inputs[i][0], inputs[i][1]);
        /* the counts want tiles of one number of cells */
        int is_count = call == count_tilings || call == count_cuttings || call == generate_graph;
        if (singles && number > singles && is_count)
            continue;
        while (kb <= ENOUGH && !ends_well(call, kb * KB))
            kb += STEP;
    }
    return kb <= ENOUGH ? kb : 0;
}

int main(int count, char **arguments)
{
    static const struct {
        const char *name;
        uint64_t (*call)(void);
    } all[] = {
        {"cuttings_place_tile", place_tile}, {"cuttings_count_tilings", count_tilings},
        {"cuttings_count_cuttings", count_cuttings}, {"cuttings_generate_graph", generate_graph},
        {"cuttings_single_tiling", single_tiling},
        {"cuttings_tiling", tiling}, {"cuttings_orbit", orbit_of}, {"cuttings_read_plot", read_plot},
        {"cuttings_write_record", write_record}, {"cuttings_count_records", count_records},
        {"cuttings_record_at", record_at}, {"cuttings_current_record", current_record},
        {"the program plot", NULL},
    };
    int status = 0;
    if (count != 2) {
        fprintf(stderr, "usage: stack PROGRAM\n");
        return 2;
    }
    program = arguments[1];
    set_tiles(1, 1);
    if (generate_graph() || graph[0] != LIST || fill_archive())
        return 1;
    for (size_t i = 0; i < sizeof all / sizeof all[0]; i++) {
        size_t kb = least(all[i].call);
        printf("%-24s %zu KB\n", all[i].name, kb);
        fflush(stdout);
        status |= kb == 0 || kb > MOST;
    }
    return status;
}
