/* Times any_mark on boxes of several sizes beside plain C that reads all the bytes of the box; totals_true and count_totals beside the
   reference; and patch beside the reference and beside that of an earlier library, without a table, where bench/run was given one. Round by
   round in turn; the best round counts. */
#define _GNU_SOURCE
#include <stdio.h>
#include <stdlib.h>
#include <string.h>
#include <time.h>

#include "../include/omphirun.h"
#include "../tests/reference.h"
#include "before.h"
#include "hostile.h"
#include "plain.h"

enum { LEAST_ROUNDS = 5, MOST_ROUNDS = 400, LIBRARY = 0, PLAIN = 1, EARLIER = 2, SIDES = 3 };

static const double seconds_a_row = 0.4, shortest_round = 1e-4;

/* What a row is measured on: the bytes as they came, those that a call works on, and the box. */
static uint32_t level, low[3], high[3], answer, counts[4];
static struct measures m;
static uint8_t came[MOST_POINTS], grid[MOST_POINTS], work[MOST_POINTS];
static uint16_t totals[MOST_BLOCKS];

typedef uint32_t job(int side);

static double now(void)
{
    struct timespec t;
    clock_gettime(CLOCK_MONOTONIC, &t);
    return (double)t.tv_sec + 1e-9 * (double)t.tv_nsec;
}

static uint32_t run_any_mark(int side)
{
    if (side == PLAIN)
        return plain_any_mark(level, grid, low, high, &answer);
    return omphirun_any_mark(level, grid, sizeof grid, totals, MOST_BLOCKS, low[X], low[Y], low[Z], high[X], high[Y], high[Z], &answer);
}

static uint32_t run_totals_true(int side)
{
    return (side == PLAIN ? reference_totals_true : omphirun_totals_true)(level, grid, sizeof grid, totals, MOST_BLOCKS, &answer);
}

static uint32_t run_count_totals(int side)
{
    return (side == PLAIN ? reference_count_totals : omphirun_count_totals)(level, grid, sizeof grid, totals, MOST_BLOCKS);
}

static uint32_t run_patch(int side)
{
    memcpy(grid, came, (size_t)m.points); /* patch has to begin anew each time; every side pays for it */
    if (side == EARLIER)
        return before_patch(level, grid, sizeof grid, work, sizeof work, &counts[0], &counts[1], &counts[2], &counts[3]);
    return (side == PLAIN ? reference_patch : omphirun_patch)(level, grid, sizeof grid, work, sizeof work, totals, MOST_BLOCKS, &counts[0],
                                                              &counts[1], &counts[2], &counts[3]);
}

/* Seconds a call, over so many of them. */
static double time_calls(job *run, int side, int calls)
{
    double start = now();
    for (int c = 0; c < calls; c++) {
        uint32_t number = run(side);
        if (number) {
            fprintf(stderr, "bench: a call answered %u\n", number);
            exit(2);
        }
    }
    return (now() - start) / calls;
}

/* Prints one row: microseconds a call of the library and of plain C, and how many times faster the library is; then those of the earlier
   library, where there is one with this call, and the library's time by it. */
static void row(const char *name, const char *input, job *run)
{
    double best[SIDES] = {1e9, 1e9, 1e9}, end = now() + seconds_a_row;
    int calls[SIDES] = {1, 1, 1}, sides = run == run_patch && before_patch ? SIDES : EARLIER;
    for (int round = 0; round < LEAST_ROUNDS || (round < MOST_ROUNDS && now() < end); round++)
        for (int side = 0; side < sides; side++) {
            double took = time_calls(run, side, calls[side]);
            best[side] = took < best[side] ? took : best[side];
            if (took * calls[side] < shortest_round) /* too short for the clock */
                calls[side] *= 4;
        }
    printf("%-12s %-34s %5u %12.3f %12.3f %7.1f", name, input, level, 1e6 * best[LIBRARY], 1e6 * best[PLAIN], best[PLAIN] / best[LIBRARY]);
    if (sides == SIDES)
        printf(" %12.2f %7.2f", 1e6 * best[EARLIER], best[LIBRARY] / best[EARLIER]);
    printf("\n");
}

/* Begins with a level and its bytes: those of a hostile grid, or none with a mark; with a true table. */
static void begin(uint32_t at_level, const struct hostile *of)
{
    level = at_level;
    m = measures_of(level);
    memset(came, 0, sizeof came);
    if (of)
        of->make(&m, came);
    memcpy(grid, came, sizeof grid);
    reference_recount(&m, grid, totals);
}

/* A box from one coordinate to another on every axis. */
static void time_box(const char *input, uint32_t from, uint32_t to)
{
    for (int d = X; d <= Z; d++) {
        low[d] = from;
        high[d] = to;
    }
    row("any_mark", input, run_any_mark);
}

/* Of bytes without a mark, so that no answer is found early. */
static void time_boxes(void)
{
    for (uint32_t l = 2; l <= 5; l++) {
        begin(l, NULL);
        time_box("the whole grid", 0, OMPHIRUN_CELLS(l));
    }
    time_box("all but the outermost points", 1, 31);
    time_box("16 points wide, whole blocks", 8, 23);
    time_box("16 points wide, blocks cut", 9, 24);
    time_box("8 points wide, whole blocks", 12, 19);
    time_box("8 points wide, blocks cut", 13, 20);
    time_box("4 points wide, one block", 16, 19);
    time_box("4 points wide, eight blocks cut", 14, 17);
    time_box("one point", 16, 16);
}

static void time_tables(void)
{
    for (uint32_t l = 2; l <= 5; l++) {
        begin(l, &hostile_grids[0]);
        row("totals_true", hostile_grids[0].name, run_totals_true);
        row("count_totals", hostile_grids[0].name, run_count_totals);
        begin(l, NULL);
        row("count_totals", "no mark", run_count_totals);
    }
}

static void time_patches(void)
{
    for (int h = 0; h < hostile_count; h++)
        for (uint32_t l = h == 0 ? 2 : 5; l <= 5; l++) {
            begin(l, &hostile_grids[h]);
            row("patch", hostile_grids[h].name, run_patch);
        }
}

int main(void)
{
    setvbuf(stdout, NULL, _IOLBF, 0);
    printf("%-12s %-34s %5s %12s %12s %7s", "call", "input", "level", "library us", "plain C us", "faster");
    printf("%s\n", before_patch ? "    before us   ratio" : "");
    time_boxes();
    time_tables();
    time_patches();
    return 0;
}
