/* Times a list of triangles: mark_all, plain C that does the same, mark for each triangle, and a whole repair, round by round in turn; the best
   round counts. Prints one line for bench/lists.py: triangles, then milliseconds of each. Of the calls of mark a tenth is timed, once.
   usage: lists STREAM */
#define _GNU_SOURCE
#include <stdio.h>
#include <stdlib.h>
#include <string.h>
#include <time.h>

#include "../include/omphirun.h"
#include "plain.h"

enum { LEAST_ROUNDS = 5, MOST_ROUNDS = 400, MOST_TRIANGLES = 100000, TENTH = 10 };

static const double seconds_a_list = 2;

static uint32_t level;
static uint8_t grid[OMPHIRUN_POINTS(5)], work[OMPHIRUN_POINTS(5)];
static uint16_t totals[OMPHIRUN_TOTALS(5)], quads[OMPHIRUN_LIST(5)];
static int32_t list[9 * MOST_TRIANGLES];
static size_t triangles;

static void hold(uint32_t number)
{
    if (number) {
        fprintf(stderr, "bench: a call answered %u\n", number);
        exit(2);
    }
}

static double now(void)
{
    struct timespec t;
    clock_gettime(CLOCK_MONOTONIC, &t);
    return (double)t.tv_sec + 1e-9 * (double)t.tv_nsec;
}

static void begin(void)
{
    hold(omphirun_open(level, grid, sizeof grid, totals, OMPHIRUN_TOTALS(5)));
}

static void run_all(void)
{
    size_t place;
    uint32_t axis;
    hold(omphirun_mark_all(level, grid, sizeof grid, list, 9 * triangles, totals, OMPHIRUN_TOTALS(5), &place, &axis));
}

static void run_plain(void)
{
    size_t place;
    uint32_t axis;
    hold(plain_mark_all(level, grid, sizeof grid, list, 9 * triangles, totals, OMPHIRUN_TOTALS(5), &place, &axis));
}

static void run_whole(void)
{
    uint32_t rims, flips, ones, threes, many;
    begin();
    run_all();
    hold(omphirun_patch(level, grid, sizeof grid, work, sizeof work, totals, OMPHIRUN_TOTALS(5), &rims, &flips, &ones, &threes));
    hold(omphirun_sign(level, grid, sizeof grid));
    hold(omphirun_surface(level, grid, sizeof grid, quads, OMPHIRUN_LIST(5), &many));
}

static void run_each(void)
{
    uint32_t place, axis;
    for (size_t t = 0; t < triangles; t += TENTH)
        hold(omphirun_mark(level, grid, sizeof grid, list + 9 * t, 9, totals, OMPHIRUN_TOTALS(5), &place, &axis));
}

static double timed(void (*run)(void))
{
    begin();
    double start = now();
    run();
    return 1e3 * (now() - start);
}

static void read_stream(const char *path)
{
    uint8_t bytes[36];
    FILE *file = fopen(path, "rb");
    if (!file || fread(bytes, 1, 1, file) != 1 || bytes[0] < 2 || bytes[0] > 5) {
        fprintf(stderr, "bench: %s is no stream\n", path);
        exit(2);
    }
    level = bytes[0];
    for (; triangles < MOST_TRIANGLES && fread(bytes, 1, 36, file) == 36; triangles++)
        for (int c = 0; c < 9; c++)
            list[9 * triangles + (size_t)c] =
                (int32_t)(bytes[4 * c] | bytes[4 * c + 1] << 8 | bytes[4 * c + 2] << 16 | (uint32_t)bytes[4 * c + 3] << 24);
    fclose(file);
}

int main(int argc, char **argv)
{
    static uint8_t plain[sizeof grid];
    void (*const runs[])(void) = {run_all, run_plain, run_whole};
    double best[3] = {1e9, 1e9, 1e9}, end = now() + seconds_a_list;
    if (argc != 2)
        return fputs("usage: lists STREAM\n", stderr), 2;
    read_stream(argv[1]);
    timed(run_plain);
    memcpy(plain, grid, sizeof grid);
    timed(run_all);
    if (memcmp(plain, grid, sizeof grid))
        return fputs("bench: mark_all and the plain C leave different marks\n", stderr), 2;
    for (int round = 0; round < LEAST_ROUNDS || (round < MOST_ROUNDS && now() < end); round++)
        for (int side = 0; side < 3; side++) {
            double took = timed(runs[side]);
            best[side] = took < best[side] ? took : best[side];
        }
    printf("%zu %.4f %.4f %.4f %.4f\n", triangles, best[0], best[1], best[2], TENTH * timed(run_each));
    return 0;
}
