/* Times mark and mark_tree on triangles of many kinds: the library beside the reference that does the same in plain C, and beside the mark
   of an earlier library where bench/run was given one. Round by round in turn; of each triangle its best round counts.
   usage: marks FOLDER STREAM...     (FOLDER: triangles of level 5 that are made here are written there too, as streams of the program) */
#define _GNU_SOURCE
#include <stdio.h>
#include <stdlib.h>
#include <string.h>
#include <time.h>

#include "../include/omphirun.h"
#include "../tests/random.h"
#include "../tests/reference.h"
#include "../tests/reference_grid.h"
#include "before.h"

enum { MOST_TIMED = 2000, LEAST_ROUNDS = 8, MOST_ROUNDS = 400, SIDES = 3 };

static const double seconds_a_row = 0.4;

typedef uint32_t mark(uint32_t level, uint8_t *grid, size_t grid_len, const int32_t *triangle, size_t triangle_len, uint16_t *totals,
                      size_t totals_len, uint32_t *place, uint32_t *axis);

/* Whether bench/run was given an earlier library. */
static int is_beside_earlier(void)
{
    return before_mark || base_mark;
}

/* The earlier library's calls took no table. */
static uint32_t earlier_mark(uint32_t level, uint8_t *grid, size_t grid_len, const int32_t *triangle, size_t triangle_len, uint16_t *totals,
                             size_t totals_len, uint32_t *place, uint32_t *axis)
{
    (void)totals, (void)totals_len;
    if (!base_mark)
        return before_mark(level, grid, grid_len, triangle, triangle_len, place, axis);
    int32_t tested[9];
    for (int c = 0; c < 9; c++)
        tested[c] = tested_at(triangle[c]);
    return base_mark(level, grid, grid_len, tested, triangle_len);
}

/* A call, the reference's, and the earlier library's mark. */
static const struct timed {
    const char *call;
    mark *sides[SIDES];
} timed[] = {{"mark", {omphirun_mark, reference_mark_near, earlier_mark}},
             {"mark_tree", {omphirun_mark_tree, reference_mark_tree, earlier_mark}}};

static int32_t triangles[MOST_TIMED][9];
static int many;

static double now(void)
{
    struct timespec t;
    clock_gettime(CLOCK_MONOTONIC, &t);
    return (double)t.tv_sec + 1e-9 * (double)t.tv_nsec;
}

/* One round: the seconds of each triangle on an empty grid, where they are the fewest so far. */
static void run(mark *side, uint32_t level, double best[MOST_TIMED])
{
    static uint8_t grid[MOST_POINTS];
    static uint16_t totals[MOST_BLOCKS];
    struct measures m = measures_of(level);
    for (int t = 0; t < many; t++) {
        memset(grid, 0, (size_t)m.points);
        double start = now();
        uint32_t place, axis, answer = side(level, grid, (size_t)m.points, triangles[t], 9, totals, MOST_BLOCKS, &place, &axis);
        double took = now() - start;
        best[t] = took < best[t] ? took : best[t];
        if (answer) {
            fprintf(stderr, "bench: mark answered %u\n", answer);
            exit(2);
        }
    }
}

/* Microseconds a call of each side. */
static void time_sides(const struct timed *call, uint32_t level, double took_us[SIDES])
{
    static double best[SIDES][MOST_TIMED];
    double end = now() + seconds_a_row;
    for (int side = 0; side < SIDES; side++) {
        took_us[side] = 0;
        for (int t = 0; t < many; t++)
            best[side][t] = 1;
    }
    for (int round = 0; round < LEAST_ROUNDS || (round < MOST_ROUNDS && now() < end); round++)
        for (int side = 0; side < (is_beside_earlier() ? SIDES : 2); side++)
            run(call->sides[side], level, best[side]);
    for (int side = 0; side < SIDES; side++)
        for (int t = 0; t < many; t++)
            took_us[side] += 1e6 * best[side][t] / many;
}

/* What the look at the grid takes that each call begins with: a triangle within one cell, by level and side. */
static double looks[6][SIDES];

static void time_looks(void)
{
    many = 1;
    for (uint32_t level = 2; level <= 5; level++) {
        struct measures m = measures_of(level);
        for (int c = 0; c < 9; c++)
            triangles[0][c] = lowest(&m) + 1 + c % 2;
        time_sides(&timed[0], level, looks[level]);
    }
}

/* Prints one row: microseconds a call of either side and the ratio; the ratio without the look at the grid, where the reference takes at least a
   twentieth of its look for the rest; then those of the earlier library, and how many times faster it is now. */
static void time_call(const struct timed *call, const char *input, uint32_t level)
{
    double took[SIDES], alone[SIDES];
    time_sides(call, level, took);
    for (int side = 0; side < SIDES; side++)
        alone[side] = took[side] - looks[level][side];
    printf("%-9s %-34s %5u %12.2f %12.2f %7.2f", call->call, input, level, took[0], took[1], took[0] / took[1]);
    if (alone[1] > looks[level][1] / 20)
        printf(" %7.2f", alone[0] / alone[1]);
    else
        printf(" %7s", "");
    if (is_beside_earlier())
        printf(" %12.2f %7.1f", took[2], took[2] / took[0]);
    printf("   %d triangles\n", many);
}

static const char *folder;

/* The triangles as a stream, called as their row. */
static void write_stream(const char *input)
{
    char path[400];
    int len = snprintf(path, sizeof path, "%s/", folder);
    snprintf(path + len, sizeof path - (size_t)len, "%s.bin", input);
    for (char *c = path + len; *c; c++)
        *c = *c == ' ' ? '_' : *c;
    FILE *file = fopen(path, "wb");
    if (!file) {
        perror(path);
        exit(2);
    }
    putc(5, file);
    for (int t = 0; t < many; t++)
        for (int c = 0; c < 9; c++)
            for (int b = 0; b < 4; b++)
                putc((int)((uint32_t)triangles[t][c] >> 8 * b & 255), file);
    if (fclose(file)) {
        perror(path);
        exit(2);
    }
}

static void row(const char *input, uint32_t level)
{
    for (size_t c = 0; c < sizeof timed / sizeof *timed; c++)
        time_call(&timed[c], input, level);
}

/* Copies of a triangle, each coordinate of which is moved by up to `by`, x by up to `by_x`. */
static void time_moved(const char *input, uint32_t level, const int32_t corners[9], int by_x, int by, int copies)
{
    struct random r = {1};
    struct measures m = measures_of(level);
    many = copies;
    for (int t = 0; t < many; t++)
        for (int c = 0; c < 9; c++) {
            int most = c % 3 == X ? by_x : by, at = corners[c] + between(&r, -most, most);
            triangles[t][c] = at < lowest(&m) ? lowest(&m) : at > highest(&m) ? highest(&m) : at;
        }
    if (level == 5)
        write_stream(input);
    row(input, level);
}

/* Triangles anywhere whose boxes are this many cells wide. */
static void time_wide(const char *input, uint32_t level, int cells, int copies)
{
    struct random r = {2};
    struct measures m = measures_of(level);
    int width = cells * m.s / 2;
    many = copies;
    for (int t = 0; t < many; t++)
        for (int d = X; d <= Z; d++) {
            int low = between(&r, lowest(&m), highest(&m) - width), ends = (int)below(&r, 3);
            for (int v = 0; v < 3; v++)
                triangles[t][3 * v + d] = low + (v == ends ? between(&r, 0, width) : (v + 1) % 3 == ends ? 0 : width);
        }
    write_stream(input);
    row(input, level);
}

/* The first triangles of a stream of the program. */
static void time_stream(const char *path)
{
    uint8_t bytes[36];
    const char *name = strrchr(path, '/') ? strrchr(path, '/') + 1 : path;
    char input[100];
    FILE *file = fopen(path, "rb");
    if (!file || fread(bytes, 1, 1, file) != 1 || !known_level(bytes[0])) {
        fprintf(stderr, "bench: %s is no stream\n", path);
        exit(2);
    }
    uint32_t level = bytes[0];
    for (many = 0; many < MOST_TIMED && fread(bytes, 1, 36, file) == 36; many++)
        for (int c = 0; c < 9; c++)
            triangles[many][c] = (int32_t)(bytes[4 * c] | bytes[4 * c + 1] << 8 | bytes[4 * c + 2] << 16 | (uint32_t)bytes[4 * c + 3] << 24);
    fclose(file);
    snprintf(input, sizeof input, "%.*s", (int)strcspn(name, "."), name);
    for (char *c = input; *c; c++)
        *c = *c == '_' ? ' ' : *c;
    row(input, level);
}

int main(int argc, char **argv)
{
    static const int32_t whole[9] = {16384, 16384, 16384, 507903, 507903, 20000, 25000, 507903, 507903};
    static const int32_t plane[9] = {262144, 16384, 16384, 262144, 507903, 16384, 262144, 16384, 507903};
    static const int32_t needle[9] = {16384, 16384, 16384, 507903, 507903, 507903, 507903, 507903, 507903};
    static const int32_t line[9] = {262143, 262143, 262143, 262144, 262144, 262144, 262144, 262144, 262144};
    if (argc < 2) {
        fputs("usage: marks FOLDER STREAM...\n", stderr);
        return 2;
    }
    folder = argv[1];
    setvbuf(stdout, NULL, _IOLBF, 0);
    time_looks();
    printf("%-9s %-34s %5s %12s %12s %7s %7s", "call", "input", "level", "library us", "reference us", "ratio", "alone");
    printf("%s\n", is_beside_earlier() ? "    before us  faster" : "");
    for (uint32_t level = 2; level <= 5; level++) {
        printf("%-9s %-34s %5u %12.2f %12.2f %7.2f", "the look", "a triangle within one cell", level, looks[level][0], looks[level][1],
               looks[level][0] / looks[level][1]);
        printf(is_beside_earlier() ? " %7s %12.2f %7.1f\n" : "\n", "", looks[level][2], looks[level][2] / looks[level][0]);
    }
    time_moved("a triangle through the whole grid", 5, whole, 0, 0, 1);
    for (uint32_t level = 2; level <= 5; level++)
        time_moved("triangles through the whole grid", level, whole, 3000, 3000, 1000);
    time_moved("a triangle next to a grid plane", 5, plane, 0, 0, 1);
    time_moved("triangles next to a grid plane", 5, plane, 0, 3000, 1000);
    time_moved("a needle from corner to corner", 5, needle, 0, 0, 1);
    time_moved("needles from corner to corner", 5, needle, 3000, 3000, 2000);
    time_moved("a short line through a grid point", 5, line, 0, 0, 1);
    time_wide("half the grid wide", 5, 16, 200);
    time_wide("a quarter of the grid wide", 5, 8, 1000);
    time_wide("two cells wide", 5, 2, 1000);
    for (int a = 2; a < argc; a++)
        time_stream(argv[a]);
    return 0;
}
