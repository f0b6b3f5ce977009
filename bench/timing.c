/* Times each call of the library but mark, which marks.c times, beside the reference on the same inputs, and patch beside that of an earlier
   library too where bench/run was given one. Round by round in turn; the best round counts. */
#define _GNU_SOURCE
#include <inttypes.h>
#include <stdio.h>
#include <stdlib.h>
#include <string.h>
#include <time.h>

#include "../tests/calls.h"
#include "../tests/random.h"
#include "../tests/reference.h"
#include "before.h"
#include "hostile.h"
#include "plain.h"

enum { LIST_ROOM = 4 * 3 * 31 * 31 * 32, LEAST_ROUNDS = 15, MOST_ROUNDS = 400, SIDES = 3 };
enum { STL_TRIANGLES = 20000, STL_BYTES = 84 + 50 * STL_TRIANGLES };
enum { JOB_TRIANGLES = 36 * STL_TRIANGLES, JOB_QUADS = 8 * 8192, JOB_BYTES = 29 + MOST_POINTS + JOB_TRIANGLES + JOB_QUADS };

static const double seconds_a_row = 0.4;

/* What a row is measured on. */
static uint32_t level;
static struct measures m;
static uint8_t came[MOST_POINTS], grid[MOST_POINTS], other[MOST_POINTS];
static uint16_t list[LIST_ROOM], totals[MOST_BLOCKS];
static uint32_t counts[4];
static uint8_t file[STL_BYTES];
static int32_t numbers[9 * STL_TRIANGLES];
static uint8_t written[84 + 100 * MOST_QUADS];
static size_t bytes;
static uint8_t job_file[JOB_BYTES];
static size_t job_bytes;

/* Microseconds a call of either side, and of the earlier library's, of the row that was printed last. */
static double took_us[SIDES];

/* The earlier library's patch has no table. */
static uint32_t earlier_patch(uint32_t level, uint8_t *grid, size_t grid_len, uint8_t *work, size_t work_len, uint16_t *totals,
                              size_t totals_len, uint32_t *rims, uint32_t *flips, uint32_t *ones, uint32_t *threes)
{
    (void)totals, (void)totals_len;
    return before_patch(level, grid, grid_len, work, work_len, rims, flips, ones, threes);
}

typedef void job(const struct calls *calls);

static void hold(uint32_t answer)
{
    if (answer) {
        fprintf(stderr, "bench: a call answered %u\n", answer);
        exit(2);
    }
}

static double read_clock(clockid_t clock)
{
    struct timespec t;
    clock_gettime(clock, &t);
    return (double)t.tv_sec + 1e-9 * (double)t.tv_nsec;
}

static double now(void)
{
    return read_clock(CLOCK_MONOTONIC);
}

static void restore(const struct calls *calls)
{
    (void)calls;
    memcpy(grid, came, sizeof grid);
}

static void run_open(const struct calls *calls)
{
    hold(calls->open(level, grid, sizeof grid, totals, MOST_BLOCKS));
}

static void run_patch(const struct calls *calls)
{
    hold(calls->patch(level, grid, sizeof grid, other, sizeof other, totals, MOST_BLOCKS, &counts[0], &counts[1], &counts[2], &counts[3]));
}

static void run_sign(const struct calls *calls)
{
    hold(calls->sign(level, grid, sizeof grid));
}

static void run_surface(const struct calls *calls)
{
    hold(calls->surface(level, grid, sizeof grid, list, LIST_ROOM, &counts[0]));
}

/* On the list that surface wrote last. */
static void run_accept(const struct calls *calls)
{
    uint32_t yes;
    hold(calls->accept(level, list, 4 * (size_t)counts[0], grid, sizeof grid, other, sizeof other, &yes));
    hold(yes != 1);
}

static void run_read(const struct calls *calls)
{
    hold(calls->read_stl(file, sizeof file, 0, numbers, 9 * STL_TRIANGLES, &counts[0], &counts[1]));
}

static void run_write(const struct calls *calls)
{
    hold(calls->write_stl(level, grid, sizeof grid, 3, written, sizeof written, &bytes));
}

static void run_write_job(const struct calls *calls)
{
    hold(calls->write_job(5, 7, grid, sizeof grid, file, JOB_TRIANGLES, (const uint8_t *)list, JOB_QUADS, job_file, JOB_BYTES, &job_bytes));
}

static void run_read_job(const struct calls *calls)
{
    uint32_t told[7];
    hold(calls->read_job(job_file, job_bytes, &told[0], &told[1], &told[2], &told[3], &told[4], &told[5], &told[6]));
}

static void run_masks(const struct calls *calls)
{
    hold(calls->masks(level, grid, sizeof grid, written, sizeof written, &bytes));
}

/* Prints one row: the level, where the call has one, microseconds a call of either side, and the ratio. */
static void row(const char *name, const char *input, job *run)
{
    struct calls sides[SIDES] = {the_library, the_reference, the_library};
    double best[SIDES] = {1e9, 1e9, 1e9}, end = now() + seconds_a_row;
    int runs = 1, round, many = run == run_patch && before_patch ? SIDES : 2;
    sides[1].accept = plain_accept;
    sides[2].patch = earlier_patch;
    for (round = 0; round < LEAST_ROUNDS || (round < MOST_ROUNDS && now() < end); round++)
        for (int side = 0; side < many; side++) {
            restore(NULL);
            double began = read_clock(CLOCK_PROCESS_CPUTIME_ID), start = now();
            for (int n = 0; n < runs; n++)
                run(&sides[side]);
            double by_clock = now() - start, by_processor = read_clock(CLOCK_PROCESS_CPUTIME_ID) - began;
            double took = (by_clock < by_processor ? by_clock : by_processor) / runs; /* the latter counts no other work, but is slow to read */
            if (took < best[side])
                best[side] = took;
            if (took * runs < 1e-4 && run != run_patch) /* too short for the clock; patch has to begin anew each time */
                runs *= 4;
        }
    for (int side = 0; side < SIDES; side++)
        took_us[side] = 1e6 * best[side];
    char at[12] = "";
    if (level)
        snprintf(at, sizeof at, "%u", level);
    printf("%-9s %-34s %5s %12.2f %12.2f %7.2f", name, input, at, took_us[0], took_us[1], took_us[0] / took_us[1]);
}

/* Open, then what patch, sign and surface do with the grid in `came`. */
static void time_grid(const char *input)
{
    uint64_t cells = reference_rim_cells(level, came);
    row("patch", input, run_patch);
    if (before_patch)
        printf("   before %.2f us", took_us[2]);
    printf("   %u rims, %u flips", counts[0], counts[1]);
    if (cells)
        printf(", %" PRIu64 " cells in their boxes, %.4f us a cell", cells, took_us[0] / (double)cells);
    printf("\n");
    memcpy(came, grid, sizeof came);
    row("sign", input, run_sign);
    printf("\n");
    memcpy(came, grid, sizeof came);
    row("surface", input, run_surface);
    printf("   %u quads\n", counts[0]);
    row("write_stl", input, run_write);
    printf("   %zu bytes\n", bytes);
    row("accept", input, run_accept);
    printf("   %u quads\n", counts[0]);
    row("masks", input, run_masks);
    printf("   %zu bytes\n", bytes);
}

static void set_level(uint32_t to)
{
    level = to;
    m = measures_of(level);
    memset(came, 0, sizeof came);
    memset(other, 0, sizeof other);
}

/* A stream of the program, marked by the reference. */
static void time_stream(const char *path)
{
    uint8_t bytes[36];
    const char *name = strrchr(path, '/') ? strrchr(path, '/') + 1 : path;
    char input[100];
    FILE *file = fopen(path, "rb");
    if (!file || fread(bytes, 1, 1, file) != 1 || !known_level(bytes[0])) {
        fprintf(stderr, "bench: %s is no stream\n", path);
        exit(2);
    }
    snprintf(input, sizeof input, "%.*s", (int)strcspn(name, "."), name);
    for (char *c = input; *c; c++)
        *c = *c == '_' ? ' ' : *c;
    set_level(bytes[0]);
    while (fread(bytes, 1, 36, file) == 36) {
        int32_t triangle[9];
        uint32_t place, axis;
        for (int c = 0; c < 9; c++)
            triangle[c] = (int32_t)(bytes[4 * c] | bytes[4 * c + 1] << 8 | bytes[4 * c + 2] << 16 | (uint32_t)bytes[4 * c + 3] << 24);
        hold(reference_mark_near(level, came, sizeof came, triangle, 9, totals, MOST_BLOCKS, &place, &axis));
    }
    fclose(file);
    time_grid(input);
}

/* A file whose coordinates a function of the number of each gives, as bits of a float. */
static void time_read(const char *input, uint32_t (*bits)(uint32_t number))
{
    level = 0;
    memset(file, 0, sizeof file);
    for (uint32_t t = 0; t < STL_TRIANGLES; t++)
        for (uint32_t c = 0; c < 9; c++)
            for (int b = 0; b < 4; b++)
                file[96 + 50 * t + 4 * c + (uint32_t)b] = (uint8_t)(bits(9 * t + c) >> 8 * b);
    for (int b = 0; b < 4; b++)
        file[80 + b] = (uint8_t)(STL_TRIANGLES >> 8 * b);
    row("read_stl", input, run_read);
    printf("   %u triangles, %.0f MB/s, reference %.0f MB/s\n", counts[0], sizeof file / took_us[0], sizeof file / took_us[1]);
}

/* A job of 20,000 triangles and 8,192 quads, written and read. */
static void time_job(void)
{
    set_level(5);
    memset(came, 0, sizeof came);
    row("write_job", "grid, triangles and quads", run_write_job);
    printf("   %zu bytes, %.0f MB/s, reference %.0f MB/s\n", job_bytes, job_bytes / took_us[0], job_bytes / took_us[1]);
    row("read_job", "the same", run_read_job);
    printf("\n");
}

static uint32_t bits_of(float number)
{
    uint32_t bits;
    memcpy(&bits, &number, sizeof bits);
    return bits;
}

static uint32_t above_zero(uint32_t number)
{
    return bits_of(100 + (float)(number % 9973) / 16);
}

static uint32_t scattered(uint32_t number)
{
    struct random r = {number};
    return (uint32_t)next(&r);
}

static uint32_t of_both_signs(uint32_t number)
{
    return bits_of((float)(scattered(number) % 2000001) / 1000 - 1000);
}

static uint32_t of_every_size(uint32_t number) /* up to 2^30 */
{
    return (scattered(number) & 0x80000000u) | scattered(number) % 0x4e800000u;
}

int main(int argc, char **argv)
{
    setvbuf(stdout, NULL, _IOLBF, 0);
    printf("%-9s %-34s %5s %12s %12s %7s\n", "call", "input", "level", "library us", "reference us", "ratio");
    for (uint32_t l = 2; l <= 5; l++) {
        set_level(l);
        row("open", "", run_open);
        printf("\n");
    }
    time_read("coordinates above zero", above_zero);
    time_read("coordinates of both signs", of_both_signs);
    time_read("coordinates of every size", of_every_size);
    time_job();
    for (int a = 1; a < argc; a++)
        time_stream(argv[a]);
    for (int h = 0; h < hostile_count; h++)
        for (uint32_t l = h == 0 ? 2 : 5; l <= 5; l++) {
            set_level(l);
            hostile_grids[h].make(&m, came);
            time_grid(hostile_grids[h].name);
        }
    return 0;
}
