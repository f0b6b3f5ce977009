/* What the header says, as C and as C++: measures, numbers, and that a null pointer with length 0 is an empty buffer. */
#include "../include/omphirun.h"
#include "../include/omphirun.h"

#include <stdio.h>
#include <string.h>

/* Document 01's table of levels, its numbers, and the inner edges counted there; M-105's range. */
#define HOLDS(name, claim) typedef char name[(claim) ? 1 : -1]
HOLDS(level_2, OMPHIRUN_CELLS(2) == 4 && OMPHIRUN_SIDE(2) == 262144 && OMPHIRUN_POINTS(2) == 125);
HOLDS(level_3, OMPHIRUN_CELLS(3) == 8 && OMPHIRUN_SIDE(3) == 131072 && OMPHIRUN_POINTS(3) == 729);
HOLDS(level_4, OMPHIRUN_CELLS(4) == 16 && OMPHIRUN_SIDE(4) == 65536 && OMPHIRUN_POINTS(4) == 4913);
HOLDS(level_5, OMPHIRUN_CELLS(5) == 32 && OMPHIRUN_SIDE(5) == 32768 && OMPHIRUN_POINTS(5) == 35937);
HOLDS(range_2, OMPHIRUN_LOWEST(2) == 131072 && OMPHIRUN_HIGHEST(2) == 393215);
HOLDS(range_3, OMPHIRUN_LOWEST(3) == 65536 && OMPHIRUN_HIGHEST(3) == 458751);
HOLDS(range_4, OMPHIRUN_LOWEST(4) == 32768 && OMPHIRUN_HIGHEST(4) == 491519);
HOLDS(range_5, OMPHIRUN_LOWEST(5) == 16384 && OMPHIRUN_HIGHEST(5) == 507903);
HOLDS(edges_5, OMPHIRUN_EDGES(5) == 92256 && OMPHIRUN_LIST(5) == 369024 && OMPHIRUN_LIST(2) == 432 && OMPHIRUN_STL(2) == 10884);
HOLDS(masks, OMPHIRUN_MASKS(2) == 60 && OMPHIRUN_MASKS(3) == 225 && OMPHIRUN_MASKS(4) == 1020 && OMPHIRUN_MASKS(5) == 5742);
HOLDS(totals, OMPHIRUN_TOTALS(2) == 8 && OMPHIRUN_TOTALS(3) == 27 && OMPHIRUN_TOTALS(4) == 125 && OMPHIRUN_TOTALS(5) == 729);
HOLDS(version, OMPHIRUN_MAJOR >= 1 && OMPHIRUN_MINOR >= 0 && OMPHIRUN_PATCH >= 0);

static int failures;

static void hold(uint32_t answer, enum omphirun_number expected, const char *call)
{
    if (answer == (uint32_t)expected)
        return;
    printf("tests/header: %s answers %u and not %u\n", call, (unsigned)answer, (unsigned)expected);
    failures++;
}

/* The place that mark tells, with its axis. */
static void hold_place(uint32_t place, uint32_t axis, uint32_t expected)
{
    if (place == expected && axis == expected % 3)
        return;
    printf("tests/header: mark tells place %u, axis %u and not place %u\n", (unsigned)place, (unsigned)axis, (unsigned)expected);
    failures++;
}

int main(void)
{
    uint8_t grid[OMPHIRUN_POINTS(2)], other[OMPHIRUN_POINTS(2)], work[OMPHIRUN_POINTS(2)], file[84], masks[OMPHIRUN_MASKS(2)];
    const uint16_t fewer[3] = {0, 0, 0};
    uint16_t totals[OMPHIRUN_TOTALS(2)];
    const size_t blocks = OMPHIRUN_TOTALS(2);
    size_t bytes = 9;
    uint32_t one = 9, two = 9, three = 9, four = 9, told[5];
    const int32_t low[9] = {262144, 0}, high[9] = {262144, 262144, 262144, 262144, 262144, 524287};
    const int32_t point[9] = {200000, 200000, 200000, 200000, 200000, 200000, 200000, 200000, 200000};
    memset(grid, 0, sizeof grid);
    hold(omphirun_open(1, NULL, 0, NULL, 0), OMPHIRUN_BAD_LEVEL, "open");
    hold(omphirun_open(2, NULL, 0, NULL, 0), OMPHIRUN_SHORT_BUFFER, "open");
    hold(omphirun_open(2, grid, sizeof grid, NULL, 0), OMPHIRUN_SHORT_TABLE, "open");
    hold(omphirun_mark(2, NULL, 0, NULL, 0, NULL, 0, &one, &two), OMPHIRUN_SHORT_BUFFER, "mark");
    hold(omphirun_mark_tree(2, NULL, 0, NULL, 0, NULL, 0, &one, &two), OMPHIRUN_SHORT_BUFFER, "mark_tree");
    hold(omphirun_mark(2, grid, sizeof grid, NULL, 0, NULL, 0, &one, &two), OMPHIRUN_NOT_NINE, "mark");
    hold_place(one, two, 0);
    hold(omphirun_mark(2, grid, sizeof grid, low, 9, NULL, 0, &one, &two), OMPHIRUN_BELOW_RANGE, "mark");
    hold_place(one, two, 1);
    hold(omphirun_mark(2, grid, sizeof grid, high, 9, NULL, 0, &one, &two), OMPHIRUN_ABOVE_RANGE, "mark");
    hold_place(one, two, 5);
    hold(omphirun_mark(2, grid, sizeof grid, point, 9, NULL, 0, &one, &two), OMPHIRUN_SHORT_TABLE, "mark");
    hold(omphirun_mark_tree(2, grid, sizeof grid, point, 9, totals, blocks - 1, &one, &two), OMPHIRUN_SHORT_TABLE, "mark_tree");
    hold(omphirun_mark(2, grid, sizeof grid, point, 9, totals, blocks, &one, &two), OMPHIRUN_DONE, "mark");
    hold(omphirun_mark_all(2, NULL, 0, NULL, 0, NULL, 0, &bytes, &two), OMPHIRUN_SHORT_BUFFER, "mark_all");
    hold(omphirun_mark_all(2, grid, sizeof grid, point, 8, NULL, 0, &bytes, &two), OMPHIRUN_NOT_NINE, "mark_all");
    hold(omphirun_mark_all(2, grid, sizeof grid, high, 9, NULL, 0, &bytes, &two), OMPHIRUN_ABOVE_RANGE, "mark_all");
    hold_place((uint32_t)bytes, two, 5);
    hold(omphirun_mark_all(2, grid, sizeof grid, NULL, 0, NULL, 0, &bytes, &two), OMPHIRUN_SHORT_TABLE, "mark_all");
    hold_place((uint32_t)bytes, two, 0);
    hold(omphirun_mark_all(2, grid, sizeof grid, NULL, 0, totals, blocks, &bytes, &two), OMPHIRUN_DONE, "mark_all without triangles");
    hold(omphirun_mark_all(2, grid, sizeof grid, point, 9, totals, blocks, &bytes, &two), OMPHIRUN_DONE, "mark_all");
    one = two = three = four = 9;
    hold(omphirun_patch(2, NULL, 0, NULL, 0, NULL, 0, &one, &two, &three, &four), OMPHIRUN_SHORT_BUFFER, "patch");
    hold(one + two + three + four, OMPHIRUN_DONE, "patch's counts");
    hold(omphirun_patch(2, grid, sizeof grid, NULL, 0, NULL, 0, &one, &two, &three, &four), OMPHIRUN_SHORT_BUFFER, "patch");
    hold(omphirun_patch(2, grid, sizeof grid, work, sizeof work, NULL, 0, &one, &two, &three, &four), OMPHIRUN_SHORT_TABLE, "patch");
    hold(omphirun_sign(2, NULL, 0), OMPHIRUN_SHORT_BUFFER, "sign");
    hold(omphirun_surface(2, NULL, 0, NULL, 0, &one), OMPHIRUN_SHORT_BUFFER, "surface");
    hold(omphirun_surface(2, grid, sizeof grid, NULL, 0, &one), OMPHIRUN_DONE, "surface without quads");
    grid[0] = OMPHIRUN_INSIDE;
    hold(omphirun_surface(2, grid, sizeof grid, NULL, 0, &one), OMPHIRUN_SIGNS_MISFIT, "surface");
    grid[0] = 2 * OMPHIRUN_INSIDE;
    hold(omphirun_sign(2, grid, sizeof grid), OMPHIRUN_NO_GRID, "sign");
    grid[0] = 0;
    hold(omphirun_read_stl(NULL, 0, 21, NULL, 0, &one, &two), OMPHIRUN_BAD_SCALE, "read_stl");
    hold(omphirun_read_stl(NULL, 0, 20, NULL, 0, &one, &two), OMPHIRUN_WRONG_LENGTH, "read_stl");
    hold(one + two, OMPHIRUN_DONE, "read_stl's counts");
    hold(omphirun_read_stl(grid, 84, -20, NULL, 0, &one, &two), OMPHIRUN_DONE, "read_stl without triangles");
    hold(omphirun_write_stl(1, NULL, 0, 21, NULL, 0, &bytes), OMPHIRUN_BAD_LEVEL, "write_stl");
    hold(omphirun_write_stl(2, NULL, 0, 21, NULL, 0, &bytes), OMPHIRUN_SHORT_BUFFER, "write_stl");
    hold(omphirun_write_stl(2, grid, sizeof grid, 21, NULL, 0, &bytes), OMPHIRUN_BAD_SCALE, "write_stl");
    hold(omphirun_write_stl(2, grid, sizeof grid, 20, NULL, 0, &bytes), OMPHIRUN_SHORT_LIST, "write_stl");
    hold((uint32_t)bytes, OMPHIRUN_DONE, "write_stl's count");
    hold(omphirun_write_stl(2, grid, sizeof grid, 20, file, sizeof file, &bytes), OMPHIRUN_DONE, "write_stl without quads");
    hold((uint32_t)(bytes - sizeof file), OMPHIRUN_DONE, "write_stl's 84 bytes");
    hold(omphirun_read_job(NULL, 0, &one, &two, &told[0], &told[1], &told[2], &told[3], &told[4]), OMPHIRUN_CUT_SHORT, "read_job");
    hold(omphirun_write_job(2, 8, NULL, 0, NULL, 0, NULL, 0, NULL, 0, &bytes), OMPHIRUN_BAD_KIND, "write_job");
    hold(omphirun_write_job(2, 1, NULL, 0, NULL, 0, NULL, 0, NULL, 0, &bytes), OMPHIRUN_BAD_PLACE, "write_job");
    hold(omphirun_write_job(2, 6, NULL, 0, NULL, 0, NULL, 0, NULL, 0, &bytes), OMPHIRUN_SHORT_LIST, "write_job");
    hold((uint32_t)bytes, OMPHIRUN_DONE, "write_job's bytes");
    hold(omphirun_write_job(2, 6, NULL, 0, NULL, 0, NULL, 0, other, sizeof other, &bytes), OMPHIRUN_DONE, "write_job of empty bodies");
    hold(omphirun_read_job(other, bytes, &one, &two, &told[0], &told[1], &told[2], &told[3], &told[4]), OMPHIRUN_DONE, "read_job of them");
    one = 9;
    hold(omphirun_accept(1, NULL, 0, NULL, 0, NULL, 0, &one), OMPHIRUN_BAD_LEVEL, "accept");
    hold(one, OMPHIRUN_DONE, "accept's yes");
    hold(omphirun_accept(2, NULL, 0, grid, sizeof grid, NULL, 0, &one), OMPHIRUN_SHORT_BUFFER, "accept");
    hold(omphirun_accept(2, fewer, 3, grid, sizeof grid, work, sizeof work, &one), OMPHIRUN_NOT_FOURS, "accept");
    hold(omphirun_accept(2, NULL, 0, grid, sizeof grid, work, sizeof work, &one), OMPHIRUN_DONE, "accept without quads");
    hold(one == 1 ? OMPHIRUN_DONE : OMPHIRUN_BAD_LEVEL, OMPHIRUN_DONE, "accept's yes without quads");
    hold(omphirun_masks(1, NULL, 0, NULL, 0, &bytes), OMPHIRUN_BAD_LEVEL, "masks");
    hold((uint32_t)bytes, OMPHIRUN_DONE, "masks' count");
    hold(omphirun_masks(2, NULL, 0, NULL, 0, &bytes), OMPHIRUN_SHORT_BUFFER, "masks");
    hold(omphirun_masks(2, grid, sizeof grid, masks, sizeof masks - 1, &bytes), OMPHIRUN_SHORT_LIST, "masks");
    hold(omphirun_masks(2, grid, sizeof grid, masks, sizeof masks, &bytes), OMPHIRUN_DONE, "masks of no point");
    hold((uint32_t)(bytes - sizeof masks), OMPHIRUN_DONE, "masks' 60 bytes");
    one = 9;
    hold(omphirun_any_mark(1, NULL, 0, NULL, 0, 0, 0, 0, 0, 0, 0, &one), OMPHIRUN_BAD_LEVEL, "any_mark");
    hold(one, OMPHIRUN_DONE, "any_mark's answer");
    hold(omphirun_any_mark(2, NULL, 0, NULL, 0, 0, 0, 0, 0, 0, 0, &one), OMPHIRUN_SHORT_BUFFER, "any_mark");
    hold(omphirun_any_mark(2, grid, sizeof grid, NULL, 0, 0, 0, 0, 0, 0, 5, &one), OMPHIRUN_BAD_BOX, "any_mark");
    hold(omphirun_any_mark(2, grid, sizeof grid, NULL, 0, 0, 0, 0, 0, 0, 4, &one), OMPHIRUN_SHORT_TABLE, "any_mark");
    hold(omphirun_totals_true(2, grid, sizeof grid, NULL, 0, &one), OMPHIRUN_SHORT_TABLE, "totals_true");
    hold(omphirun_count_totals(2, grid, sizeof grid, NULL, 0), OMPHIRUN_SHORT_TABLE, "count_totals");
    grid[2 + 5 * (2 + 5 * 2)] = 1;
    hold(omphirun_count_totals(2, grid, sizeof grid, totals, blocks), OMPHIRUN_DONE, "count_totals");
    hold(totals[0] == 1 ? OMPHIRUN_DONE : OMPHIRUN_BAD_LEVEL, OMPHIRUN_DONE, "count_totals' one mark");
    hold(omphirun_totals_true(2, grid, sizeof grid, totals, blocks, &one), OMPHIRUN_DONE, "totals_true");
    hold(one == 1 ? OMPHIRUN_DONE : OMPHIRUN_BAD_LEVEL, OMPHIRUN_DONE, "totals_true's yes");
    hold(omphirun_any_mark(2, grid, sizeof grid, totals, blocks, 0, 0, 0, 3, 3, 3, &one), OMPHIRUN_DONE, "any_mark");
    hold(one == 1 ? OMPHIRUN_DONE : OMPHIRUN_BAD_LEVEL, OMPHIRUN_DONE, "any_mark of a block");
    hold(omphirun_any_mark(2, grid, sizeof grid, totals, blocks, 3, 2, 2, 4, 2, 2, &one), OMPHIRUN_DONE, "any_mark");
    hold(one, OMPHIRUN_DONE, "any_mark beside the mark");
    hold(omphirun_sign(2, grid, sizeof grid), OMPHIRUN_ODD_FACE, "sign");
    return failures > 0;
}
