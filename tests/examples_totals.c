/* Examples of M-108 at level 2, where one block has all its 4 x 4 x 4 points and seven are cut off at the grid's end. */
#include <string.h>

#include "examples.h"

/* A box, with the number and the answer that are due. */
struct asked {
    uint32_t low[3], high[3];
    uint32_t answer, any;
    const char *claim;
};

static uint32_t ask(const struct calls *calls, const uint8_t *grid, const uint16_t *totals, const struct asked *a, uint32_t *any)
{
    return calls->any_mark(2, grid, POINTS, totals, BLOCKS, a->low[0], a->low[1], a->low[2], a->high[0], a->high[1], a->high[2], any);
}

static void run_asked(const struct calls *calls, const uint8_t *grid, const uint16_t *totals, const struct asked *asked, size_t many)
{
    for (size_t a = 0; a < many; a++) {
        uint32_t any = 9;
        hold(ask(calls, grid, totals, &asked[a], &any) == asked[a].answer && any == asked[a].any, "M-108", asked[a].claim);
    }
}

/* Boxes asked of the marks of example 2, whose block 0 has all six. */
static void run_boxes(const struct calls *calls)
{
    static const struct asked with_true[] = {
        {{0, 0, 0}, {4, 4, 4}, 0, 1, "the whole grid has marks"},       {{2, 2, 2}, {2, 2, 2}, 0, 1, "a box of one point"},
        {{3, 2, 2}, {3, 2, 2}, 0, 0, "the end of an edge has none"},    {{0, 0, 0}, {1, 1, 4}, 0, 0, "none in a corner"},
        {{4, 0, 0}, {4, 4, 4}, 0, 0, "none where the grid ends"},       {{3, 2, 2}, {2, 2, 2}, 15, 0, "an empty box"},
        {{0, 0, 0}, {4, 4, 5}, 15, 0, "a box that leaves the grid"},    {{0, 0, 0}, {0xffffffff, 0, 0}, 15, 0, "very far"},
    };
    static const struct asked with_untrue[] = {
        {{0, 0, 0}, {4, 4, 4}, 0, 1, "the last block is believed, though cut off"}, {{0, 0, 0}, {3, 3, 3}, 0, 0, "block 0 is believed, wholly inside"},
        {{0, 0, 0}, {3, 3, 2}, 0, 1, "partly inside, its bytes are"},               {{4, 4, 4}, {4, 4, 4}, 0, 1, "one point is the whole last block"},
        {{4, 4, 3}, {4, 4, 3}, 0, 0, "and the one below lies in another"},
    };
    uint16_t totals[BLOCKS] = {6}, untrue[BLOCKS] = {0, 0, 0, 0, 0, 0, 0, 256};
    uint8_t grid[POINTS];
    uint32_t yes;
    read_names(six, grid);
    hold(calls->totals_true(2, grid, POINTS, totals, BLOCKS, &yes) == 0 && yes == 1, "M-108", "six marks in block 0 are true");
    hold(calls->totals_true(2, grid, POINTS, untrue, BLOCKS, &yes) == 0 && yes == 0, "M-108", "256 in the last block are not");
    run_asked(calls, grid, totals, with_true, sizeof with_true / sizeof *with_true);
    run_asked(calls, grid, untrue, with_untrue, sizeof with_untrue / sizeof *with_untrue);
}

/* What the calls leave in a table of nine entries, the last of which is none of theirs. */
static void hold_table(const uint16_t *totals, uint16_t first, const char *claim)
{
    const uint16_t expected[BLOCKS + 1] = {first, 0, 0, 0, 0, 0, 0, 0, 7777};
    hold(!memcmp(totals, expected, sizeof expected), "M-108", claim);
}

static void run_tables(const struct calls *calls)
{
    static const int32_t sloped[9] = {131072, 131072, 131072, 393215, 393215, 393215, 393215, 393215, 393215};
    uint16_t totals[BLOCKS + 1], kept[BLOCKS + 1];
    uint8_t grid[POINTS], work[POINTS];
    uint32_t one, two, three, four;
    memset(totals, 0xff, sizeof totals);
    totals[BLOCKS] = 7777;
    memcpy(kept, totals, sizeof kept);
    hold(calls->open(2, grid, POINTS, totals, BLOCKS - 1) == 16 && !memcmp(totals, kept, sizeof kept), "M-108", "open, one total too few");
    hold(calls->open(2, grid, POINTS, totals, BLOCKS + 1) == 0, "M-108", "open is done");
    hold_table(totals, 0, "open leaves no total");
    totals[0] = 5;
    hold(calls->mark(2, grid, POINTS, sloped, 9, totals, BLOCKS + 1, &one, &two) == 0, "M-108", "mark is done");
    hold_table(totals, 6, "mark counts six in block 0, whatever it held");
    totals[0] = 0;
    hold(calls->mark_tree(2, grid, POINTS, sloped, 9, totals, BLOCKS + 1, &one, &two) == 0, "M-108", "mark_tree is done");
    hold_table(totals, 6, "mark_tree counts them, also where it adds none");
    read_names("x122 y212 y222 z221 z222", grid);
    hold(calls->patch(2, grid, POINTS, work, POINTS, totals, BLOCKS - 1, &one, &two, &three, &four) == 16, "M-108", "patch, one total too few");
    hold_table(totals, 6, "a refused patch counts none");
    hold(calls->patch(2, grid, POINTS, work, POINTS, totals, BLOCKS + 1, &one, &two, &three, &four) == 0, "M-108", "patch is done");
    hold_table(totals, 6, "patch counts the mark that it brought back");
    memset(grid, 0, POINTS);
    grid[0] = 255;
    totals[3] = 1;
    hold(calls->count_totals(2, grid, POINTS, totals, BLOCKS + 1) == 0 && grid[0] == 255, "M-108", "count_totals takes a byte of 255, and leaves it");
    hold_table(totals, 3, "which has three marks");
    grid[0] = 24;
    hold(calls->count_totals(2, grid, POINTS, totals, BLOCKS + 1) == 0, "M-108", "count_totals is done");
    hold_table(totals, 0, "24 has no mark");
}

void run_totals(const struct calls *calls)
{
    run_boxes(calls);
    run_tables(calls);
}
