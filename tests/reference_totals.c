/* Totals for blocks of the grid, from document 02, M-108: blocks of 4 x 4 x 4 points, cut off at the grid's end and numbered like points; the
   answer for a box comes from the table for blocks wholly inside it and from the bytes for blocks partly inside. A table is made by taking each
   point to its block, and judged by going through each block's points. */
#include "reference.h"

#include <string.h>

#include "reference_grid.h"

/* The points from `low` to `high`, both in it. */
struct points {
    int low[3], high[3];
};

static int lesser_of(int a, int b)
{
    return a < b ? a : b;
}

/* The points of block number b: four on each axis, or as many as the grid still has. */
static struct points block_points(const struct measures *m, int b)
{
    const int side = blocks_a_side(m), at[3] = {b % side, b / side % side, b / side / side};
    struct points block;
    for (int d = X; d <= Z; d++) {
        block.low[d] = BLOCK * at[d];
        block.high[d] = lesser_of(block.low[d] + BLOCK - 1, m->n);
    }
    return block;
}

/* The marks of a byte: values 1, 2 and 4 of its remainder by 8, whatever stands above. */
static int marks_of(uint8_t byte)
{
    int left = byte % 8;
    return left / 4 + left / 2 % 2 + left % 2;
}

static int total_of(const struct measures *m, const uint8_t *grid, int b)
{
    struct points block = block_points(m, b);
    int total = 0;
    for (int k = block.low[Z]; k <= block.high[Z]; k++)
        for (int j = block.low[Y]; j <= block.high[Y]; j++)
            for (int i = block.low[X]; i <= block.high[X]; i++)
                total += marks_of(grid[i * m->step[X] + j * m->step[Y] + k * m->step[Z]]);
    return total;
}

void reference_recount(const struct measures *m, const uint8_t *grid, uint16_t *totals)
{
    const int side = blocks_a_side(m);
    memset(totals, 0, (size_t)blocks_of(m) * sizeof *totals);
    for (int k = 0; k <= m->n; k++)
        for (int j = 0; j <= m->n; j++) {
            const uint8_t *row = grid + j * m->step[Y] + k * m->step[Z];
            uint16_t *blocks = totals + side * (j / BLOCK + side * (k / BLOCK));
            for (int i = 0; i <= m->n; i++)
                if (row[i])
                    blocks[i / BLOCK] = (uint16_t)(blocks[i / BLOCK] + marks_of(row[i]));
        }
}

static int in_box(const struct points *box, const int at[3])
{
    for (int d = X; d <= Z; d++)
        if (at[d] < box->low[d] || box->high[d] < at[d])
            return 0;
    return 1;
}

/* What the rule yields for one block: its total where all its points are in the box, else the bytes of those that are. */
static int block_answers(const struct measures *m, const uint8_t *grid, uint16_t total, int b, const struct points *box)
{
    struct points block = block_points(m, b);
    int points = 0, inside = 0, marked = 0;
    for (int k = block.low[Z]; k <= block.high[Z]; k++)
        for (int j = block.low[Y]; j <= block.high[Y]; j++)
            for (int i = block.low[X]; i <= block.high[X]; i++) {
                int boxed = in_box(box, (const int[3]){i, j, k});
                points++;
                inside += boxed;
                marked += boxed && grid[i * m->step[X] + j * m->step[Y] + k * m->step[Z]] % 8 != 0;
            }
    return inside == points ? total != 0 : marked > 0;
}

/* What all three calls are refused by first. */
static uint32_t judge_buffer(uint32_t level, size_t grid_len)
{
    if (!known_level(level))
        return 1;
    return grid_len < (size_t)measures_of(level).points ? 2 : 0;
}

uint32_t reference_any_mark(uint32_t level, const uint8_t *grid, size_t grid_len, const uint16_t *totals, size_t totals_len, uint32_t low_i,
                            uint32_t low_j, uint32_t low_k, uint32_t high_i, uint32_t high_j, uint32_t high_k, uint32_t *any)
{
    const uint32_t low[3] = {low_i, low_j, low_k}, high[3] = {high_i, high_j, high_k};
    uint32_t refused = judge_buffer(level, grid_len);
    struct points box;
    *any = 0;
    if (refused)
        return refused;
    struct measures m = measures_of(level);
    for (int d = X; d <= Z; d++) {
        if (low[d] > high[d] || high[d] > (uint32_t)m.n)
            return 15;
        box.low[d] = (int)low[d];
        box.high[d] = (int)high[d];
    }
    if (totals_len < (size_t)blocks_of(&m))
        return 16;
    for (int b = 0; b < blocks_of(&m); b++)
        if (block_answers(&m, grid, totals[b], b, &box))
            *any = 1;
    return 0;
}

uint32_t reference_totals_true(uint32_t level, const uint8_t *grid, size_t grid_len, const uint16_t *totals, size_t totals_len, uint32_t *yes)
{
    uint32_t refused = judge_buffer(level, grid_len);
    *yes = 0;
    if (refused)
        return refused;
    struct measures m = measures_of(level);
    if (totals_len < (size_t)blocks_of(&m))
        return 16;
    int untrue = 0;
    for (int b = 0; b < blocks_of(&m); b++)
        untrue += totals[b] != total_of(&m, grid, b);
    *yes = untrue == 0;
    return 0;
}

uint32_t reference_count_totals(uint32_t level, const uint8_t *grid, size_t grid_len, uint16_t *totals, size_t totals_len)
{
    uint32_t refused = judge_buffer(level, grid_len);
    if (refused)
        return refused;
    struct measures m = measures_of(level);
    if (totals_len < (size_t)blocks_of(&m))
        return 16;
    reference_recount(&m, grid, totals);
    return 0;
}
