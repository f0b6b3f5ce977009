/* Patch, from document 01, "Rims and patches", and document 02, M-104 and M-108: rims by a queue of cells, sets as arrays of one byte a point. */
#include <string.h>

#include "reference.h"
#include "reference_grid.h"

/* A cell, with the number of its lowest corner. */
struct cell {
    int at[3], p;
};

/* The cells from `low` up to `high`, which is not among them. */
struct box {
    int low[3], high[3];
};

struct spot {
    int u, v;
};

/* Odd faces that are in no rim yet; the working faces of one rim; the edges flipped for any rim; cells that were queued. */
static uint8_t odd[MOST_POINTS], working[MOST_POINTS], flipped[MOST_POINTS], queued[MOST_POINTS];
static struct cell queue[MOST_CELLS];

/* How many faces of the grid have 0 to 4 marks. */
static uint32_t faces_with[5];

static void test_face(const struct measures *m, const uint8_t *grid, int axis, int p)
{
    int marks = face_marks(m, grid, axis, p);
    faces_with[marks]++;
    odd[p] |= (uint8_t)(is_odd(marks) << axis);
}

static void find_odd_faces(const struct measures *m, const uint8_t *grid)
{
    memset(odd, 0, (size_t)m->points);
    memset(faces_with, 0, sizeof faces_with);
    for (int k = 0, p = 0; k <= m->n; k++)
        for (int j = 0; j <= m->n; j++)
            for (int i = 0; i <= m->n; i++, p++) {
                int inside_i = i < m->n, inside_j = j < m->n, inside_k = k < m->n;
                if (inside_j && inside_k)
                    test_face(m, grid, X, p);
                if (inside_i && inside_k)
                    test_face(m, grid, Y, p);
                if (inside_i && inside_j)
                    test_face(m, grid, Z, p);
            }
}

/* Queues a cell once and lets the box hold it. */
static void visit(struct cell cell, int *last, struct box *box)
{
    if (queued[cell.p])
        return;
    queued[cell.p] = 1;
    queue[(*last)++] = cell;
    for (int d = X; d <= Z; d++) {
        if (cell.at[d] < box->low[d])
            box->low[d] = cell.at[d];
        if (cell.at[d] >= box->high[d])
            box->high[d] = cell.at[d] + 1;
    }
}

/* Moves the rim that has a face of this cell into the working set, and answers its box: that of all cells queued. */
static struct box take_rim(const struct measures *m, struct cell start)
{
    struct box box = {{start.at[X], start.at[Y], start.at[Z]}, {0, 0, 0}};
    int last = 0;
    visit(start, &last, &box);
    for (int first = 0; first < last; first++)
        for (int axis = X; axis <= Z; axis++)
            for (int upper = 0; upper <= 1; upper++) {
                struct cell other = queue[first];
                int face = other.p + upper * m->step[axis], way = upper ? 1 : -1;
                if (!has(odd, axis, face))
                    continue;
                odd[face] ^= (uint8_t)(1 << axis);
                working[face] ^= (uint8_t)(1 << axis);
                other.at[axis] += way;
                other.p += way * m->step[axis];
                visit(other, &last, &box);
            }
    return box;
}

/* Reverses membership of the edge's four faces in the working set. */
static void flip(const struct measures *m, int axis, int p)
{
    int b = earlier(axis), c = later(axis);
    flipped[p] ^= (uint8_t)(1 << axis);
    working[p] ^= (uint8_t)(1 << b | 1 << c);
    working[p - m->step[c]] ^= (uint8_t)(1 << b);
    working[p - m->step[b]] ^= (uint8_t)(1 << c);
}

/* Joins two faces of plane m on axis a: first along the earlier axis of the plane, then along the later. */
static void join(const struct measures *m, int a, int plane, struct spot one, struct spot two)
{
    int b = earlier(a), c = later(a), base = plane * m->step[a];
    for (int u = one.u; u != two.u; u += u < two.u ? 1 : -1) {
        int larger = u < two.u ? u + 1 : u;
        flip(m, c, base + larger * m->step[b] + one.v * m->step[c]);
    }
    for (int v = one.v; v != two.v; v += v < two.v ? 1 : -1) {
        int larger = v < two.v ? v + 1 : v;
        flip(m, b, base + two.u * m->step[b] + larger * m->step[c]);
    }
}

/* Lists the working faces of a plane within the box by rising point number, and joins them in pairs. */
static void join_pairs(const struct measures *m, const struct box *box, int a, int plane)
{
    static struct spot list[MOST_CELLS_A_SIDE * MOST_CELLS_A_SIDE];
    int b = earlier(a), c = later(a), count = 0;
    for (int v = box->low[c]; v < box->high[c]; v++)
        for (int u = box->low[b]; u < box->high[b]; u++)
            if (has(working, a, plane * m->step[a] + u * m->step[b] + v * m->step[c]))
                list[count++] = (struct spot){u, v};
    for (int l = 0; l + 1 < count; l += 2)
        join(m, a, plane, list[l], list[l + 1]);
}

static int length(const struct box *box, int axis)
{
    return box->high[axis] - box->low[axis];
}

/* Cuts the longest side, x before y before z when equal, and treats the two halves the same way. */
static void halve(const struct measures *m, const struct box *box)
{
    int a = X;
    for (int d = Y; d <= Z; d++)
        if (length(box, d) > length(box, a))
            a = d;
    if (length(box, a) == 1)
        return;
    int plane = box->low[a] + length(box, a) / 2;
    join_pairs(m, box, a, plane);
    struct box lower = *box, upper = *box;
    lower.high[a] = upper.low[a] = plane;
    halve(m, &lower);
    halve(m, &upper);
}

/* No working face is carried over to the next rim. */
static void clear_working(const struct measures *m, const struct box *box)
{
    for (int k = box->low[Z]; k < box->high[Z]; k++)
        for (int j = box->low[Y]; j < box->high[Y]; j++)
            memset(working + box->low[X] + j * m->step[Y] + k * m->step[Z], 0, (size_t)length(box, X));
}

/* Hands each rim's box to `treat`, the rim's faces being the working set, and answers the number of rims. */
static uint32_t each_rim(const struct measures *m, const uint8_t *grid,
                         void (*treat)(const struct measures *, const struct box *))
{
    uint32_t rims = 0;
    find_odd_faces(m, grid);
    memset(working, 0, (size_t)m->points);
    memset(queued, 0, (size_t)m->points);
    for (int k = 0, p = 0; k <= m->n; k++)
        for (int j = 0; j <= m->n; j++)
            for (int i = 0; i <= m->n; i++, p++)
                if (odd[p]) {
                    struct box box = take_rim(m, (struct cell){{i, j, k}, p});
                    treat(m, &box);
                    clear_working(m, &box);
                    rims++;
                }
    return rims;
}

/* The edges whose mark differs between entry and exit. */
static uint32_t apply_flips(const struct measures *m, uint8_t *grid)
{
    uint32_t flips = 0;
    for (int p = 0; p < m->points; p++) {
        grid[p] ^= flipped[p];
        flips += (uint32_t)(has(flipped, X, p) + has(flipped, Y, p) + has(flipped, Z, p));
    }
    return flips;
}

uint32_t reference_patch(uint32_t level, uint8_t *grid, size_t grid_len, uint8_t *work, size_t work_len, uint16_t *totals,
                         size_t totals_len, uint32_t *rims, uint32_t *flips, uint32_t *ones, uint32_t *threes)
{
    *rims = *flips = *ones = *threes = 0;
    if (!known_level(level))
        return 1;
    struct measures m = measures_of(level);
    if (grid_len < (size_t)m.points || work_len < (size_t)m.points)
        return 2;
    if (!is_grid(&m, grid))
        return 5;
    if (totals_len < (size_t)blocks_of(&m))
        return 16;
    clear_signs(&m, grid);
    memset(flipped, 0, (size_t)m.points);
    *rims = each_rim(&m, grid, halve);
    *ones = faces_with[1];
    *threes = faces_with[3];
    *flips = apply_flips(&m, grid);
    reference_recount(&m, grid, totals);
    memset(work, 0, (size_t)m.points);
    return 0;
}

static uint64_t cells_counted;

static void count_cells(const struct measures *m, const struct box *box)
{
    (void)m;
    cells_counted += (uint64_t)length(box, X) * (uint64_t)length(box, Y) * (uint64_t)length(box, Z);
}

uint64_t reference_rim_cells(uint32_t level, const uint8_t *grid)
{
    struct measures m = measures_of(level);
    cells_counted = 0;
    each_rim(&m, grid, count_cells);
    return cells_counted;
}
