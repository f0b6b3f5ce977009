/* Grids that are made to be hard to patch: marks at random, rims that run everywhere, as many rims as there can be. */
#include "hostile.h"

#include "../tests/random.h"

static struct random r;

static int number(const struct measures *m, int i, int j, int k)
{
    return i * m->step[X] + j * m->step[Y] + k * m->step[Z];
}

static void turn(const struct measures *m, uint8_t *grid, int axis, int i, int j, int k)
{
    grid[number(m, i, j, k)] ^= (uint8_t)(1 << axis);
}

static void at_random(const struct measures *m, uint8_t *grid)
{
    for (int k = 0, p = 0; k <= m->n; k++)
        for (int j = 0; j <= m->n; j++)
            for (int i = 0; i <= m->n; i++, p++)
                grid[p] = (uint8_t)(inner_edges(m->n, i, j, k) & below(&r, 8));
}

/* Every second point inside; one edge in ten is missing. */
static void checkerboard(const struct measures *m, uint8_t *grid)
{
    for (int k = 0, p = 0; k <= m->n; k++)
        for (int j = 0; j <= m->n; j++)
            for (int i = 0; i <= m->n; i++, p++) {
                int at[3] = {i, j, k}, end[3] = {i, j, k};
                grid[p] = 0;
                for (int axis = X; axis <= Z; axis++) {
                    end[axis]++;
                    int lower = (at[X] + at[Y] + at[Z]) % 2, skin = 0;
                    for (int d = X; d <= Z; d++)
                        skin |= (lower ? at[d] : end[d]) == 0 || (lower ? at[d] : end[d]) >= m->n;
                    if (!skin && inner_edges(m->n, i, j, k) >> axis & 1 && !chance(&r, 10))
                        grid[p] |= (uint8_t)(1 << axis);
                    end[axis]--;
                }
            }
}

/* A walk through cells. Each step turns the edges between the bent way from cell (0,0,0) to where it was and that to where it
   is (along x, then y, then z), so that a closed walk leaves the faces it went through odd, and no others. */
struct walk {
    const struct measures *m;
    uint8_t *grid;
    int at[3];
};

static void step(struct walk *w, int axis, int way)
{
    int i = w->at[X], j = w->at[Y], k = w->at[Z], upper = w->at[axis] + (way > 0);
    for (int e = 1; axis == Y && e <= k; e++)
        turn(w->m, w->grid, X, i, upper, e);
    for (int e = 1; axis == X && e <= j; e++)
        turn(w->m, w->grid, Z, upper, e, 0);
    for (int e = 1; axis == X && e <= k; e++)
        turn(w->m, w->grid, Y, upper, j, e);
    w->at[axis] += way;
}

static void go(struct walk *w, int axis, int to)
{
    while (w->at[axis] != to)
        step(w, axis, w->at[axis] < to ? 1 : -1);
}

/* Row by row through all cells but those at i = 0, and back along those. */
static void one_rim_everywhere(const struct measures *m, uint8_t *grid)
{
    int rows = m->n * m->n, last = m->n - 1;
    struct walk w = {m, grid, {0, 0, 0}};
    memset(grid, 0, (size_t)m->points);
    for (int row = 0; row < rows; row++) {
        int k = row / m->n, j = k % 2 ? last - row % m->n : row % m->n;
        go(&w, Y, j);
        go(&w, Z, k);
        go(&w, X, row % 2 ? 1 : last);
    }
    go(&w, X, 0);
    for (int row = rows - 1; row >= 0; row--) {
        int k = row / m->n;
        go(&w, Z, k);
        go(&w, Y, k % 2 ? last - row % m->n : row % m->n);
    }
}

/* One z edge in the middle of each two by two cells: n*n*n/4 rims, as many as there can be. */
static void most_rims(const struct measures *m, uint8_t *grid)
{
    memset(grid, 0, (size_t)m->points);
    for (int k = 0; k < m->n; k++)
        for (int j = 1; j < m->n; j += 2)
            for (int i = 1; i < m->n; i += 2)
                turn(m, grid, Z, i, j, k);
}

/* Edges of all axes, each taken when its four cells are still free. */
static void small_rims(const struct measures *m, uint8_t *grid)
{
    static uint8_t used[MOST_POINTS];
    memset(used, 0, sizeof used);
    memset(grid, 0, (size_t)m->points);
    for (int tries = 0; tries < 10 * m->points; tries++) {
        int axis = (int)below(&r, 3), p = 0, b = m->step[earlier(axis)], c = m->step[later(axis)];
        for (int d = X; d <= Z; d++)
            p += m->step[d] * (d == axis ? between(&r, 0, m->n - 1) : between(&r, 1, m->n - 1));
        if (used[p] || used[p - b] || used[p - c] || used[p - b - c])
            continue;
        used[p] = used[p - b] = used[p - c] = used[p - b - c] = 1;
        grid[p] |= (uint8_t)(1 << axis);
    }
}

/* A ring on the skin of each layer of every third height, with a trip to the lowest and the highest layer: each rim's box is
   the whole grid. */
static void full_boxes(const struct measures *m, uint8_t *grid)
{
    int last = m->n - 1;
    memset(grid, 0, (size_t)m->points);
    for (int ring = 0; 3 * ring + 4 <= last; ring++) {
        int i = 3 * ring + 1, k = 3 * ring + 1;
        struct walk w = {m, grid, {0, 0, k}};
        go(&w, X, i);
        go(&w, Y, 1);
        go(&w, Z, 0);
        go(&w, X, i + 1);
        go(&w, Z, last);
        go(&w, X, i + 2);
        go(&w, Z, k);
        go(&w, Y, 0);
        go(&w, X, last);
        go(&w, Y, last);
        go(&w, X, 0);
        go(&w, Y, 0);
    }
}

const struct hostile hostile_grids[] = {
    {"every edge at random", at_random}, {"checkerboard, edges missing", checkerboard}, {"one rim through all cells", one_rim_everywhere},
    {"as many rims as can be", most_rims}, {"thousands of small rims", small_rims}, {"rims with full boxes", full_boxes},
};

const int hostile_count = sizeof hostile_grids / sizeof *hostile_grids;
