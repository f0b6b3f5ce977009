/* Grids of every kind: of all densities, closed, closed with faults, sheets, what triangles mark. */
#include "inputs.h"

/* The points, with the number of each, in rising order. */
#define EACH_POINT(m, i, j, k, p) \
    for (int k = 0, p = 0; k <= (m)->n; k++) \
        for (int j = 0; j <= (m)->n; j++) \
            for (int i = 0; i <= (m)->n; i++, p++)

/* A number of 65,536ths: rare, thin, half, dense or all. */
static uint32_t density(struct random *r)
{
    if (chance(r, 10))
        return 65536u - (65536u >> below(r, 16));
    return 65536u >> below(r, 13);
}

/* Each inner edge with the same likelihood. */
static void scatter(struct random *r, const struct measures *m, uint8_t *grid)
{
    uint32_t likely = density(r);
    EACH_POINT(m, i, j, k, p)
    {
        uint64_t bits = next(r);
        for (int axis = X; axis <= Z; axis++)
            if ((bits >> 16 * axis & 0xffff) < likely)
                grid[p] |= (uint8_t)(inner_edges(m->n, i, j, k) & 1 << axis);
    }
}

void turn_one(struct random *r, const struct measures *m, uint8_t *grid)
{
    int axis = (int)below(r, 3), p = 0;
    for (int d = X; d <= Z; d++)
        p += m->step[d] * (d == axis ? between(r, 0, m->n - 1) : between(r, 1, m->n - 1));
    grid[p] ^= (uint8_t)(1 << axis);
}

/* Turns the edges between the points inside and outside of a box or ball, or of single points, or of a checkerboard. */
static void turn_around(struct random *r, const struct measures *m, uint8_t *grid)
{
    uint32_t kind = below(r, 4), likely = density(r);
    int low[3], high[3], middle[3], radius = between(r, 1, m->n / 2);
    uint8_t inside[MOST_POINTS] = {0};
    for (int d = X; d <= Z; d++) {
        low[d] = between(r, 1, m->n - 1);
        high[d] = between(r, low[d], m->n - 1);
        middle[d] = between(r, 1, m->n - 1);
    }
    EACH_POINT(m, i, j, k, p)
    {
        int at[3] = {i, j, k}, inner = 1, boxed = 1, far = 0;
        for (int d = X; d <= Z; d++) {
            inner &= 0 < at[d] && at[d] < m->n;
            boxed &= low[d] <= at[d] && at[d] <= high[d];
            far += (at[d] - middle[d]) * (at[d] - middle[d]);
        }
        int in = kind == 0 ? boxed : kind == 1 ? far <= radius * radius : kind == 2 ? (i + j + k) % 2 : below(r, 65536) < likely;
        inside[p] = (uint8_t)(inner && in);
    }
    EACH_POINT(m, i, j, k, p)
    {
        int at[3] = {i, j, k};
        for (int axis = X; axis <= Z; axis++)
            if (at[axis] < m->n)
                grid[p] ^= (uint8_t)((inside[p] ^ inside[p + m->step[axis]]) << axis);
    }
}

/* Turns the edges along an axis that cross a rectangle of one layer. */
static void turn_sheet(struct random *r, const struct measures *m, uint8_t *grid)
{
    int a = (int)below(r, 3), b = earlier(a), c = later(a), layer = between(r, 0, m->n - 1);
    int low_u = between(r, 1, m->n - 1), high_u = between(r, low_u, m->n - 1);
    int low_v = between(r, 1, m->n - 1), high_v = between(r, low_v, m->n - 1);
    for (int u = low_u; u <= high_u; u++)
        for (int v = low_v; v <= high_v; v++)
            grid[layer * m->step[a] + u * m->step[b] + v * m->step[c]] ^= (uint8_t)(1 << a);
}

void make_grid(struct random *r, const struct measures *m, uint8_t *grid)
{
    uint32_t kind = below(r, 10), times = 1 + below(r, 3), turned = below(r, 3) ? 1 + below(r, 8) : 0;
    int32_t triangle[9];
    memset(grid, 0, (size_t)m->points);
    if (kind == 0)
        return;
    if (kind <= 3)
        scatter(r, m, grid);
    else if (kind <= 5)
        while (times--)
            turn_around(r, m, grid);
    else if (kind == 6)
        while (times--)
            turn_sheet(r, m, grid);
    else if (kind == 7)
        for (times *= 5; times; times--) {
            make_triangle(r, m, triangle);
            reference_add_marks(m, grid, triangle);
        }
    while (turned--)
        turn_one(r, m, grid);
}
