/* The lattice and the grid of document 01, with M-105's coordinates, the signs of M-107 and the blocks of M-108, for the reference's own files:
   measures of a level, marks, signs, faces, blocks. */
#ifndef REFERENCE_GRID_H
#define REFERENCE_GRID_H

#include <stddef.h>
#include <stdint.h>

enum { X, Y, Z };
enum { MOST_CELLS_A_SIDE = 32, MOST_CELLS = 32 * 32 * 32, MOST_POINTS = 33 * 33 * 33, MOST_QUADS = 3 * 31 * 31 * 32 };
enum { BLOCK = 4, MOST_BLOCKS = 9 * 9 * 9 };

/* n cells a side, cell side S, P points, and by how much the number of a point rises with one step along each axis. */
struct measures {
    int n, s, points, step[3];
};

static inline int known_level(uint32_t level)
{
    return 2 <= level && level <= 5;
}

static inline struct measures measures_of(uint32_t level)
{
    int n = 1 << level;
    return (struct measures){n, 1 << (20 - level), (n + 1) * (n + 1) * (n + 1), {1, n + 1, (n + 1) * (n + 1)}};
}

/* M-108: blocks of 4 x 4 x 4 points, of which the last on each axis is cut off where the grid ends. */
static inline int blocks_a_side(const struct measures *m)
{
    return m->n / BLOCK + 1;
}

static inline int blocks_of(const struct measures *m)
{
    return blocks_a_side(m) * blocks_a_side(m) * blocks_a_side(m);
}

/* M-105: a model coordinate v runs over 0 to 524,287 and is tested at 2v+1. */
enum { MODEL_MOST = 524287 };

static inline int tested_at(int32_t v)
{
    return 2 * v + 1;
}

/* The range for v is S/2 to 524,287 - S/2, both taken. */
static inline int lowest(const struct measures *m)
{
    return m->s / 2;
}

static inline int highest(const struct measures *m)
{
    return MODEL_MOST - m->s / 2;
}

/* The number that a coordinate is refused by: 4 below the level's range, 24 above it; 0 in it. */
static inline uint32_t out_of_range(const struct measures *m, int32_t v)
{
    return v < lowest(m) ? 4 : v > highest(m) ? 24 : 0;
}

/* The two axes that are not the given one, in their order. */
static inline int earlier(int axis)
{
    return axis == X ? Y : X;
}

static inline int later(int axis)
{
    return axis == Z ? Y : Z;
}

/* Whether the set holds the edge or face of this axis at point p: one byte a point, 1 for x, 2 for y, 4 for z. */
static inline int has(const uint8_t *set, int axis, int p)
{
    return set[p] >> axis & 1;
}

/* What a grid byte holds beside the marks: value 8 for a point inside (M-107). */
enum { MARKS = 7, INSIDE = 8 };

static inline int is_inside(const uint8_t *grid, int p)
{
    return (grid[p] & INSIDE) != 0;
}

/* The value of all edges at point (i,j,k) that exist and are inner. */
static inline uint8_t inner_edges(int n, int i, int j, int k)
{
    int across_i = (0 < i) & (i < n), across_j = (0 < j) & (j < n), across_k = (0 < k) & (k < n);
    return (uint8_t)(((i < n) & across_j & across_k) | ((j < n) & across_k & across_i) << 1 |
                     ((k < n) & across_i & across_j) << 2);
}

/* No byte above 15, and no mark on an edge that is not inner or does not exist. */
static inline int is_grid(const struct measures *m, const uint8_t *grid)
{
    const uint8_t *byte = grid;
    for (int k = 0; k <= m->n; k++)
        for (int j = 0; j <= m->n; j++)
            for (int i = 0; i <= m->n; i++)
                if (*byte++ & ~(inner_edges(m->n, i, j, k) | INSIDE))
                    return 0;
    return 1;
}

/* How many edges of the face square to an axis at point p are marked; its four edges exist. */
static inline int face_marks(const struct measures *m, const uint8_t *grid, int axis, int p)
{
    int b = earlier(axis), c = later(axis);
    return has(grid, b, p) + has(grid, b, p + m->step[c]) + has(grid, c, p) + has(grid, c, p + m->step[b]);
}

/* Whether a face with so many marks is odd. */
static inline int is_odd(int marks)
{
    return marks == 1 || marks == 3;
}

/* Takes all signs out of a grid. */
static inline void clear_signs(const struct measures *m, uint8_t *grid)
{
    for (int p = 0; p < m->points; p++)
        grid[p] &= MARKS;
}

/* M-108: every total of the level becomes the number of marks in its block. */
void reference_recount(const struct measures *m, const uint8_t *grid, uint16_t *totals);

/* What surface is refused by before its list is looked at, 1, 2, 5 or 7; 0 for a grid whose signs fit its marks. */
uint32_t reference_judge_signs(uint32_t level, const uint8_t *grid, size_t grid_len);

/* Adds the marks of the edges that the triangle meets; level, coordinates and grid are known to be right. */
void reference_add_marks(const struct measures *m, uint8_t *grid, const int32_t *triangle);

/* The same by the descent. */
void reference_add_marks_tree(const struct measures *m, uint8_t *grid, const int32_t *triangle);

#endif
