/* Mark by a descent: source document 000, section 4, and document 02, M-103. The whole grid is one cube. A cube that one of the thirteen axes
   separates from the triangle is dropped, any other is divided into eight, down to single cells, whose edges are tested. */
#include "reference_grid.h"

enum { TREE_AXES = 10 }; /* the axes behind the three unit vectors: N, and the unit vectors crossed with the sides */

/* An axis times S, so that its dot product with (i,j,k) is that with the point's place; the triangle's span on it; and how far a cube of one
   cell reaches from its lowest corner, down and up: the sums of its negative and of its positive components. */
struct tree_axis {
    int64_t x, y, z, low, high, down, up;
};

/* A triangle on its way down: the first and the last grid plane of its box on each axis, and the axes behind the unit vectors. */
struct tree {
    uint8_t *grid;
    int64_t n, s, first[3], last[3];
    struct tree_axis axes[TREE_AXES];
};

static int64_t lesser(int64_t a, int64_t b)
{
    return b < a ? b : a;
}

static int64_t greater(int64_t a, int64_t b)
{
    return a < b ? b : a;
}

static int64_t dot_with(int64_t x, int64_t y, int64_t z, const int32_t *v)
{
    return x * v[0] + y * v[1] + z * v[2];
}

static struct tree_axis make_axis(const int32_t *t, int64_t s, int64_t x, int64_t y, int64_t z)
{
    int64_t a = dot_with(x, y, z, t), b = dot_with(x, y, z, t + 3), c = dot_with(x, y, z, t + 6);
    return (struct tree_axis){.x = x * s,
                              .y = y * s,
                              .z = z * s,
                              .low = lesser(lesser(a, b), c),
                              .high = greater(greater(a, b), c),
                              .down = (lesser(x, 0) + lesser(y, 0) + lesser(z, 0)) * s,
                              .up = (greater(x, 0) + greater(y, 0) + greater(z, 0)) * s};
}

static void make_axes(struct tree *tree, const int32_t *t)
{
    int64_t side[3][3], s = tree->s; /* B-A, C-B, A-C */
    for (int v = 0; v < 3; v++)
        for (int d = X; d <= Z; d++)
            side[v][d] = (int64_t)t[(3 * v + 3) % 9 + d] - t[3 * v + d];
    int64_t *b = side[0], c[3] = {-side[2][X], -side[2][Y], -side[2][Z]};
    tree->axes[0] = make_axis(t, s, b[Y] * c[Z] - b[Z] * c[Y], b[Z] * c[X] - b[X] * c[Z], b[X] * c[Y] - b[Y] * c[X]);
    for (int v = 0; v < 3; v++) {
        tree->axes[1 + v] = make_axis(t, s, 0, -side[v][Z], side[v][Y]);
        tree->axes[4 + v] = make_axis(t, s, side[v][Z], 0, -side[v][X]);
        tree->axes[7 + v] = make_axis(t, s, -side[v][Y], side[v][X], 0);
    }
}

static int64_t dot_at(const struct tree_axis *a, int64_t i, int64_t j, int64_t k)
{
    return a->x * i + a->y * j + a->z * k;
}

/* Tests the three edges at the lowest corner of a cell that the box touches. Below its first plane on an axis only an edge along it does. */
static void test_cell(const struct tree *tree, int64_t i, int64_t j, int64_t k)
{
    uint8_t *byte = tree->grid + i + (tree->n + 1) * (j + (tree->n + 1) * k);
    int left = 7 & ~*byte;
    if (i < tree->first[X])
        left &= 1;
    if (j < tree->first[Y])
        left &= 2;
    if (k < tree->first[Z])
        left &= 4;
    for (int q = 0; q < TREE_AXES && left; q++) {
        const struct tree_axis *a = &tree->axes[q];
        int64_t from = dot_at(a, i, j, k);
        if (a->high < from)
            left &= ~((a->high < from + a->x) | (a->high < from + a->y) << 1 | (a->high < from + a->z) << 2);
        else if (from < a->low)
            left &= ~((from + a->x < a->low) | (from + a->y < a->low) << 1 | (from + a->z < a->low) << 2);
    }
    *byte |= (uint8_t)left;
}

/* Whether none of the ten axes separates the cube; its span comes from the dot product of its lowest corner. */
static int is_reached(const struct tree *tree, int64_t i, int64_t j, int64_t k, int64_t side)
{
    for (int q = 0; q < TREE_AXES; q++) {
        const struct tree_axis *a = &tree->axes[q];
        int64_t from = dot_at(a, i, j, k);
        if (a->high < from + a->down * side || from + a->up * side < a->low)
            return 0;
    }
    return 1;
}

/* Whether no unit vector along axis d separates a cube that begins at plane v there. */
static int touches_box(const struct tree *tree, int d, int64_t v, int64_t side)
{
    return tree->first[d] <= v + side && v <= tree->last[d];
}

static void test_cube(const struct tree *tree, int64_t i, int64_t j, int64_t k, int64_t side)
{
    if (!touches_box(tree, X, i, side) || !touches_box(tree, Y, j, side) || !touches_box(tree, Z, k, side))
        return;
    if (side == 1) {
        test_cell(tree, i, j, k);
        return;
    }
    if (!is_reached(tree, i, j, k, side))
        return;
    int64_t half = side / 2;
    for (int e = 0; e < 8; e++)
        test_cube(tree, i + (e & 1) * half, j + (e >> 1 & 1) * half, k + (e >> 2) * half, half);
}

void reference_add_marks_tree(const struct measures *m, uint8_t *grid, const int32_t *model)
{
    int32_t triangle[9];
    for (int c = 0; c < 9; c++)
        triangle[c] = tested_at(model[c]);
    struct tree tree = {.grid = grid, .n = m->n, .s = m->s};
    int planes = 0;
    for (int d = X; d <= Z; d++) {
        tree.first[d] = (lesser(lesser(triangle[d], triangle[3 + d]), triangle[6 + d]) + m->s - 1) / m->s;
        tree.last[d] = greater(greater(triangle[d], triangle[3 + d]), triangle[6 + d]) / m->s;
        planes += tree.first[d] <= tree.last[d];
    }
    if (planes < 2)
        return; /* an edge lies in two grid planes */
    make_axes(&tree, triangle);
    test_cube(&tree, 0, 0, 0, m->n);
}
