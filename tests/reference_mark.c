/* Mark, from document 01, "Which edges a triangle meets", and document 02, M-101, M-105 and M-108. */
#include "reference.h"
#include "reference_grid.h"

struct vector {
    int64_t x, y, z;
};

struct span {
    int64_t low, high;
};

/* One of the thirteen axes, with the triangle's span on it. */
struct axis {
    struct vector along;
    struct span triangle;
};

enum { AXES = 13 };

static struct vector minus(struct vector a, struct vector b)
{
    return (struct vector){a.x - b.x, a.y - b.y, a.z - b.z};
}

static struct vector cross(struct vector a, struct vector b)
{
    return (struct vector){a.y * b.z - a.z * b.y, a.z * b.x - a.x * b.z, a.x * b.y - a.y * b.x};
}

static int64_t dot(struct vector a, struct vector b)
{
    return a.x * b.x + a.y * b.y + a.z * b.z;
}

static struct span span_of_two(int64_t a, int64_t b)
{
    return a < b ? (struct span){a, b} : (struct span){b, a};
}

static struct span span_of_three(int64_t a, int64_t b, int64_t c)
{
    struct span s = span_of_two(a, b);
    return (struct span){c < s.low ? c : s.low, c > s.high ? c : s.high};
}

/* Where a vertex is tested, 0 to 2 for A, B, C. */
static struct vector corner(const int32_t *triangle, int v)
{
    const int32_t *at = triangle + 3 * v;
    return (struct vector){tested_at(at[X]), tested_at(at[Y]), tested_at(at[Z])};
}

/* The three unit vectors; N = (B-A) x (C-A); each unit vector crossed with each of B-A, C-B, A-C. */
static void thirteen_axes(const int32_t *t, struct axis axes[AXES])
{
    static const struct vector unit[3] = {{1, 0, 0}, {0, 1, 0}, {0, 0, 1}};
    struct vector a = corner(t, 0), b = corner(t, 1), c = corner(t, 2);
    struct vector sides[3] = {minus(b, a), minus(c, b), minus(a, c)};
    for (int u = 0; u < 3; u++)
        axes[u].along = unit[u];
    axes[3].along = cross(minus(b, a), minus(c, a));
    for (int u = 0; u < 3; u++)
        for (int side = 0; side < 3; side++)
            axes[4 + 3 * u + side].along = cross(unit[u], sides[side]);
    for (int d = 0; d < AXES; d++)
        axes[d].triangle = span_of_three(dot(axes[d].along, a), dot(axes[d].along, b), dot(axes[d].along, c));
}

/* An axis separates when one span ends strictly before the other begins; an edge is met when none does. */
static int edge_met(const struct axis axes[AXES], struct vector from, struct vector to)
{
    for (int d = 0; d < AXES; d++) {
        struct span triangle = axes[d].triangle, edge = span_of_two(dot(axes[d].along, from), dot(axes[d].along, to));
        if (edge.high < triangle.low || triangle.high < edge.low)
            return 0;
    }
    return 1;
}

/* Adds the marks of those edges along an axis that are met, points `from` to `to` being their lower ends. */
static void scan(const struct measures *m, uint8_t *grid, const struct axis axes[AXES], int axis, const int from[3],
                 const int to[3])
{
    int64_t s = m->s;
    struct vector edge = {axis == X ? s : 0, axis == Y ? s : 0, axis == Z ? s : 0};
    for (int k = from[Z]; k <= to[Z]; k++)
        for (int j = from[Y]; j <= to[Y]; j++)
            for (int i = from[X]; i <= to[X]; i++) {
                struct vector low = {i * s, j * s, k * s}, high = {low.x + edge.x, low.y + edge.y, low.z + edge.z};
                if (edge_met(axes, low, high))
                    grid[i * m->step[X] + j * m->step[Y] + k * m->step[Z]] |= (uint8_t)(1 << axis);
            }
}

/* Every edge there is. */
static void add_marks_everywhere(const struct measures *m, uint8_t *grid, const int32_t *triangle)
{
    struct axis axes[AXES];
    thirteen_axes(triangle, axes);
    for (int axis = X; axis <= Z; axis++) {
        int from[3] = {0, 0, 0}, to[3] = {m->n, m->n, m->n};
        to[axis]--;
        scan(m, grid, axes, axis, from, to);
    }
}

/* ---- Only what the bounding box touches, and nothing worked out twice. */

enum { LATER = AXES - 3 };

/* A triangle on its way through the cells at whose lowest corner its bounding box touches an edge: the first and the last grid plane
   of the box on each axis, and those of the ten axes behind the unit vectors that an edge has reached so far. Each is kept times S,
   so that its dot product with (i,j,k) is that with the point's place. */
struct passage {
    struct vector corner[3];
    int64_t s;
    int first[3], last[3], built;
    struct axis axes[LATER];
};

static struct vector later_axis(const struct vector corner[3], int d)
{
    struct vector a = corner[0], b = corner[1], c = corner[2];
    if (d == 0)
        return cross(minus(b, a), minus(c, a));
    struct vector side = minus(corner[d % 3], corner[(d + 2) % 3]);
    switch ((d - 1) / 3) {
    case X:
        return (struct vector){0, -side.z, side.y};
    case Y:
        return (struct vector){side.z, 0, -side.x};
    default:
        return (struct vector){-side.y, side.x, 0};
    }
}

static void build_axis(struct passage *t)
{
    struct vector v = later_axis(t->corner, t->built);
    struct axis *axis = &t->axes[t->built++];
    axis->triangle = span_of_three(dot(v, t->corner[0]), dot(v, t->corner[1]), dot(v, t->corner[2]));
    axis->along = (struct vector){v.x * t->s, v.y * t->s, v.z * t->s};
}

/* The edges left at point p that the axis does not separate: 1 for x, 2 for y, 4 for z. All three begin at p. */
static int not_separated(const struct axis *axis, struct vector p, int left)
{
    struct vector v = axis->along;
    int64_t low = axis->triangle.low, high = axis->triangle.high, from = dot(v, p);
    if (high < from)
        return left & ~((high < from + v.x) | (high < from + v.y) << 1 | (high < from + v.z) << 2);
    if (from < low)
        return left & ~((from + v.x < low) | (from + v.y < low) << 1 | (from + v.z < low) << 2);
    return left;
}

/* The edges at the lowest corner of cell (i,j,k) that are met. Below the first plane on an axis only an edge along it reaches the box. */
static int met_at(struct passage *t, int i, int j, int k, int left)
{
    struct vector p = {i, j, k};
    left &= i < t->first[X] ? 1 : 7;
    left &= j < t->first[Y] ? 2 : 7;
    left &= k < t->first[Z] ? 4 : 7;
    for (int d = 0; d < LATER && left; d++) {
        if (d == t->built)
            build_axis(t);
        left = not_separated(&t->axes[d], p, left);
    }
    return left;
}

void reference_add_marks(const struct measures *m, uint8_t *grid, const int32_t *triangle)
{
    struct passage t = {.s = m->s};
    int planes = 0;
    for (int d = X; d <= Z; d++) {
        struct span s = span_of_three(tested_at(triangle[d]), tested_at(triangle[3 + d]), tested_at(triangle[6 + d]));
        t.first[d] = (int)((s.low + m->s - 1) / m->s);
        t.last[d] = (int)(s.high / m->s);
        planes += t.first[d] <= t.last[d];
    }
    if (planes < 2)
        return; /* an edge has a grid coordinate on two axes */
    for (int v = 0; v < 3; v++)
        t.corner[v] = corner(triangle, v);
    for (int k = t.first[Z] - 1; k <= t.last[Z]; k++)
        for (int j = t.first[Y] - 1; j <= t.last[Y]; j++) {
            uint8_t *row = grid + j * m->step[Y] + k * m->step[Z];
            for (int i = t.first[X] - 1; i <= t.last[X]; i++)
                row[i] |= (uint8_t)met_at(&t, i, j, k, 7 & ~row[i]);
        }
}

static uint32_t mark(uint32_t level, uint8_t *grid, size_t grid_len, const int32_t *triangle, size_t triangle_len, uint16_t *totals,
                     size_t totals_len, uint32_t *place, uint32_t *axis,
                     void (*add_marks)(const struct measures *, uint8_t *, const int32_t *))
{
    *place = *axis = 0;
    if (!known_level(level))
        return 1;
    struct measures m = measures_of(level);
    if (grid_len < (size_t)m.points)
        return 2;
    if (triangle_len != 9)
        return 3;
    for (uint32_t c = 0; c < 9; c++) {
        uint32_t number = out_of_range(&m, triangle[c]);
        if (number) {
            *place = c;
            *axis = c % 3;
            return number;
        }
    }
    if (!is_grid(&m, grid))
        return 5;
    if (totals_len < (size_t)blocks_of(&m))
        return 16;
    clear_signs(&m, grid);
    add_marks(&m, grid, triangle);
    reference_recount(&m, grid, totals);
    return 0;
}

uint32_t reference_mark(uint32_t level, uint8_t *grid, size_t grid_len, const int32_t *triangle, size_t triangle_len, uint16_t *totals,
                        size_t totals_len, uint32_t *place, uint32_t *axis)
{
    return mark(level, grid, grid_len, triangle, triangle_len, totals, totals_len, place, axis, add_marks_everywhere);
}

uint32_t reference_mark_near(uint32_t level, uint8_t *grid, size_t grid_len, const int32_t *triangle, size_t triangle_len, uint16_t *totals,
                             size_t totals_len, uint32_t *place, uint32_t *axis)
{
    return mark(level, grid, grid_len, triangle, triangle_len, totals, totals_len, place, axis, reference_add_marks);
}

uint32_t reference_mark_tree(uint32_t level, uint8_t *grid, size_t grid_len, const int32_t *triangle, size_t triangle_len, uint16_t *totals,
                             size_t totals_len, uint32_t *place, uint32_t *axis)
{
    return mark(level, grid, grid_len, triangle, triangle_len, totals, totals_len, place, axis, reference_add_marks_tree);
}
