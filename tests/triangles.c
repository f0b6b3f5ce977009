/* Triangles of every kind: anywhere, small, flat, of no area, as near to grid planes as can be, through grid points. */
#include "inputs.h"

/* A coordinate, or the end of the range beside it. */
static int32_t in_range(const struct measures *m, int v)
{
    return v < lowest(m) ? lowest(m) : v > highest(m) ? highest(m) : v;
}

/* A coordinate in range: anywhere, tested next to a grid plane on either side, on a simple fraction of a cell, beside it, or at an end. */
static int32_t make_coordinate(struct random *r, const struct measures *m, uint32_t kind)
{
    int low = lowest(m), high = highest(m), half = m->s / 2, unit = half >> below(r, 5);
    switch (kind) {
    case 0: return between(r, low, high);
    case 1: return in_range(m, half * between(r, 1, m->n - 1) - (int)below(r, 2));
    case 2: return in_range(m, unit * between(r, low / unit, high / unit));
    case 3: return in_range(m, unit * between(r, low / unit, high / unit) + between(r, -1, 1));
    default: return chance(r, 50) ? low : high;
    }
}

static void stay_near(struct random *r, const struct measures *m, int32_t *t)
{
    int reach = 1 << between(r, 0, 18);
    for (int c = 3; c < 9; c++)
        t[c] = in_range(m, t[c % 3] + between(r, -reach, reach));
}

/* Three points in a line, the third between the others or at either end. */
static void put_in_line(struct random *r, int32_t *t)
{
    int parts = between(r, 1, 8), part = between(r, 0, parts);
    for (int d = X; d <= Z; d++) {
        t[3 + d] -= (t[3 + d] - t[d]) % parts;
        t[6 + d] = t[d] + (t[3 + d] - t[d]) / parts * part;
    }
}

/* An odd number of about this size, of either sign. */
static int far(struct random *r, int reach)
{
    int size = between(r, reach - reach / 8, reach - 1) | 1;
    return chance(r, 50) ? size : -size;
}

/* Large and in general position, through a grid point that lies within the triangle or on a side, which then points towards (0,0,0); at
   times one coordinate is off by one, so that the point lies beside the plane by as little as can be. The terms of the dot products with
   N are as large as they get, and their sums equal or nearly so: to compare them takes every bit. A grid point is even on the lattice
   and a vertex odd, so the vertices lie odd multiples of odd numbers away from it: of u, v and -(2u + v), or of u, -u and any. */
static void put_through_a_point(struct random *r, const struct measures *m, int32_t *t)
{
    int within = chance(r, 30), one = 1 + 2 * between(r, 0, 2), two = 1 + 2 * between(r, 0, 2), c = (int)below(r, 9);
    for (int d = X; d <= Z; d++) {
        int at = m->s * between(r, m->n / 2 - m->n / 8, m->n / 2), room = at - m->s, reach = room / (one > two ? one : two);
        int u = within ? far(r, reach / 3) : between(r, reach - reach / 8, reach - 1) | 1, v = within ? far(r, reach / 3) : -u;
        t[d] = (at + one * u) / 2;
        t[3 + d] = (at + two * v) / 2;
        t[6 + d] = (within ? at - one * (2 * u + v) : at + far(r, room)) / 2;
    }
    if (chance(r, 30))
        t[c] += t[c] < MODEL_MOST / 2 ? 1 : -1;
}

/* In a sloped plane that holds grid lines along an axis: the other two coordinates rise together, or one as the other falls. */
static void put_along_grid_lines(struct random *r, int axis, int32_t *t)
{
    int fall = chance(r, 50);
    for (int v = 0; v < 9; v += 3)
        t[v + later(axis)] = fall ? MODEL_MOST - t[v + earlier(axis)] : t[v + earlier(axis)];
}

void make_triangle(struct random *r, const struct measures *m, int32_t *t)
{
    uint32_t kind = below(r, 10), shape = below(r, 10);
    int axis = (int)below(r, 3);
    for (int c = 0; c < 9; c++)
        t[c] = make_coordinate(r, m, kind < 5 ? kind : below(r, 5));
    if (shape <= 2)
        stay_near(r, m, t);
    else if (shape == 3) /* square to an axis, mostly next to a grid plane */
        t[axis] = t[3 + axis] = t[6 + axis] = make_coordinate(r, m, chance(r, 70) ? 1 : 0);
    else if (shape == 4) /* of one point or two */
        memcpy(t + (chance(r, 50) ? 3 : 6), t, 3 * sizeof *t), memcpy(t + 3, t + (chance(r, 50) ? 0 : 3), 3 * sizeof *t);
    else if (shape == 5)
        put_in_line(r, t);
    else if (shape <= 7)
        put_through_a_point(r, m, t);
    else if (shape == 8)
        put_along_grid_lines(r, axis, t);
}

void spoil_triangle(struct random *r, const struct measures *m, int32_t *t)
{
    const int32_t bad[] = {lowest(m) - 1, highest(m) + 1, 0, -1, -m->s, MODEL_MOST, MODEL_MOST + 1, (1 << 20) - m->s, INT32_MAX, INT32_MIN,
                           INT32_MIN + m->s};
    int32_t at = bad[below(r, sizeof bad / sizeof *bad)];
    if (chance(r, 10)) {
        at = (int32_t)next(r);
        if (!out_of_range(m, at))
            at = ~at;
    }
    t[below(r, 9)] = at;
}
