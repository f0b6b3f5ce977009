/* Accept, from document 02, M-109. If signs have the list as their surface, then along a row of points, which begins outside, they change
   exactly where the list has the quad of an x edge, in one turn or the other. So these are the only signs that can have it; whether they do is
   seen by listing their own quads. A quad is told by its four numbers from the corner where they come first; both lists are sorted. */
#include "reference.h"

#include <stdlib.h>
#include <string.h>

#include "reference_grid.h"

static uint64_t from_any_corner(const uint16_t quad[4])
{
    uint64_t least = UINT64_MAX;
    for (int first = 0; first < 4; first++) {
        uint64_t key = 0;
        for (int c = 0; c < 4; c++)
            key = key << 16 | quad[(first + c) % 4];
        if (key < least)
            least = key;
    }
    return least;
}

/* The quad of an inner edge: its cells in the order that holds when the lower end is inside, or in the other. */
static uint64_t quad_of_edge(int n, int axis, const int at[3], int lower_inside)
{
    static const int down[4][2] = {{1, 1}, {0, 1}, {0, 0}, {1, 0}};
    uint16_t quad[4];
    for (int c = 0; c < 4; c++) {
        int cell[3] = {at[X], at[Y], at[Z]};
        cell[(axis + 1) % 3] -= down[c][0];
        cell[(axis + 2) % 3] -= down[c][1];
        quad[lower_inside ? c : 3 - c] = (uint16_t)(cell[X] + n * (cell[Y] + n * cell[Z]));
    }
    return from_any_corner(quad);
}

static int in_order(const void *a, const void *b)
{
    uint64_t first = *(const uint64_t *)a, second = *(const uint64_t *)b;
    return (first > second) - (first < second);
}

static int listed(const uint64_t *quads, size_t count, uint64_t quad)
{
    return bsearch(&quad, quads, count, sizeof quad, in_order) != NULL;
}

/* The only signs that can have these quads. */
static void signs_by_rows(const struct measures *m, const uint64_t *quads, size_t count, uint8_t *inside)
{
    for (int k = 0, p = 0; k <= m->n; k++)
        for (int j = 0; j <= m->n; j++)
            for (int i = 0; i <= m->n; i++, p++) {
                const int before[3] = {i - 1, j, k};
                inside[p] = i > 0 && inside[p - 1];
                if (i > 0 && inner_edges(m->n, i - 1, j, k) & 1 &&
                    (listed(quads, count, quad_of_edge(m->n, X, before, 0)) || listed(quads, count, quad_of_edge(m->n, X, before, 1))))
                    inside[p] ^= 1;
            }
}

static int outer_point_inside(const struct measures *m, const uint8_t *inside)
{
    for (int k = 0, p = 0; k <= m->n; k++)
        for (int j = 0; j <= m->n; j++)
            for (int i = 0; i <= m->n; i++, p++)
                if (inside[p] && (i == 0 || i == m->n || j == 0 || j == m->n || k == 0 || k == m->n))
                    return 1;
    return 0;
}

/* The quads of signs, nothing being inside on the outer points, and their marks; answers how many. */
static size_t surface_of(const struct measures *m, const uint8_t *inside, uint64_t *quads, uint8_t *marks)
{
    size_t count = 0;
    for (int k = 0, p = 0; k <= m->n; k++)
        for (int j = 0; j <= m->n; j++)
            for (int i = 0; i <= m->n; i++, p++) {
                const int at[3] = {i, j, k};
                marks[p] = 0;
                for (int axis = X; axis <= Z; axis++)
                    if (at[axis] < m->n && inside[p] != inside[p + m->step[axis]]) {
                        marks[p] |= (uint8_t)(1 << axis);
                        quads[count++] = quad_of_edge(m->n, axis, at, inside[p]);
                    }
            }
    return count;
}

uint32_t reference_accept(uint32_t level, const uint16_t *list, size_t list_len, uint8_t *grid, size_t grid_len, uint8_t *work,
                          size_t work_len, uint32_t *yes)
{
    static uint64_t given[MOST_QUADS], made[MOST_QUADS];
    static uint8_t inside[MOST_POINTS], marks[MOST_POINTS];
    *yes = 0;
    if (!known_level(level))
        return 1;
    struct measures m = measures_of(level);
    if (grid_len < (size_t)m.points || work_len < (size_t)m.points)
        return 2;
    if (list_len % 4 != 0)
        return 17;
    size_t count = list_len / 4;
    memset(work, 0, (size_t)m.points);
    if (count > MOST_QUADS) /* more than there are inner edges */
        return 0;
    for (size_t q = 0; q < count; q++)
        given[q] = from_any_corner(list + 4 * q);
    qsort(given, count, sizeof *given, in_order);
    signs_by_rows(&m, given, count, inside);
    if (outer_point_inside(&m, inside))
        return 0;
    size_t own = surface_of(&m, inside, made, marks);
    qsort(made, own, sizeof *made, in_order);
    if (own != count || (count > 0 && memcmp(given, made, count * sizeof *given) != 0))
        return 0;
    for (int p = 0; p < m.points; p++)
        grid[p] = (uint8_t)(marks[p] + 8 * inside[p]);
    *yes = 1;
    return 0;
}
