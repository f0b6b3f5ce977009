/* Open, sign and surface, from document 01, "Five calls" and "Quads", and document 02, M-107: one buffer for marks and signs, and M-108. */
#include "reference.h"

#include <string.h>

#include "reference_grid.h"

uint32_t reference_open(uint32_t level, uint8_t *grid, size_t grid_len, uint16_t *totals, size_t totals_len)
{
    if (!known_level(level))
        return 1;
    struct measures m = measures_of(level);
    if (grid_len < (size_t)m.points)
        return 2;
    if (totals_len < (size_t)blocks_of(&m))
        return 16;
    memset(grid, 0, (size_t)m.points);
    reference_recount(&m, grid, totals);
    return 0;
}

static int some_face_is_odd(const struct measures *m, const uint8_t *grid)
{
    for (int k = 0, p = 0; k <= m->n; k++)
        for (int j = 0; j <= m->n; j++)
            for (int i = 0; i <= m->n; i++, p++) {
                int inside_i = i < m->n, inside_j = j < m->n, inside_k = k < m->n;
                if ((inside_j && inside_k && is_odd(face_marks(m, grid, X, p))) || (inside_i && inside_k && is_odd(face_marks(m, grid, Y, p))) ||
                    (inside_i && inside_j && is_odd(face_marks(m, grid, Z, p))))
                    return 1;
            }
    return 0;
}

uint32_t reference_sign(uint32_t level, uint8_t *grid, size_t grid_len)
{
    if (!known_level(level))
        return 1;
    struct measures m = measures_of(level);
    if (grid_len < (size_t)m.points)
        return 2;
    if (!is_grid(&m, grid))
        return 5;
    if (some_face_is_odd(&m, grid))
        return 6;
    clear_signs(&m, grid);
    for (int k = 0, p = 0; k <= m.n; k++)
        for (int j = 0; j <= m.n; j++)
            for (int i = 0; i <= m.n; i++, p++)
                if (p > 0) { /* all ways to a point agree; the one taken comes from the point below on x, or y, or z */
                    int axis = i > 0 ? X : j > 0 ? Y : Z, below = p - m.step[axis];
                    if (is_inside(grid, below) != has(grid, axis, below))
                        grid[p] |= INSIDE;
                }
    return 0;
}

/* Point (0,0,0) inside, or an edge, inner or not, where mark and sign change are not both there or both not. */
static int signs_are_wrong(const struct measures *m, const uint8_t *grid)
{
    if (is_inside(grid, 0))
        return 1;
    for (int k = 0, p = 0; k <= m->n; k++)
        for (int j = 0; j <= m->n; j++)
            for (int i = 0; i <= m->n; i++, p++) {
                int at[3] = {i, j, k};
                for (int axis = X; axis <= Z; axis++)
                    if (at[axis] < m->n && (is_inside(grid, p) != is_inside(grid, p + m->step[axis])) != has(grid, axis, p))
                        return 1;
            }
    return 0;
}

static uint32_t marked_edges(const struct measures *m, const uint8_t *grid)
{
    uint32_t count = 0;
    for (int p = 0; p < m->points; p++)
        count += (uint32_t)(has(grid, X, p) + has(grid, Y, p) + has(grid, Z, p));
    return count;
}

/* The four cells around the edge in the order that holds when its lower end is inside, else first, fourth, third, second. */
static void write_quad(int n, int axis, const int at[3], int lower_inside, uint16_t quad[4])
{
    static const int down[4][2] = {{1, 1}, {0, 1}, {0, 0}, {1, 0}};
    int u = (axis + 1) % 3, v = (axis + 2) % 3;
    for (int c = 0; c < 4; c++) {
        int cell[3] = {at[X], at[Y], at[Z]};
        cell[u] -= down[c][0];
        cell[v] -= down[c][1];
        quad[lower_inside ? c : (4 - c) % 4] = (uint16_t)(cell[X] + n * (cell[Y] + n * cell[Z]));
    }
}

uint32_t reference_judge_signs(uint32_t level, const uint8_t *grid, size_t grid_len)
{
    if (!known_level(level))
        return 1;
    struct measures m = measures_of(level);
    if (grid_len < (size_t)m.points)
        return 2;
    if (!is_grid(&m, grid))
        return 5;
    return signs_are_wrong(&m, grid) ? 7 : 0;
}

uint32_t reference_surface(uint32_t level, const uint8_t *grid, size_t grid_len, uint16_t *list, size_t list_len, uint32_t *quads)
{
    uint32_t refused = reference_judge_signs(level, grid, grid_len);
    *quads = 0;
    if (refused)
        return refused;
    struct measures m = measures_of(level);
    if (list_len < 4 * (size_t)marked_edges(&m, grid))
        return 8;
    for (int k = 0, p = 0; k <= m.n; k++)
        for (int j = 0; j <= m.n; j++)
            for (int i = 0; i <= m.n; i++, p++)
                for (int axis = X; axis <= Z; axis++)
                    if (has(grid, axis, p))
                        write_quad(m.n, axis, (const int[3]){i, j, k}, is_inside(grid, p), list + 4 * (size_t)(*quads)++);
    return 0;
}
