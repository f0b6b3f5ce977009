/* Accept: each quad is turned to the corner whose number is third highest, its edge is marked in the work byte, with the turn beside it; then the faces are
   looked at, and the turns are held to the signs. */
#include "plain.h"

#include <string.h>

#include "../tests/reference_grid.h"

static int place_quad(const struct measures *m, const uint16_t *quad, uint8_t *work)
{
    const int n = m->n, step[3] = {1, n, n * n};
    int high = 0;
    for (int c = 1; c < 4; c++)
        if (quad[c] > quad[high])
            high = c;
    int third = quad[high], fourth = quad[(high + 1) % 4], first = quad[(high + 2) % 4], second = quad[(high + 3) % 4];
    int at[3] = {third % n, third / n % n, third / n / n}, p = at[X] + (n + 1) * (at[Y] + (n + 1) * at[Z]);
    for (int axis = X; axis <= Z; axis++) {
        int u = step[(axis + 1) % 3], v = step[(axis + 2) % 3], forward = third - fourth == u && third - second == v;
        if (!forward && !(third - fourth == v && third - second == u))
            continue;
        if (third - first != u + v || at[Z] >= n || !(inner_edges(n, at[X], at[Y], at[Z]) >> axis & 1) || work[p] >> axis & 1)
            return 0;
        work[p] |= (uint8_t)((forward ? 17 : 1) << axis);
        return 1;
    }
    return 0;
}

static int even_faces(const struct measures *m, const uint8_t *work)
{
    for (int k = 0; k < m->n; k++)
        for (int j = 0; j < m->n; j++)
            for (int i = 0; i < m->n; i++) {
                int p = i + (m->n + 1) * (j + (m->n + 1) * k);
                if (is_odd(face_marks(m, work, X, p)) || is_odd(face_marks(m, work, Y, p)) || is_odd(face_marks(m, work, Z, p)))
                    return 0;
            }
    return 1;
}

static int turns_fit(const struct measures *m, const uint8_t *work)
{
    int inside = 0;
    for (int p = 0; p < m->points; p++) {
        if (work[p] >> 4 != (inside ? work[p] & 7 : 0))
            return 0;
        inside ^= work[p] & 1;
    }
    return 1;
}

uint32_t plain_accept(uint32_t level, const uint16_t *list, size_t list_len, uint8_t *grid, size_t grid_len, uint8_t *work, size_t work_len,
                      uint32_t *yes)
{
    *yes = 0;
    if (!known_level(level))
        return 1;
    struct measures m = measures_of(level);
    if (grid_len < (size_t)m.points || work_len < (size_t)m.points)
        return 2;
    if (list_len % 4 != 0)
        return 17;
    memset(work, 0, (size_t)m.points);
    int good = 1;
    for (size_t q = 0; q < list_len && good; q += 4)
        good = place_quad(&m, list + q, work);
    if (good && even_faces(&m, work) && turns_fit(&m, work)) {
        int inside = 0;
        for (int p = 0; p < m.points; p++) {
            grid[p] = (uint8_t)((work[p] & 7) + 8 * inside);
            inside ^= work[p] & 1;
        }
        *yes = 1;
    }
    memset(work, 0, (size_t)m.points);
    return 0;
}

/* The marks in each block, in one pass by rising number. */
static void count_totals(const struct measures *m, const uint8_t *grid, uint16_t *totals)
{
    const int side = blocks_a_side(m);
    memset(totals, 0, (size_t)blocks_of(m) * sizeof *totals);
    for (int k = 0, p = 0; k <= m->n; k++)
        for (int j = 0; j <= m->n; j++)
            for (int i = 0; i <= m->n; i++, p++)
                totals[i / 4 + side * (j / 4 + side * (k / 4))] += (uint16_t)(has(grid, X, p) + has(grid, Y, p) + has(grid, Z, p));
}

uint32_t plain_mark_all(uint32_t level, uint8_t *grid, size_t grid_len, const int32_t *triangles, size_t triangles_len, uint16_t *totals,
                        size_t totals_len, size_t *place, uint32_t *axis)
{
    *place = *axis = 0;
    if (!known_level(level))
        return 1;
    struct measures m = measures_of(level);
    if (grid_len < (size_t)m.points || triangles_len % 9 != 0)
        return grid_len < (size_t)m.points ? 2 : 3;
    for (size_t c = 0; c < triangles_len; c++) {
        uint32_t number = out_of_range(&m, triangles[c]);
        if (number)
            return *place = c, *axis = (uint32_t)(c % 3), number;
    }
    if (!is_grid(&m, grid) || totals_len < (size_t)blocks_of(&m))
        return is_grid(&m, grid) ? 16 : 5;
    clear_signs(&m, grid);
    for (size_t t = 0; t < triangles_len; t += 9)
        reference_add_marks(&m, grid, triangles + t);
    count_totals(&m, grid, totals);
    return 0;
}

uint32_t plain_any_mark(uint32_t level, const uint8_t *grid, const uint32_t low[3], const uint32_t high[3], uint32_t *any)
{
    const uint32_t side = (1u << level) + 1;
    *any = 1;
    for (uint32_t k = low[Z]; k <= high[Z]; k++)
        for (uint32_t j = low[Y]; j <= high[Y]; j++) {
            const uint8_t *row = grid + side * (j + side * k);
            for (uint32_t i = low[X]; i <= high[X]; i++)
                if (row[i] % 8 != 0)
                    return 0;
        }
    *any = 0;
    return 0;
}
