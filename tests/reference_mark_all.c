/* Many triangles in one call: what mark, called for each of them in turn, leaves when all are done. A refusal changes nothing, so every
   coordinate is judged before the first mark; with no triangle nothing changes, since mark is never called. */
#include "reference.h"
#include "reference_grid.h"

/* The first coordinate of the list that is out of range, or the list's length. */
static size_t first_out_of_list(const struct measures *m, const int32_t *triangles, size_t len)
{
    size_t at = 0;
    while (at < len && !out_of_range(m, triangles[at]))
        at++;
    return at;
}

uint32_t reference_mark_all(uint32_t level, uint8_t *grid, size_t grid_len, const int32_t *triangles, size_t triangles_len, uint16_t *totals,
                            size_t totals_len, size_t *place, uint32_t *axis)
{
    *place = *axis = 0;
    if (!known_level(level))
        return 1;
    struct measures m = measures_of(level);
    if (grid_len < (size_t)m.points)
        return 2;
    if (triangles_len % 9 != 0)
        return 3;
    size_t out = first_out_of_list(&m, triangles, triangles_len);
    if (out < triangles_len) {
        *place = out;
        *axis = (uint32_t)(out % 3);
        return out_of_range(&m, triangles[out]);
    }
    if (!is_grid(&m, grid))
        return 5;
    if (totals_len < (size_t)blocks_of(&m))
        return 16;
    if (triangles_len == 0)
        return 0;
    clear_signs(&m, grid);
    for (size_t at = 0; at < triangles_len; at += 9)
        reference_add_marks(&m, grid, triangles + at);
    reference_recount(&m, grid, totals);
    return 0;
}
