/* The calls as a table of functions, once for the library and once for the reference, so that a test is written once for both. */
#ifndef CALLS_H
#define CALLS_H

#include <stddef.h>
#include <stdint.h>

struct calls {
    const char *name;
    uint32_t (*open)(uint32_t level, uint8_t *grid, size_t grid_len, uint16_t *totals, size_t totals_len);
    uint32_t (*mark)(uint32_t level, uint8_t *grid, size_t grid_len, const int32_t *triangle, size_t triangle_len, uint16_t *totals,
                     size_t totals_len, uint32_t *place, uint32_t *axis);
    uint32_t (*mark_tree)(uint32_t level, uint8_t *grid, size_t grid_len, const int32_t *triangle, size_t triangle_len, uint16_t *totals,
                          size_t totals_len, uint32_t *place, uint32_t *axis);
    uint32_t (*patch)(uint32_t level, uint8_t *grid, size_t grid_len, uint8_t *work, size_t work_len, uint16_t *totals,
                      size_t totals_len, uint32_t *rims, uint32_t *flips, uint32_t *ones, uint32_t *threes);
    uint32_t (*sign)(uint32_t level, uint8_t *grid, size_t grid_len);
    uint32_t (*surface)(uint32_t level, const uint8_t *grid, size_t grid_len, uint16_t *list, size_t list_len, uint32_t *quads);
    uint32_t (*read_stl)(const uint8_t *file, size_t file_len, int32_t e, int32_t *list, size_t list_len, uint32_t *triangles,
                         uint32_t *axis);
    uint32_t (*write_stl)(uint32_t level, const uint8_t *grid, size_t grid_len, int32_t e, uint8_t *file, size_t file_len, size_t *bytes);
    uint32_t (*read_job)(const uint8_t *file, size_t file_len, uint32_t *level, uint32_t *kinds, uint32_t *grid_at,
                         uint32_t *triangles_at, uint32_t *triangles_len, uint32_t *quads_at, uint32_t *quads_len);
    uint32_t (*write_job)(uint32_t level, uint32_t kinds, const uint8_t *grid, size_t grid_len, const uint8_t *triangles,
                          size_t triangles_len, const uint8_t *quads, size_t quads_len, uint8_t *file, size_t file_len, size_t *bytes);
    uint32_t (*accept)(uint32_t level, const uint16_t *list, size_t list_len, uint8_t *grid, size_t grid_len, uint8_t *work,
                       size_t work_len, uint32_t *yes);
    uint32_t (*masks)(uint32_t level, const uint8_t *grid, size_t grid_len, uint8_t *out, size_t out_len, size_t *bytes);
    uint32_t (*any_mark)(uint32_t level, const uint8_t *grid, size_t grid_len, const uint16_t *totals, size_t totals_len, uint32_t low_i,
                         uint32_t low_j, uint32_t low_k, uint32_t high_i, uint32_t high_j, uint32_t high_k, uint32_t *any);
    uint32_t (*totals_true)(uint32_t level, const uint8_t *grid, size_t grid_len, const uint16_t *totals, size_t totals_len, uint32_t *yes);
    uint32_t (*count_totals)(uint32_t level, const uint8_t *grid, size_t grid_len, uint16_t *totals, size_t totals_len);
    uint32_t (*mark_all)(uint32_t level, uint8_t *grid, size_t grid_len, const int32_t *triangles, size_t triangles_len, uint16_t *totals,
                         size_t totals_len, size_t *place, uint32_t *axis);
};

extern const struct calls the_library, the_reference;

#endif
