/* A plain reference of documents 01 and 02: the calls as in include/omphirun.h, under names of its own, and the program's output. */
#ifndef REFERENCE_H
#define REFERENCE_H

#include <stddef.h>
#include <stdint.h>
#include <stdio.h>

uint32_t reference_open(uint32_t level, uint8_t *grid, size_t grid_len, uint16_t *totals, size_t totals_len);
uint32_t reference_mark(uint32_t level, uint8_t *grid, size_t grid_len, const int32_t *triangle, size_t triangle_len, uint16_t *totals,
                        size_t totals_len, uint32_t *place, uint32_t *axis);
uint32_t reference_patch(uint32_t level, uint8_t *grid, size_t grid_len, uint8_t *work, size_t work_len, uint16_t *totals,
                         size_t totals_len, uint32_t *rims, uint32_t *flips, uint32_t *ones, uint32_t *threes);
uint32_t reference_sign(uint32_t level, uint8_t *grid, size_t grid_len);
uint32_t reference_surface(uint32_t level, const uint8_t *grid, size_t grid_len, uint16_t *list, size_t list_len, uint32_t *quads);

/* Document 02, M-100. */
uint32_t reference_read_stl(const uint8_t *file, size_t file_len, int32_t e, int32_t *list, size_t list_len, uint32_t *triangles,
                            uint32_t *axis);

/* Document 02, M-106. */
uint32_t reference_write_stl(uint32_t level, const uint8_t *grid, size_t grid_len, int32_t e, uint8_t *file, size_t file_len, size_t *bytes);

/* Document 02, M-112. */
uint32_t reference_read_job(const uint8_t *file, size_t file_len, uint32_t *level, uint32_t *kinds, uint32_t *grid_at,
                            uint32_t *triangles_at, uint32_t *triangles_len, uint32_t *quads_at, uint32_t *quads_len);
uint32_t reference_write_job(uint32_t level, uint32_t kinds, const uint8_t *grid, size_t grid_len, const uint8_t *triangles,
                             size_t triangles_len, const uint8_t *quads, size_t quads_len, uint8_t *file, size_t file_len, size_t *bytes);

/* Document 02, M-109. */
uint32_t reference_accept(uint32_t level, const uint16_t *list, size_t list_len, uint8_t *grid, size_t grid_len, uint8_t *work,
                          size_t work_len, uint32_t *yes);

/* Document 02, M-110. */
uint32_t reference_masks(uint32_t level, const uint8_t *grid, size_t grid_len, uint8_t *out, size_t out_len, size_t *bytes);

/* Document 02, M-108. */
uint32_t reference_any_mark(uint32_t level, const uint8_t *grid, size_t grid_len, const uint16_t *totals, size_t totals_len, uint32_t low_i,
                            uint32_t low_j, uint32_t low_k, uint32_t high_i, uint32_t high_j, uint32_t high_k, uint32_t *any);
uint32_t reference_totals_true(uint32_t level, const uint8_t *grid, size_t grid_len, const uint16_t *totals, size_t totals_len, uint32_t *yes);
uint32_t reference_count_totals(uint32_t level, const uint8_t *grid, size_t grid_len, uint16_t *totals, size_t totals_len);

/* Mark once more: it looks only at the edges that reach into the triangle's bounding box. */
uint32_t reference_mark_near(uint32_t level, uint8_t *grid, size_t grid_len, const int32_t *triangle, size_t triangle_len, uint16_t *totals,
                             size_t totals_len, uint32_t *place, uint32_t *axis);

/* Document 02, M-103: mark by the descent. */
uint32_t reference_mark_tree(uint32_t level, uint8_t *grid, size_t grid_len, const int32_t *triangle, size_t triangle_len, uint16_t *totals,
                             size_t totals_len, uint32_t *place, uint32_t *axis);

/* Many triangles in one call: mark for each in turn. */
uint32_t reference_mark_all(uint32_t level, uint8_t *grid, size_t grid_len, const int32_t *triangles, size_t triangles_len, uint16_t *totals,
                            size_t totals_len, size_t *place, uint32_t *axis);

/* The number of cells in the boxes of all rims of a grid, for the benchmark. */
uint64_t reference_rim_cells(uint32_t level, const uint8_t *grid);

/* Writes what the program `repair` prints for a stream. */
void reference_repair(const uint8_t *stream, size_t stream_len, FILE *out);

#endif
