/* Calls of an earlier library, from before the table of totals (M-108), where bench/run was given one: null where it was not. Mark is as
   M-101 made it, patch as M-104 made it; the base's mark told no place and no axis, and took the coordinates that are tested. */
#ifndef BEFORE_H
#define BEFORE_H

#include <stddef.h>
#include <stdint.h>

uint32_t before_mark(uint32_t level, uint8_t *grid, size_t grid_len, const int32_t *triangle, size_t triangle_len, uint32_t *place,
                     uint32_t *axis) __attribute__((weak));
uint32_t base_mark(uint32_t level, uint8_t *grid, size_t grid_len, const int32_t *triangle, size_t triangle_len) __attribute__((weak));
uint32_t before_patch(uint32_t level, uint8_t *grid, size_t grid_len, uint8_t *work, size_t work_len, uint32_t *rims, uint32_t *flips,
                      uint32_t *ones, uint32_t *threes) __attribute__((weak));

#endif
