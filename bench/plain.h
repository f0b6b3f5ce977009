/* Accept, any_mark and mark_all in plain C, as fast as a few lines go: the reference sorts quads for the first and goes through every block for
   the others, which would flatter the library. */
#ifndef PLAIN_H
#define PLAIN_H

#include <stddef.h>
#include <stdint.h>

uint32_t plain_accept(uint32_t level, const uint16_t *list, size_t list_len, uint8_t *grid, size_t grid_len, uint8_t *work, size_t work_len,
                      uint32_t *yes);

/* Marks a list of triangles, each by the reference's scan of its box, and counts the totals in one pass. */
uint32_t plain_mark_all(uint32_t level, uint8_t *grid, size_t grid_len, const int32_t *triangles, size_t triangles_len, uint16_t *totals,
                        size_t totals_len, size_t *place, uint32_t *axis);

/* Reads the bytes of a box up to the first that has a mark, without a table; level, buffer and box are known to be right. Answers 0. */
uint32_t plain_any_mark(uint32_t level, const uint8_t *grid, const uint32_t low[3], const uint32_t high[3], uint32_t *any);

#endif
