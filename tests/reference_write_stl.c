/* A surface written as binary STL, M-106 of document 02, plainly: the quads are those that surface lists, the normal follows from the order
   of their corners by the right-hand rule, and coordinates are worked out in doubles, in which they are exact. */
#include <string.h>

#include "reference.h"
#include "reference_grid.h"

enum { FILE_HEAD = 84, FILE_QUAD = 100 };

static uint8_t *put_u32(uint8_t *at, uint32_t word)
{
    for (int b = 0; b < 4; b++)
        *at++ = (uint8_t)(word >> 8 * b);
    return at;
}

static uint8_t *put_float(uint8_t *at, double number)
{
    float single = (float)number;
    uint32_t bits;
    memcpy(&bits, &single, sizeof bits);
    return put_u32(at, bits);
}

/* The number of a cell on an axis. */
static int cell_on(int n, int cell, int axis)
{
    return axis == X ? cell % n : axis == Y ? cell / n % n : cell / n / n;
}

/* Counterclockwise, seen from outside: the cross product of two sides points outwards. */
static int outward_on(int n, const uint16_t *quad, int axis)
{
    int b = (axis + 1) % 3, c = (axis + 2) % 3;
    int first_b = cell_on(n, quad[1], b) - cell_on(n, quad[0], b), first_c = cell_on(n, quad[1], c) - cell_on(n, quad[0], c);
    int next_b = cell_on(n, quad[2], b) - cell_on(n, quad[1], b), next_c = cell_on(n, quad[2], c) - cell_on(n, quad[1], c);
    return first_b * next_c - first_c * next_b;
}

/* Half of the place of the cell's centre less one, times 2^-e. */
static double corner_on(const struct measures *m, int cell, int axis, int e)
{
    int centre = cell_on(m->n, cell, axis) * m->s + m->s / 2;
    double number = (centre - 1) / 2.0;
    for (; e > 0; e--)
        number /= 2;
    for (; e < 0; e++)
        number *= 2;
    return number;
}

static uint8_t *put_facet(const struct measures *m, const uint16_t *quad, const int corners[3], int e, uint8_t *at)
{
    for (int axis = X; axis <= Z; axis++)
        at = put_float(at, outward_on(m->n, quad, axis));
    for (int k = 0; k < 3; k++)
        for (int axis = X; axis <= Z; axis++)
            at = put_float(at, corner_on(m, quad[corners[k]], axis, e));
    *at++ = 0;
    *at++ = 0;
    return at;
}

uint32_t reference_write_stl(uint32_t level, const uint8_t *grid, size_t grid_len, int32_t e, uint8_t *file, size_t file_len, size_t *bytes)
{
    static uint16_t list[4 * MOST_QUADS];
    static const int halves[2][3] = {{0, 1, 2}, {0, 2, 3}};
    uint32_t quads;
    *bytes = 0;
    uint32_t refused = reference_surface(level, grid, grid_len, list, 4 * MOST_QUADS, &quads);
    if (refused == 1 || refused == 2)
        return refused;
    if (e < -20 || e > 20)
        return 14;
    if (refused)
        return refused;
    if (file_len < FILE_HEAD + FILE_QUAD * (size_t)quads)
        return 8;
    struct measures m = measures_of(level);
    memset(file, 0, 80);
    uint8_t *at = put_u32(file + 80, 2 * quads);
    for (uint32_t q = 0; q < quads; q++)
        for (int half = 0; half < 2; half++)
            at = put_facet(&m, list + 4 * (size_t)q, halves[half], e, at);
    *bytes = (size_t)(at - file);
    return 0;
}
