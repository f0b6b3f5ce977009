/* Masks, from document 02, M-110, and the binary form of PBM (Netpbm, P4): a picture of each layer of points, k rising. */
#include "reference.h"

#include <stdio.h>
#include <string.h>

#include "reference_grid.h"

enum { MOST_HEADER = 16 };

/* The header of a picture of w columns and w rows, and its length. */
static size_t write_header(int w, char header[MOST_HEADER])
{
    return (size_t)snprintf(header, MOST_HEADER, "P4\n%d %d\n", w, w);
}

/* Row j of layer k: the first point in the highest bit, zeros behind the last. */
static void write_row(const struct measures *m, const uint8_t *grid, int j, int k, uint8_t *row)
{
    for (int i = 0; i <= m->n; i++) {
        if (i % 8 == 0)
            row[i / 8] = 0;
        if (is_inside(grid, i + (m->n + 1) * (j + (m->n + 1) * k)))
            row[i / 8] |= (uint8_t)(0x80 >> i % 8);
    }
}

uint32_t reference_masks(uint32_t level, const uint8_t *grid, size_t grid_len, uint8_t *out, size_t out_len, size_t *bytes)
{
    uint32_t refused = reference_judge_signs(level, grid, grid_len);
    *bytes = 0;
    if (refused)
        return refused;
    struct measures m = measures_of(level);
    char header[MOST_HEADER];
    size_t head = write_header(m.n + 1, header), row = (size_t)(m.n + 8) / 8, at = 0;
    if (out_len < (size_t)(m.n + 1) * (head + (size_t)(m.n + 1) * row))
        return 8;
    for (int k = 0; k <= m.n; k++) {
        memcpy(out + at, header, head);
        at += head;
        for (int j = 0; j <= m.n; j++, at += row)
            write_row(&m, grid, j, k, out + at);
    }
    *bytes = at;
    return 0;
}
