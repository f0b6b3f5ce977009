/* The program `repair`, from document 01: a stream in, a listing or one line `refused N` out. */
#include "reference.h"
#include "reference_grid.h"

enum { TRIANGLE_BYTES = 36, MOST_TRIANGLES = 100000, LIST = 32768 };

static int32_t little_endian(const uint8_t *b)
{
    return (int32_t)((uint32_t)b[0] | (uint32_t)b[1] << 8 | (uint32_t)b[2] << 16 | (uint32_t)b[3] << 24);
}

/* Marks the stream's triangles in the opened grid; answers the number of the first refused step, or 0. */
static uint32_t read_triangles(const struct measures *m, const uint8_t *at, size_t left, uint8_t *grid, uint32_t *triangles)
{
    for (*triangles = 0; left > 0; ++*triangles, at += TRIANGLE_BYTES, left -= TRIANGLE_BYTES) {
        int32_t triangle[9];
        uint32_t number;
        if (*triangles == MOST_TRIANGLES)
            return 9;
        if (left < TRIANGLE_BYTES)
            return 3;
        for (int c = 0; c < 9; c++) {
            triangle[c] = little_endian(at + 4 * c);
            if ((number = out_of_range(m, triangle[c])))
                return number;
        }
        reference_add_marks(m, grid, triangle);
    }
    return 0;
}

void reference_repair(const uint8_t *stream, size_t stream_len, FILE *out)
{
    static uint8_t grid[MOST_POINTS], work[MOST_POINTS];
    static uint16_t list[LIST], totals[MOST_BLOCKS];
    uint32_t triangles = 0, rims = 0, flips = 0, ones, threes, inside = 0, quads = 0;
    uint32_t level = stream_len > 0 ? stream[0] : 0, refused = reference_open(level, grid, sizeof grid, totals, MOST_BLOCKS);
    struct measures m = {0};
    if (!refused) {
        m = measures_of(level);
        refused = read_triangles(&m, stream + 1, stream_len - 1, grid, &triangles);
    }
    if (!refused)
        refused = reference_patch(level, grid, sizeof grid, work, sizeof work, totals, MOST_BLOCKS, &rims, &flips, &ones, &threes);
    if (!refused)
        refused = reference_sign(level, grid, sizeof grid);
    if (!refused)
        refused = reference_surface(level, grid, sizeof grid, list, LIST, &quads);
    if (refused) {
        fprintf(out, "refused %u\n", (unsigned)refused);
        return;
    }
    for (int p = 0; p < m.points; p++)
        inside += (uint32_t)is_inside(grid, p);
    fprintf(out, "level %u triangles %u\n", (unsigned)level, (unsigned)triangles);
    fprintf(out, "rims %u flips %u inside %u quads %u\n", (unsigned)rims, (unsigned)flips, (unsigned)inside, (unsigned)quads);
    for (const uint16_t *q = list; q < list + 4 * quads; q += 4)
        fprintf(out, "q %u %u %u %u\n", (unsigned)q[0], (unsigned)q[1], (unsigned)q[2], (unsigned)q[3]);
}
