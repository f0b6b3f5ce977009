/* Counts, over the edges at the lowest corners of the cells that a triangle's box touches, how many of the ten axes behind the unit vectors
   are worked out for an edge, with the triangle's span on them: when each edge builds those that it reaches, and when the first edge that
   reaches one builds it and it is kept for the rest of the triangle. And how many dot products with points an edge takes: two for each axis
   that it reaches, or one for the three edges of a cell.
   usage: axes STREAM... */
#include <stdio.h>
#include <stdlib.h>
#include <string.h>

#include "../tests/reference_grid.h"

enum { LATER = 10 };

struct counts {
    uint64_t edges, anew, kept, products_anew, products_kept;
};

typedef int64_t vector[3];

static void cross(const vector a, const vector b, vector out)
{
    for (int d = X; d <= Z; d++)
        out[d] = a[(d + 1) % 3] * b[(d + 2) % 3] - a[(d + 2) % 3] * b[(d + 1) % 3];
}

static int64_t dot(const vector a, const vector b)
{
    return a[X] * b[X] + a[Y] * b[Y] + a[Z] * b[Z];
}

/* N, then each unit vector crossed with each side. */
static void later_axes(const vector v[3], vector axes[LATER])
{
    vector side[3], other;
    for (int k = 0; k < 3; k++)
        for (int d = X; d <= Z; d++)
            side[k][d] = v[(k + 1) % 3][d] - v[k][d];
    for (int d = X; d <= Z; d++)
        other[d] = v[2][d] - v[0][d];
    cross(side[0], other, axes[0]);
    for (int k = 0; k < LATER - 1; k++) {
        vector unit = {k / 3 == X, k / 3 == Y, k / 3 == Z};
        cross(unit, side[k % 3], axes[1 + k]);
    }
}

static int separates(const vector axis, const vector v[3], const vector from, const vector to)
{
    int64_t p = dot(axis, from), q = dot(axis, to), a[3] = {dot(axis, v[0]), dot(axis, v[1]), dot(axis, v[2])};
    return (a[0] < p && a[1] < p && a[2] < p && a[0] < q && a[1] < q && a[2] < q) ||
           (p < a[0] && p < a[1] && p < a[2] && q < a[0] && q < a[1] && q < a[2]);
}

static int outside(const vector v[3], const vector from, const vector to)
{
    for (int d = X; d <= Z; d++) {
        vector unit = {d == X, d == Y, d == Z};
        if (separates(unit, v, from, to))
            return 1;
    }
    return 0;
}

/* The three edges at a cell's lowest corner, of which those without a mark are looked at. */
static void count_cell(const struct measures *m, uint8_t *byte, const vector v[3], const vector axes[LATER], const int at[3], int *built,
                       struct counts *c)
{
    int most = 0;
    vector from = {(int64_t)at[X] * m->s, (int64_t)at[Y] * m->s, (int64_t)at[Z] * m->s};
    for (int a = X; a <= Z; a++) {
        vector to = {from[X], from[Y], from[Z]};
        int tried = 0, met = 1;
        to[a] += m->s;
        if (*byte >> a & 1)
            continue;
        c->edges++;
        if (outside(v, from, to))
            continue;
        while (met && tried < LATER)
            met = !separates(axes[tried++], v, from, to);
        c->anew += (uint64_t)tried;
        c->products_anew += 2 * (uint64_t)tried;
        most = tried > most ? tried : most;
        if (met)
            *byte |= (uint8_t)(1 << a);
    }
    c->products_kept += (uint64_t)most;
    *built = most > *built ? most : *built;
}

static void count_triangle(const struct measures *m, uint8_t *grid, const int32_t *t, struct counts *c)
{
    vector v[3], axes[LATER];
    int low[3], high[3], built = 0;
    for (int k = 0; k < 9; k++)
        v[k / 3][k % 3] = tested_at(t[k]);
    for (int d = X; d <= Z; d++) {
        int64_t least = v[0][d], most = v[0][d];
        for (int k = 1; k < 3; k++) {
            least = v[k][d] < least ? v[k][d] : least;
            most = v[k][d] > most ? v[k][d] : most;
        }
        low[d] = (int)((least - 1) / m->s);
        high[d] = (int)(most / m->s);
    }
    later_axes((const int64_t(*)[3])v, axes);
    for (int k = low[Z]; k <= high[Z]; k++)
        for (int j = low[Y]; j <= high[Y]; j++)
            for (int i = low[X]; i <= high[X]; i++)
                count_cell(m, &grid[i + j * m->step[Y] + k * m->step[Z]], (const int64_t(*)[3])v, (const int64_t(*)[3])axes,
                           (const int[3]){i, j, k}, &built, c);
    c->kept += (uint64_t)built;
}

static void print_row(const char *input, const struct counts *c)
{
    double edges = (double)c->edges;
    printf("%-34s %10llu %12.3f %12.3f %12.3f %12.3f\n", input, (unsigned long long)c->edges, (double)c->anew / edges,
           (double)c->kept / edges, (double)c->products_anew / edges, (double)c->products_kept / edges);
}

static void count_stream(const char *path)
{
    static uint8_t grid[MOST_POINTS];
    uint8_t bytes[36];
    struct counts c = {0};
    const char *name = strrchr(path, '/') ? strrchr(path, '/') + 1 : path;
    char input[100];
    FILE *file = fopen(path, "rb");
    if (!file || fread(bytes, 1, 1, file) != 1 || !known_level(bytes[0])) {
        fprintf(stderr, "bench: %s is no stream\n", path);
        exit(2);
    }
    struct measures m = measures_of(bytes[0]);
    memset(grid, 0, sizeof grid);
    while (fread(bytes, 1, 36, file) == 36) {
        int32_t t[9];
        for (int k = 0; k < 9; k++)
            t[k] = (int32_t)(bytes[4 * k] | bytes[4 * k + 1] << 8 | bytes[4 * k + 2] << 16 | (uint32_t)bytes[4 * k + 3] << 24);
        count_triangle(&m, grid, t, &c);
    }
    fclose(file);
    snprintf(input, sizeof input, "%.*s", (int)strcspn(name, "."), name);
    for (char *at = input; *at; at++)
        *at = *at == '_' ? ' ' : *at;
    print_row(input, &c);
}

int main(int argc, char **argv)
{
    static const int32_t whole[9] = {16384, 16384, 16384, 507903, 507903, 20000, 25000, 507903, 507903};
    static uint8_t grid[MOST_POINTS];
    struct measures m = measures_of(5);
    struct counts c = {0};
    printf("%-34s %10s %12s %12s %12s %12s\n", "axes an edge", "edges", "built anew", "built, kept", "dots anew", "dots now");
    count_triangle(&m, grid, whole, &c);
    print_row("a triangle through the whole grid", &c);
    for (int a = 1; a < argc; a++)
        count_stream(argv[a]);
    return 0;
}
