/* Writes streams for the program `repair` into a folder: right ones, refused ones at every step, large ones, random ones. */
#include <stdarg.h>
#include <stdio.h>
#include <stdlib.h>

#include "inputs.h"

enum { MIDDLE = 262144, MOST_TRIANGLES = 100000 };

static const char *folder;
static struct random r = {1};
static FILE *out;

/* Begins the stream of this name; the one before is complete. */
static void begin(const char *name, ...)
{
    char path[400];
    int len = snprintf(path, sizeof path, "%s/", folder);
    va_list words;
    va_start(words, name);
    vsnprintf(path + len, sizeof path - (size_t)len - 5, name, words);
    va_end(words);
    strcat(path, ".bin");
    if (out && fclose(out)) {
        perror(path);
        exit(2);
    }
    if (!(out = fopen(path, "wb"))) {
        perror(path);
        exit(2);
    }
}

static void put_byte(uint32_t byte)
{
    putc((int)byte, out);
}

static void put_triangle(const int32_t *t)
{
    for (int c = 0; c < 9; c++)
        for (int b = 0; b < 4; b++)
            put_byte((uint32_t)t[c] >> 8 * b & 255);
}

/* A triangle of one point. */
static void put_point(int x, int y, int z)
{
    int32_t t[9] = {x, y, z, x, y, z, x, y, z};
    put_triangle(t);
}

static void put_points(int many)
{
    while (many--)
        put_point(MIDDLE, MIDDLE, MIDDLE);
}

/* A line through grid point (i,j,k), as short as can be: the six edges there are met. */
static void put_line_through(const struct measures *m, int i, int j, int k)
{
    int x = i * m->s / 2, y = j * m->s / 2, z = k * m->s / 2;
    int32_t t[9] = {x - 1, y - 1, z - 1, x, y, z, x, y, z};
    put_triangle(t);
}

/* A triangle square to an edge, about its middle and as small as can be: it meets no other. */
static void put_across(const struct measures *m, int axis, const int at[3])
{
    int32_t t[9];
    for (int v = 0; v < 3; v++)
        for (int d = X; d <= Z; d++)
            t[3 * v + d] = at[d] * m->s / 2 + (d == axis ? m->s / 4 : v == (d == earlier(axis) ? 1 : 2) ? 1 : -1);
    put_triangle(t);
}

static void put_random_bytes(uint32_t many)
{
    while (many--)
        put_byte(below(&r, 256));
}

/* A triangle in the middle but for one coordinate. */
static void put_with(int c, int32_t at)
{
    int32_t t[9];
    for (int d = 0; d < 9; d++)
        t[d] = MIDDLE;
    t[c] = at;
    put_triangle(t);
}

static void levels(void)
{
    static const uint32_t bytes[] = {0, 1, 2, 3, 4, 5, 6, 7, 50, 53, 128, 130, 255};
    begin("empty");
    for (size_t b = 0; b < sizeof bytes / sizeof *bytes; b++) {
        begin("level_%u_alone", bytes[b]);
        put_byte(bytes[b]);
        begin("level_%u_and_a_triangle", bytes[b]);
        put_byte(bytes[b]);
        put_points(1);
        begin("level_%u_and_an_unfinished_triangle", bytes[b]);
        put_byte(bytes[b]);
        put_random_bytes(17);
    }
}

static void unfinished(void)
{
    for (uint32_t bytes = 1; bytes < 36; bytes++) {
        begin("unfinished_%02u", bytes);
        put_byte(2 + bytes % 4);
        put_points((int)(bytes % 3));
        for (uint32_t b = 0; b < bytes; b++)
            put_byte(b % 4 == 2 ? 4 : 0); /* whole coordinates among them are right */
        begin("unfinished_%02u_with_a_bad_coordinate", bytes);
        put_byte(2 + bytes % 4);
        put_points((int)(bytes % 5));
        for (uint32_t b = 0; b < bytes; b++)
            put_byte(255);
    }
    begin("last_number_unfinished");
    put_byte(2);
    put_points(1);
    for (uint32_t b = 0; b < 35; b++)
        put_byte(b % 4 == 2 ? 4 : 0);
    begin("range_before_unfinished");
    put_byte(2);
    put_points(1);
    put_with(0, 131071);
    for (uint32_t b = 0; b < 7; b++)
        put_byte(b % 4 == 2 ? 4 : 0);
    begin("bad_coordinate_before_an_unfinished_triangle");
    put_byte(3);
    put_points(4);
    put_with(7, 0);
    put_points(2);
    put_random_bytes(11);
}

static void coordinates(void)
{
    static const int32_t extremes[] = {0, -1, MODEL_MOST, INT32_MAX, INT32_MIN};
    for (uint32_t level = 2; level <= 5; level++) {
        struct measures m = measures_of(level);
        int32_t ends[] = {lowest(&m), lowest(&m) - 1, highest(&m), highest(&m) + 1};
        for (int c = (int)level % 4; c < 9; c += 4)
            for (int e = 0; e < 4; e++) {
                begin("level_%u_coordinate_%d_is_%d", level, c, ends[e]);
                put_byte(level);
                put_with(c, ends[e]);
            }
        for (int e = 0; e < 5; e++) {
            begin("level_%u_extreme_%d", level, e);
            put_byte(level);
            put_points(2);
            put_with(2 * e, extremes[e]);
        }
    }
}

static void many_triangles(void)
{
    static const char *const names[] = {"100000_triangles", "100000_and_a_byte", "100000_and_35_bytes", "100001_triangles",
                                        "100000th_is_bad", "100001st_is_bad"};
    for (int n = 0; n < 6; n++) {
        begin(names[n]);
        put_byte(2 + (uint32_t)n % 4);
        put_points(MOST_TRIANGLES - 1);
        put_with(3, n == 4 ? 0 : MIDDLE);
        put_random_bytes(n == 1 ? 1 : n == 2 ? 35 : 0);
        if (n == 3)
            put_points(1);
        if (n == 5)
            put_with(3, 0);
    }
}

/* Single points give six quads each, two neighbours ten: 1,362 points and two pairs give 8,192, the most that is listed; 1,364 and one
   pair give 8,194, the least above, since quads are even in number. The points fill six layers, and the pairs stand in the seventh. */
static void many_quads(void)
{
    for (int more = 0; more <= 1; more++) {
        struct measures m = measures_of(5);
        int points = 1364 + more;
        begin(more ? "8194_quads" : "8192_quads");
        put_byte(5);
        for (int k = 2; k < 31; k += 2)
            for (int j = 2; j < 31; j += 2)
                for (int i = 2; i < 31 && points > 0; i += 2, points--) {
                    put_line_through(&m, i, j, k);
                    if (k == 14 && (i == 2 || (i == 6 && !more)))
                        put_line_through(&m, i, j, k + 1);
                }
    }
}

/* Asks for single edges by triangles across them: grids that no model has. */
static void scattered_edges(void)
{
    for (uint32_t level = 2; level <= 5; level++)
        for (uint32_t percent = 1; percent <= 64; percent *= 4) {
            struct measures m = measures_of(level);
            begin("level_%u_edges_%u_percent", level, percent);
            put_byte(level);
            for (int axis = X; axis <= Z; axis++)
                for (int k = 1 + (axis != Z); k < m.n - 1; k++)
                    for (int j = 1 + (axis != Y); j < m.n - 1; j++)
                        for (int i = 1 + (axis != X); i < m.n - 1; i++)
                            if (chance(&r, percent))
                                put_across(&m, axis, (int[3]){i, j, k});
        }
}

static void random_streams(void)
{
    int32_t t[9];
    for (uint32_t n = 0; n < 120; n++) {
        uint32_t level = 2 + n % 4, many = n < 80 ? below(&r, 30) : n < 110 ? below(&r, 300) : below(&r, 3000);
        struct measures m = measures_of(level);
        begin("random_triangles_%03u", n);
        put_byte(level);
        while (many--) {
            make_triangle(&r, &m, t);
            put_triangle(t);
        }
        if (n % 10 == 9)
            put_random_bytes(below(&r, 80));
    }
    for (uint32_t n = 0; n < 40; n++) {
        begin("random_bytes_%02u", n);
        if (n % 2)
            put_byte(2 + below(&r, 4));
        put_random_bytes(below(&r, 400));
    }
}

int main(int argc, char **argv)
{
    if (argc != 2)
        return fputs("usage: streams FOLDER\n", stderr), 2;
    folder = argv[1];
    levels();
    unfinished();
    coordinates();
    many_triangles();
    many_quads();
    scattered_edges();
    random_streams();
    begin("example_9");
    put_byte(2);
    put_points(1);
    return fclose(out) ? 2 : 0;
}
