/* Write, for the harness: grids with their signs, signs that are wrong in one place or everywhere, every e, and byte buffers of about the
   right length. What is written has to read back, and its triangles to turn one way. */
#include "inputs.h"
#include "reference.h"

static void spoil_signs(struct random *r, const struct measures *m, uint8_t *grid)
{
    uint32_t kind = below(r, 20), p = below(r, (uint32_t)m->points);
    for (size_t q = 0; q < (size_t)m->points; q++)
        if (kind == 0 ? chance(r, 50) : kind == 1 || (kind == 2 && q == p) || (kind == 3 && q == 0))
            grid[q] ^= 8;
}

static size_t make_file_length(struct random *r, const struct measures *m, const uint8_t *grid)
{
    size_t need = 84;
    for (int p = 0; p < m->points; p++)
        need += 100 * (size_t)(has(grid, X, p) + has(grid, Y, p) + has(grid, Z, p));
    uint32_t pick = below(r, 100);
    if (pick < 50)
        return need;
    if (pick < 80)
        return need + 1 + below(r, 200);
    return pick < 88 ? need - 1 : pick < 94 ? need - 84 : below(r, (uint32_t)need);
}

static void make(struct random *r, const struct measures *m, struct input *in)
{
    static const int32_t bad[] = {21, -21, 22, 255, 276, -236, INT32_MAX, INT32_MIN, INT32_MIN + 20};
    uint8_t *grid = in->buffer[GRID];
    make_grid(r, m, grid);
    patch_grid(in);
    reference_sign(known_level(in->level) ? in->level : 2, grid, (size_t)m->points);
    spoil_signs(r, m, grid);
    if (chance(r, 5))
        turn_one(r, m, grid);
    in->e = chance(r, 4) ? bad[below(r, sizeof bad / sizeof *bad)] : chance(r, 15) ? (chance(r, 50) ? 20 : -20) : between(r, -20, 20);
    in->len[WRITTEN] = make_file_length(r, m, grid);
    fill(r, in->buffer[WRITTEN], bytes_of(in, WRITTEN));
    if (chance(r, 6))
        spoil_grid(r, m, grid);
}

static uint32_t run(const struct calls *calls, const struct input *lent, uint64_t *counts)
{
    size_t bytes = untouched;
    uint32_t answer = calls->write_stl(lent->level, lent->buffer[GRID], lent->len[GRID], lent->e, lent->buffer[WRITTEN],
                                       lent->len[WRITTEN], &bytes);
    counts[0] = bytes;
    return answer;
}

/* The cell whose centre lies at these three numbers, which are halves of its place; -1 for any other. */
static int cell_of(const struct measures *m, const int32_t *corner)
{
    int cell = 0;
    for (int axis = Z; axis >= X; axis--) {
        int at = 2 * corner[axis] / m->s;
        if (corner[axis] < 0 || at >= m->n || 2 * corner[axis] != at * m->s + m->s / 2)
            return -1;
        cell = cell * m->n + at;
    }
    return cell;
}

/* How often a triangle's side goes from a cell to each of the cells around it. */
static uint8_t steps[MOST_CELLS][27];

/* The direction of a step to a cell beside this one, the other way round being 26 less it; -1 for any other. */
static int direction(int n, int from, int to)
{
    int way = 0, apart[3] = {1, n, n * n};
    for (int axis = Z; axis >= X; axis--) {
        int by = to / apart[axis] % n - from / apart[axis] % n;
        if (by < -1 || by > 1)
            return -1;
        way = 3 * way + by + 1;
    }
    return way;
}

/* Each coordinate is half of the place of a cell's centre, those of surface's quads in their order, and each side of a triangle is gone along
   as often as it is gone back. */
static const char *file_is_wrong(const struct measures *m, const uint16_t *list, const int32_t *numbers, uint32_t triangles)
{
    static const int corners[6] = {0, 1, 2, 0, 2, 3};
    memset(steps, 0, (size_t)(m->n * m->n * m->n) * sizeof *steps);
    for (int back = 0; back < 2; back++)
        for (size_t c = 0; c < 3 * (size_t)triangles; c++) {
            size_t next = c % 3 == 2 ? c - 2 : c + 1;
            int from = cell_of(m, numbers + 3 * c), to = cell_of(m, numbers + 3 * next), way;
            if (from != list[4 * (c / 6) + (size_t)corners[c % 6]])
                return "a corner is not read back as that of its quad";
            if (to < 0 || (way = direction(m->n, from, to)) < 0)
                return "a triangle's side joins cells that are far apart";
            if (!back && ++steps[from][way] == 0)
                return "a triangle's side is gone along too often";
            if (back && steps[from][way] != steps[to][26 - way])
                return "a triangle's side is not gone along as often as back";
        }
    return NULL;
}

static const char *also(const struct input *in)
{
    static uint8_t file[WRITTEN_ROOM];
    static int32_t numbers[18 * MOST_QUADS];
    static uint16_t list[4 * MOST_QUADS];
    uint32_t triangles, axis, quads;
    size_t bytes;
    memcpy(file, in->buffer[WRITTEN], bytes_of(in, WRITTEN));
    if (the_library.write_stl(in->level, in->buffer[GRID], in->len[GRID], in->e, file, in->len[WRITTEN], &bytes))
        return NULL;
    the_library.surface(in->level, in->buffer[GRID], in->len[GRID], list, 4 * MOST_QUADS, &quads);
    if (the_library.read_stl(file, bytes, in->e, numbers, 18 * MOST_QUADS, &triangles, &axis) || triangles != 2 * quads)
        return "what was written is not read back";
    struct measures m = measures_of(in->level);
    return file_is_wrong(&m, list, numbers, triangles);
}

const struct call call_write_stl = {.name = "write_stl", .share = 100, .buffers = 1u << GRID | 1u << WRITTEN,
                                    .answers = 1u << 0 | 1u << 1 | 1u << 2 | 1u << 5 | 1u << 7 | 1u << 8 | 1u << 14, .counts = {"bytes"},
                                    .make = make, .run = run, .also = also};
