/* Inputs of every kind: right ones, refused ones, and those in between. What is of one call alone stands in its call_NAME.c. */
#include "inputs.h"

#include <stdio.h>
#include <stdlib.h>

#include "reference.h"

const struct kind kinds[BUFFERS] = {
    [GRID] = {"grid", 1, POINT_ROOM, 1},
    [WORK] = {"work", 1, POINT_ROOM, 1},
    [TRIANGLE] = {"triangle", sizeof(int32_t), TRIANGLE_ROOM, 0},
    [LIST] = {"list", sizeof(uint16_t), LIST_ROOM, 0},
    [STL] = {"file", 1, STL_ROOM, 0},
    [NUMBERS] = {"number", sizeof(int32_t), NUMBERS_ROOM, 0},
    [WRITTEN] = {"written file", 1, WRITTEN_ROOM, 0},
    [JOB] = {"job", 1, JOB_ROOM, 0},
    [JOB_TRIANGLES] = {"triangles", 1, BODY_ROOM, 0},
    [JOB_QUADS] = {"quads", 1, BODY_ROOM, 0},
    [TOTALS] = {"totals", sizeof(uint16_t), TOTALS_ROOM, 0},
    [LISTED] = {"list of triangles", sizeof(int32_t), LISTED_ROOM, 0},
};

const struct call *const all_calls[] = {&call_open,    &call_mark,     &call_mark_tree, &call_patch,       &call_sign,
                                        &call_surface, &call_read_stl, &call_write_stl, &call_read_job,    &call_write_job,
                                        &call_accept,  &call_masks,    &call_any_mark,  &call_totals_true, &call_count_totals,
                                        &call_mark_all};
const size_t call_count = sizeof all_calls / sizeof *all_calls;

size_t place_of(const struct call *call)
{
    size_t c = 0;
    while (all_calls[c] != call)
        c++;
    return c;
}

struct input new_input(void)
{
    struct input in = {0};
    for (int b = 0; b < BUFFERS; b++)
        if (!(in.buffer[b] = calloc(kinds[b].room, kinds[b].element))) {
            fputs("compare: no memory for an input\n", stderr);
            exit(2);
        }
    return in;
}

static uint32_t make_level(struct random *r)
{
    static const uint32_t bad[] = {0, 1, 6, 7, 8, 31, 32, 33, 255, 258, 65539, 0x7fffffff, 0x80000002, 0xfffffffe, 0xffffffff};
    if (chance(r, 3))
        return chance(r, 20) ? (uint32_t)next(r) : bad[below(r, sizeof bad / sizeof *bad)];
    uint32_t pick = below(r, 100);
    return pick < 55 ? 2 : pick < 85 ? 3 : pick < 96 ? 4 : 5;
}

/* A buffer's length: mostly P or more, at times too short. */
static size_t make_length(struct random *r, const struct measures *m)
{
    uint32_t pick = below(r, 100), points = (uint32_t)m->points;
    return pick < 65 ? points : pick < 92 ? points + 1 + below(r, 300) : pick < 95 ? points - 1 : pick < 96 ? 0 : below(r, points);
}

void spoil_grid(struct random *r, const struct measures *m, uint8_t *grid)
{
    uint32_t kind = below(r, 10), p = below(r, (uint32_t)m->points);
    int side = m->n + 1;
    if (kind == 0)
        fill(r, grid, (size_t)m->points);
    else if (kind == 1)
        for (int q = 0; q < m->points; q++)
            grid[q] = (uint8_t)below(r, 16);
    else if (kind <= 3)
        grid[kind == 2 ? p : (uint32_t)m->points - 1 - below(r, 3)] |= (uint8_t)(16 << below(r, 4));
    else
        for (int tries = 0; tries < 200; tries++, p = (p + 7) % (uint32_t)m->points) {
            int i = (int)p % side, j = (int)p / side % side, k = (int)p / side / side;
            uint8_t wrong = (uint8_t)(7 & ~inner_edges(m->n, i, j, k)), one = (uint8_t)(1 << below(r, 3));
            if (wrong & one) {
                grid[p] |= one;
                return;
            }
        }
}

void make_signs(struct random *r, const struct measures *m, uint32_t level, uint8_t *grid)
{
    uint32_t kind = below(r, 5);
    clear_signs(m, grid);
    if (kind == 0)
        reference_sign(known_level(level) ? level : 2, grid, (size_t)m->points);
    else if (kind == 1)
        grid[below(r, (uint32_t)m->points)] |= INSIDE;
    else if (kind <= 3)
        for (int p = 0; p < m->points; p++)
            grid[p] |= kind == 2 || chance(r, 50) ? INSIDE : 0;
}

void patch_grid(struct input *in)
{
    static uint8_t work[POINT_ROOM];
    static uint16_t totals[MOST_BLOCKS];
    uint32_t level = known_level(in->level) ? in->level : 2, unused[4];
    reference_patch(level, in->buffer[GRID], POINT_ROOM, work, POINT_ROOM, totals, MOST_BLOCKS, &unused[0], &unused[1], &unused[2], &unused[3]);
}

static const struct call *choose(struct random *r)
{
    uint32_t all = 0, pick;
    for (size_t c = 0; c < call_count; c++)
        all += all_calls[c]->share;
    pick = below(r, all);
    for (size_t c = 0;; c++) {
        if (pick < all_calls[c]->share)
            return all_calls[c];
        pick -= all_calls[c]->share;
    }
}

void make_numbered(const struct call *call, uint64_t number, struct input *in)
{
    in->call = call;
    in->null = 0;
    for (int b = 0; b < BUFFERS; b++)
        in->len[b] = 0;
    call->make_every(number, in);
}

void make_input(struct random *r, const struct call *only, struct input *in)
{
    in->call = only ? only : choose(r);
    in->level = make_level(r);
    in->null = chance(r, 50);
    struct measures m = measures_for(in);
    for (int b = 0; b < BUFFERS; b++) {
        in->len[b] = takes(in->call, b) && kinds[b].a_point ? make_length(r, &m) : 0;
        fill(r, in->buffer[b], bytes_of(in, b));
    }
    in->call->make(r, &m, in);
}
