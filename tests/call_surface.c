/* Surface, for the harness: grids with their signs, signs that are wrong in one place or everywhere, lists of about the right length. */
#include "inputs.h"
#include "reference.h"
#include "turning.h"

static void spoil_signs(struct random *r, const struct measures *m, uint8_t *grid)
{
    uint32_t kind = below(r, 20), p = below(r, (uint32_t)m->points), last = (uint32_t)m->points - 1;
    if (kind == 0)
        for (uint32_t q = 0; q <= last; q++)
            grid[q] ^= chance(r, 50) ? INSIDE : 0;
    else if (kind == 1)
        for (uint32_t q = 0; q <= last; q++)
            grid[q] ^= INSIDE;
    else if (kind == 2)
        grid[p] ^= INSIDE;
    else if (kind == 3)
        clear_signs(m, grid);
    else if (kind == 4) /* a skin point, or its neighbour on the skin */
        grid[chance(r, 50) ? p - p % (uint32_t)(m->n + 1) : last - below(r, 40)] ^= INSIDE;
    else if (kind == 5)
        grid[0] ^= INSIDE;
}

static size_t make_list_length(struct random *r, const struct measures *m, const uint8_t *grid)
{
    size_t need = 0;
    for (int p = 0; p < m->points; p++)
        need += 4 * (size_t)(has(grid, X, p) + has(grid, Y, p) + has(grid, Z, p));
    uint32_t pick = below(r, 100);
    if (pick < 45)
        return need;
    if (pick < 80 || need == 0)
        return need + 1 + below(r, 40);
    return pick < 90 ? need - 1 : pick < 95 ? need - 4 : below(r, (uint32_t)need);
}

static void make(struct random *r, const struct measures *m, struct input *in)
{
    uint8_t *grid = in->buffer[GRID];
    make_grid(r, m, grid);
    patch_grid(in);
    reference_sign(known_level(in->level) ? in->level : 2, grid, (size_t)m->points);
    spoil_signs(r, m, grid);
    if (chance(r, 5))
        turn_one(r, m, grid);
    in->len[LIST] = make_list_length(r, m, grid);
    fill(r, in->buffer[LIST], bytes_of(in, LIST));
    if (chance(r, 6))
        spoil_grid(r, m, grid);
}

static uint32_t run(const struct calls *calls, const struct input *lent, uint64_t *counts)
{
    uint32_t quads = untouched;
    uint32_t answer = calls->surface(lent->level, lent->buffer[GRID], lent->len[GRID], (uint16_t *)lent->buffer[LIST], lent->len[LIST], &quads);
    counts[0] = quads;
    return answer;
}

/* Every surface that is listed turns one way. */
static const char *also(const struct input *in)
{
    static uint16_t list[LIST_ROOM];
    uint32_t quads;
    memcpy(list, in->buffer[LIST], bytes_of(in, LIST));
    if (the_library.surface(in->level, in->buffer[GRID], in->len[GRID], list, in->len[LIST], &quads))
        return NULL;
    return turns_wrongly(in->level, list, quads);
}

const struct call call_surface = {.name = "surface", .share = 200, .buffers = 1u << GRID | 1u << LIST,
                                  .answers = 1u << 0 | 1u << 1 | 1u << 2 | 1u << 5 | 1u << 7 | 1u << 8, .counts = {"quads"},
                                  .make = make, .run = run, .also = also};
