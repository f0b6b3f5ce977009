/* Masks, for the harness: grids with their signs, signs that are wrong in one place or everywhere, buffers of about the right length. */
#include "inputs.h"
#include "reference.h"

static void spoil_signs(struct random *r, const struct measures *m, uint8_t *grid)
{
    uint32_t kind = below(r, 20), p = below(r, (uint32_t)m->points);
    for (size_t q = 0; q < (size_t)m->points; q++)
        if (kind == 0 ? chance(r, 50) : kind == 1 || (kind == 2 && q == p) || (kind == 3 && q == 0))
            grid[q] ^= INSIDE;
}

static size_t make_length_of_pictures(struct random *r, const struct measures *m)
{
    size_t w = (size_t)m->n + 1, need = w * ((w < 10 ? 7 : 9) + w * ((w + 7) / 8));
    uint32_t pick = below(r, 100);
    if (pick < 50)
        return need;
    if (pick < 80)
        return need + 1 + below(r, 200);
    return pick < 90 ? need - 1 : below(r, (uint32_t)need);
}

static void make(struct random *r, const struct measures *m, struct input *in)
{
    uint8_t *grid = in->buffer[GRID];
    make_grid(r, m, grid);
    patch_grid(in);
    reference_sign(known_level(in->level) ? in->level : 2, grid, (size_t)m->points);
    spoil_signs(r, m, grid);
    if (chance(r, 5))
        turn_one(r, m, grid);
    in->len[WRITTEN] = make_length_of_pictures(r, m);
    fill(r, in->buffer[WRITTEN], bytes_of(in, WRITTEN));
    if (chance(r, 6))
        spoil_grid(r, m, grid);
}

static uint32_t run(const struct calls *calls, const struct input *lent, uint64_t *counts)
{
    size_t bytes = untouched;
    uint32_t answer = calls->masks(lent->level, lent->buffer[GRID], lent->len[GRID], lent->buffer[WRITTEN], lent->len[WRITTEN], &bytes);
    counts[0] = bytes;
    return answer;
}

const struct call call_masks = {.name = "masks", .share = 100, .buffers = 1u << GRID | 1u << WRITTEN,
                                .answers = 1u << 0 | 1u << 1 | 1u << 2 | 1u << 5 | 1u << 7 | 1u << 8, .counts = {"bytes"},
                                .make = make, .run = run};
