/* Patch, for the harness: grids of every kind, with signs and without, and totals that are true or not. */
#include "inputs.h"

static void make(struct random *r, const struct measures *m, struct input *in)
{
    make_grid(r, m, in->buffer[GRID]);
    if (chance(r, 40))
        make_signs(r, m, in->level, in->buffer[GRID]);
    make_totals(r, m, in);
    if (chance(r, 6))
        spoil_grid(r, m, in->buffer[GRID]);
}

static uint32_t run(const struct calls *calls, const struct input *lent, uint64_t *counts)
{
    uint32_t rims = untouched, flips = untouched, ones = untouched, threes = untouched;
    uint32_t answer = calls->patch(lent->level, lent->buffer[GRID], lent->len[GRID], lent->buffer[WORK], lent->len[WORK],
                                   (uint16_t *)lent->buffer[TOTALS], lent->len[TOTALS], &rims, &flips, &ones, &threes);
    counts[0] = rims;
    counts[1] = flips;
    counts[2] = ones;
    counts[3] = threes;
    return answer;
}

const struct call call_patch = {.name = "patch", .share = 250, .buffers = 1u << GRID | 1u << WORK | 1u << TOTALS,
                                .answers = 1u << 0 | 1u << 1 | 1u << 2 | 1u << 5 | 1u << 16, .counts = {"rims", "flips", "ones", "threes"},
                                .make = make, .run = run};
