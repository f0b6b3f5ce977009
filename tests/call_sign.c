/* Sign, for the harness: mostly marks that have signs, with other signs there before. */
#include "inputs.h"

static void make(struct random *r, const struct measures *m, struct input *in)
{
    make_grid(r, m, in->buffer[GRID]);
    if (chance(r, 70))
        patch_grid(in);
    if (chance(r, 60))
        make_signs(r, m, in->level, in->buffer[GRID]);
    if (chance(r, 6))
        spoil_grid(r, m, in->buffer[GRID]);
}

static uint32_t run(const struct calls *calls, const struct input *lent, uint64_t *counts)
{
    (void)counts;
    return calls->sign(lent->level, lent->buffer[GRID], lent->len[GRID]);
}

const struct call call_sign = {.name = "sign", .share = 150, .buffers = 1u << GRID,
                               .answers = 1u << 0 | 1u << 1 | 1u << 2 | 1u << 5 | 1u << 6, .make = make, .run = run};
