/* Totals_true, for the harness: bytes of every kind, with their own totals, with one that is wrong, and with any. */
#include "inputs.h"

static void make(struct random *r, const struct measures *m, struct input *in)
{
    make_bytes(r, m, in);
    make_totals(r, m, in);
}

static uint32_t run(const struct calls *calls, const struct input *lent, uint64_t *counts)
{
    uint32_t yes = untouched;
    uint32_t answer =
        calls->totals_true(lent->level, lent->buffer[GRID], lent->len[GRID], (const uint16_t *)lent->buffer[TOTALS], lent->len[TOTALS], &yes);
    counts[0] = yes;
    return answer;
}

const struct call call_totals_true = {.name = "totals_true", .share = 100, .buffers = 1u << GRID | 1u << TOTALS,
                                      .answers = 1u << 0 | 1u << 1 | 1u << 2 | 1u << 16, .counts = {"yes"}, .make = make, .run = run};
