/* Open, for the harness: any bytes will do, and any totals. */
#include "inputs.h"

static uint32_t run(const struct calls *calls, const struct input *lent, uint64_t *counts)
{
    (void)counts;
    return calls->open(lent->level, lent->buffer[GRID], lent->len[GRID], (uint16_t *)lent->buffer[TOTALS], lent->len[TOTALS]);
}

const struct call call_open = {.name = "open", .share = 50, .buffers = 1u << GRID | 1u << TOTALS,
                               .answers = 1u << 0 | 1u << 1 | 1u << 2 | 1u << 16, .make = make_totals, .run = run};
