/* Count_totals, for the harness: bytes of every kind, with tables that hold anything before. */
#include "inputs.h"

static void make(struct random *r, const struct measures *m, struct input *in)
{
    make_bytes(r, m, in);
    make_totals(r, m, in);
}

static uint32_t run(const struct calls *calls, const struct input *lent, uint64_t *counts)
{
    (void)counts;
    return calls->count_totals(lent->level, lent->buffer[GRID], lent->len[GRID], (uint16_t *)lent->buffer[TOTALS], lent->len[TOTALS]);
}

/* What is counted is true. */
static const char *also(const struct input *in)
{
    static uint16_t totals[TOTALS_ROOM];
    uint32_t yes;
    memcpy(totals, in->buffer[TOTALS], bytes_of(in, TOTALS));
    if (the_library.count_totals(in->level, in->buffer[GRID], in->len[GRID], totals, in->len[TOTALS]))
        return NULL;
    if (the_library.totals_true(in->level, in->buffer[GRID], in->len[GRID], totals, in->len[TOTALS], &yes))
        return "totals_true refuses what count_totals took";
    return yes ? NULL : "a table that was just counted is said to be untrue";
}

const struct call call_count_totals = {.name = "count_totals", .share = 100, .buffers = 1u << GRID | 1u << TOTALS,
                                       .answers = 1u << 0 | 1u << 1 | 1u << 2 | 1u << 16, .make = make, .run = run, .also = also};
