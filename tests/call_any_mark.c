/* Any_mark, for the harness: boxes of one point, of blocks, of the whole grid, beside what is marked or untrue; empty ones, and those that leave
   the grid; tables that are true, and others. */
#include "inputs.h"

/* A point that may settle the answer: a marked one, one of a block whose total is not 0, or any. */
static void choose_point(struct random *r, const struct measures *m, const struct input *in, int at[3])
{
    const uint16_t *totals = (const uint16_t *)in->buffer[TOTALS];
    int p = (int)below(r, (uint32_t)m->points), b = (int)below(r, (uint32_t)blocks_of(m)), side = blocks_a_side(m), kind = (int)below(r, 3);
    for (int tries = 0; kind == 0 && tries < m->points && in->buffer[GRID][p] % 8 == 0; tries++)
        p = (p + 1) % m->points;
    for (int tries = 0; kind == 1 && in->len[TOTALS] >= (size_t)blocks_of(m) && tries < blocks_of(m) && totals[b] == 0; tries++)
        b = (b + 1) % blocks_of(m);
    for (int d = X; d <= Z; d++, b /= side) {
        at[d] = p / m->step[d] % (m->n + 1);
        if (kind == 1)
            at[d] = BLOCK * (b % side) + (b % side + 1 < side ? (int)below(r, BLOCK) : 0);
    }
}

/* One end of a box on an axis: at the point or beside it, where its block begins or ends, where the grid does, or anywhere. */
static int make_end(struct random *r, const struct measures *m, int at, int upper)
{
    int first = at - at % BLOCK;
    switch (below(r, 7)) {
    case 0: return upper ? m->n : 0;
    case 1: return at;
    case 2: return at + between(r, -1, 1);
    case 3: return upper ? first + BLOCK - 1 : first;
    case 4: return upper ? first + BLOCK - 2 : first + 1;
    case 5: return upper ? first + BLOCK : first - 1;
    default: return between(r, 0, m->n);
    }
}

static void make_box(struct random *r, const struct measures *m, struct input *in)
{
    int at[3], whole = chance(r, 8);
    choose_point(r, m, in, at);
    for (int d = X; d <= Z; d++) {
        int low = make_end(r, m, at[d], 0), high = make_end(r, m, at[d], 1);
        low = whole || low < 0 ? 0 : low > m->n ? m->n : low;
        high = whole || high > m->n ? m->n : high < 0 ? 0 : high;
        in->low[d] = (uint32_t)(low < high ? low : high);
        in->high[d] = (uint32_t)(low < high ? high : low);
    }
}

/* Empty on one axis, or beyond the grid, by one or by very much. */
static void spoil_box(struct random *r, const struct measures *m, struct input *in)
{
    const uint32_t n = (uint32_t)m->n, far[] = {n + 1, n + 2, 2 * n, 255, 256, 65536, 0x7fffffff, 0x80000000, 0xfffffffe, 0xffffffff};
    uint32_t beyond = far[below(r, sizeof far / sizeof *far)];
    int d = (int)below(r, 3), kind = (int)below(r, 4);
    if (kind == 0) { /* empty, mostly by one */
        uint32_t above = 1 + below(r, chance(r, 70) ? 1 : n);
        in->low[d] = above;
        in->high[d] = chance(r, 70) ? above - 1 : below(r, above);
    } else if (kind == 1)
        in->high[d] = beyond;
    else if (kind == 2)
        in->low[d] = in->high[d] = beyond;
    else
        in->low[d] = beyond;
}

/* No mark and one total that is not 0, of any size: it is the answer, where its block lies wholly inside. */
static void rest_on_one_total(struct random *r, const struct measures *m, struct input *in)
{
    uint16_t *totals = (uint16_t *)in->buffer[TOTALS];
    for (int p = 0; p < m->points; p++)
        in->buffer[GRID][p] &= (uint8_t)~MARKS;
    memset(totals, 0, bytes_of(in, TOTALS));
    if (in->len[TOTALS] >= (size_t)blocks_of(m))
        totals[below(r, (uint32_t)blocks_of(m))] = (uint16_t)(chance(r, 60) ? 1u << below(r, 16) : next(r));
}

static void make(struct random *r, const struct measures *m, struct input *in)
{
    make_bytes(r, m, in);
    make_totals(r, m, in);
    if (chance(r, 20))
        rest_on_one_total(r, m, in);
    make_box(r, m, in);
    if (chance(r, 8))
        spoil_box(r, m, in);
}

static uint32_t ask(const struct calls *calls, const struct input *in, uint32_t *any)
{
    return calls->any_mark(in->level, in->buffer[GRID], in->len[GRID], (const uint16_t *)in->buffer[TOTALS], in->len[TOTALS], in->low[X],
                           in->low[Y], in->low[Z], in->high[X], in->high[Y], in->high[Z], any);
}

static uint32_t run(const struct calls *calls, const struct input *lent, uint64_t *counts)
{
    uint32_t any = untouched, answer = ask(calls, lent, &any);
    counts[0] = any;
    return answer;
}

static uint32_t read_from_bytes(const struct input *in)
{
    struct measures m = measures_for(in);
    for (uint32_t k = in->low[Z]; k <= in->high[Z]; k++)
        for (uint32_t j = in->low[Y]; j <= in->high[Y]; j++)
            for (uint32_t i = in->low[X]; i <= in->high[X]; i++)
                if (in->buffer[GRID][(int)i * m.step[X] + (int)j * m.step[Y] + (int)k * m.step[Z]] % 8 != 0)
                    return 1;
    return 0;
}

/* When every total is true the answer equals the one read from all the bytes. */
static const char *also(const struct input *in)
{
    uint32_t any, yes;
    if (ask(&the_library, in, &any) ||
        the_library.totals_true(in->level, in->buffer[GRID], in->len[GRID], (const uint16_t *)in->buffer[TOTALS], in->len[TOTALS], &yes) || !yes)
        return NULL;
    return any == read_from_bytes(in) ? NULL : "with a true table the answer is not the one read from all the bytes";
}

const struct call call_any_mark = {.name = "any_mark", .share = 250, .buffers = 1u << GRID | 1u << TOTALS,
                                   .answers = 1u << 0 | 1u << 1 | 1u << 2 | 1u << 15 | 1u << 16, .box = 1, .counts = {"any"},
                                   .make = make, .run = run, .also = also};
