/* Tables of totals, true and untrue, of any length; and bytes that make no grid, for the calls that judge none (M-108). */
#include "inputs.h"

/* A table's length: mostly as many as there are blocks or more, at times one too few, or none. */
static size_t make_table_length(struct random *r, const struct measures *m)
{
    uint32_t pick = below(r, 100), blocks = (uint32_t)blocks_of(m);
    return pick < 60 ? blocks : pick < 92 ? blocks + 1 + below(r, 90) : pick < 96 ? blocks - 1 : pick < 98 ? 0 : below(r, blocks);
}

/* A total that is wrong nearly always: few or many, no more than a block's marks or more, or with a low byte of 0. */
static uint16_t any_total(struct random *r)
{
    static const uint16_t some[] = {0, 0, 1, 2, 191, 192, 193, 255, 256, 512, 0x8000, 0xff00, 0xffff};
    return chance(r, 80) ? some[below(r, sizeof some / sizeof *some)] : (uint16_t)next(r);
}

void make_true(const struct measures *m, struct input *in)
{
    static uint16_t totals[MOST_BLOCKS];
    size_t blocks = (size_t)blocks_of(m), len = in->len[TOTALS];
    reference_recount(m, in->buffer[GRID], totals);
    memcpy(in->buffer[TOTALS], totals, (len < blocks ? len : blocks) * sizeof *totals);
}

void make_untrue(struct random *r, const struct measures *m, struct input *in)
{
    uint16_t *totals = (uint16_t *)in->buffer[TOTALS];
    uint32_t kind = below(r, 10), blocks = (uint32_t)blocks_of(m);
    if (in->len[TOTALS] < blocks)
        return;
    if (kind == 0)
        fill(r, totals, blocks * sizeof *totals);
    else if (kind == 1)
        memset(totals, 0, blocks * sizeof *totals);
    else if (kind <= 5) /* of any block, or of the last ones on an axis, which are cut off */
        for (uint32_t many = 1 + below(r, 3); many > 0; many--)
            totals[chance(r, 60) ? below(r, blocks) : blocks - 1 - below(r, (uint32_t)blocks_a_side(m))] = any_total(r);
    else if (kind == 6) { /* two exchanged */
        uint32_t one = below(r, blocks), two = below(r, blocks);
        uint16_t kept = totals[one];
        totals[one] = totals[two];
        totals[two] = kept;
    } else /* by one */
        totals[kind == 9 ? blocks - 1 : below(r, blocks)] += chance(r, 50) ? 1 : 0xffff;
}

void make_totals(struct random *r, const struct measures *m, struct input *in)
{
    in->len[TOTALS] = make_table_length(r, m);
    fill(r, in->buffer[TOTALS], bytes_of(in, TOTALS));
    if (chance(r, 60))
        make_true(m, in);
    if (chance(r, 40))
        make_untrue(r, m, in);
}

/* A byte at any point, or at one where the grid ends: with marks, which the rules do not allow there, or with values above 7 alone. */
static void put_byte(struct random *r, const struct measures *m, uint8_t *grid)
{
    int p = 0, end = chance(r, 40) ? (int)below(r, 3) : -1;
    for (int d = X; d <= Z; d++)
        p += m->step[d] * (d == end ? m->n : between(r, 0, m->n));
    uint8_t marks = (uint8_t)(chance(r, 70) ? 1u << below(r, 3) : below(r, 8)), more = (uint8_t)(chance(r, 50) ? 0 : 8 * below(r, 32));
    grid[p] = chance(r, 25) ? more : marks | more;
}

void make_bytes(struct random *r, const struct measures *m, struct input *in)
{
    uint8_t *grid = in->buffer[GRID];
    uint32_t kind = below(r, 10);
    memset(grid, 0, (size_t)m->points);
    if (kind <= 2) {
        make_grid(r, m, grid);
        if (chance(r, 40))
            make_signs(r, m, in->level, grid);
        if (chance(r, 40))
            spoil_grid(r, m, grid);
    } else if (kind == 3)
        fill(r, grid, (size_t)m->points);
    else if (kind <= 5) /* no mark anywhere, but for what comes below */
        for (int p = 0; p < m->points; p++)
            grid[p] = (uint8_t)(8 * below(r, 32));
    for (uint32_t many = below(r, 4); kind > 3 && many > 0; many--)
        put_byte(r, m, grid);
}
