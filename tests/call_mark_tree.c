/* Mark by the descent, for the harness: mark's own inputs, and a triangle through much of the grid half of the time. */
#include "inputs.h"
#include "reference.h"

static void make(struct random *r, const struct measures *m, struct input *in)
{
    make_marking(r, m, in);
    if (chance(r, 50))
        for (int c = 0; c < 9; c++) {
            int32_t *at = (int32_t *)in->buffer[TRIANGLE] + c, low = lowest(m), high = highest(m);
            if (low <= *at && *at <= high && chance(r, 60)) /* what is out of range stays so */
                *at = chance(r, 50) ? between(r, low, 2 * low) : between(r, high - low, high);
        }
}

static uint32_t run(const struct calls *calls, const struct input *lent, uint64_t *counts)
{
    uint32_t place = untouched, axis = untouched;
    uint32_t answer = calls->mark_tree(lent->level, lent->buffer[GRID], lent->len[GRID], (int32_t *)lent->buffer[TRIANGLE],
                                       lent->len[TRIANGLE], (uint16_t *)lent->buffer[TOTALS], lent->len[TOTALS], &place, &axis);
    counts[0] = place;
    counts[1] = axis;
    return answer;
}

/* Nobody can tell the descent from mark: the reference's two, on every input. */
static const char *also(const struct input *in)
{
    static uint8_t near[POINT_ROOM], tree[POINT_ROOM];
    static uint16_t totals_near[TOTALS_ROOM], totals_tree[TOTALS_ROOM];
    const int32_t *triangle = (int32_t *)in->buffer[TRIANGLE];
    size_t len = in->len[GRID], totals_len = in->len[TOTALS];
    uint32_t place[2], axis[2];
    memcpy(near, in->buffer[GRID], len);
    memcpy(tree, in->buffer[GRID], len);
    memcpy(totals_near, in->buffer[TOTALS], bytes_of(in, TOTALS));
    memcpy(totals_tree, in->buffer[TOTALS], bytes_of(in, TOTALS));
    if (reference_mark_near(in->level, near, len, triangle, in->len[TRIANGLE], totals_near, totals_len, &place[0], &axis[0]) ==
            reference_mark_tree(in->level, tree, len, triangle, in->len[TRIANGLE], totals_tree, totals_len, &place[1], &axis[1]) &&
        place[0] == place[1] && axis[0] == axis[1] && !memcmp(near, tree, len) && !memcmp(totals_near, totals_tree, bytes_of(in, TOTALS)))
        return NULL;
    return "the reference's scan and descent differ";
}

const struct call call_mark_tree = {.name = "mark_tree", .share = 250, .buffers = 1u << GRID | 1u << TRIANGLE | 1u << TOTALS,
                                    .answers = 1u << 0 | 1u << 1 | 1u << 2 | 1u << 3 | 1u << 4 | 1u << 24 | 1u << 5 | 1u << 16,
                                    .counts = {"place", "axis"}, .make = make, .run = run, .also = also};
