/* Mark_all, for the harness: lists of none, one and many triangles, at times cut off within one, at times with bad coordinates, in the last
   triangle above all. */
#include "inputs.h"
#include "reference.h"

/* How many triangles: fewer where each takes longer. */
static uint32_t make_count(struct random *r, const struct measures *m)
{
    uint32_t pick = below(r, 100), most = m->n == 4 ? MOST_LISTED : m->n == 8 ? MOST_LISTED / 4 : MOST_LISTED / 40;
    return pick < 10 ? 0 : pick < 40 ? 1 : pick < 85 ? 2 + below(r, 7) : 1 + below(r, most);
}

static void make(struct random *r, const struct measures *m, struct input *in)
{
    int32_t *list = (int32_t *)in->buffer[LISTED];
    uint32_t count = make_count(r, m);
    make_grid(r, m, in->buffer[GRID]);
    if (chance(r, 40))
        make_signs(r, m, in->level, in->buffer[GRID]);
    make_totals(r, m, in);
    for (uint32_t t = 0; t <= count; t++)
        make_triangle(r, m, list + 9 * t);
    in->len[LISTED] = 9 * count;
    if (chance(r, 6))
        in->len[LISTED] += below(r, 9);
    if (count > 0 && chance(r, 12))
        for (int bad = between(r, 1, 3); bad > 0; bad--)
            spoil_triangle(r, m, list + 9 * (chance(r, 40) ? count - 1 : chance(r, 30) ? 0 : below(r, count)));
    if (chance(r, 6))
        spoil_grid(r, m, in->buffer[GRID]);
}

static uint32_t run(const struct calls *calls, const struct input *lent, uint64_t *counts)
{
    size_t place = (size_t)untouched << 32 | untouched;
    uint32_t axis = untouched;
    uint32_t answer = calls->mark_all(lent->level, lent->buffer[GRID], lent->len[GRID], (int32_t *)lent->buffer[LISTED], lent->len[LISTED],
                                      (uint16_t *)lent->buffer[TOTALS], lent->len[TOTALS], &place, &axis);
    counts[0] = place;
    counts[1] = axis;
    return answer;
}

/* Its promise: what mark leaves, called for each triangle in turn. */
static const char *also(const struct input *in)
{
    static uint8_t all[POINT_ROOM], each[POINT_ROOM];
    static uint16_t totals_all[TOTALS_ROOM], totals_each[TOTALS_ROOM];
    const int32_t *list = (int32_t *)in->buffer[LISTED];
    size_t len = in->len[GRID], totals_len = in->len[TOTALS], place;
    uint32_t axis, answer = 0, one;
    memcpy(all, in->buffer[GRID], len);
    memcpy(each, in->buffer[GRID], len);
    memcpy(totals_all, in->buffer[TOTALS], bytes_of(in, TOTALS));
    memcpy(totals_each, in->buffer[TOTALS], bytes_of(in, TOTALS));
    if (reference_mark_all(in->level, all, len, list, in->len[LISTED], totals_all, totals_len, &place, &axis) != 0)
        return NULL;
    for (size_t at = 0; at < in->len[LISTED]; at += 9)
        answer |= reference_mark_near(in->level, each, len, list + at, 9, totals_each, totals_len, &one, &axis);
    if (answer == 0 && !memcmp(all, each, len) && !memcmp(totals_all, totals_each, bytes_of(in, TOTALS)))
        return NULL;
    return "the reference's mark_all leaves something else than its mark for each triangle";
}

const struct call call_mark_all = {.name = "mark_all", .share = 250, .buffers = 1u << GRID | 1u << LISTED | 1u << TOTALS,
                                   .answers = 1u << 0 | 1u << 1 | 1u << 2 | 1u << 3 | 1u << 4 | 1u << 24 | 1u << 5 | 1u << 16,
                                   .counts = {"place", "axis"}, .make = make, .run = run, .also = also};
