/* Mark, for the harness: triangles of every kind, at times too few or too many numbers; totals that are true or not. */
#include "inputs.h"
#include "reference.h"

void make_marking(struct random *r, const struct measures *m, struct input *in)
{
    int32_t *triangle = (int32_t *)in->buffer[TRIANGLE];
    make_grid(r, m, in->buffer[GRID]);
    if (chance(r, 40))
        make_signs(r, m, in->level, in->buffer[GRID]);
    make_triangle(r, m, triangle);
    make_triangle(r, m, triangle + 9);
    fill(r, triangle + 18, (TRIANGLE_ROOM - 18) * sizeof *triangle);
    in->len[TRIANGLE] = chance(r, 95) ? 9 : below(r, TRIANGLE_ROOM);
    if (chance(r, 8))
        for (int bad = between(r, 1, 3); bad > 0; bad--)
            spoil_triangle(r, m, triangle);
    make_totals(r, m, in);
    if (chance(r, 6))
        spoil_grid(r, m, in->buffer[GRID]);
}

static uint32_t run(const struct calls *calls, const struct input *lent, uint64_t *counts)
{
    uint32_t place = untouched, axis = untouched;
    uint32_t answer = calls->mark(lent->level, lent->buffer[GRID], lent->len[GRID], (int32_t *)lent->buffer[TRIANGLE], lent->len[TRIANGLE],
                                  (uint16_t *)lent->buffer[TOTALS], lent->len[TOTALS], &place, &axis);
    counts[0] = place;
    counts[1] = axis;
    return answer;
}

/* The program's reference and the benchmark rest on the mark that looks near the triangle alone: it must be the same. */
static const char *also(const struct input *in)
{
    static uint8_t everywhere[POINT_ROOM], near[POINT_ROOM];
    static uint16_t totals[TOTALS_ROOM], totals_near[TOTALS_ROOM];
    const int32_t *triangle = (int32_t *)in->buffer[TRIANGLE];
    size_t len = in->len[GRID], totals_len = in->len[TOTALS];
    uint32_t place, axis;
    if (in->level == 5) /* the plain scan takes its time there */
        return NULL;
    memcpy(everywhere, in->buffer[GRID], len);
    memcpy(near, in->buffer[GRID], len);
    memcpy(totals, in->buffer[TOTALS], bytes_of(in, TOTALS));
    memcpy(totals_near, in->buffer[TOTALS], bytes_of(in, TOTALS));
    if (reference_mark(in->level, everywhere, len, triangle, in->len[TRIANGLE], totals, totals_len, &place, &axis) ==
            reference_mark_near(in->level, near, len, triangle, in->len[TRIANGLE], totals_near, totals_len, &place, &axis) &&
        !memcmp(everywhere, near, len) && !memcmp(totals, totals_near, bytes_of(in, TOTALS)))
        return NULL;
    return "the reference's two marks differ";
}

const struct call call_mark = {.name = "mark", .share = 350, .buffers = 1u << GRID | 1u << TRIANGLE | 1u << TOTALS,
                               .answers = 1u << 0 | 1u << 1 | 1u << 2 | 1u << 3 | 1u << 4 | 1u << 24 | 1u << 5 | 1u << 16,
                               .counts = {"place", "axis"}, .make = make_marking, .run = run, .also = also};
