/* Write a job, for the harness: any kinds, bodies of the right and of about the right length, grids that are none, and files of about the
   right room. */
#include "inputs.h"

static size_t body_length(struct random *r, uint32_t unit)
{
    size_t right = (size_t)unit * (chance(r, 15) ? 0 : 1 + below(r, MOST_JOB));
    return chance(r, 92) ? right : chance(r, 50) ? right + 1 + below(r, unit - 1) : right / unit;
}

static void make(struct random *r, const struct measures *m, struct input *in)
{
    static const uint32_t bad[] = {8, 9, 15, 16, 255, 256, 0x10001, 0x80000007, 0xffffffff};
    in->bodies = chance(r, 40) ? 7 : below(r, 8);
    if (chance(r, 4))
        in->bodies = bad[below(r, sizeof bad / sizeof *bad)];
    if (chance(r, 80))
        in->len[GRID] = (size_t)m->points;
    make_grid(r, m, in->buffer[GRID]);
    if (chance(r, 10))
        spoil_grid(r, m, in->buffer[GRID]);
    in->len[JOB_TRIANGLES] = body_length(r, 36);
    in->len[JOB_QUADS] = body_length(r, 8);
    fill(r, in->buffer[JOB_TRIANGLES], in->len[JOB_TRIANGLES]);
    fill(r, in->buffer[JOB_QUADS], in->len[JOB_QUADS]);
    const size_t lengths[] = {in->len[GRID], in->len[JOB_TRIANGLES], in->len[JOB_QUADS]};
    size_t end = 2;
    for (int k = 0; k < 3; k++)
        if (in->bodies >> k & 1)
            end += 9 + lengths[k];
    uint32_t pick = below(r, 100);
    in->len[JOB] = pick < 60 ? end : pick < 90 ? end + 1 + below(r, 50) : pick < 96 ? end - 1 : below(r, (uint32_t)end);
    fill(r, in->buffer[JOB], in->len[JOB]);
}

static uint32_t run(const struct calls *calls, const struct input *lent, uint64_t *counts)
{
    size_t bytes = untouched;
    uint32_t answer = calls->write_job(lent->level, lent->bodies, lent->buffer[GRID], lent->len[GRID], lent->buffer[JOB_TRIANGLES],
                                       lent->len[JOB_TRIANGLES], lent->buffer[JOB_QUADS], lent->len[JOB_QUADS], lent->buffer[JOB],
                                       lent->len[JOB], &bytes);
    counts[0] = bytes;
    return answer;
}

const struct call call_write_job = {.name = "write_job", .share = 150,
                                    .buffers = 1u << GRID | 1u << JOB_TRIANGLES | 1u << JOB_QUADS | 1u << JOB,
                                    .answers = 1u << 0 | 1u << 1 | 1u << 5 | 1u << 8 | 1u << 19 | 1u << 20, .counts = {"bytes"},
                                    .make = make, .run = run};
