/* Read a job, for the harness: files with any of the three bodies, whole and damaged in every sentence of the refusals, several at a time;
   and of one small job every truncation and every single changed byte. */
#include "inputs.h"

/* A job as it is laid out: its lines of contents, and how many bytes of what they lead to. */
struct line {
    uint8_t kind;
    uint32_t at, len;
};

static void put_word(uint8_t *at, uint32_t word)
{
    for (int b = 0; b < 4; b++)
        at[b] = (uint8_t)(word >> 8 * b);
}

static uint32_t bytes_of_kind(struct random *r, const struct measures *m, int kind)
{
    return kind == 1 ? (uint32_t)m->points : (kind == 2 ? 36 : 8) * (chance(r, 15) ? 0 : 1 + below(r, MOST_JOB));
}

/* Some of the three kinds, in rising order and without gaps. */
static uint32_t lay_out(struct random *r, const struct measures *m, struct line *lines)
{
    uint32_t count = 0, wanted = chance(r, 40) ? 7 : below(r, 8);
    for (int kind = 1; kind <= 3; kind++)
        if (wanted >> (kind - 1) & 1)
            lines[count++] = (struct line){(uint8_t)kind, 0, bytes_of_kind(r, m, kind)};
    return count;
}

static uint32_t place(struct line *lines, uint32_t count)
{
    uint32_t next = 2 + 9 * count;
    for (uint32_t l = 0; l < count; l++) {
        lines[l].at = next;
        next += lines[l].len;
    }
    return next;
}

/* Kinds that are unknown, repeated or out of order, with offsets that fit them or not. */
static void spoil_kinds(struct random *r, struct line *lines, uint32_t count)
{
    static const uint8_t unknown[] = {0, 4, 5, 129, 255};
    uint32_t l = below(r, count), other = below(r, count);
    struct line kept = lines[l];
    if (chance(r, 40)) {
        lines[l].kind = unknown[below(r, sizeof unknown)];
    } else if (chance(r, 50)) {
        lines[l].kind = (uint8_t)(1 + below(r, 3));
    } else {
        lines[l] = lines[other];
        lines[other] = kept;
    }
}

/* An offset or a length that is wrong: by one, a gap, anything, or counted in elements. */
static void spoil_places(struct random *r, struct line *lines, uint32_t count)
{
    uint32_t l = below(r, count), pick = below(r, 10), unit = lines[l].kind == 1 ? 1 : lines[l].kind == 2 ? 36 : 8;
    if (pick == 0)
        lines[l].at += (uint32_t)(chance(r, 50) ? 1 : -1);
    else if (pick == 1)
        lines[l].len += (uint32_t)(chance(r, 50) ? 1 : -1);
    else if (pick == 2)
        lines[l].len += unit;
    else if (pick == 3)
        lines[l].at = (uint32_t)next(r);
    else if (pick == 4)
        lines[l].len = (uint32_t)next(r);
    else if (pick == 5)
        lines[l].len /= unit;
    else
        for (uint32_t gap = 1 + below(r, 9); l < count; l++)
            lines[l].at += gap;
}

static void put_lines(uint8_t *file, const struct line *lines, uint32_t count)
{
    for (uint32_t l = 0; l < count; l++) {
        file[2 + 9 * l] = lines[l].kind;
        put_word(file + 3 + 9 * l, lines[l].at);
        put_word(file + 7 + 9 * l, lines[l].len);
    }
}

static void make(struct random *r, const struct measures *m, struct input *in)
{
    uint8_t *file = in->buffer[JOB];
    struct line lines[3];
    (void)m;
    in->level &= 255;
    struct measures of_file = measures_for(in);
    uint32_t count = lay_out(r, &of_file, lines), end;
    if (count > 1 && chance(r, 8)) /* out of order, and yet without gaps */
        spoil_kinds(r, lines, count);
    end = place(lines, count);
    fill(r, file, JOB_ROOM);
    if (count > 0 && lines[0].kind == 1) {
        make_grid(r, &of_file, file + lines[0].at);
        if (chance(r, 15))
            spoil_grid(r, &of_file, file + lines[0].at);
    }
    if (count > 0 && chance(r, 15))
        spoil_kinds(r, lines, count);
    if (count > 0 && chance(r, 20))
        spoil_places(r, lines, count);
    file[0] = (uint8_t)in->level;
    file[1] = (uint8_t)(chance(r, 95) ? count : chance(r, 50) ? 4 + below(r, 252) : below(r, 4));
    put_lines(file, lines, count);
    uint32_t pick = below(r, 100);
    in->len[JOB] = pick < 80 ? end : pick < 85 ? end + 1 + below(r, 40) : pick < 90 ? end - 1 : pick < 95 ? below(r, 40) : below(r, end);
}

/* The small job of level 2, all three bodies, and what is done to it: a truncation to each length, then each byte with each other value. */
enum { SMALL = 29 + 125 + 36 + 8 };

static void make_every(uint64_t number, struct input *in)
{
    uint8_t *file = in->buffer[JOB];
    static const struct line lines[3] = {{1, 29, 125}, {2, 154, 36}, {3, 190, 8}};
    in->level = 2;
    memset(file, 0, SMALL);
    file[0] = 2;
    file[1] = 3;
    put_lines(file, lines, 3);
    file[29 + 62] = 7; /* the three marks of point (2,2,2) */
    in->len[JOB] = number < SMALL ? number : SMALL;
    if (number >= SMALL)
        file[(number - SMALL) / 255] += (uint8_t)(1 + (number - SMALL) % 255);
}

static uint32_t run(const struct calls *calls, const struct input *lent, uint64_t *counts)
{
    uint32_t told[7];
    for (int t = 0; t < 7; t++)
        told[t] = untouched;
    uint32_t answer = calls->read_job(lent->buffer[JOB], lent->len[JOB], &told[0], &told[1], &told[2], &told[3], &told[4], &told[5], &told[6]);
    for (int t = 0; t < 7; t++)
        counts[t] = told[t];
    return answer;
}

const struct call call_read_job = {.name = "read_job", .share = 150, .buffers = 1u << JOB,
                                   .answers = 1u << 0 | 1u << 1 | 1u << 5 | 1u << 18 | 1u << 19 | 1u << 20,
                                   .counts = {"level", "kinds", "grid_at", "triangles_at", "triangles_len", "quads_at", "quads_len"},
                                   .make = make, .run = run, .every = SMALL + SMALL * 255, .make_every = make_every};
