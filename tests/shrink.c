/* Shrinks an input on which the two sides differ: a lower level, shorter buffers, fewer marks and bytes, rounder coordinates, a smaller box. */
#include "shrink.h"

#include <time.h>

#include "reference.h"
#include "sides.h"

enum { SECONDS = 10 };

static time_t stop_at;
static uint32_t answer;
static struct input candidate;

/* Copies what the call is lent; the rest of the rooms is never looked at. */
static void copy(struct input *to, const struct input *from)
{
    struct input rooms = *to;
    *to = *from;
    for (int b = 0; b < BUFFERS; b++) {
        to->buffer[b] = rooms.buffer[b];
        memcpy(to->buffer[b], from->buffer[b], bytes_of(from, b));
    }
}

/* Takes the candidate over when the sides differ on it and the reference still gives the same answer. */
static int take(struct input *best)
{
    struct outcome reference;
    char what[200];
    if (time(NULL) > stop_at || !differs(&candidate, &reference, what, sizeof what) || reference.answer != answer)
        return 0;
    copy(best, &candidate);
    return 1;
}

/* Copies the lowest, the middle or the highest part of a buffer (0, 1, 2) into the grid of the next level down. */
static void crop(const struct measures *big, const struct measures *small, const uint8_t *from, uint8_t *to, int which, int marks)
{
    for (int k = 0, p = 0; k <= small->n; k++)
        for (int j = 0; j <= small->n; j++)
            for (int i = 0; i <= small->n; i++, p++) {
                int shift = which * (big->n - small->n) / 2;
                int q = (i + shift) * big->step[X] + (j + shift) * big->step[Y] + (k + shift) * big->step[Z];
                to[p] = (uint8_t)(from[q] & (marks ? inner_edges(small->n, i, j, k) | INSIDE : 255));
            }
}

/* What stands behind the points goes along. */
static size_t crop_buffer(const struct measures *big, const struct measures *small, const uint8_t *from, uint8_t *to, size_t len,
                          int which, int marks)
{
    if (len < (size_t)big->points)
        return len < (size_t)small->points ? len : (size_t)small->points - 1;
    crop(big, small, from, to, which, marks);
    memcpy(to + small->points, from + big->points, len - (size_t)big->points);
    return len - (size_t)(big->points - small->points);
}

static int lower_level(struct input *best, int which)
{
    if (!known_level(best->level) || best->level == 2)
        return 0;
    struct measures big = measures_for(best), small = measures_of(best->level - 1);
    copy(&candidate, best);
    candidate.level--;
    for (int b = 0; b < BUFFERS; b++)
        if (takes(best->call, b) && kinds[b].a_point)
            candidate.len[b] = crop_buffer(&big, &small, best->buffer[b], candidate.buffer[b], best->len[b], which, b == GRID);
    return take(best);
}

/* A buffer of one byte a point around P; any other by less and less. */
static int shorten(struct input *best, int b)
{
    size_t points = (size_t)measures_for(best).points;
    int taken = 0;
    const size_t lengths[] = {0, points - 1, points, points + 1};
    for (int l = 0; kinds[b].a_point && l < 4; l++) {
        copy(&candidate, best);
        candidate.len[b] = lengths[l];
        taken += best->len[b] > lengths[l] && take(best);
    }
    for (size_t cut = best->len[b]; !kinds[b].a_point && cut > 0; cut /= 2) {
        copy(&candidate, best);
        candidate.len[b] -= cut < candidate.len[b] ? cut : candidate.len[b];
        taken += candidate.len[b] < best->len[b] && take(best);
    }
    return taken > 0;
}

/* Makes runs of bytes 0, long runs first; then bit by bit. */
static int clear_bytes(struct input *best, int b)
{
    int taken = 0;
    uint8_t *bytes = candidate.buffer[b];
    size_t len = bytes_of(best, b);
    for (size_t run = len; run > 0; run /= 2)
        for (size_t at = 0; at < len && time(NULL) <= stop_at; at += run) {
            size_t bytes_here = at + run < len ? run : len - at, set = 0;
            copy(&candidate, best);
            for (size_t c = 0; c < bytes_here; c++)
                set += bytes[at + c] != 0;
            memset(bytes + at, 0, bytes_here);
            taken += set > 0 && take(best);
        }
    for (size_t bit = 0; bit < 8 * len; bit++) {
        copy(&candidate, best);
        if (bytes[bit / 8] >> bit % 8 & 1) {
            bytes[bit / 8] ^= (uint8_t)(1 << bit % 8);
            taken += take(best);
        }
    }
    return taken > 0;
}

/* Puts an inside point outside and turns the marks of its six edges; the list gets as much shorter or longer as the quads. */
static void drop_point(struct input *in, const struct measures *m, int p)
{
    int more = 0;
    for (int axis = X; axis <= Z; axis++)
        for (int lower = 0; lower <= 1; lower++) {
            int edge = p - lower * m->step[axis];
            in->buffer[GRID][edge] ^= (uint8_t)(1 << axis);
            more += has(in->buffer[GRID], axis, edge) ? 4 : -4;
        }
    if (takes(in->call, LIST)) {
        in->buffer[GRID][p] &= MARKS;
        in->len[LIST] = more < 0 && in->len[LIST] < (size_t)-more ? 0 : in->len[LIST] + (size_t)more;
    }
}

/* Drops runs of inside points, long runs first, where the signs are those of the grid. */
static int drop_points(struct input *best)
{
    struct measures m = measures_for(best);
    size_t points = (size_t)m.points;
    static uint8_t signed_grid[MOST_POINTS];
    int taken = 0;
    if ((best->call != &call_sign && best->call != &call_surface) || best->len[GRID] < points)
        return 0;
    for (size_t run = points; run > 0; run /= 2)
        for (size_t at = 0; at < points && time(NULL) <= stop_at; at += run) {
            size_t dropped = 0;
            memcpy(signed_grid, best->buffer[GRID], points);
            if (reference_sign(best->level, signed_grid, points))
                return taken > 0;
            copy(&candidate, best);
            for (size_t p = at; p < at + run && p < points; p++)
                if (is_inside(signed_grid, (int)p)) {
                    drop_point(&candidate, &m, (int)p);
                    dropped++;
                }
            taken += dropped > 0 && take(best);
        }
    return taken > 0;
}

/* Takes runs of triangles out of a list, long runs first. */
static int drop_triangles(struct input *best)
{
    int taken = 0;
    for (size_t run = best->len[LISTED] / 9; run > 0; run /= 2)
        for (size_t at = 0; at + run <= best->len[LISTED] / 9 && time(NULL) <= stop_at;) {
            int32_t *list = (int32_t *)candidate.buffer[LISTED];
            copy(&candidate, best);
            memmove(list + 9 * at, list + 9 * (at + run), (best->len[LISTED] - 9 * (at + run)) * sizeof *list);
            candidate.len[LISTED] -= 9 * run;
            if (take(best))
                taken++;
            else
                at += run;
        }
    return taken > 0;
}

/* Rounds coordinates, coarsely first; then moves a vertex onto another. */
static int round_triangle(struct input *best)
{
    struct measures m = measures_for(best);
    int32_t *now = (int32_t *)best->buffer[TRIANGLE], *then = (int32_t *)candidate.buffer[TRIANGLE];
    int taken = 0;
    for (size_t c = 0; c < best->len[TRIANGLE]; c++)
        for (int unit = m.s; unit > 1; unit /= 2) {
            copy(&candidate, best);
            then[c] = then[c] / unit * unit;
            if (then[c] != now[c] && take(best)) {
                taken++;
                break;
            }
        }
    for (int v = 0; best->len[TRIANGLE] == 9 && v < 9; v++) {
        copy(&candidate, best);
        memcpy(then + 3 * (v / 3), now + 3 * (v % 3), 3 * sizeof *then);
        taken += v / 3 > v % 3 && memcmp(then, now, 9 * sizeof *then) && take(best);
    }
    return taken > 0;
}

/* Moves an end of the box to the other, or half of the way there. */
static int narrow_box(struct input *best)
{
    int taken = 0;
    for (int d = X; best->call->box && d <= Z; d++)
        for (int half = 0; half <= 1; half++) {
            uint32_t low = best->low[d], high = best->high[d], middle = half ? low / 2 + high / 2 : high;
            copy(&candidate, best);
            candidate.low[d] = middle;
            taken += low < middle && take(best);
            copy(&candidate, best);
            candidate.high[d] = middle = half ? best->low[d] / 2 + high / 2 : best->low[d];
            taken += middle < high && take(best);
        }
    return taken > 0;
}

void shrink(struct input *best, uint32_t reference_answer)
{
    stop_at = time(NULL) + SECONDS;
    answer = reference_answer;
    candidate = new_input();
    for (int smaller = 1; smaller;) {
        smaller = drop_points(best);
        smaller |= lower_level(best, 0) || lower_level(best, 1) || lower_level(best, 2);
        smaller |= drop_triangles(best);
        for (int b = 0; b < BUFFERS; b++)
            smaller |= shorten(best, b);
        for (int b = 0; b < BUFFERS; b++)
            smaller |= b != TRIANGLE && b != LISTED && clear_bytes(best, b);
        smaller |= round_triangle(best);
        smaller |= narrow_box(best);
    }
}
