/* Accept, for the harness: surfaces of grids of every kind, shuffled and begun at any corner; each with quads taken out, doubled, reversed or
   moved, or with a number changed; the surfaces of two grids in one list; lists of no quads at all. */
#include "inputs.h"
#include "reference.h"

enum { NUMBERS_A_QUAD = 4 };

static void swap_quads(uint16_t *a, uint16_t *b)
{
    uint16_t kept[NUMBERS_A_QUAD];
    memcpy(kept, a, sizeof kept);
    memcpy(a, b, sizeof kept);
    memcpy(b, kept, sizeof kept);
}

static void begin_elsewhere(struct random *r, uint16_t *quad)
{
    uint16_t turned[NUMBERS_A_QUAD];
    uint32_t first = below(r, NUMBERS_A_QUAD);
    for (uint32_t c = 0; c < NUMBERS_A_QUAD; c++)
        turned[c] = quad[(first + c) % NUMBERS_A_QUAD];
    memcpy(quad, turned, sizeof turned);
}

static void reverse_quad(uint16_t *quad)
{
    uint16_t second = quad[1];
    quad[1] = quad[3];
    quad[3] = second;
}

static void shuffle(struct random *r, uint16_t *list, size_t quads)
{
    for (size_t q = quads; q > 1; q--)
        swap_quads(list + NUMBERS_A_QUAD * (q - 1), list + NUMBERS_A_QUAD * below(r, (uint32_t)q));
    for (size_t q = 0; q < quads; q++)
        begin_elsewhere(r, list + NUMBERS_A_QUAD * q);
}

/* Signs of many kinds: a checkerboard, so that faces have four marks; a block with a cavity; one point; scattered points. Surfaces of tens of
   thousands of quads are made at times only. */
static void choose_inside(struct random *r, const struct measures *m, uint8_t *inside)
{
    uint32_t large = m->n >= 16 && chance(r, 90), kind = large ? 1 + below(r, 3) : below(r, 5), percent = large ? 1 : 1 + below(r, 99);
    int low = between(r, 1, m->n - 1), most = large && m->n - 1 - low > 5 ? low + 5 : m->n - 1, high = between(r, low, most), hole = between(r, low, high);
    for (int k = 0, p = 0; k <= m->n; k++)
        for (int j = 0; j <= m->n; j++)
            for (int i = 0; i <= m->n; i++, p++) {
                int deep = 0 < i && i < m->n && 0 < j && j < m->n && 0 < k && k < m->n, on = 0;
                if (kind == 0)
                    on = (i + j + k) % 2;
                else if (kind == 1)
                    on = low <= i && i <= high && low <= j && j <= high && low <= k && k <= high && !(i == hole && j == hole && k == hole);
                else if (kind == 2)
                    on = i == low && j == high && k == hole;
                else
                    on = chance(r, percent);
                inside[p] = (uint8_t)(on && deep);
            }
    if (chance(r, 10)) /* an outer point too, or another one */
        inside[below(r, (uint32_t)m->points)] = 1;
}

/* The surface of signs, the edges with a sign change that have four cells around them; answers how many quads. */
static size_t make_surface(const struct measures *m, const uint8_t *inside, uint16_t *list)
{
    size_t quads = 0;
    for (int k = 0, p = 0; k <= m->n; k++)
        for (int j = 0; j <= m->n; j++)
            for (int i = 0; i <= m->n; i++, p++)
                for (int axis = X; axis <= Z; axis++)
                    if (inner_edges(m->n, i, j, k) >> axis & 1 && inside[p] != inside[p + m->step[axis]]) {
                        uint16_t *quad = list + NUMBERS_A_QUAD * quads++;
                        int step[3] = {1, m->n, m->n * m->n}, u = step[(axis + 1) % 3], v = step[(axis + 2) % 3];
                        int at = i + m->n * (j + m->n * k);
                        quad[0] = (uint16_t)(at - u - v);
                        quad[1] = (uint16_t)(at - v);
                        quad[2] = (uint16_t)at;
                        quad[3] = (uint16_t)(at - u);
                        if (!inside[p])
                            reverse_quad(quad);
                    }
    return quads;
}

/* One fault, or several of a kind; answers how many quads the list has then. */
static size_t spoil_list(struct random *r, const struct measures *m, uint16_t *list, size_t quads)
{
    uint32_t kind = below(r, 12), cells = (uint32_t)(m->n * m->n * m->n);
    uint16_t *quad = list + NUMBERS_A_QUAD * (quads > 0 ? below(r, (uint32_t)quads) : 0), *last = list + NUMBERS_A_QUAD * quads;
    if (quads == 0 || kind == 0) { /* a quad of any numbers */
        for (int c = 0; c < NUMBERS_A_QUAD; c++)
            last[c] = (uint16_t)(chance(r, 50) ? below(r, cells) : below(r, 65536));
        return quads + 1;
    }
    if (kind == 1) { /* taken out */
        swap_quads(quad, last - NUMBERS_A_QUAD);
        return quads - 1;
    }
    if (kind <= 3) { /* doubled, the second as it is, from another corner, or reversed */
        memcpy(last, quad, NUMBERS_A_QUAD * sizeof *quad);
        begin_elsewhere(r, last);
        if (kind == 3)
            reverse_quad(last);
        return quads + 1;
    }
    if (kind == 4) /* reversed */
        reverse_quad(quad);
    else if (kind == 5) /* all of them */
        for (size_t q = 0; q < quads; q++)
            reverse_quad(list + NUMBERS_A_QUAD * q);
    else if (kind == 6) { /* moved */
        int n = m->n, steps[] = {1, n, n * n, -1, -n, -n * n, n * n * n, 0x8000}, by = steps[below(r, 8)];
        for (int c = 0; c < NUMBERS_A_QUAD; c++)
            quad[c] = (uint16_t)(quad[c] + by);
    } else if (kind == 7) /* a number changed */
        quad[below(r, NUMBERS_A_QUAD)] =
            (uint16_t)(chance(r, 30) ? quad[0] ^ 0x8000u : chance(r, 50) ? cells + below(r, 40) : below(r, cells));
    else if (kind == 8) { /* two corners exchanged */
        uint16_t first = quad[0];
        quad[0] = quad[1];
        quad[1] = first;
    } else if (kind == 9) { /* one in the place of another */
        memcpy(list + NUMBERS_A_QUAD * below(r, (uint32_t)quads), quad, NUMBERS_A_QUAD * sizeof *quad);
    } else if (kind == 10) { /* doubled three times over */
        for (int more = 0; more < 2; more++)
            memcpy(last + NUMBERS_A_QUAD * more, quad, NUMBERS_A_QUAD * sizeof *quad);
        return quads + 2;
    } else /* all moved, so that an outer point is inside */
        for (size_t c = 0; c < NUMBERS_A_QUAD * quads; c++)
            list[c] = (uint16_t)(list[c] - 1);
    return quads;
}

static void make(struct random *r, const struct measures *m, struct input *in)
{
    static uint8_t inside[MOST_POINTS];
    uint16_t *list = (uint16_t *)in->buffer[LIST];
    choose_inside(r, m, inside);
    size_t quads = chance(r, 3) ? 0 : make_surface(m, inside, list);
    if (m->n < 32 && chance(r, 8)) { /* a second grid's surface behind the first's */
        choose_inside(r, m, inside);
        quads += make_surface(m, inside, list + NUMBERS_A_QUAD * quads);
    }
    shuffle(r, list, quads);
    if (chance(r, 50))
        quads = spoil_list(r, m, list, quads);
    in->len[LIST] = NUMBERS_A_QUAD * quads + (chance(r, 4) ? 1 + below(r, 3) : 0);
}

static uint32_t run(const struct calls *calls, const struct input *lent, uint64_t *counts)
{
    uint32_t yes = untouched;
    uint32_t answer = calls->accept(lent->level, (const uint16_t *)lent->buffer[LIST], lent->len[LIST], lent->buffer[GRID], lent->len[GRID],
                                    lent->buffer[WORK], lent->len[WORK], &yes);
    counts[0] = yes;
    return answer;
}

/* What is accepted, written by surface again, is accepted and gives the same grid. Where the two sides answer otherwise the comparison tells it. */
static const char *also(const struct input *in)
{
    static uint16_t list[LIST_ROOM];
    static uint8_t grid[POINT_ROOM], again[POINT_ROOM], work[POINT_ROOM];
    const uint16_t *lent = (const uint16_t *)in->buffer[LIST];
    size_t points = known_level(in->level) ? (size_t)measures_of(in->level).points : 0, len = in->len[LIST];
    uint32_t yes, quads;
    if (the_reference.accept(in->level, lent, len, again, POINT_ROOM, work, POINT_ROOM, &yes) || !yes)
        return NULL;
    if (the_library.accept(in->level, lent, len, grid, POINT_ROOM, work, POINT_ROOM, &yes) || !yes || memcmp(grid, again, points))
        return NULL;
    if (the_library.surface(in->level, grid, POINT_ROOM, list, LIST_ROOM, &quads))
        return "surface refuses the grid that was given";
    if (NUMBERS_A_QUAD * (size_t)quads != len)
        return "surface writes another number of quads";
    if (the_library.accept(in->level, list, len, again, POINT_ROOM, work, POINT_ROOM, &yes) || !yes)
        return "what surface writes is not accepted";
    return memcmp(grid, again, points) ? "what surface writes gives another grid" : NULL;
}

const struct call call_accept = {.name = "accept", .share = 100, .buffers = 1u << GRID | 1u << WORK | 1u << LIST,
                                 .answers = 1u << 0 | 1u << 1 | 1u << 2 | 1u << 17, .counts = {"yes"},
                                 .make = make, .run = run, .also = also};
