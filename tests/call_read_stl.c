/* Read, for the harness: files with floats of every exponent, halves, numbers that are not finite in every place, counts and lengths that do
   not fit each other, lists of about the right length, and `solid` in all forms. */
#include "inputs.h"

enum { SIGN_BIT = 1 << 31, LIMIT = 0x4e800000 /* 2^30 */ };

static int32_t make_e(struct random *r)
{
    static const int32_t bad[] = {21, -21, 22, 255, 276, -236, INT32_MAX, INT32_MIN, INT32_MIN + 20};
    if (chance(r, 4))
        return bad[below(r, sizeof bad / sizeof *bad)];
    return chance(r, 15) ? (chance(r, 50) ? 20 : -20) : between(r, -20, 20);
}

static uint32_t bits_of(float number)
{
    uint32_t bits;
    memcpy(&bits, &number, sizeof bits);
    return bits;
}

/* A float of this size times 2^-e: what comes to `size` when it is read. */
static float scaled(double size, int32_t e)
{
    for (; e > 0; e--)
        size /= 2;
    for (; e < 0; e++)
        size *= 2;
    return (float)size;
}

/* Bits of a float that is read without a fault: halves and their neighbours, whole numbers, the limit, small and very small numbers. */
static uint32_t make_bits(struct random *r, int32_t e)
{
    uint32_t sign = chance(r, 50) ? (uint32_t)SIGN_BIT : 0, limit = LIMIT - ((uint32_t)e << 23), pick = below(r, 100);
    if (pick < 25)
        return sign | (bits_of(scaled(0.5 + below(r, chance(r, 70) ? 20 : 1 << 22), e)) + (uint32_t)between(r, -1, 1));
    if (pick < 50)
        return sign | bits_of(scaled(below(r, 1 << 20), e));
    if (pick < 60)
        return sign | (limit - below(r, 3));
    if (pick < 70)
        return sign | (chance(r, 50) ? 0 : below(r, 1 << 23));
    return sign | below(r, limit + 1); /* every exponent up to the limit's */
}

/* Bits of a float that is a fault: not finite, or just beyond the limit, or anywhere beyond. */
static uint32_t make_fault(struct random *r, int32_t e)
{
    static const uint32_t no_numbers[] = {0x7f800000, 0xff800000, 0x7fc00000, 0xffc00000, 0x7f800001, 0xff800001, 0x7fffffff};
    uint32_t sign = chance(r, 50) ? (uint32_t)SIGN_BIT : 0, limit = LIMIT - ((uint32_t)e << 23);
    if (chance(r, 60))
        return no_numbers[below(r, sizeof no_numbers / sizeof *no_numbers)];
    return sign | (chance(r, 50) ? limit + 1 : limit + 1 + below(r, 0x7f800000 - limit));
}

static void put(uint8_t *at, uint32_t word)
{
    for (int b = 0; b < 4; b++)
        at[b] = (uint8_t)(word >> 8 * b);
}

/* Normals and the u16 are anything, and hold numbers that are not finite as often as not. */
static void make_triangles(struct random *r, int32_t e, uint8_t *file, uint32_t count)
{
    for (uint32_t t = 0; t < count; t++) {
        uint8_t *triangle = file + 84 + 50 * t;
        fill(r, triangle, 50);
        for (int n = 0; n < 3; n++)
            if (chance(r, 20))
                put(triangle + 4 * n, make_fault(r, e));
        for (int c = 0; c < 9; c++)
            put(triangle + 12 + 4 * c, make_bits(r, e));
    }
}

/* One fault or several, in one vertex or in some. */
static void spoil_triangles(struct random *r, int32_t e, uint8_t *file, uint32_t count)
{
    uint32_t vertex = below(r, 3 * count);
    for (uint32_t many = 1 + below(r, 3); many > 0; many--) {
        if (chance(r, 40))
            vertex = below(r, 3 * count);
        put(file + 96 + 50 * (vertex / 3) + 12 * (vertex % 3) + 4 * below(r, 3), make_fault(r, e));
    }
}

/* The file's length and its count, such that they do not fit: cut short, longer, or counts that fit only in 32 bits. */
static size_t spoil_length(struct random *r, uint8_t *file, uint32_t count, size_t len)
{
    uint32_t kind = below(r, 8);
    if (kind == 0)
        return below(r, 90);
    if (kind == 1)
        return below(r, (uint32_t)len);
    if (kind == 2)
        return len - 1 - below(r, 3);
    if (kind == 3)
        return len + 1 + below(r, 60);
    if (kind == 4)
        put(file + 80, count + 0x80000000u); /* 50 times 2^31 is 0 in 32 bits */
    else if (kind == 5)
        put(file + 80, (uint32_t)next(r));
    else
        put(file + 80, kind == 6 ? 0xffffffff : count + (uint32_t)(chance(r, 50) ? 1 : -1));
    return len;
}

static size_t make_room(struct random *r, uint32_t count)
{
    uint32_t pick = below(r, 100), need = 9 * count;
    return pick < 50 ? need : pick < 90 || need == 0 ? need + 1 + below(r, 30) : pick < 96 ? need - 1 : below(r, need);
}

static void make(struct random *r, const struct measures *m, struct input *in)
{
    static const char *const begins[] = {"solid", "solid", "solid name", "soli", "Solid", "solie", " solid"};
    uint8_t *file = in->buffer[STL];
    uint32_t count = chance(r, 10) ? 0 : chance(r, 60) ? 1 + below(r, 3) : 1 + below(r, MOST_STL);
    (void)m;
    in->e = make_e(r);
    int32_t e = in->e < -20 || in->e > 20 ? 0 : in->e;
    size_t len = 84 + 50 * (size_t)count;
    fill(r, file, STL_ROOM);
    put(file + 80, count);
    make_triangles(r, e, file, count);
    if (count > 0 && chance(r, 25))
        spoil_triangles(r, e, file, count);
    if (chance(r, 15))
        len = spoil_length(r, file, count, len);
    if (chance(r, 20)) {
        const char *text = begins[below(r, sizeof begins / sizeof *begins)];
        memcpy(file, text, strlen(text));
    }
    in->len[STL] = len;
    in->len[NUMBERS] = make_room(r, count);
    fill(r, in->buffer[NUMBERS], bytes_of(in, NUMBERS));
}

static uint32_t run(const struct calls *calls, const struct input *lent, uint64_t *counts)
{
    uint32_t triangles = untouched, axis = untouched;
    uint32_t answer = calls->read_stl(lent->buffer[STL], lent->len[STL], lent->e, (int32_t *)lent->buffer[NUMBERS], lent->len[NUMBERS],
                                      &triangles, &axis);
    counts[0] = triangles;
    counts[1] = axis;
    return answer;
}

const struct call call_read_stl = {.name = "read_stl", .share = 250, .buffers = 1u << STL | 1u << NUMBERS,
                                   .answers = 1u << 0 | 1u << 8 | 1u << 10 | 1u << 11 | 1u << 12 | 1u << 13 | 1u << 14,
                                   .counts = {"triangles", "axis"}, .make = make, .run = run};
