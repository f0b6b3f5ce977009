/* Reads a listing of the program `repair` and hands its quads to accept, as listed and altered. Says nothing when every answer is right. */
#include <stdio.h>
#include <stdlib.h>
#include <string.h>

#include "../include/omphirun.h"
#include "random.h"

enum { MOST_POINTS = 33 * 33 * 33, MOST_NUMBERS = 4 * 3 * 32 * 31 * 31 + 4, TRIES = 40 };

static uint32_t level;
static size_t numbers;
static uint16_t listed[MOST_NUMBERS], list[MOST_NUMBERS];
static uint8_t given[MOST_POINTS];

static void wrong(const char *what)
{
    printf("%s\n", what);
    exit(1);
}

static size_t points(void)
{
    size_t side = ((size_t)1 << level) + 1;
    return side * side * side;
}

/* Accept on `list`: whether it says yes. A no leaves the grid as it was, and the work bytes are 0 either way. */
static int accepted(size_t len, uint8_t *grid)
{
    static uint8_t before[MOST_POINTS], work[MOST_POINTS];
    uint32_t yes;
    memcpy(before, grid, MOST_POINTS);
    memset(work, 0xa5, sizeof work);
    if (omphirun_accept(level, list, len, grid, MOST_POINTS, work, MOST_POINTS, &yes))
        wrong("a list is refused");
    if (!yes && memcmp(before, grid, MOST_POINTS))
        wrong("a no changed the grid");
    for (size_t p = 0; p < MOST_POINTS; p++)
        if (work[p] != (p < points() ? 0 : 0xa5))
            wrong("a work byte is left, or one behind the points is changed");
    return yes != 0;
}

static void read_listing(void)
{
    unsigned quads, ignored;
    if (scanf("level %u triangles %u rims %u flips %u inside %u", &level, &ignored, &ignored, &ignored, &ignored) != 5 ||
        scanf(" quads %u", &quads) != 1 || quads == 0)
        wrong("there is no listing of quads");
    for (numbers = 0; numbers < 4 * (size_t)quads; numbers += 4)
        if (scanf(" q %hu %hu %hu %hu", &listed[numbers], &listed[numbers + 1], &listed[numbers + 2], &listed[numbers + 3]) != 4)
            wrong("the listing is cut short");
}

static void as_listed(void)
{
    memcpy(list, listed, numbers * sizeof *list);
}

/* Any order of the quads, and any corner first. */
static void shuffle(struct random *r)
{
    for (size_t q = numbers / 4; q > 0; q--) {
        size_t other = below(r, (uint32_t)q), first = below(r, 4);
        uint16_t kept[4];
        memcpy(kept, list + 4 * (q - 1), sizeof kept);
        memcpy(list + 4 * (q - 1), list + 4 * other, sizeof kept);
        memcpy(list + 4 * other, kept, sizeof kept);
        memcpy(kept, list + 4 * (q - 1), sizeof kept);
        for (size_t c = 0; c < 4; c++)
            list[4 * (q - 1) + c] = kept[(first + c) % 4];
    }
}

static void accept_as_listed(void)
{
    static uint16_t again[MOST_NUMBERS];
    uint32_t quads;
    as_listed();
    if (!accepted(numbers, given))
        wrong("what surface wrote is not accepted");
    if (omphirun_surface(level, given, MOST_POINTS, again, MOST_NUMBERS, &quads) || 4 * (size_t)quads != numbers ||
        memcmp(again, listed, numbers * sizeof *listed))
        wrong("surface writes the grid that was given otherwise");
}

static void accept_shuffled(struct random *r)
{
    static uint8_t grid[MOST_POINTS];
    memset(grid, 0x5a, sizeof grid);
    as_listed();
    shuffle(r);
    if (!accepted(numbers, grid) || memcmp(grid, given, points()))
        wrong("in another order, from other corners, the answer is another");
}

/* One quad taken out, doubled, doubled and reversed, reversed, or moved by one cell. */
static void refuse_altered(struct random *r)
{
    static const char *const accepted_though[] = {"a quad less is accepted", "a quad twice is accepted", "a quad in both turns is accepted",
                                                  "a reversed quad is accepted", "a moved quad is accepted"};
    static uint8_t grid[MOST_POINTS];
    for (int kind = 0; kind < 5; kind++) {
        as_listed();
        shuffle(r);
        uint16_t *quad = list + 4 * below(r, (uint32_t)(numbers / 4)), *last = list + numbers;
        const int side = 1 << level, steps[] = {1, side, side * side};
        size_t len = numbers;
        int by = steps[below(r, 3)] * (chance(r, 50) ? 1 : -1);
        if (kind == 0) {
            memcpy(quad, last - 4, 4 * sizeof *quad);
            len -= 4;
        } else if (kind <= 2) {
            memcpy(last, quad, 4 * sizeof *quad);
            len += 4;
            quad = last;
        }
        if (kind == 2 || kind == 3) {
            uint16_t second = quad[1];
            quad[1] = quad[3];
            quad[3] = second;
        }
        for (int c = 0; kind == 4 && c < 4; c++)
            quad[c] = (uint16_t)(quad[c] + by);
        if (accepted(len, grid))
            wrong(accepted_though[kind]);
    }
}

int main(void)
{
    struct random r = {1};
    read_listing();
    accept_as_listed();
    for (int t = 0; t < TRIES; t++) {
        accept_shuffled(&r);
        refuse_altered(&r);
    }
    return 0;
}
