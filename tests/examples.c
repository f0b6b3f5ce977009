/* Document 01's checked examples at level 2, those with coordinates as M-105 has them, and the vectors that pin its choices, run through a table
   of calls. */
#include "examples.h"

#include <stdio.h>
#include <string.h>
#include <sys/mman.h>

#include "turning.h"

enum { MOST_QUADS = 125 * 3 };

/* Marks and points are written by their coordinates: x(1,2,2) is x122, point (2,2,2) is 222. */
struct example {
    const char *name, *marks;
    uint32_t rims, flips, ones, threes;
    const char *patched, *inside;
};

const char six[] = "x122 x222 y212 y222 z221 z222";
static const char ten[] = "x122 x322 y212 y222 y312 y322 z221 z222 z321 z322";

static const struct example examples[] = {
    {"example 1", "", 0, 0, 0, 0, "", ""},
    {"example 2", six, 0, 0, 0, 0, six, "222"},
    {"example 3", "x122 y212 y222 z221 z222", 1, 1, 4, 0, six, "222"},
    {"example 4", "x222", 1, 1, 4, 0, "", ""},
    {"example 5", "x011 x233", 2, 2, 8, 0, "", ""},
    {"example 6", "x222 x233", 1, 2, 8, 0, "", ""},
    {"example 7", "x122 x322 y212 y312 z221 z222 z321 z322", 1, 2, 6, 0, ten, "222 322"},
    {"a sheet without its middle", "x211 x221 x231 x212 x232 x213 x223 x233", 2, 8, 16, 0, "", ""},
    {"two rims in one plane", "y101 y111", 2, 2, 8, 0, "", ""},
    {"equal sides cut y before z", "x122 x123 z122 z133", 1, 6, 13, 1, "x022 x122 y112 y122 z121 z122", "122"},
    {"equal sides cut x first", "x232 y232", 1, 2, 6, 0, "", ""},
    {"the cut plane rounded down", "y222 y311 z321", 1, 3, 10, 0, "", ""},
    {"pairs by rising number", "y321 y331 z230", 1, 5, 12, 0, "x231 x331 y321 y331 z330 z331", "331"},
    {"three edges of a face", "x222 x232 y222", 1, 3, 9, 1, "", ""},
    {"four edges of a face", "x222 x232 y222 y322", 1, 4, 12, 0, "", ""},
    {"the earlier axis first", "z211 y211", 1, 4, 6, 0, "x111 x211 y201 y211 z210 z211", "211"},
};

static const uint16_t listing[24] = {21, 25, 26, 22, 21, 22, 38, 37, 21, 37, 41, 25,
                                     22, 26, 42, 38, 25, 41, 42, 26, 37, 38, 42, 41};

static int failures;
static const char *who;

/* The table that is lent where an example is not about totals. */
static uint16_t unasked[BLOCKS];

void hold(int holds, const char *example, const char *claim)
{
    if (!holds && failures++ < 10)
        printf("%s: %s does not hold: %s\n", who, example, claim);
}

/* Adds a grid's marks, and the signs of points inside, from their names. */
static void add_names(const char *names, uint8_t *bytes)
{
    while (*names) {
        uint8_t value = *names == 'x' ? 1 : *names == 'y' ? 2 : *names == 'z' ? 4 : 8;
        names += *names >= 'x';
        bytes[(names[0] - '0') + 5 * ((names[1] - '0') + 5 * (names[2] - '0'))] += value;
        names += names[3] == ' ' ? 4 : 3;
    }
}

void read_names(const char *names, uint8_t *bytes)
{
    memset(bytes, 0, POINTS);
    add_names(names, bytes);
}

static void run_example(const struct calls *calls, const struct example *e)
{
    uint8_t grid[POINTS], work[POINTS], patched[POINTS], none[POINTS] = {0};
    uint16_t list[4 * MOST_QUADS];
    uint32_t rims, flips, ones, threes, quads, marks = 0;
    read_names(e->marks, grid);
    read_names(e->patched, patched);
    for (int p = 0; p < POINTS; p++)
        marks += (uint32_t)((patched[p] & 1) + (patched[p] >> 1 & 1) + (patched[p] >> 2));
    memset(work, 255, POINTS);
    hold(calls->patch(2, grid, POINTS, work, POINTS, unasked, BLOCKS, &rims, &flips, &ones, &threes) == 0, e->name, "patch is done");
    hold(rims == e->rims && flips == e->flips, e->name, "rims and flips");
    hold(ones == e->ones && threes == e->threes, e->name, "faces with one mark and with three");
    hold(!memcmp(grid, patched, POINTS) && !memcmp(work, none, POINTS), e->name, "the patched grid, work bytes 0");
    add_names(e->inside, patched);
    hold(calls->sign(2, grid, POINTS) == 0 && !memcmp(grid, patched, POINTS), e->name, "the points inside, and the marks as they were");
    hold(calls->surface(2, grid, POINTS, list, 4 * MOST_QUADS, &quads) == 0 && quads == marks, e->name, "the quads");
    if (e->patched == six)
        hold(!memcmp(list, listing, sizeof listing), e->name, "the six quads");
}

/* The quad the other way round, its first corner as it was. */
static void reverse(uint16_t quad[4])
{
    uint16_t second = quad[1];
    quad[1] = quad[3];
    quad[3] = second;
}

/* M-113 of the six quads: they turn one way, also where one begins at another corner; reversed on one axis, or with one left out, they do not. */
static void run_turning(const char *name)
{
    uint16_t list[24];
    memcpy(list, listing, sizeof list);
    hold(turns_wrongly(2, list, 6) == NULL, name, "the six quads turn one way");
    memcpy(list, (const uint16_t[4]){25, 26, 22, 21}, 4 * sizeof *list);
    hold(turns_wrongly(2, list, 6) == NULL, name, "and begun at another corner");
    reverse(list + 8);
    reverse(list + 12);
    hold(turns_wrongly(2, list, 6) != NULL, name, "and not with the quads of the x edges reversed");
    hold(turns_wrongly(2, listing, 5) != NULL, name, "and not with one left out");
}

static void run_triangle(const struct calls *calls, const char *name, const int32_t triangle[9], uint32_t answer, const char *marks)
{
    uint8_t grid[POINTS], expected[POINTS];
    uint32_t place, axis;
    read_names(marks, expected);
    hold(calls->open(2, grid, POINTS, unasked, BLOCKS) == 0, name, "open is done");
    hold(calls->mark(2, grid, POINTS, triangle, 9, unasked, BLOCKS, &place, &axis) == answer, name, "the answer");
    hold(!memcmp(grid, expected, POINTS), name, "the marks");
    hold(calls->open(2, grid, POINTS, unasked, BLOCKS) == 0, name, "open is done");
    hold(calls->mark_tree(2, grid, POINTS, triangle, 9, unasked, BLOCKS, &place, &axis) == answer, name, "the answer by the descent");
    hold(!memcmp(grid, expected, POINTS), name, "the marks by the descent");
}

static void run_triangles(const struct calls *calls)
{
    static const int32_t square[9] = {196608, 200000, 200000, 196608, 350000, 200000, 196608, 200000, 350000};
    static const int32_t sloped[9] = {131072, 131072, 131072, 393215, 393215, 393215, 393215, 393215, 393215};
    static const int32_t flat[9] = {262144, 150000, 150000, 262144, 390000, 150000, 262144, 150000, 390000};
    static const struct {
        int32_t at;
        uint32_t answer;
    } ends[] = {{131072, 0}, {131071, 4}, {393215, 0}, {393216, 24}};
    int32_t point[9];
    run_triangle(calls, "example 8", square, 0, "x122");
    for (int c = 0; c < 9; c++)
        point[c] = 262144;
    run_triangle(calls, "example 9", point, 0, "");
    run_triangle(calls, "a sloped line through a grid point", sloped, 0, six);
    run_triangle(calls, "a face next to a grid plane", flat, 0, "x222");
    for (int e = 0; e < 4; e++)
        for (uint32_t c = 0; c < 9; c++) {
            uint8_t grid[POINTS] = {0};
            uint32_t place, axis, bad = ends[e].answer > 0;
            point[c] = ends[e].at;
            hold(calls->mark(2, grid, POINTS, point, 9, unasked, BLOCKS, &place, &axis) == ends[e].answer, "example 10", "the ends of the range");
            hold(place == bad * c && axis == bad * (c % 3), "example 10", "place and axis of the coordinate that is out");
            hold(calls->mark_tree(2, grid, POINTS, point, 9, unasked, BLOCKS, &place, &axis) == ends[e].answer, "example 10", "the same by the descent");
            point[c] = 262144;
        }
}

static void run_refusals(const struct calls *calls)
{
    uint8_t grid[POINTS], left[POINTS];
    uint16_t list[23], kept[23];
    uint32_t place, axis, quads;
    int32_t triangle[9] = {0, 262144, 262144, 262144, 262144, 262144, 262144, 262144, 262144};
    hold(calls->open(1, grid, 0, NULL, 0) == 1, "example 11", "level 1 with an empty buffer");
    memset(grid, 0, POINTS);
    grid[62] = 16;
    hold(calls->mark(2, grid, POINTS, triangle, 9, unasked, BLOCKS, &place, &axis) == 4, "example 11", "byte 16 with a coordinate of 0");
    triangle[0] = 262144;
    hold(calls->mark(2, grid, POINTS, triangle, 9, unasked, BLOCKS, &place, &axis) == 5, "example 11", "byte 16 with the coordinate mended");
    triangle[4] = 393216;
    triangle[7] = 131071;
    hold(calls->mark(2, grid, POINTS, triangle, 9, unasked, BLOCKS, &place, &axis) == 24 && place == 4 && axis == 1, "several out of range",
         "the first decides");
    read_names(examples[2].marks, grid);
    memcpy(left, grid, POINTS);
    hold(calls->sign(2, grid, POINTS) == 6 && !memcmp(grid, left, POINTS), "example 12", "sign on the grid of 3");
    read_names(six, grid);
    add_names("222", grid);
    memset(list, 9, sizeof list);
    memset(kept, 9, sizeof kept);
    hold(calls->surface(2, grid, POINTS, list, 23, &quads) == 8 && quads == 0 && !memcmp(list, kept, sizeof kept),
         "example 12", "surface of 2 with room for 23 numbers");
}

/* M-107: signs are taken out by open, mark and patch, also where mark adds nothing, and by none of them where it is refused. */
static void run_clearing(const struct calls *calls, const char *name)
{
    uint8_t grid[POINTS], came[POINTS], work[POINTS], expected[POINTS];
    uint32_t one, two, three, four;
    int32_t nothing[9] = {200000, 200000, 200000, 200000, 200000, 200000, 200000, 200000, 200000};
    read_names(six, expected);
    read_names(six, came);
    add_names("222 000 444", came);
    memcpy(grid, came, POINTS);
    hold(calls->mark(2, grid, POINTS, nothing, 9, unasked, BLOCKS, &one, &two) == 0 && !memcmp(grid, expected, POINTS), name,
         "mark clears signs where it adds nothing");
    memcpy(grid, came, POINTS);
    hold(calls->mark(2, grid, POINTS, nothing, 8, unasked, BLOCKS, &one, &two) == 3 && !memcmp(grid, came, POINTS), name, "a refused mark clears none");
    hold(calls->patch(2, grid, POINTS, work, POINTS, unasked, BLOCKS, &one, &two, &three, &four) == 0 && one + two + three + four == 0 &&
             !memcmp(grid, expected, POINTS),
         name, "patch clears signs, which are no marks");
    memset(grid, 15, POINTS);
    hold(calls->open(2, grid, POINTS, unasked, BLOCKS) == 0 && !memchr(grid, 15, POINTS), name, "open clears signs");
    memcpy(grid, came, POINTS);
    add_names("222", expected);
    hold(calls->sign(2, grid, POINTS) == 0 && !memcmp(grid, expected, POINTS), name, "sign writes all signs anew");
    hold(calls->sign(2, grid, POINTS) == 0 && !memcmp(grid, expected, POINTS), name, "and changes nothing when called again");
}

/* The job of docs/FORMATS.md: level 2 and one quad. */
static const uint8_t one_quad[19] = {2, 1, 3, 11, 0, 0, 0, 8, 0, 0, 0, 21, 0, 25, 0, 26, 0, 22, 0};

static void run_job(const struct calls *calls, const char *name)
{
    uint8_t file[20];
    size_t bytes;
    uint32_t level, kinds, unused[3], at, len;
    memset(file, 9, sizeof file);
    hold(calls->write_job(2, 4, NULL, 0, NULL, 0, one_quad + 11, 8, file, sizeof file, &bytes) == 0 && bytes == 19, name, "one quad is written");
    hold(!memcmp(file, one_quad, 19) && file[19] == 9, name, "its bytes, and the one behind");
    hold(calls->read_job(one_quad, 19, &level, &kinds, &unused[0], &unused[1], &unused[2], &at, &len) == 0, name, "and is read");
    hold(level == 2 && kinds == 4 && at == 11 && len == 8, name, "with its place");
}

/* Offsets and lengths about 2^32, with bodies that nobody may look into: 20 is given where one does not fit a u32, 8 where all do. */
static void run_large_jobs(const struct calls *calls, const char *name)
{
    static const struct {
        uint64_t triangles, quads;
        uint32_t kinds, answer;
    } large[] = {{4294967292u, 0, 2, 8},  {4294967328u, 0, 2, 20}, {0, 4294967288u, 4, 8},  {0, 4294967296u, 4, 20},
                 {4294967256u, 8, 6, 8},  {4294967292u, 8, 6, 20}, {4294967328u, 8, 4, 8},  {4294967256u, 4294967288u, 6, 8}};
    size_t room = (size_t)1 << 33, bytes;
    uint8_t *nobody = mmap(NULL, room, PROT_NONE, MAP_PRIVATE | MAP_ANONYMOUS | MAP_NORESERVE, -1, 0);
    hold(nobody != MAP_FAILED, name, "room for 2^33 addresses");
    for (size_t l = 0; nobody != MAP_FAILED && l < sizeof large / sizeof *large; l++)
        hold(calls->write_job(2, large[l].kinds, NULL, 0, nobody, large[l].triangles, nobody, large[l].quads, NULL, 0, &bytes) ==
                     large[l].answer &&
                 bytes == 0,
             name, "offsets and lengths about 2^32");
    if (nobody != MAP_FAILED)
        munmap(nobody, room);
}

int failed_examples(const struct calls *calls)
{
    failures = 0;
    who = calls->name;
    for (size_t e = 0; e < sizeof examples / sizeof *examples; e++)
        run_example(calls, &examples[e]);
    run_triangles(calls);
    run_refusals(calls);
    run_clearing(calls, "M-107");
    run_turning("M-113");
    run_totals(calls);
    run_job(calls, "M-112");
    run_large_jobs(calls, "M-112");
    return failures;
}
