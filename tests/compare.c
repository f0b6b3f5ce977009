/* Compares the library with the reference, call by call and byte by byte, on inputs that depend on the seed alone. */
#include <inttypes.h>
#include <stdio.h>
#include <stdlib.h>
#include <string.h>

#include "examples.h"
#include "shrink.h"
#include "sides.h"

static const char usage[] = "usage: compare [--soak] [--calls N] [--seed N] [--from N] [--only CALL]\n";

/* What the command line asks for. */
static uint64_t calls = 120000, seed = 1, from;
static const struct call *only;

/* How often each call gave each answer, and what else shows that the inputs reach everything. */
static uint64_t answered[MOST_CALLS][MOST_ANSWERS], at_level[6], many_rims, many_flips, tried;

static void count(const struct input *in, const struct outcome *out)
{
    answered[place_of(in->call)][out->answer]++;
    if (out->answer == 0 && takes(in->call, GRID))
        at_level[in->level]++;
    if (in->call == &call_patch) {
        many_rims += out->counts[0] > 1;
        many_flips += out->counts[1] > 10;
    }
}

static void print_counts(void)
{
    for (size_t c = 0; c < call_count; c++) {
        printf("%-12s", all_calls[c]->name);
        for (int a = 0; a < MOST_ANSWERS; a++)
            if (all_calls[c]->answers >> a & 1)
                printf("  %d:%8" PRIu64, a, answered[c][a]);
        printf("\n");
    }
    printf("done at level 2: %" PRIu64 ", 3: %" PRIu64 ", 4: %" PRIu64 ", 5: %" PRIu64, at_level[2], at_level[3], at_level[4],
           at_level[5]);
    printf("; by number: %" PRIu64, tried);
    printf("; grids with several rims: %" PRIu64 ", with more than ten flips: %" PRIu64 "\n", many_rims, many_flips);
}

/* A run that never reached some answer of a call's table shows nothing about it. */
static int reached_everything(void)
{
    int all = 1;
    for (size_t c = 0; c < call_count; c++)
        for (int a = 0; a < MOST_ANSWERS; a++) {
            uint64_t least = (only == NULL || only == all_calls[c]) && all_calls[c]->answers >> a & 1 ? calls / 5000 : 0;
            if (calls >= 10000 && answered[c][a] < least) {
                printf("compare: %s answered %d only %" PRIu64 " times\n", all_calls[c]->name, a, answered[c][a]);
                all = 0;
            }
        }
    return all;
}

/* Which input it is: by its number among all calls, or among those of one call that are tried every time. */
static void report(const char *kind, uint64_t number, struct input *in, const struct outcome *reference, const char *what)
{
    struct outcome again;
    char smallest[200];
    printf("difference at %s %" PRIu64 ": %s\n", kind, number, what);
    shrink(in, reference->answer);
    if (differs(in, &again, smallest, sizeof smallest))
        printf("smallest input found: %s\n", smallest);
    print_input(in);
}

/* Makes the input of this number and compares; answers whether something differs. */
static int compare_one(uint64_t number, struct input *in)
{
    struct random r = {seed * 0x2545f4914f6cdd1du + number};
    struct outcome out;
    char what[200];
    const char *also;
    make_input(&r, only, in);
    if (differs(in, &out, what, sizeof what)) {
        report("call", number, in, &out, what);
        return 1;
    }
    if (in->call->also && (also = in->call->also(in))) {
        printf("difference at call %" PRIu64 ": %s\n", number, also);
        print_input(in);
        return 1;
    }
    count(in, &out);
    return 0;
}

/* Tries the inputs that a call has in every run, up to the first that differs; answers whether one does. */
static int compare_every(const struct call *call, struct input *in)
{
    struct outcome out;
    char what[200];
    for (uint64_t number = 0; number < call->every; number++) {
        make_numbered(call, number, in);
        if (differs(in, &out, what, sizeof what)) {
            report(call->name, number, in, &out, what);
            return 1;
        }
        tried++;
    }
    return 0;
}

static void stop(void)
{
    fputs(usage, stderr);
    exit(2);
}

static uint64_t number_in(const char *word)
{
    char *end;
    uint64_t value = strtoull(word, &end, 10);
    if (*end || end == word)
        stop();
    return value;
}

static void read_options(int argc, char **argv)
{
    for (int a = 1; a < argc; a++) {
        if (!strcmp(argv[a], "--soak")) {
            calls = 5000000;
            continue;
        }
        const char *option = argv[a], *value = argv[++a];
        if (value == NULL)
            stop();
        if (!strcmp(option, "--calls"))
            calls = number_in(value);
        else if (!strcmp(option, "--seed"))
            seed = number_in(value);
        else if (!strcmp(option, "--from"))
            from = number_in(value);
        else if (!strcmp(option, "--only"))
            for (size_t c = 0; c < call_count; c++)
                only = strcmp(value, all_calls[c]->name) ? only : all_calls[c];
        else
            stop();
        if (!strcmp(option, "--only") && only == NULL)
            stop();
    }
}

int main(int argc, char **argv)
{
    uint64_t made, differences = 0;
    int failed;
    read_options(argc, argv);
    setvbuf(stdout, NULL, _IOLBF, 0);
    struct input in = new_input();
    prepare_sides();
    failed = failed_examples(&the_reference) + failed_examples(&the_library);
    for (size_t c = 0; c < call_count && from == 0; c++)
        if ((only == NULL || only == all_calls[c]) && differences == 0)
            differences += (uint64_t)compare_every(all_calls[c], &in);
    for (made = 0; made < calls && differences == 0; made++) {
        differences += (uint64_t)compare_one(from + made, &in);
        if ((made + 1) % 500000 == 0)
            printf("%" PRIu64 " calls\n", made + 1);
    }
    print_counts();
    printf("tests/compare: seed %" PRIu64 ", %" PRIu64 " calls, %" PRIu64 " differences, %d failed examples\n", seed, made, differences,
           failed);
    return differences > 0 || failed > 0 || !reached_everything();
}
