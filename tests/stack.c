/* Measures how much stack each call takes: it runs on a stack of its own that was painted before, and the deepest byte that has another
   colour afterwards tells. The inputs are those of the harness, and grids made to be hard to patch. Fails where the header says less. */
#define _GNU_SOURCE
#include <stdio.h>
#include <stdlib.h>
#include <sys/mman.h>
#include <ucontext.h>

#include "../bench/hostile.h"
#include "../include/omphirun.h"
#include "inputs.h"

enum { STACK = 1 << 16, COLOUR = 0xa5, INPUTS = 4000 };

static uint8_t *stack;
static ucontext_t caller, callee;
static const struct input *lent;
static size_t deepest[MOST_CALLS];

static void call_it(void)
{
    uint64_t counts[MOST_COUNTS];
    lent->call->run(&the_library, lent, counts);
}

/* How many bytes of the painted stack a call used. */
static size_t used_by(const struct input *in)
{
    size_t free_bytes = 0;
    memset(stack, COLOUR, STACK);
    getcontext(&callee);
    callee.uc_stack.ss_sp = stack;
    callee.uc_stack.ss_size = STACK;
    callee.uc_link = &caller;
    makecontext(&callee, call_it, 0);
    lent = in;
    swapcontext(&caller, &callee);
    while (free_bytes < STACK && stack[free_bytes] == COLOUR)
        free_bytes++;
    return STACK - free_bytes;
}

static void measure(const struct input *in)
{
    size_t c = place_of(in->call), used = used_by(in);
    if (used > deepest[c])
        deepest[c] = used;
}

static void measure_all(void)
{
    struct random r = {1};
    struct input in = new_input();
    for (int n = 0; n < INPUTS; n++) {
        make_input(&r, NULL, &in);
        measure(&in);
    }
    for (int h = 0; h < hostile_count; h++) {
        struct measures m = measures_of(5);
        in.call = &call_patch;
        in.level = 5;
        in.len[GRID] = in.len[WORK] = POINT_ROOM;
        in.len[TOTALS] = MOST_BLOCKS;
        hostile_grids[h].make(&m, in.buffer[GRID]);
        measure(&in);
    }
}

int main(void)
{
    int deep = 0;
    stack = mmap(NULL, STACK, PROT_READ | PROT_WRITE, MAP_PRIVATE | MAP_ANONYMOUS, -1, 0);
    if (stack == MAP_FAILED)
        return perror("stack"), 2;
    measure_all();
    printf("tests/header: bytes of stack:");
    for (size_t c = 0; c < call_count; c++) {
        printf(" %s %zu", all_calls[c]->name, deepest[c]);
        deep |= deepest[c] > OMPHIRUN_STACK;
    }
    printf(", %d allowed\n", OMPHIRUN_STACK);
    return deep;
}
