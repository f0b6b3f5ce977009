/* Runs a call on both sides on like memory and compares every byte. Each lent buffer ends where a page begins that cannot be
   touched, and begins behind bytes that must stay; a side that dies or does not end is a difference like any other. */
#define _GNU_SOURCE
#include "sides.h"

#include <inttypes.h>
#include <setjmp.h>
#include <signal.h>
#include <stdio.h>
#include <stdlib.h>
#include <sys/mman.h>
#include <unistd.h>

#include "calls.h"

enum { PAGE = 65536, FRONT = 64, FRONT_BYTE = 0xa5, SECONDS_A_CALL = 60 };

/* What one side works on: where each buffer's memory ends, and what the call is lent. */
struct side {
    const struct calls *calls;
    uint8_t *end[BUFFERS];
    struct input lent;
};

static struct side library = {.calls = &the_library}, reference = {.calls = &the_reference};
static sigjmp_buf out_of_call;
static volatile sig_atomic_t in_call;

static void leave_call(int signal_number)
{
    static const char outside[] = "compare: ended by a signal while the examples ran or an input was made\n";
    if (in_call)
        siglongjmp(out_of_call, signal_number);
    _exit(write(STDERR_FILENO, outside, sizeof outside - 1) < 0 ? 2 : 1);
}

static void map_side(struct side *side)
{
    for (int b = 0; b < BUFFERS; b++) {
        size_t bytes = (kinds[b].room * kinds[b].element + FRONT + PAGE - 1) / PAGE * PAGE;
        uint8_t *memory = mmap(NULL, bytes + PAGE, PROT_READ | PROT_WRITE, MAP_PRIVATE | MAP_ANONYMOUS, -1, 0);
        if (memory == MAP_FAILED || mprotect(memory + bytes, PAGE, PROT_NONE)) {
            perror("compare: no memory");
            exit(2);
        }
        side->end[b] = memory + bytes;
    }
}

void prepare_sides(void)
{
    struct sigaction leave = {.sa_handler = leave_call, .sa_flags = SA_NODEFER | SA_ONSTACK};
    static uint8_t stack[65536];
    stack_t apart = {.ss_sp = stack, .ss_size = sizeof stack};
    sigaltstack(&apart, NULL);
    const int ends[] = {SIGSEGV, SIGBUS, SIGILL, SIGFPE, SIGABRT, SIGTRAP, SIGALRM};
    for (size_t s = 0; s < sizeof ends / sizeof *ends; s++)
        sigaction(ends[s], &leave, NULL);
    map_side(&library);
    map_side(&reference);
}

/* Where the side's buffer begins; an empty one has a place too, for the bytes before it. */
static uint8_t *start_of(const struct side *side, int b)
{
    return side->end[b] - bytes_of(&side->lent, b);
}

static void lend(struct side *side, const struct input *in)
{
    side->lent = *in;
    for (int b = 0; b < BUFFERS; b++) {
        uint8_t *start = start_of(side, b);
        memset(start - FRONT, FRONT_BYTE, FRONT);
        memcpy(start, in->buffer[b], bytes_of(in, b));
        side->lent.buffer[b] = in->len[b] == 0 && in->null ? NULL : start;
    }
}

static struct outcome run(struct side *side, const struct input *in)
{
    static struct outcome out;
    out = (struct outcome){0};
    lend(side, in);
    out.died = sigsetjmp(out_of_call, 0);
    if (!out.died) {
        in_call = 1;
        alarm(SECONDS_A_CALL);
        out.answer = in->call->run(side->calls, &side->lent, out.counts);
    }
    alarm(0);
    in_call = 0;
    return out;
}

static size_t first_difference(const uint8_t *a, const uint8_t *b)
{
    size_t at = 0;
    while (a[at] == b[at])
        at++;
    return at;
}

/* Answers 1 and says so when the library left a buffer otherwise than the reference, or wrote before it. */
static int buffer_differs(int b, char *what, size_t what_len)
{
    const uint8_t *lib = start_of(&library, b), *ref = start_of(&reference, b);
    for (int f = 1; f <= FRONT; f++)
        if (lib[-f] != FRONT_BYTE)
            return snprintf(what, what_len, "the library wrote before the %s buffer", kinds[b].name) > 0;
    if (!memcmp(lib, ref, (size_t)(library.end[b] - lib)))
        return 0;
    size_t at = first_difference(lib, ref);
    return snprintf(what, what_len, "byte %zu of the %s buffer: library %u, reference %u", at, kinds[b].name, lib[at], ref[at]) > 0;
}

int differs(const struct input *in, struct outcome *expected, char *what, size_t what_len)
{
    struct outcome got = run(&library, in);
    *expected = run(&reference, in);
    if (expected->died) {
        fprintf(stderr, "compare: the reference itself ended by signal %d\n", expected->died);
        exit(2);
    }
    if (got.died)
        return snprintf(what, what_len, got.died == SIGALRM ? "the library did not end within %d s" : "the library ended by signal %d",
                        got.died == SIGALRM ? SECONDS_A_CALL : got.died) > 0;
    if (got.answer != expected->answer)
        return snprintf(what, what_len, "library answers %u, reference %u", got.answer, expected->answer) > 0;
    for (int c = 0; c < MOST_COUNTS && in->call->counts[c]; c++)
        if (got.counts[c] != expected->counts[c])
            return snprintf(what, what_len, "%s: library %" PRIu64 ", reference %" PRIu64, in->call->counts[c], got.counts[c],
                            expected->counts[c]) > 0;
    for (int b = 0; b < BUFFERS; b++)
        if (buffer_differs(b, what, what_len))
            return 1;
    return 0;
}
