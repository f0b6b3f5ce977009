/* One input handed to both sides, and the first difference between what they leave. */
#ifndef SIDES_H
#define SIDES_H

#include <stddef.h>

#include "inputs.h"

/* The reference's answer to the input last compared, and its counts. */
struct outcome {
    uint32_t answer;
    uint64_t counts[MOST_COUNTS];
    int died;
};

/* Maps the memory that both sides are lent. */
void prepare_sides(void);

/* Runs the call on both sides. Answers 1 and says what differs first, or answers 0. */
int differs(const struct input *input, struct outcome *reference, char *what, size_t what_len);

#endif
