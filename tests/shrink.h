/* From an input on which the two sides differ to a smaller one, and its printing. */
#ifndef SHRINK_H
#define SHRINK_H

#include "inputs.h"

/* Makes the input as small as greedy steps get it within a few seconds, such that the sides still differ and the reference
   still gives this answer. */
void shrink(struct input *input, uint32_t reference_answer);

/* Prints an input so that a person can rebuild it. */
void print_input(const struct input *input);

#endif
