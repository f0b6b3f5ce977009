/* Document 01's checked examples, with the numbers that stand there. */
#ifndef EXAMPLES_H
#define EXAMPLES_H

#include "calls.h"

/* Runs the examples through these calls, names each that does not hold, and answers their number. */
int failed_examples(const struct calls *calls);

/* ---- for the files of examples alone; all of them are at level 2 */

enum { POINTS = 125, BLOCKS = 8 };

/* The marks of example 2. */
extern const char six[];

/* Counts an example that does not hold, and says which. */
void hold(int holds, const char *example, const char *claim);

/* A grid's marks from their names, as x122 or z221, and the points inside, as 222. */
void read_names(const char *names, uint8_t *bytes);

/* Those of M-108. */
void run_totals(const struct calls *calls);

#endif
