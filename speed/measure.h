/* Time and instructions of a job. */
#ifndef MEASURE_H
#define MEASURE_H

#include "jobs.h"

struct cost {
    double best, median; /* nanoseconds a unit */
};

/* Both sides in alternating rounds over one input. */
void measure_time(const struct input *input, unsigned rounds, struct cost costs[SIDES]);

/* Whether the kernel lets us count user instructions. */
bool can_count(void);

/* User instructions a unit. Only where can_count. */
double count_instructions(const struct side *side, const struct input *input);

#endif
