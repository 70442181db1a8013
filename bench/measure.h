/* One call at one size, timed for all peers. */
#ifndef MEASURE_H
#define MEASURE_H

#include "calls.h"

/* Prepares the call at a size, times it and prints a line for each peer: the time of the library over the peer's, which
   is 0 where the peer takes no part. */
void measure(const struct call *call, struct size size, struct input *input, double ratios[PEERS]);

#endif
