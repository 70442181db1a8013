/* Times calls in turn: one of every peer, one of the library on several maps, for several disks or in several cases, or
   several of the library; or one alone. */
#ifndef TIMING_H
#define TIMING_H

#include "calls.h"

/* How often each is timed; the median counts. Where disks are compared, which can be many, or calls that take long, it
   is less often. */
enum { SAMPLES = 301, FEW_SAMPLES = 31 };

/* The median time of one call of each peer, in nanoseconds; 0 for a peer that takes no part. The input has been
   prepared. */
void time_peers(const struct call *call, struct input *input, double medians[PEERS]);

/* The median time of the library on each of at most PEERS maps, in one unit. The input has been prepared. */
void time_maps(const struct call *call, struct input *input, const size_t *kinds, size_t count, double *medians);

/* The median time of the library for each of at most DISKS_MAX disks, in one unit. The input has been prepared. */
void time_disks(const struct call *call, struct input *input, const size_t *disks, size_t count, double *medians);

/* The median time of each of at most PEERS calls of the library, in one unit. The input has been prepared. */
void time_calls(const struct call *const *list, size_t count, struct input *input, double *medians);

/* The same with few samples. */
void time_long_calls(const struct call *const *list, size_t count, struct input *input, double *medians);

/* The median time of one call in each of at most PEERS cases, in nanoseconds, with few samples: `prepare` prepares the
   input for a case. */
typedef void prepare_case(struct input *input, size_t number);
void time_cases(const struct call *call, struct input *input, prepare_case *prepare, size_t count, double *medians);

/* The median time of one call of the library, in nanoseconds. The input has been prepared. */
double time_call(const struct call *call, struct input *input);

#endif
