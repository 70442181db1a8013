/* Warns where the library has become slow. Times vary, so nothing fails by them. */
#ifndef GUARDS_H
#define GUARDS_H

#include "calls.h"

/* Time of the library over time of the peer, 0 where the peer takes no part. */
typedef double ratio_table[CALLS][SIZES_MAX][PEERS];

/* Prints a line that begins with WARNING for each limit that is passed, and says how many. */
int warn(ratio_table ratios);

/* Prints such a line if the ratio of a call to a peer is above a limit: 1 then, else 0. */
int warn_above(const struct call *call, struct size size, size_t peer, double ratio, double most);

/* Smaller blocks and sectors are ruled by the cost of a call, and not by the loops that are guarded. */
enum { GUARDED_BLOCK = 512 };

/* The limit of a call beside a peer; infinite where it has none. */
double limit_of(size_t call, size_t peer);

/* Prints a ratio of two times of rebuild's work at a size. */
void print_ratio(struct size size, const char *what, double ratio);

/* The same, and warns where it is above a limit: 1 then, else 0. */
int judge(struct size size, const char *what, double ratio, double most);

/* The same of other work, with the words that the line begins with. */
void print_titled(const char *title, const char *what, double ratio);
int judge_titled(const char *title, const char *what, double ratio, double most);

#endif
