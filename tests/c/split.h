/*
 * The same call for smaller sectors: each block is cut into several, and an
 * erased disk has lost all of them. Then every position is an array by itself
 * with the same loss, and the answer follows from that for whole blocks.
 */
#ifndef SPLIT_H
#define SPLIT_H

#include "suite.h"

/* Into how many sectors a block can be cut so that it follows: 1 if it does
   not. That is so for calls that take no sectors, for numbers and lengths that
   are wrong, for arrays that are long, and where a limit does not allow all
   repairs. */
size_t split_into(const struct call *c, size_t result);

/* The call for so many sectors, with what is expected of it where the result
   and what is expected of the call for whole blocks are these. */
struct call split_call(const struct call *c, size_t result, size_t sectors);

/* What the out-parameter is then: counts of repairs add up over the positions,
   that of lost disks is of one position. */
size_t split_out(const struct call *c, size_t result, size_t out,
                 size_t sectors);

#endif
