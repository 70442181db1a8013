/* What the calls of the stand-in share that is wrong on purpose. */
#ifndef WRONG_H
#define WRONG_H

#include "model.h"

/* This is the fault that the environment variable WRONG names. */
int wrong(const char *name);

/* In place of a number that is out of range and not tested, one in range. */
size_t untested(size_t side);

/* The size as a call takes it that tests one of its numbers only, or both. */
struct grid half_tested(size_t rows, size_t columns, int columns_only,
                        int rows_only);

struct grid swapped(struct grid g);

#endif
