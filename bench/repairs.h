/* Whether the place of a disk on its stripe decides how long its repair takes. */
#ifndef REPAIRS_H
#define REPAIRS_H

#include "calls.h"

/* Measures and prints a line for each size, and a line that begins with WARNING for each above the limit. How many. */
int compare_places(struct input *input);

#endif
