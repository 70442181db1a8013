/* What turns of one repair take beside one rebuild of all, and whether that is more than their parts. */
#ifndef TURNS_H
#define TURNS_H

#include "calls.h"

/* Whether turns restore what one rebuild does, at each size; a difference is printed. */
int turns_agree(void);

/* Measures and prints two lines for each size, and one that begins with WARNING for each above the bound. How many. */
int compare_turns(struct input *input);

#endif
