/* What follow takes beside rebuild, which it is to equal. */
#ifndef FOLLOWED_H
#define FOLLOWED_H

#include "calls.h"

/* Whether follow restores what rebuild does, at each size; a difference is printed. */
int follow_agrees(void);

/* Measures and prints a line for each size, and a line that begins with WARNING for each above the limit. How many. */
int compare_follow(struct input *input);

#endif
