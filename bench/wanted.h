/* What a plan for one wanted disk takes beside the plan for all disks, and beside a program in C that does the same. */
#ifndef WANTED_H
#define WANTED_H

#include "input.h"

/* Whether the library and the program in C give the same for each erased disk, and what plan gives where no list
   reaches the disk; a difference is printed. */
int wanted_agrees(void);

/* Measures and prints four lines for each map, and one that begins with WARNING for each above the limit. How many. */
int compare_wanted(struct input *input);

#endif
