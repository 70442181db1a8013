/* Blocks of many sectors: rebuild over that of whole disks, over tuned loops in C, and what a position costs. */
#ifndef SECTORS_H
#define SECTORS_H

#include "input.h"

/* Whether the library and the tuned loops give the same, and restore what is timed; a difference is printed. */
int sectors_agree(void);

/* Measures and prints the ratios, and a line that begins with WARNING for each above its limit. How many. */
int compare_sectors(struct input *input);

#endif
