/* Save, which only the library has: over rebuild where that restores the same disks, and on fatal losses. */
#ifndef SAVED_H
#define SAVED_H

#include "input.h"

/* Whether save restores the disks that it should, and no others. */
int save_agrees(void);

/* Times save and prints its ratios; says how many limits were passed. */
int compare_save(struct input *input);

#endif
