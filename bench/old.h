/* The library beside its version 0.10.0, which showed any loop of a fatal loss, where the archive of that version is
   given. */
#ifndef OLD_H
#define OLD_H

#include "input.h"

/* Whether both give the same but for the loops that they show; a difference is printed. */
int old_agrees(void);

/* Measures and prints a line for each call and size, and one that begins with WARNING for each above the limit. How
   many. Plans of fatal losses have no limit. */
int compare_old(struct input *input);

#endif
