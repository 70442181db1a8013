/* What tidy takes beside a plain loop in C that does the same. */
#ifndef TIDIED_H
#define TIDIED_H

#include "input.h"

/* Whether the library and the plain loop give the status and the bytes that they should; a difference is printed. */
int tidy_agrees(void);

/* Measures and prints two lines for each sheet, and one that begins with WARNING for each above the limit. How many. */
int compare_tidy(struct input *input);

#endif
