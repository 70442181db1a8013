/* Plans of fatal losses, which show the smallest loop: beside the peers, by the clock, and as arrays grow. */
#ifndef FATAL_H
#define FATAL_H

#include "input.h"

/* Whether all peers give the library's sheets, byte for byte, on these losses and on others at random; a difference is
   printed. */
int fatal_agrees(void);

/* Measures and prints them, and a line that begins with WARNING for each limit that is passed. How many. */
int compare_fatal(struct input *input);

#endif
