/* The library by the clock: the one part of the output that is no ratio. */
#ifndef SPEED_H
#define SPEED_H

#include "input.h"

/* Prints how long calls on the largest array take, and on which processor. */
void print_speeds(struct input *input);

#endif
