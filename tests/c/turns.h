/*
 * Rebuild in turns: what its tests share with those that make some repairs by
 * hand before them.
 */
#ifndef TURNS_H
#define TURNS_H

#include "suite.h"

/* Turns of a call of rebuild, each on the array and the map that the one before
   left: as many as the limit asks for, and one where no disk is erased. Each
   makes the next repairs of plan's order. The last one refuses by 7 if the
   survivors do not agree. */
void expect_turns(struct call *c, size_t limit, int agree, const char *what);

#endif
