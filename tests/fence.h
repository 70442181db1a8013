/*
 * Pages of memory between two pages without access: whoever reads or writes
 * before the first byte or behind the last one ends the program.
 */
#ifndef FENCE_H
#define FENCE_H

#include <stddef.h>
#include <stdint.h>

struct fenced {
    uint8_t *pages; /* the first byte with access */
    size_t room;    /* how many there are, whole pages */
};

/* Room for at least this many bytes, all zero. Ends the program if there is
   no memory. */
struct fenced make_fenced(size_t least);
void end_fenced(struct fenced *f);

/* From now on a write ends the program, or does not. */
void forbid_writes(const struct fenced *f);
void allow_writes(const struct fenced *f);

#endif
