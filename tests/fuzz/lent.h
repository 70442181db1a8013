/*
 * Memory lent to the library, fenced: on one side of the bytes a page without
 * access, so that a wrong access there ends the program; on the other side
 * guard bytes, and behind them such a page too.
 */
#ifndef LENT_H
#define LENT_H

#include "../fence.h"

struct lent {
    struct fenced memory;
    uint8_t *bytes; /* what is lent */
    size_t len;
};

/* Room for this many bytes. Ends the program if there is no memory. */
void make_room(struct lent *l, size_t most);

/* Lends this many bytes: right behind the fence, or right before the other. */
void lend(struct lent *l, size_t len, int behind);

/* The guard bytes are as they were. */
int guards_hold(const struct lent *l);

#endif
