/* The calls that are measured: a table, to which a new call adds a row. */
#ifndef CALLS_H
#define CALLS_H

#include "input.h"
#include "peer.h"

struct call {
    const char *name;
    /* Its sizes differ by the map, and not by the block. */
    int by_map;
    /* The sizes at which the call is compared and timed. */
    const struct size *sizes;
    size_t size_count;
    /* Whether the peer has the call at all. */
    int (*has)(const struct peer *peer);
    /* Makes the contents of an input. Variant 0 is the one that is timed; all are compared. */
    void (*prepare)(struct input *input, size_t variant);
    /* Makes the call and keeps its results in the input. */
    void (*run)(const struct peer *peer, struct input *input);
};

enum { SEAL, CHECK, WRITE, PLAN, REBUILD, CALLS };

/* No call has more sizes than this. */
enum { SIZES_MAX = 12 };

extern const struct call calls[CALLS];

/* One rebuild with this limit on the lent map as it is, which the call REBUILD of the table copies anew. */
void run_turn(const struct peer *peer, struct input *input, size_t limit);

/* Whether a peer takes part in a call at a size. */
int takes_part(const struct peer *peer, const struct call *call, struct size size);

/* A call at a size in words, as each line of the output begins. */
enum { TITLE_MAX = 64 };
void put_title(char title[TITLE_MAX], const struct call *call, struct size size);

#endif
