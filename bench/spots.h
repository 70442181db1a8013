/* The calls on blocks of many sectors, and what they are made on besides the array of an input. */
#ifndef SPOTS_H
#define SPOTS_H

#include "calls.h"

enum { SECTORS_MAX = 4096 };

struct spots {
    size_t sector, sectors;
    /* Bytes in the map, and in all sheets. */
    size_t map_bytes, sheet_bytes;
    uint8_t *map, *sheets;
    /* The copy of the map that rebuild is lent, in which it marks its repairs. */
    uint8_t *lent;
    /* What the last call gave besides the results in the input. */
    size_t position;
};

/* There is one for all calls, since a call is given a peer and an input only. */
extern struct spots spots;

/* The library's calls, and those of the tuned loops in C. Look has its disk from the input, its length is the status
   and its offset the count. */
enum { SPOT_PLAN, SPOT_REBUILD, SPOT_FOLLOW, SPOT_SAVE, SPOT_LOOK, TUNED_PLAN, TUNED_REBUILD, SPOT_CALLS };
extern const struct call spot_calls[SPOT_CALLS];

/* Buffers for the most sectors, aligned to 64 bytes. */
void spots_open(void);
void spots_close(void);

/* Cuts the blocks of an input into sectors of this length. Nothing is erased. */
void cut_blocks(const struct input *input, size_t sector);

/* Copies the map of one position, a byte for each disk, into the map of all. */
void put_position(const struct input *input, size_t position, const uint8_t *map);

/* Erases the disks of the input's map at every position. */
void erase_same(const struct input *input);

/* The same, but from position to position one row lower and one column to the right, round the grid, and one column
   more after each round: so one erased disk is another at each of 256 positions of the largest array. */
void erase_moved(const struct input *input);

/* How many sectors are erased. */
size_t count_spots(void);

/* Changes every byte of the erased sectors. */
void spoil_spots(struct input *input);

#endif
