/* Maps of erased disks. */
#ifndef MAPS_H
#define MAPS_H

#include <stddef.h>
#include <stdint.h>

enum {
    ONE_DISK,       /* a data disk in the middle */
    ROW_AND_COLUMN, /* row 0 and column 0, rows + columns + 1 disks: as many as can be restored */
    STAIRCASE,      /* as many from the first disk along the diagonal to the last, one to the right or one down at a
                       time; in a square each repair makes the next one possible */
    ALL_DISKS,
    CYCLE_AND_TREE, /* a staircase with one disk more, which closes a cycle at its low end; the rest is repaired, in a
                       square from the high end */
    HALF_OF_ALL,    /* half of the disks at random */
    NO_DISK,
    MIDDLE_COLUMN,
    LAST_COLUMN,
    RECTANGLES, /* four disks at a time along the diagonal, and a disk between each four and the next: that one is not
                   lost, though no repair brings it back; nine disks at 3x3 */
    LONG_CYCLE, /* one cycle on all stripes, in a rectangle on as many rows as columns: 32 disks at 15x15 */
    TREE_AND_CYCLE, /* a staircase from the first disk, which is repaired from its low end, and behind it a cycle on the
                       stripes of the higher half: 32 disks at 15x15, 16 of them on the cycle. A cycle of 32 leaves no
                       stripe for a tree */
    NO_FOUR,        /* disks at random, but for those that would close a loop of four */
    HARDEST,        /* a map for 15x15: maps.c says how it came about; smaller sizes have its upper left corner */
    MAPS
};

extern const char *const map_names[MAPS];

/* Whether the loss of one of these maps is fatal, at every size, the last two at 15x15. */
int is_fatal(size_t kind);

/* Draws one of these maps, a byte for each disk. */
void draw_map(size_t kind, size_t rows, size_t columns, uint8_t *map);

/* Draws a map with so many erased disks at random. */
void draw_random_map(size_t rows, size_t columns, size_t erased, uint64_t *state, uint8_t *map);

/* Draws a map by so many tries: each erases a disk at random unless that closes a loop shorter than this. */
void draw_wide_map(size_t rows, size_t columns, size_t shortest, size_t tries, uint64_t *state, uint8_t *map);

#endif
