/*
 * Calls on blocks that are cut into sectors, position by position: losses of
 * sectors, plan's repairs of each position, and what is expected of the sheets
 * and the sectors.
 */
#ifndef POSITIONS_H
#define POSITIONS_H

#include "loss.h"

/* Where the sector of a disk at a position stands in the array. Its number,
   which is that of its byte in the map, is this over the sector's length. */
size_t sector_at(const struct call *c, size_t position, size_t disk);

/* Erases one sector, and puts arbitrary bytes there. The bytes expected after
   the call stay. */
void lose_sector(struct call *c, size_t position, size_t disk);

/* The same for all disks that a loss of whole disks has. */
void lose_at(struct call *c, size_t position, void (*loss)(struct call *c));

/* At every position row 0 and column 0, or a stair: as many sectors as can be
   restored. */
void lose_most_sectors(struct call *c);

/* Changes a survivor at some place of a position, and keeps the change. */
void damage_at(struct call *c, size_t position, size_t r, size_t k);

/* Plan's order for the loss of one position. */
struct repairs repairs_at(const struct call *c, size_t position);

/* All sheets have this kind and no record; then the sheet of a position lists
   the repairs from one number up to another. */
void expect_kinds(struct call *c, uint8_t kind);
void expect_list_at(struct call *c, size_t position,
                    const struct repairs *list, size_t from, size_t to);

/* The sheet of a position shows the smallest loop of the loss there, all others
   are zero, and with 6 this position is named. Returns the number of
   undetermined disks there. */
size_t expect_loop_at(struct call *c, size_t position);

/* All erased sectors are zero, as with 7. */
void expect_zero_sectors(struct call *c);

/* A repair by a stripe at a position, from what is expected of the others: the
   sector is present then. */
void expect_repair_at(struct call *c, size_t position, size_t disk,
                      size_t stripe);

/* A call of another function for the same blocks, on the same bytes. Its array
   is expected to be that expected of the call, and all else to stay. */
struct call same_for(enum function function, const struct call *c);

#endif
