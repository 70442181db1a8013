/*
 * Losses of known shapes, plan's order of their repairs, what nothing brings
 * back of them, and what is expected of the sheet and the blocks: what the
 * tests of plan, plan_disk, rebuild, follow and save share.
 */
#ifndef LOSS_H
#define LOSS_H

#include "raid2d.h"
#include "suite.h"

/* No grid has more disks. */
#define DISKS RAID2D_DISKS(RAID2D_SIDE_MAX, RAID2D_SIDE_MAX)

/* Erases the disk in row r and column k, and puts arbitrary bytes there. The
   bytes expected after the call stay. */
void lose(struct call *c, size_t r, size_t k);

void lose_nothing(struct call *c);

/* Row 0 and column 0: as many disks as can be restored. */
void lose_cross(struct call *c);

/* As many again: a stair from disk (0,0) to the superparity, by steps to the
   right and down that are as even as can be: (0,0) (0,1) (1,1) (1,2) .. in a
   square. The first step is to the right, the last one down. */
void lose_stair(struct call *c);

/* The same without the superparity: no disk of the last row is erased. */
void lose_most_of_stair(struct call *c);

/* The disk that a stair reaches after so many steps. */
size_t stair_row(struct size s, size_t step);
size_t stair_column(struct size s, size_t step);

/* Changes a survivor, which then keeps the change. */
void damage(struct call *c, size_t r, size_t k, size_t place, uint8_t change);

/* Disk number k of a stripe, and how many disks the stripe has. */
size_t disk_on(struct size s, size_t stripe, size_t k);
size_t disks_on(struct size s, size_t stripe);

/* Repairs in their order. */
struct repairs {
    size_t count;
    struct {
        size_t disk, stripe;
    } number[RAID2D_SHEET_RECORDS];
};

/* The stripes of a disk, and how many disks of a stripe a map has erased. */
size_t row_of(struct size s, size_t disk);
size_t column_of(struct size s, size_t disk);
size_t erased_on(const uint8_t *map, struct size s, size_t stripe);

/* One more repair behind the others. */
void add_repair(struct repairs *list, size_t disk, size_t stripe);

/* The loss of a map as far as these disks go, a byte 1 for each: at each step
   the lowest of them that can be repaired, by its row if that is allowed, else
   by its column. All other disks stay as they are. */
struct repairs in_order_among(const uint8_t *map, struct size s,
                              const uint8_t *among);

/* Plan's order for the loss of a call: the same with all erased disks. */
struct repairs in_plans_order(const struct call *c);

/* How many disks of a map are undetermined: the erased disks whose row and
   column are joined by other erased disks. */
size_t count_undetermined(const uint8_t *map, struct size s);

/* A sheet without records; then its record k. */
void expect_kind(struct call *c, uint8_t kind);
void expect_record(struct call *c, size_t k, size_t disk, size_t stripe);

/* A sheet that lists the repairs from one number up to another. */
void expect_list(struct call *c, const struct repairs *list, size_t from,
                 size_t to);

/* A sheet that shows the smallest loop of the call's map, as ../loop.h has it.
   Returns the number of undetermined disks. */
size_t expect_loop(struct call *c);

/* The erased blocks are zero, as with 7. */
void expect_zero_blocks(struct call *c);

/* The block of a disk is the sum of the others of a stripe, as these are
   expected to be, and the disk is present. */
void expect_repair(struct call *c, size_t disk, size_t stripe);

#endif
