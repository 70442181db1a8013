/* A plan for one disk, by its rule: the erased disks on each side of it are found from stripe to stripe and repaired by
   counters. Where neither side can be repaired, it is the tuned plan for all disks. */
#include "peer.h"
#include "sheet.h"
#include "tally.h"

/* The erased disks that a stripe of the wanted disk is joined to by others than the wanted disk. They have to be
   repaired before this stripe can repair it. The counters have the wanted disk too, which is not left to repair. */
struct side {
    struct tally tally;
    size_t stripe, disks;
    /* The stripes reached, in the order in which their disks are taken. */
    uint8_t reached[STRIPES], queue[STRIPES];
    size_t queued;
};

static void reach(struct side *side, size_t stripe)
{
    if (side->reached[stripe])
        return;
    side->reached[stripe] = 1;
    side->queue[side->queued++] = (uint8_t)stripe;
}

/* Takes the disk in which two stripes cross, unless it was taken along the other one. */
static void take_disk(struct side *side, size_t disk, size_t stripe, size_t other)
{
    if (side->tally.left[disk])
        return;
    side->tally.left[disk] = 1;
    side->tally.on[stripe]++;
    side->tally.on[other]++;
    side->disks++;
    reach(side, other);
}

static void take_stripe(struct side *side, size_t down, size_t across, const uint8_t *map, size_t wanted, size_t stripe)
{
    if (stripe < FIRST_COLUMN) {
        for (size_t c = 0, disk = stripe * across; c < across; c++, disk++)
            if (map[disk] != 0 && disk != wanted)
                take_disk(side, disk, stripe, FIRST_COLUMN + c);
    } else {
        for (size_t r = 0, disk = stripe - FIRST_COLUMN; r < down; r++, disk += across)
            if (map[disk] != 0 && disk != wanted)
                take_disk(side, disk, stripe, r);
    }
}

static void load(struct side *side, size_t down, size_t across, const uint8_t *map, size_t wanted, size_t stripe)
{
    memset(side, 0, sizeof *side);
    side->stripe = stripe;
    side->tally.on[wanted / across] = side->tally.on[FIRST_COLUMN + wanted % across] = 1;
    reach(side, stripe);
    for (size_t k = 0; k < side->queued; k++)
        take_stripe(side, down, across, map, wanted, side->queue[k]);
}

/* Lists the repairs of a side and then that of the wanted disk; false where a disk of the side cannot be repaired. */
static int list_side(struct side *side, size_t down, size_t across, size_t wanted, uint8_t *sheet, size_t sheet_len,
                     size_t *count)
{
    size_t made = list_repairs(&side->tally, down, across, side->disks, sheet, sheet_len);
    if (made < side->disks)
        return 0;
    put_record(sheet, made, wanted, side->stripe);
    *count = made + 1;
    return 1;
}

/* The smaller side is tried first, that of the row where they are equal. */
uint32_t plain_plan_disk(size_t rows, size_t columns, const uint8_t *map, size_t map_len, uint8_t *sheet,
                         size_t sheet_len, size_t disk, size_t *count)
{
    size_t down = rows + 1, across = columns + 1;
    struct side row, column;
    int row_first;
    load(&row, down, across, map, disk, disk / across);
    load(&column, down, across, map, disk, FIRST_COLUMN + disk % across);
    row_first = row.disks <= column.disks;
    if (list_side(row_first ? &row : &column, down, across, disk, sheet, sheet_len, count)
        || list_side(row_first ? &column : &row, down, across, disk, sheet, sheet_len, count))
        return 0;
    return tuned_plan(rows, columns, map, map_len, sheet, sheet_len, count);
}
