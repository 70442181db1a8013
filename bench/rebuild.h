/* Rebuild for the peers in C, which differ in how they plan, sum and check. */
#ifndef REBUILD_H
#define REBUILD_H

#include "sheet.h"

/* Sets stretch number `own` of `count` that stand `step` bytes apart to the sum of the others. */
typedef void repair_function(uint8_t *first, size_t step, size_t count, size_t own, size_t length);

/* Repairs so many bytes of a disk from `first` on, which is in the block of disk 0: a sector, or the block. */
static inline void repair_by(repair_function *repair, size_t rows, size_t columns, size_t block, uint8_t *first,
                             size_t disk, size_t stripe, size_t length)
{
    size_t down = rows + 1, across = columns + 1;
    if (stripe < FIRST_COLUMN)
        repair(first + stripe * across * block, block, across, disk % across, length);
    else
        repair(first + (stripe - FIRST_COLUMN) * block, across * block, down, disk / across, length);
}

/* The survivors contradict each other: erased sectors and all sheets become zero. A map of disks has whole blocks for
   sectors. */
static inline uint32_t contradictory(size_t sector, uint8_t *array, const uint8_t *map, size_t map_len, uint8_t *sheets,
                                     size_t sheets_len)
{
    for (size_t i = 0; i < map_len; i++)
        if (map[i] != 0)
            memset(array + i * sector, 0, sector);
    memset(sheets, 0, sheets_len);
    return CONTRADICTORY;
}

/* The first repairs of the plan. Stripes are checked where these are all. */
static inline uint32_t rebuild_by(plan_call *plan, repair_function *repair, check_call *check, size_t rows,
                                  size_t columns, size_t block, uint8_t *array, size_t array_len, uint8_t *map,
                                  size_t map_len, uint8_t *sheet, size_t sheet_len, size_t limit, size_t *count)
{
    size_t planned, stripe;
    uint32_t status = plan(rows, columns, map, map_len, sheet, sheet_len, &planned);
    size_t made = status != 0 || planned < limit ? planned : limit;
    if (status == 0) {
        for (size_t k = 0; k < made; k++)
            repair_by(repair, rows, columns, block, array, disk_of(sheet, k), stripe_of(sheet, k), block);
        if (made == planned && check(rows, columns, block, array, array_len, &stripe) != SEALED)
            return contradictory(block, array, map, map_len, sheet, sheet_len);
        for (size_t k = 0; k < made; k++)
            map[disk_of(sheet, k)] = 0;
        if (made < planned)
            cut_list(sheet, sheet_len, made);
    }
    *count = made;
    return status;
}

#endif
