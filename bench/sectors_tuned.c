/* The tuned planner and the tuned sums on blocks of many sectors, one position after another. All positions are planned
   before the first repair, and whole blocks are checked after the last. */
#include "peer.h"
#include "rebuild.h"
#include "tuned_repair.h"

#include <string.h>

check_call tuned_check;

/* The map of one position: a byte for each disk. */
static void gather(uint8_t column[DISKS_MAX], const uint8_t *map, size_t disks, size_t sectors, size_t position)
{
    for (size_t d = 0; d < disks; d++)
        column[d] = map[d * sectors + position];
}

uint32_t tuned_plan_sectors(size_t rows, size_t columns, size_t sectors, const uint8_t *map, size_t map_len,
                            uint8_t *sheets, size_t sheets_len, size_t *count, size_t *position)
{
    uint8_t column[DISKS_MAX];
    size_t disks = map_len / sectors, sheet_len = sheets_len / sectors, all = 0, planned;
    for (size_t p = 0; p < sectors; p++) {
        gather(column, map, disks, sectors, p);
        if (tuned_plan(rows, columns, column, disks, sheets + p * sheet_len, sheet_len, &planned) == FATAL) {
            memset(sheets, 0, p * sheet_len);
            memset(sheets + (p + 1) * sheet_len, 0, sheets_len - (p + 1) * sheet_len);
            *position = p;
            *count = planned;
            return FATAL;
        }
        all += planned;
    }
    *count = all;
    return 0;
}

static int has_record(const uint8_t *sheet, size_t k)
{
    return sheet[3 * k + 1] != 0;
}

/* Makes the first repairs of a sheet, cuts the list behind them, and says how many they are. */
static size_t repair_listed(size_t rows, size_t columns, size_t block, uint8_t *first, size_t sector, uint8_t *sheet,
                            size_t sheet_len, size_t limit)
{
    size_t made = 0;
    for (; made < limit && has_record(sheet, made); made++)
        repair_by(repair, rows, columns, block, first, disk_of(sheet, made), stripe_of(sheet, made), sector);
    if (has_record(sheet, made))
        cut_list(sheet, sheet_len, made);
    return made;
}

static void mark_listed(uint8_t *map, size_t sectors, const uint8_t *sheets, size_t sheet_len)
{
    for (size_t p = 0; p < sectors; p++)
        for (size_t k = 0; has_record(sheets + p * sheet_len, k); k++)
            map[disk_of(sheets + p * sheet_len, k) * sectors + p] = 0;
}

uint32_t tuned_rebuild_sectors(size_t rows, size_t columns, size_t block, uint8_t *array, size_t array_len,
                               size_t sector, uint8_t *map, size_t map_len, uint8_t *sheets, size_t sheets_len,
                               size_t limit, size_t *count, size_t *position)
{
    size_t sectors = block / sector, sheet_len = sheets_len / sectors, planned, made = 0, stripe;
    uint32_t status = tuned_plan_sectors(rows, columns, sectors, map, map_len, sheets, sheets_len, &planned, position);
    if (status == FATAL) {
        *count = planned;
        return status;
    }
    for (size_t p = 0; p < sectors; p++)
        made += repair_listed(rows, columns, block, array + p * sector, sector, sheets + p * sheet_len, sheet_len,
                              limit - made);
    if (made == planned && tuned_check(rows, columns, block, array, array_len, &stripe) != SEALED)
        return contradictory(sector, array, map, map_len, sheets, sheets_len);
    mark_listed(map, sectors, sheets, sheet_len);
    *count = made;
    return status;
}
