/* Plan straight from its definition: for each repair every disk is looked at again, with all disks of its stripes, and
   for each disk that is left all others. */
#include "loop.h"
#include "sheet.h"

/* Whether the stripe, `count` disks that stand `step` apart, has one erased disk and no more. */
static int one_erased(const uint8_t *first, size_t step, size_t count)
{
    size_t erased = 0;
    for (size_t k = 0; k < count; k++)
        erased += first[k * step];
    return erased == 1;
}

/* The lowest disk that can be repaired, and by which stripe; or the number of disks. */
static size_t next_repair(size_t down, size_t across, const uint8_t *left, size_t *stripe)
{
    size_t d = 0;
    for (; d < down * across; d++) {
        if (left[d] == 0)
            continue;
        *stripe = d / across;
        if (one_erased(left + d / across * across, 1, across))
            break;
        *stripe = FIRST_COLUMN + d % across;
        if (one_erased(left + d % across, across, down))
            break;
    }
    return d;
}

/* Whether the other disks join the two stripes of a disk: the stripes of a part have one name. */
static int is_lost(size_t disks, size_t across, const uint8_t *left, size_t disk)
{
    size_t part[STRIPES];
    for (size_t s = 0; s < STRIPES; s++)
        part[s] = s;
    for (size_t d = 0; d < disks; d++) {
        size_t row = part[d / across], column = part[FIRST_COLUMN + d % across];
        for (size_t s = 0; left[d] != 0 && d != disk && s < STRIPES; s++)
            if (part[s] == column)
                part[s] = row;
    }
    return part[disk / across] == part[FIRST_COLUMN + disk % across];
}

uint32_t plain_plan(size_t rows, size_t columns, const uint8_t *map, size_t map_len, uint8_t *sheet, size_t sheet_len,
                    size_t *count)
{
    uint8_t left[DISKS_MAX];
    size_t disk, stripe = 0, made = 0, fatal = 0, lost = 0;
    memcpy(left, map, map_len);
    put_kind(sheet, sheet_len, REPAIRS);
    while ((disk = next_repair(rows + 1, columns + 1, left, &stripe)) < map_len) {
        left[disk] = 0;
        put_record(sheet, made++, disk, stripe);
    }
    for (size_t d = 0; d < map_len; d++) {
        fatal += left[d];
        lost += left[d] != 0 && is_lost(map_len, columns + 1, left, d);
    }
    *count = fatal == 0 ? made : lost;
    if (fatal == 0)
        return 0;
    put_loop_plain(columns, left, map_len, sheet, sheet_len);
    return FATAL;
}
