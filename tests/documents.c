/*
 * What tests/documents puts around the two loops that raid2d.h shows.
 * sheet.inc and marks.inc are these loops, as they stand in the header's
 * comments. The first reads plan's sheet for two data rows and three data
 * columns with disks 0, 3 and 8 erased; the second marks what save restores at
 * three by three of nine disks, of two disks and of five disks, each at a
 * position of its own. Then the repairs of the header's example of a wanted
 * disk. It is C99 and C++.
 */
#include <stdio.h>

#include "raid2d.h"

static size_t used;

static void use(size_t disk, size_t stripe)
{
    used++;
    printf("disk %zu by stripe %zu, ", disk, stripe);
}

static int read_sheet(void)
{
    static const uint8_t map[RAID2D_DISKS(2, 3)] = { 1, 0, 0, 1, 0, 0, 0, 0, 1 };
    uint8_t sheet[RAID2D_SHEET_BYTES];
    size_t k, count = 0, position = 0;

    if (raid2d_plan(2, 3, 1, map, sizeof map, sheet, sizeof sheet, &count,
                    &position) != RAID2D_OK)
        return 1;
#include "sheet.inc"
    printf("%zu repairs\n", used);
    return used == count ? 0 : 1;
}

/* The bytes of the map for each position; the loop has them side by side. */
static const uint8_t erased[3][RAID2D_DISKS(3, 3)] = {
    { 1, 1, 0, 0, 1, 1, 1, 0, 0, 0, 1, 1, 0, 0, 1, 1 },
    { 0, 0, 0, 1, 0, 0, 0, 1, 0, 0, 0, 0, 0, 0, 0, 0 },
    { 1, 1, 0, 0, 1, 1, 0, 0, 0, 0, 0, 0, 0, 0, 0, 1 }
};

static void mark_saved(void)
{
    uint8_t map[RAID2D_MAP_BYTES(3, 3, 3)], one[RAID2D_DISKS(3, 3)];
    uint8_t sheet[RAID2D_SHEET_BYTES];
    size_t rows = 3, columns = 3, sectors = 3, disks = sizeof one;
    size_t sheet_len = sizeof sheet, all = 0, now = 0, at = 0, p, d;

    for (d = 0; d < sizeof map; d++)
        map[d] = erased[d % sectors][d / sectors];
#include "marks.inc"
    for (p = 0; p < sectors; p++) {
        printf("undetermined at %zu:", p);
        for (d = 0; d < disks; d++)
            if (map[d * sectors + p] == 1)
                printf(" %zu", d);
        printf("\n");
    }
}

static int list_wanted(void)
{
    static const uint8_t map[RAID2D_DISKS(2, 2)] = { 0, 1, 1, 1, 1, 0, 1 };
    uint8_t sheet[RAID2D_SHEET_BYTES];
    size_t k, count = 0;

    if (raid2d_plan_disk(2, 2, map, sizeof map, sheet, sizeof sheet, 4, &count)
        != RAID2D_OK)
        return 1;
    for (k = 1; k <= count; k++)
        printf("%zu by stripe %zu\n", raid2d_sheet_disk(sheet, k),
               raid2d_sheet_stripe(sheet, k));
    return 0;
}

int main(void)
{
    int failed = read_sheet();

    mark_saved();
    return list_wanted() | failed;
}
