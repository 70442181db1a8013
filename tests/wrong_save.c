/*
 * Save before the archive's own, with the one fault that is wanted, or none:
 * disks that no repair reaches are not saved, or lost ones are written to,
 * survivors are judged too late or not at all. These faults are in what save
 * makes of one position; wrong_sectors.c has those in several.
 */
#include <stdlib.h>
#include <string.h>

#include "raid2d.h"
#include "wrong.h"
#include "wrong_sectors.h"

enum {
    DISKS = RAID2D_DISKS(RAID2D_SIDE_MAX, RAID2D_SIDE_MAX),
    STRIPES = RAID2D_COLUMN_STRIPE + RAID2D_SIDE_MAX + 1
};

/* ---- What repairs reach ---- */

static void count_on_stripes(size_t across, size_t disks, const uint8_t *map,
                             size_t *on)
{
    size_t disk;

    memset(on, 0, STRIPES * sizeof *on);
    for (disk = 0; disk < disks; disk++) {
        on[disk / across] += map[disk];
        on[RAID2D_COLUMN_STRIPE + disk % across] += map[disk];
    }
}

/* Takes disks off a map as long as one is alone on a stripe. */
static void make_repairs(size_t rows, size_t columns, uint8_t *map)
{
    size_t across = columns + 1, disks = (rows + 1) * across;
    size_t on[STRIPES], disk = 0;

    while (disk < disks) {
        count_on_stripes(across, disks, map, on);
        disk = 0;
        while (disk < disks
               && (!map[disk]
                   || (on[disk / across] > 1
                       && on[RAID2D_COLUMN_STRIPE + disk % across] > 1)))
            disk++;
        if (disk < disks)
            map[disk] = 0;
    }
}

size_t count_left(size_t rows, size_t columns, const uint8_t *map)
{
    size_t disks = RAID2D_DISKS(rows, columns), count = 0, disk;
    uint8_t left[DISKS];

    memcpy(left, map, disks);
    make_repairs(rows, columns, left);
    for (disk = 0; disk < disks; disk++)
        count += left[disk];
    return count;
}

/* ---- A call of save ---- */

struct saving {
    size_t rows, columns, block;
    uint8_t *array, *before; /* the array now, and before the call */
    size_t array_len;
    const uint8_t *map;
    size_t map_len;
    size_t *count;
};

/* Plan's count for a map, 0 where the loss is not fatal. */
static size_t count_lost(const struct saving *s, const uint8_t *map)
{
    uint8_t sheet[RAID2D_SHEET_BYTES];
    size_t count = 0;
    uint32_t status = plan_one(s->rows, s->columns, map, s->map_len, sheet,
                               sizeof sheet, &count);

    return status == RAID2D_FATAL ? count : 0;
}

/* Without a lost disk fewer are lost. */
static int is_lost(const struct saving *s, size_t disk)
{
    uint8_t without[DISKS];

    memcpy(without, s->map, s->map_len);
    without[disk] = 0;
    return count_lost(s, without) < count_lost(s, s->map);
}

/* The blocks of these disks are as before the call. Returns how many. */
static size_t put_back(const struct saving *s, const uint8_t *disks)
{
    size_t count = 0, disk;

    for (disk = 0; disk < s->map_len; disk++)
        if (disks[disk]) {
            memcpy(s->array + disk * s->block, s->before + disk * s->block,
                   s->block);
            count++;
        }
    return count;
}

/* The lost blocks are zero, or as before the call. */
static void write_lost(const struct saving *s, int zero)
{
    uint8_t lost[DISKS] = { 0 };
    size_t disk;

    for (disk = 0; disk < s->map_len; disk++) {
        lost[disk] = s->map[disk] && is_lost(s, disk);
        if (lost[disk] && zero)
            memset(s->array + disk * s->block, 0, s->block);
    }
    if (!zero)
        put_back(s, lost);
}

/* What becomes of a call that has saved all it could. */
static uint32_t spoil_saved(const struct saving *s)
{
    uint8_t left[DISKS];

    memcpy(left, s->map, s->map_len);
    make_repairs(s->rows, s->columns, left);
    if (wrong("save gives 6") && count_lost(s, s->map) > 0)
        return RAID2D_FATAL;
    if (wrong("save restores what repairs reach"))
        *s->count -= put_back(s, left) - count_lost(s, s->map);
    if (wrong("save counts what repairs reach"))
        *s->count -= count_left(s->rows, s->columns, s->map)
                     - count_lost(s, s->map);
    if (wrong("save restores nothing of a fatal loss")
        && count_lost(s, s->map) > 0) {
        put_back(s, s->map);
        *s->count = 0;
    }
    if (wrong("save zeroes lost blocks"))
        write_lost(s, 1);
    return 0;
}

/* A stripe without erased disks has a sum other than zero. */
static int free_stripe_contradicts(const struct saving *s)
{
    size_t across = s->columns + 1, on[STRIPES], place, disk, stripe;
    uint8_t sums[STRIPES];

    count_on_stripes(across, s->map_len, s->map, on);
    for (place = 0; place < s->block; place++) {
        memset(sums, 0, sizeof sums);
        for (disk = 0; disk < s->map_len; disk++) {
            uint8_t byte = s->before[disk * s->block + place];

            sums[disk / across] ^= byte;
            sums[RAID2D_COLUMN_STRIPE + disk % across] ^= byte;
        }
        for (stripe = 0; stripe < STRIPES; stripe++)
            if (on[stripe] == 0 && sums[stripe] != 0)
                return 1;
    }
    return 0;
}

/* What becomes of a call that has found a contradiction. */
static uint32_t spoil_refusal(const struct saving *s)
{
    if ((wrong("save tests only stripes without erased disks")
         && !free_stripe_contradicts(s))
        || (wrong("save tests no survivors of a fatal loss")
            && count_lost(s, s->map) > 0)) {
        put_back(s, s->map);
        *s->count = 0;
        return 0;
    }
    if (wrong("save leaves lost blocks on 7"))
        write_lost(s, 0);
    if (wrong("save leaves all blocks on 7"))
        put_back(s, s->map);
    if (wrong("save counts on 7"))
        *s->count = 0;
    return RAID2D_ERR_SURVIVORS;
}

static uint32_t save_wrongly(struct saving s)
{
    uint32_t status;

    s.before = malloc(s.array_len);
    if (s.before == NULL)
        abort();
    memcpy(s.before, s.array, s.array_len);
    status = right_save(s.rows, s.columns, s.block, s.array, s.array_len,
                        s.block, s.map, s.map_len, s.count);
    if (status == 0)
        status = spoil_saved(&s);
    else if (status == RAID2D_ERR_SURVIVORS)
        status = spoil_refusal(&s);
    free(s.before);
    return status;
}

/* A byte that is not lent is read, or one that is only read is written. */
static void touch(const struct saving *s)
{
    if (wrong("save reads a byte behind the map"))
        read_at(s->map + s->map_len);
    if (wrong("save reads a byte before the map"))
        read_at(s->map - 1);
    if (wrong("save reads a byte behind the array"))
        read_at(s->array + s->array_len);
    if (wrong("save reads a byte before the array"))
        read_at(s->array - 1);
    if (wrong("save writes the map, the same bytes"))
        write_at(s->map);
}

/* Blocks are one sector, and all lengths are right. */
static int fits(const struct saving *s, size_t sector)
{
    size_t bytes = right_array_bytes(s->rows, s->columns, s->block);

    return bytes > 0 && s->array_len == bytes && sector == s->block
           && s->map_len == right_disks(s->rows, s->columns);
}

uint32_t raid2d_save(size_t rows, size_t columns, size_t block,
                     uint8_t *array, size_t array_len, size_t sector,
                     const uint8_t *map, size_t map_len, size_t *count)
{
    struct size size = passed_on("save", rows, columns);
    struct saving s = { size.rows, size.columns, block, array, NULL,
                        array_len, map, map_len, count };
    struct cut c = { size.rows, size.columns, block, array, array_len,
                     sector, 1, (uint8_t *)(size_t)map, map_len, NULL, 0, 0,
                     0, count, NULL };
    uint32_t status;

    if (strncmp(wanted(), "save ", 5) == 0 && fits(&s, sector)) {
        status = save_wrongly(s);
        if (status == 0)
            touch(&s);
        return status;
    }
    return save_in_sectors(c);
}
