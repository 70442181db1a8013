/*
 * Calls on blocks that are cut into sectors: positions.h has what each function
 * is for.
 */
#include <string.h>

#include "positions.h"

size_t sector_at(const struct call *c, size_t position, size_t disk)
{
    return disk * c->size.block + position * c->sector;
}

static uint8_t *mark_of(uint8_t *map, const struct call *c, size_t position,
                        size_t disk)
{
    return &map[disk * c->sectors + position];
}

void lose_sector(struct call *c, size_t position, size_t disk)
{
    *mark_of(c->map.bytes, c, position, disk) = 1;
    *mark_of(c->map.expected, c, position, disk) = 1;
    fill(c->array.bytes + sector_at(c, position, disk), c->sector);
}

void lose_at(struct call *c, size_t position, void (*loss)(struct call *c))
{
    const struct size size = { c->size.rows, c->size.columns, 1 };
    struct call one = fitting_call(PLAN, size);
    size_t disk;

    loss(&one);
    for (disk = 0; disk < one.map.len; disk++)
        if (one.map.bytes[disk])
            lose_sector(c, position, disk);
    end_call(&one);
}

void lose_most_sectors(struct call *c)
{
    size_t position;

    for (position = 0; position < c->sectors; position++)
        lose_at(c, position, position % 2 == 0 ? lose_cross : lose_stair);
}

void damage_at(struct call *c, size_t position, size_t r, size_t k)
{
    damage(c, r, k, position * c->sector + below(c->sector),
           (uint8_t)(1 + below(255)));
}

/* The bytes of the map for one position. */
static void gather(const struct call *c, size_t position, uint8_t *map)
{
    size_t disk;

    for (disk = 0; disk < disks_of(c->size); disk++)
        map[disk] = *mark_of(c->map.bytes, c, position, disk);
}

struct repairs repairs_at(const struct call *c, size_t position)
{
    uint8_t map[DISKS];

    gather(c, position, map);
    return in_order_among(map, c->size, map);
}

void expect_kinds(struct call *c, uint8_t kind)
{
    size_t position;

    memset(c->sheet.expected, 0, c->sheet.len);
    for (position = 0; position < c->sectors; position++)
        c->sheet.expected[position * RAID2D_SHEET_BYTES] = kind;
}

void expect_list_at(struct call *c, size_t position,
                    const struct repairs *list, size_t from, size_t to)
{
    struct call one = *c;

    one.sheet.expected += position * RAID2D_SHEET_BYTES;
    one.sheet.len = RAID2D_SHEET_BYTES;
    expect_list(&one, list, from, to);
}

size_t expect_loop_at(struct call *c, size_t position)
{
    struct call one = *c;
    uint8_t map[DISKS];

    gather(c, position, map);
    memset(c->sheet.expected, 0, c->sheet.len);
    c->fatal = position;
    one.map.bytes = map;
    one.sheet.expected += position * RAID2D_SHEET_BYTES;
    return expect_loop(&one);
}

void expect_zero_sectors(struct call *c)
{
    size_t number;

    for (number = 0; number < c->map.len; number++)
        if (c->map.bytes[number])
            memset(c->array.expected + number * c->sector, 0, c->sector);
}

void expect_repair_at(struct call *c, size_t position, size_t disk,
                      size_t stripe)
{
    uint8_t *sum = c->array.expected + sector_at(c, position, disk);
    size_t k;

    memset(sum, 0, c->sector);
    for (k = 0; k < disks_on(c->size, stripe); k++) {
        size_t other = disk_on(c->size, stripe, k);

        if (other != disk)
            add_block(sum, c->array.expected + sector_at(c, position, other),
                      c->sector);
    }
    *mark_of(c->map.expected, c, position, disk) = 0;
}

struct call same_for(enum function function, const struct call *c)
{
    struct call same = cut_call(function, c->size, c->sectors);

    memcpy(same.array.bytes, c->array.bytes, c->array.len);
    memcpy(same.map.bytes, c->map.bytes, c->map.len);
    expect_as_now(&same);
    memcpy(same.array.expected, c->array.expected, c->array.len);
    return same;
}
