/*
 * The same call for smaller sectors: split.h has what each function is for.
 */
#include <string.h>

#include "raid2d.h"
#include "split.h"

static int in_range(size_t number, size_t least, size_t most)
{
    return least <= number && number <= most;
}

/* Longer arrays are not tried a second time: that would take too long. */
#define LONGEST 65536

static int has_sheet(const struct call *c)
{
    return c->function == PLAN || c->function == REBUILD
           || c->function == FOLLOW;
}

/* The numbers and lengths of a call with whole blocks are right. */
static int fits(const struct call *c)
{
    struct size s = c->size;

    return in_range(s.rows, RAID2D_SIDE_MIN, RAID2D_SIDE_MAX)
           && in_range(s.columns, RAID2D_SIDE_MIN, RAID2D_SIDE_MAX)
           && in_range(s.block, RAID2D_BLOCK_MIN, RAID2D_BLOCK_MAX)
           && c->sectors == 1 && c->sector == s.block
           && c->map.len == disks_of(s)
           && c->array.len == c->map.len * s.block
           && c->array.len <= LONGEST
           && (!has_sheet(c) || c->sheet.len == RAID2D_SHEET_BYTES);
}

/* The limit allows all repairs in so many sectors, or none is made. */
static int allows_all(const struct call *c, size_t result, size_t sectors)
{
    size_t erased = 0, i;

    for (i = 0; i < c->map.len; i++)
        erased += c->map.bytes[i];
    return c->function != REBUILD || (result != 0 && result != 7)
           || c->limit >= erased * sectors;
}

/* The least number that a block can be cut into. */
static size_t least_divisor(size_t block)
{
    size_t divisor = 2;

    while (divisor < block && block % divisor != 0)
        divisor++;
    return block == 1 ? 1 : divisor;
}

/* Plan takes no block, and so any number of sectors. */
size_t split_into(const struct call *c, size_t result)
{
    size_t sectors = c->function == PLAN ? 3 : least_divisor(c->size.block);

    if (c->function != LOOK && c->function != SAVE && !has_sheet(c))
        return 1;
    return fits(c) && allows_all(c, result, sectors) ? sectors : 1;
}

/* Each byte of a map as often as there are sectors. */
static void split_map(uint8_t *map, const uint8_t *whole, size_t disks,
                      size_t sectors)
{
    size_t i;

    for (i = 0; i < disks * sectors; i++)
        map[i] = whole[i / sectors];
}

/* A sheet as often as there are sectors, if it is lent as a sheet. */
static void split_sheet(uint8_t *sheets, const uint8_t *whole,
                        const struct call *c, size_t sectors)
{
    size_t position;

    for (position = 0; has_sheet(c) && position < sectors; position++)
        memcpy(sheets + position * RAID2D_SHEET_BYTES, whole,
               RAID2D_SHEET_BYTES);
}

/* A loss that is fatal at every position is so at position 0, and all other
   sheets are zero then. */
struct call split_call(const struct call *c, size_t result, size_t sectors)
{
    struct call cut = cut_call(c->function, c->size, sectors);
    size_t disks = c->map.len;

    cut.disk = c->disk;
    cut.limit = c->limit;
    memcpy(cut.array.bytes, c->array.bytes, c->array.len);
    split_map(cut.map.bytes, c->map.bytes, disks, sectors);
    split_sheet(cut.sheet.bytes, c->sheet.bytes, c, sectors);
    expect_as_now(&cut);
    memcpy(cut.array.expected, c->array.expected, c->array.len);
    split_map(cut.map.expected, c->map.expected, disks, sectors);
    split_sheet(cut.sheet.expected, c->sheet.expected, c, sectors);
    if (has_sheet(c) && result == 6)
        memset(cut.sheet.expected + RAID2D_SHEET_BYTES, 0,
               cut.sheet.len - RAID2D_SHEET_BYTES);
    return cut;
}

size_t split_out(const struct call *c, size_t result, size_t out,
                 size_t sectors)
{
    return c->function != LOOK && result == 0 ? out * sectors : out;
}
