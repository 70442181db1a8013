/* Reads an input of the fuzzer, and makes the bytes it stands for. */
#include <string.h>

#include "input.h"

/* Numbers that are wrong for rows and columns, most of them right if they were
   shortened. */
static const size_t sides[] = {
    255, 256, 258, 271, (size_t)1 << 16 | 3, ((size_t)1 << 31 << 1) + 2,
    SIZE_MAX / 2 + 3, SIZE_MAX - 1, SIZE_MAX
};

/* Numbers around the lengths that are handled at once, around the limit, and
   too great ones. */
static const size_t blocks[] = {
    127, 128, 129, 143, 255, 256, 257, 4095, 4096, 4097,
    ((size_t)1 << 16) + 1, (size_t)1 << 31 << 1, ((size_t)1 << 31 << 1) + 1,
    SIZE_MAX / 2 + 2, SIZE_MAX
};

/* Limits that are enough for every loss; most of them are 0 or 1 if they were
   shortened. */
static const size_t limits[] = {
    255, 256, 257, (size_t)1 << 16, (size_t)1 << 31 << 1,
    ((size_t)1 << 31 << 1) + 1, SIZE_MAX / 2 + 1, SIZE_MAX
};

/* What makes a disk's number one that no disk has and that would be right if it
   were shortened; with the last one it is near the greatest. */
static const size_t aparts[] = {
    256, (size_t)1 << 16, (size_t)1 << 31 << 1, SIZE_MAX / 2 + 1, SIZE_MAX - 255
};

/* Lengths of a sector and numbers of sectors that are wrong, most of them right
   if they were shortened. The first of a pair is added to the block, or stands
   for itself if it is 0 or great. */
static const struct {
    size_t sector, sectors;
} wrong_sectors[] = {
    {0, 0}, {1, 4097}, {2, 4098}, {(size_t)1 << 16, ((size_t)1 << 16) + 1},
    {(size_t)1 << 31 << 1, ((size_t)1 << 31 << 1) + 1},
    {SIZE_MAX / 2 + 1, SIZE_MAX / 2 + 2}, {SIZE_MAX, SIZE_MAX}
};

struct numbers numbers_from(uint32_t seed)
{
    struct numbers r;

    r.state = UINT64_C(0x9e3779b97f4a7c15) ^ ((uint64_t)seed << 17 | seed);
    return r;
}

/* xorshift with a multiplication. */
static uint32_t next_number(struct numbers *r)
{
    r->state ^= r->state >> 12;
    r->state ^= r->state << 25;
    r->state ^= r->state >> 27;
    return (uint32_t)((r->state * UINT64_C(2685821657736338717)) >> 32);
}

uint32_t draw(struct numbers *r, uint32_t bound)
{
    return next_number(r) % bound;
}

void fill_arbitrary(uint32_t seed, uint8_t *bytes, size_t len)
{
    struct numbers r = numbers_from(seed);
    size_t i;

    for (i = 0; i < len; i++)
        bytes[i] = (uint8_t)next_number(&r);
}

static size_t side_of(uint8_t code)
{
    if (code <= SIDE_CODES)
        return code;
    return sides[(code - SIDE_CODES - 1) % (sizeof sides / sizeof *sides)];
}

static size_t block_of(uint8_t code)
{
    if (code <= BLOCK_CODES)
        return code;
    return blocks[(code - BLOCK_CODES - 1) % (sizeof blocks / sizeof *blocks)];
}

static size_t limit_of(uint8_t code)
{
    if (code <= LIMIT_CODES)
        return code;
    return limits[(code - LIMIT_CODES - 1) % (sizeof limits / sizeof *limits)];
}

static size_t apart_of(uint8_t code)
{
    if (code <= APART_CODES)
        return 0;
    return aparts[(code - APART_CODES - 1) % (sizeof aparts / sizeof *aparts)];
}

int takes_sectors(enum call call)
{
    return call != PLAN_DISK && call != TIDY;
}

size_t column_of_position(size_t position, size_t positions)
{
    if (positions <= COLUMNS)
        return position;
    return position == positions - 1 ? COLUMNS - 1 : position % (COLUMNS - 1);
}

size_t sheet_in_input(size_t column)
{
    return column == 0 ? AT_SHEET : AT_MORE + (column - 1) * COLUMN_BYTES;
}

size_t map_in_input(size_t column)
{
    return sheet_in_input(column) + 98;
}

enum call call_of(uint8_t flags, uint8_t look)
{
    if (look & 1)
        return LOOK;
    if (flags & FLAG_PLAN_DISK)
        return PLAN_DISK;
    if (flags & FLAG_TIDY)
        return TIDY;
    if (flags & FLAG_SAVE)
        return SAVE;
    if (flags & FLAG_REBUILD)
        return REBUILD;
    return flags & FLAG_FOLLOW ? FOLLOW : PLAN;
}

/* The length that is asked for, changed by a signed byte and never below 0. */
static size_t changed_length(size_t length, uint8_t by)
{
    if (by < 128)
        return length + by;
    return length < 256u - by ? 0 : length - (256u - by);
}

static size_t small_side(size_t side)
{
    return side <= SIDE_CODES ? side : side % 16;
}

/* As many sectors as can be: of one byte each, or for plan any number. */
static void read_most_sectors(struct input *in)
{
    size_t most = disks_of(in->small) <= FEW_DISKS ? POSITIONS_OF_FEW
                                                   : POSITIONS;

    in->sector = 1;
    in->sectors = most;
    in->positions = in->call == PLAN || in->block_len > most ? most
                                                             : in->block_len;
}

static void read_sectors(struct input *in, uint8_t code)
{
    size_t wrong = sizeof wrong_sectors / sizeof *wrong_sectors;
    size_t which = code <= SECTOR_CODES
                       ? 0 : (code - SECTOR_CODES - 1u) % (wrong + 1);

    in->positions = in->sectors = 1;
    in->sector = in->block;
    if (code <= 1 || !takes_sectors(in->call))
        return;
    if (code <= SECTOR_CODES) {
        in->positions = in->sectors = code;
        in->sector = in->block / code;
    } else if (which == wrong) {
        read_most_sectors(in);
    } else {
        in->sectors = wrong_sectors[which].sectors;
        in->sector = wrong_sectors[which].sector;
        if (in->sector != 0 && in->sector != SIZE_MAX)
            in->sector += in->block;
    }
}

static void read_lengths(struct input *in, const uint8_t *all)
{
    size_t disks;

    in->grid.rows = side_of(all[AT_ROWS]);
    in->grid.columns = side_of(all[AT_COLUMNS]);
    in->small.rows = small_side(in->grid.rows);
    in->small.columns = small_side(in->grid.columns);
    in->block = block_of(all[AT_BLOCK]);
    in->block_len = in->block <= 4098 ? in->block : in->block % 4096;
    read_sectors(in, all[AT_SECTORS]);
    disks = disks_of(in->small);
    in->array_len = changed_length(disks * in->block_len, all[AT_ARRAY_LEN]);
    in->map_len = changed_length(disks * in->positions, all[AT_MAP_LEN]);
    in->sheet_len = changed_length(98 * in->positions, all[AT_SHEET_LEN]);
}

/* The bytes of a map: for one position as the input has them, also where the
   map is too long, else those of each position side by side. */
static void read_map(struct input *in, const uint8_t *all)
{
    size_t n = in->positions, disks = disks_of(in->small), i;

    memset(in->map, 0, in->map_len);
    if (n == 1)
        memcpy(in->map, all + AT_MAP,
               in->map_len < 18 * 18 ? in->map_len : 18 * 18);
    for (i = 0; n > 1 && i < in->map_len && i < disks * n; i++)
        in->map[i] =
            all[map_in_input(column_of_position(i % n, n)) + i / n];
}

static void read_sheets(struct input *in, const uint8_t *all)
{
    size_t position, at, rest;

    memset(in->sheet, 0, in->sheet_len);
    for (position = 0; position < in->positions; position++) {
        at = 98 * position;
        rest = at < in->sheet_len ? in->sheet_len - at : 0;
        memcpy(in->sheet + at,
               all + sheet_in_input(column_of_position(position,
                                                       in->positions)),
               rest < 98 ? rest : 98);
    }
}

void read_input(struct input *in, const uint8_t *data, size_t size)
{
    uint8_t all[INPUT_MAX] = {0};

    memcpy(all, data, size < INPUT_MAX ? size : INPUT_MAX);
    in->call = call_of(all[AT_FLAGS], all[AT_LOOK]);
    in->behind = (all[AT_FLAGS] & FLAG_BEHIND) != 0;
    in->pass_null = (all[AT_FLAGS] & FLAG_NULL) != 0;
    read_lengths(in, all);
    in->contents = (enum contents)(all[AT_CONTENTS] % CONTENTS);
    in->disk = all[AT_DISK];
    in->wanted = in->disk + apart_of(all[AT_APART]);
    in->seed = all[AT_SEED] | (uint32_t)all[AT_SEED + 1] << 8 |
               (uint32_t)all[AT_SEED + 2] << 16 |
               (uint32_t)all[AT_SEED + 3] << 24;
    in->limit = limit_of(all[AT_LIMIT]);
    read_sheets(in, all);
    read_map(in, all);
}

/* The sum of so many bytes, each so far behind the one before. */
static uint8_t sum_of(const uint8_t *bytes, size_t count, size_t step)
{
    uint8_t sum = 0;
    size_t i;

    for (i = 0; i < count; i++)
        sum ^= bytes[i * step];
    return sum;
}

/* Sets the parities at one byte place by their definitions: first the rows',
   then the columns', and with the last column the superparity. */
static void seal_place(uint8_t *array, struct grid g, size_t block,
                       size_t place)
{
    size_t right = block, down = (g.columns + 1) * block, row, column;

    array += place;
    for (row = 0; row < g.rows; row++)
        array[row * down + g.columns * right] =
            sum_of(array + row * down, g.columns, right);
    for (column = 0; column <= g.columns; column++)
        array[g.rows * down + column * right] =
            sum_of(array + column * right, g.rows, down);
}

size_t disk_around(struct grid g, size_t row, size_t column)
{
    return disk_at(g, row % (g.rows + 1), column % (g.columns + 1));
}

/* Changes one byte of a disk. Which place and how comes from the seed, so it
   is the same for every disk. */
static void change(const struct input *in, uint8_t *array,
                   size_t row, size_t column)
{
    size_t disk = disk_around(in->small, row, column);

    array[disk * in->block_len + in->seed % in->block_len] ^=
        (uint8_t)(1u << in->seed % 8);
}

static void damage(const struct input *in, uint8_t *array)
{
    size_t row = in->disk / (in->small.columns + 1);
    size_t column = in->disk % (in->small.columns + 1);
    size_t down = 1 + in->seed % in->small.rows;
    size_t right = 1 + in->seed % in->small.columns;

    if (in->contents == SEALED || in->contents == ARBITRARY)
        return;
    change(in, array, row, column);
    if (in->contents == ROW_CHANGED || in->contents == CORNERS_CHANGED)
        change(in, array, row, column + right);
    if (in->contents == COLUMN_CHANGED || in->contents == CORNERS_CHANGED)
        change(in, array, row + down, column);
    if (in->contents == CORNERS_CHANGED)
        change(in, array, row + down, column + right);
}

/* Arbitrary bytes in the erased sectors, others than before, as far as sectors
   of that many positions fit the block. */
static void spoil_erased(const struct input *in, uint8_t *array, size_t disks)
{
    size_t number, n = in->positions, sector = in->block_len / n;

    for (number = 0; number < disks * n && number < in->map_len; number++)
        if (in->map[number] == 1)
            fill_arbitrary(in->seed + 1 + (uint32_t)number,
                           array + number / n * in->block_len +
                               number % n * sector, sector);
}

void fill_array(const struct input *in, uint8_t *array)
{
    size_t disks = disks_of(in->small), place;

    fill_arbitrary(in->seed, array, in->array_len);
    if (in->small.rows < 2 || in->small.columns < 2 ||
        in->array_len < disks * in->block_len || in->block_len == 0 ||
        in->contents == ARBITRARY)
        return;
    for (place = 0; place < in->block_len; place++)
        seal_place(array, in->small, in->block_len, place);
    damage(in, array);
    spoil_erased(in, array, disks);
}
