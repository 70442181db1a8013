#include "calls.h"
#include "maps.h"

#include <stdio.h>
#include <string.h>

#define COUNT(table) (sizeof(table) / sizeof *(table))

/* Squares, then rectangles. Rebuild has row 0 and column 0 erased; the other calls take no map. */
#define SIZE(rows, columns, block) {rows, columns, block, ROW_AND_COLUMN}
static const struct size array_sizes[] = {
    SIZE(2, 2, 1),   SIZE(2, 2, 16),    SIZE(4, 4, 64),    SIZE(5, 5, 100),    SIZE(8, 8, 512),
    SIZE(15, 15, 1), SIZE(15, 15, 16),  SIZE(15, 15, 512), SIZE(15, 15, 4096),
    SIZE(3, 5, 64),  SIZE(2, 15, 4096), SIZE(15, 2, 4096),
};

/* Losses that can be restored; fatal.c has the others. Plan takes no array, so its block is the smallest. */
#define THREE_MAPS(rows, columns)                                                                                     \
    {rows, columns, 1, ONE_DISK}, {rows, columns, 1, ROW_AND_COLUMN}, {rows, columns, 1, STAIRCASE}
static const struct size map_sizes[] = {THREE_MAPS(4, 4), THREE_MAPS(15, 15), THREE_MAPS(2, 15), THREE_MAPS(15, 2)};

/* Random data under random parities. */
static void prepare_seal(struct input *input, size_t variant)
{
    (void)variant;
    input_fill(input);
}

static void run_seal(const struct peer *peer, struct input *input)
{
    input->status = peer->seal(input->size.rows, input->size.columns, input->size.block, input->array, input->bytes);
}

/* Random data under right parities. */
static void fill_sealed(struct input *input)
{
    input_fill(input);
    run_seal(&peers[PLAIN], input);
}

/* Some byte of a disk. */
static uint8_t *byte_of(struct input *input, size_t disk, size_t variant)
{
    return input->array + disk * input->size.block + variant * 7919 % input->size.block;
}

/* A sealed array; in odd variants with one damaged byte, in the others with two equal ones in one row, which show
   only in a column. The damage visits each disk. */
static void prepare_check(struct input *input, size_t variant)
{
    size_t across = input->size.columns + 1, disk = variant / 2 % input->disks;
    uint8_t *damaged = byte_of(input, disk, variant);
    fill_sealed(input);
    if (variant == 0)
        return;
    *damaged ^= 128;
    if (variant % 2 == 0)
        *(disk % across == 0 ? damaged + input->size.block : damaged - input->size.block) ^= 128;
}

/* Random bytes everywhere, and each data disk in turn. A disk in the middle of the grid is timed. */
static void prepare_write(struct input *input, size_t variant)
{
    size_t rows = input->size.rows, columns = input->size.columns;
    size_t data_disk = (variant + rows / 2 * columns + columns / 2) % (rows * columns);
    input_fill(input);
    input->disk = data_disk / columns * (columns + 1) + data_disk % columns;
}

/* The map of the size; in other variants one with up to rows + columns + 2 disks at random. */
static void prepare_plan(struct input *input, size_t variant)
{
    static uint64_t state = 88172645463325252u;
    size_t rows = input->size.rows, columns = input->size.columns;
    if (variant == 0)
        draw_map(input->size.map, rows, columns, input->map);
    else
        draw_random_map(rows, columns, variant % (rows + columns + 3), &state, input->map);
}

/* A sealed array with random bytes in the erased blocks. In two variants of three survivors are damaged: one byte, or
   two equal ones in one column, which show only in rows. All repairs are made in variant 0, in others up to a limit. */
static void prepare_rebuild(struct input *input, size_t variant)
{
    size_t disk = variant % input->disks, below = (disk + input->size.columns + 1) % input->disks;
    input->limit = variant == 0 ? SIZE_MAX : 1 + variant / 3 % (input->size.rows + input->size.columns + 1);
    prepare_plan(input, variant);
    fill_sealed(input);
    input_spoil(input);
    if (variant % 3 != 0)
        *byte_of(input, disk, variant) ^= 128;
    if (variant % 3 == 2)
        *byte_of(input, below, variant) ^= 128;
}

static int has_seal(const struct peer *peer)
{
    return peer->seal != NULL;
}

static int has_check(const struct peer *peer)
{
    return peer->check != NULL;
}

static int has_write(const struct peer *peer)
{
    return peer->write != NULL;
}

/* The peer by rows differs from the tuned one in fatal losses only: fatal.c has these. */
static int has_plan(const struct peer *peer)
{
    return peer->plan != NULL && peer != &peers[ROWS];
}

static int has_rebuild(const struct peer *peer)
{
    return peer->rebuild != NULL;
}

static void run_check(const struct peer *peer, struct input *input)
{
    input->status = peer->check(input->size.rows, input->size.columns, input->size.block, input->array, input->bytes,
                                &input->stripe);
}

static void run_write(const struct peer *peer, struct input *input)
{
    input->status = peer->write(input->size.rows, input->size.columns, input->size.block, input->array, input->bytes,
                                input->disk, input->data, input->size.block);
}

static void run_plan(const struct peer *peer, struct input *input)
{
    input->status = peer->plan(input->size.rows, input->size.columns, input->map, input->disks, input->sheet,
                               SHEET_BYTES, &input->count);
}

void run_turn(const struct peer *peer, struct input *input, size_t limit)
{
    input->status = peer->rebuild(input->size.rows, input->size.columns, input->size.block, input->array, input->bytes,
                                  input->lent, input->disks, input->sheet, SHEET_BYTES, limit, &input->count);
}

static void run_rebuild(const struct peer *peer, struct input *input)
{
    memcpy(input->lent, input->map, input->disks);
    run_turn(peer, input, input->limit);
}

const struct call calls[CALLS] = {
    [SEAL] = {"seal", 0, array_sizes, COUNT(array_sizes), has_seal, prepare_seal, run_seal},
    [CHECK] = {"check", 0, array_sizes, COUNT(array_sizes), has_check, prepare_check, run_check},
    [WRITE] = {"write", 0, array_sizes, COUNT(array_sizes), has_write, prepare_write, run_write},
    [PLAN] = {"plan", 1, map_sizes, COUNT(map_sizes), has_plan, prepare_plan, run_plan},
    [REBUILD] = {"rebuild", 0, array_sizes, COUNT(array_sizes), has_rebuild, prepare_rebuild, run_rebuild},
};

int takes_part(const struct peer *peer, const struct call *call, struct size size)
{
    return call->has(peer) && size.block % peer->unit == 0;
}

void put_title(char title[TITLE_MAX], const struct call *call, struct size size)
{
    char block[TITLE_MAX];
    snprintf(block, sizeof block, "B %4zu", size.block);
    snprintf(title, TITLE_MAX, "%-7s %2zux%-2zu %.16s", call->name, size.rows, size.columns,
             call->by_map ? map_names[size.map] : block);
}
