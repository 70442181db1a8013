#include "maps.h"
#include "random.h"

#include <string.h>

/* Where the random numbers of a map begin. */
static const uint64_t SEED = 88172645463325252u;

const char *const map_names[MAPS] = {
    [ONE_DISK] = "one disk",
    [ROW_AND_COLUMN] = "row and column",
    [STAIRCASE] = "staircase",
    [ALL_DISKS] = "all disks",
    [CYCLE_AND_TREE] = "cycle and tree",
    [HALF_OF_ALL] = "half at random",
    [NO_DISK] = "no disk",
    [MIDDLE_COLUMN] = "middle column",
    [LAST_COLUMN] = "last column",
    [RECTANGLES] = "rectangles",
    [LONG_CYCLE] = "long cycle",
    [TREE_AND_CYCLE] = "tree and cycle",
    [NO_FOUR] = "no loop of 4",
    [HARDEST] = "hardest found",
};

/* The rows of the map HARDEST, column 0 in the lowest bit: 67 disks without a loop of four. Random changes of a map led
   to it, of disks, of two rows or of two columns, where mostly those were kept that make this search longer: for each
   disk, rising, from its row to its column over the disks above it, level by level, up to one level less than the best
   so far. It looks at 871 stripes in 217 levels here, and no other of the millions of maps tried took more. */
static const uint16_t hardest[16] = {
    0x0213, 0x802d, 0x204a, 0x0998, 0x1070, 0x06a0, 0x4541, 0x1c06,
    0x2304, 0x3081, 0x8a40, 0x6820, 0xa410, 0x5208, 0xc082, 0x9100,
};

int is_fatal(size_t kind)
{
    return kind == ALL_DISKS || kind == CYCLE_AND_TREE || kind == HALF_OF_ALL || kind >= RECTANGLES;
}

/* Erases `count` disks that stand `step` apart. */
static void erase(uint8_t *map, size_t first, size_t step, size_t count)
{
    for (size_t k = 0; k < count; k++)
        map[first + k * step] = 1;
}

/* Erases the disks of a path that goes right where it is on the diagonal or left of it, else down. */
static void erase_stairs(uint8_t *map, size_t rows, size_t columns)
{
    size_t r = 0, c = 0;
    for (size_t k = 0; k <= rows + columns; k++) {
        map[r * (columns + 1) + c] = 1;
        if (c * rows <= r * columns)
            c++;
        else
            r++;
    }
}

static void erase_rectangles(uint8_t *map, size_t rows, size_t columns)
{
    size_t across = columns + 1;
    for (size_t k = 0; k + 1 <= rows && k + 1 <= columns; k += 2) {
        erase(map, k * across + k, 1, 2);
        erase(map, (k + 1) * across + k, 1, 2);
        if (k + 3 <= rows && k + 3 <= columns)
            map[(k + 1) * across + k + 2] = 1;
    }
}

/* Erases a cycle on `count` rows and as many columns from number `first` on. */
static void erase_cycle(uint8_t *map, size_t across, size_t first, size_t count)
{
    for (size_t k = 0; k < count; k++) {
        map[(first + k) * across + first + k] = 1;
        map[(first + k) * across + first + (k + 1) % count] = 1;
    }
}

/* The rows or the columns, whichever are fewer. */
static size_t fewer(size_t rows, size_t columns)
{
    return rows < columns ? rows + 1 : columns + 1;
}

static void erase_long_cycle(uint8_t *map, size_t rows, size_t columns)
{
    erase_cycle(map, columns + 1, 0, fewer(rows, columns));
}

static void erase_tree_and_cycle(uint8_t *map, size_t rows, size_t columns)
{
    size_t side = fewer(rows, columns), first = side / 2;
    for (size_t k = 0; k < first; k++)
        erase(map, k * (columns + 1) + k, 1, 2);
    erase_cycle(map, columns + 1, first, side - first);
}

/* Whether at most so many erased disks lead from the row of a disk to its column. A bit stands for each stripe. */
static int is_joined(const uint8_t *map, size_t disks, size_t across, size_t disk, size_t most)
{
    uint32_t reached = 1u << disk / across, column = 1u << (16 + disk % across);
    for (size_t step = 0; step < most; step++) {
        uint32_t before = reached;
        for (size_t d = 0; d < disks; d++) {
            uint32_t stripes = 1u << d / across | 1u << (16 + d % across);
            if (map[d] != 0 && (before & stripes) != 0)
                reached |= stripes;
        }
    }
    return (reached & column) != 0;
}

void draw_wide_map(size_t rows, size_t columns, size_t shortest, size_t tries, uint64_t *state, uint8_t *map)
{
    size_t across = columns + 1, disks = (rows + 1) * across;
    memset(map, 0, disks);
    for (size_t k = 0; k < tries; k++) {
        size_t disk = next_random(state) % disks;
        if (!is_joined(map, disks, across, disk, shortest - 2))
            map[disk] = 1;
    }
}

void draw_random_map(size_t rows, size_t columns, size_t erased, uint64_t *state, uint8_t *map)
{
    size_t disks = (rows + 1) * (columns + 1);
    for (size_t d = 0; d < disks; d++) {
        map[d] = next_random(state) % (disks - d) < erased;
        erased -= map[d];
    }
}

static void erase_one(uint8_t *map, size_t rows, size_t columns)
{
    map[(rows + 1) / 2 * (columns + 1) + (columns + 1) / 2] = 1;
}

static void erase_row_and_column(uint8_t *map, size_t rows, size_t columns)
{
    erase(map, 0, 1, columns + 1);
    erase(map, 0, columns + 1, rows + 1);
}

static void erase_all(uint8_t *map, size_t rows, size_t columns)
{
    erase(map, 0, 1, (rows + 1) * (columns + 1));
}

static void erase_cycle_and_tree(uint8_t *map, size_t rows, size_t columns)
{
    erase_stairs(map, rows, columns);
    map[columns + 1] = 1;
}

static void erase_half(uint8_t *map, size_t rows, size_t columns)
{
    uint64_t state = SEED;
    draw_random_map(rows, columns, (rows + 1) * (columns + 1) / 2, &state, map);
}

static void erase_middle_column(uint8_t *map, size_t rows, size_t columns)
{
    erase(map, (columns + 1) / 2, columns + 1, rows + 1);
}

static void erase_last_column(uint8_t *map, size_t rows, size_t columns)
{
    erase(map, columns, columns + 1, rows + 1);
}

static void erase_no_four(uint8_t *map, size_t rows, size_t columns)
{
    uint64_t state = SEED;
    draw_wide_map(rows, columns, 6, 4 * (rows + 1) * (columns + 1), &state, map);
}

static void erase_hardest(uint8_t *map, size_t rows, size_t columns)
{
    for (size_t r = 0; r <= rows; r++)
        for (size_t c = 0; c <= columns; c++)
            map[r * (columns + 1) + c] = hardest[r] >> c & 1;
}

/* What erases the disks of each map. */
static void (*const erasers[MAPS])(uint8_t *map, size_t rows, size_t columns) = {
    [ONE_DISK] = erase_one,
    [ROW_AND_COLUMN] = erase_row_and_column,
    [STAIRCASE] = erase_stairs,
    [ALL_DISKS] = erase_all,
    [CYCLE_AND_TREE] = erase_cycle_and_tree,
    [HALF_OF_ALL] = erase_half,
    [MIDDLE_COLUMN] = erase_middle_column,
    [LAST_COLUMN] = erase_last_column,
    [RECTANGLES] = erase_rectangles,
    [LONG_CYCLE] = erase_long_cycle,
    [TREE_AND_CYCLE] = erase_tree_and_cycle,
    [NO_FOUR] = erase_no_four,
    [HARDEST] = erase_hardest,
};

void draw_map(size_t kind, size_t rows, size_t columns, uint8_t *map)
{
    memset(map, 0, (rows + 1) * (columns + 1));
    if (kind != NO_DISK)
        erasers[kind](map, rows, columns);
}
