/* The smallest loop by the library's method, with words. A loop is met at its lowest disk: so for each disk, rising, a
   search goes from its row to its column over the disks above it. Of those with the shortest way the first is on the
   loop. Then each disk above it, rising, that is still on a shortest way is taken, and the other disks of its level,
   as many steps from the row, are dropped. */
#include "loop.h"
#include "sheet.h"
#include "words.h"

/* The other disks of the shortest loop that there can be. */
enum { FEWEST = 3 };

/* How many disks lead from one stripe to the others: `of` each stripe the number, where the length of the ways stands
   for greater ones too, and `at` each smaller number the stripes, one place higher. Place 0 is empty. */
struct levels {
    uint8_t of[STRIPES];
    uint32_t at[STRIPES];
};

/* The ways from a row to a column: their length in disks, the words of the disks that they may have, and the levels
   from both ends. */
struct ways {
    size_t row, column, length;
    uint32_t others[STRIPES];
    struct levels from_row, from_column;
};

/* How many disks lead from a row to a column that share none, or most + 1 where it takes more than `most`. */
static inline size_t distance(const uint32_t others[STRIPES], size_t row, size_t column, size_t most)
{
    uint32_t front = others[row], seen = front | 1u << row, goal = 1u << column;
    for (size_t k = 2; k <= most && front != 0; k++) {
        front = beside(others, front) & ~seen;
        if ((front & goal) != 0)
            return k;
        seen |= front;
    }
    return most + 1;
}

/* Finds the lowest disk of the loop: its row and column are the ends of the ways, over the disks above it. A search
   ends one step short of the best so far. The words are used up. */
static void search(uint32_t others[STRIPES], struct ways *best)
{
    best->length = STRIPES;
    for (size_t row = 0; row < FIRST_COLUMN && best->length > FEWEST; row++) {
        while (others[row] != 0 && best->length > FEWEST) {
            size_t column = lowest(others[row]), length;
            others[row] &= others[row] - 1;
            others[column] ^= 1u << row;
            length = distance(others, row, column, best->length - 1);
            if (length < best->length) {
                best->row = row;
                best->column = column;
                best->length = length;
                memcpy(best->others, others, sizeof best->others);
            }
        }
    }
}

static void measure(const struct ways *ways, size_t from, struct levels *levels)
{
    uint32_t front = 1u << from, seen = front;
    memset(levels->of, (int)ways->length, sizeof levels->of);
    levels->at[0] = 0;
    for (size_t k = 0; k < ways->length; k++) {
        uint32_t next = 0;
        levels->at[k + 1] = front;
        for (; front != 0; front &= front - 1) {
            levels->of[lowest(front)] = (uint8_t)k;
            next |= ways->others[lowest(front)];
        }
        front = next & ~seen;
        seen |= front;
    }
}

/* The columns of a row whose disks are on a shortest way: such a way comes to the row first, or to the column. */
static inline uint32_t on_ways(const struct ways *ways, size_t row)
{
    uint32_t after = ways->from_column.at[ways->length - ways->from_row.of[row]];
    uint32_t before = ways->from_row.at[ways->length - ways->from_column.of[row]];
    return ways->others[row] & (after | before);
}

/* Drops the disks between near stripes and far ones, but not the one that is named. Whether there were any. */
static int drop_others(uint32_t others[STRIPES], uint32_t nears, uint32_t fars, size_t near, size_t far)
{
    uint32_t dropped = 0;
    others[near] ^= 1u << far;
    for (uint32_t set = nears; set != 0; set &= set - 1) {
        dropped |= others[lowest(set)] & fars;
        others[lowest(set)] &= ~fars;
    }
    for (uint32_t set = dropped; set != 0; set &= set - 1)
        others[lowest(set)] &= ~nears;
    others[near] |= 1u << far;
    others[far] |= 1u << near;
    return dropped != 0;
}

/* Takes a disk, whose place in the loop is its level, and drops the others of this level. Where there were any, levels
   can have changed: from the row beyond this one, and from the column before it. */
static void take(struct ways *ways, size_t row, size_t column, size_t across, uint8_t *sheet)
{
    const struct levels *from_row = &ways->from_row, *from_column = &ways->from_column;
    int row_first = from_row->of[row] + 1u + from_column->of[column] <= ways->length;
    size_t near = row_first ? row : column, far = row_first ? column : row, level = from_row->of[near];
    uint32_t nears = from_row->at[level + 1], fars = from_column->at[ways->length - level];
    put_record(sheet, level + 1, crossing(across, row, column), far);
    if (!drop_others(ways->others, nears, fars, near, far))
        return;
    if (level + 1 < ways->length)
        measure(ways, ways->row, &ways->from_row);
    if (level > 0)
        measure(ways, ways->column, &ways->from_column);
}

static void choose(struct ways *ways, size_t across, uint8_t *sheet)
{
    size_t left = ways->length;
    measure(ways, ways->row, &ways->from_row);
    measure(ways, ways->column, &ways->from_column);
    for (size_t row = ways->row; left > 0; row++) {
        uint32_t columns = on_ways(ways, row);
        for (; columns != 0; left--) {
            take(ways, row, lowest(columns), across, sheet);
            columns &= (columns - 1) & on_ways(ways, row);
        }
    }
}

void put_loop_tuned(size_t columns, uint32_t others[STRIPES], uint8_t *sheet, size_t sheet_len)
{
    struct ways ways;
    search(others, &ways);
    put_kind(sheet, sheet_len, LOOP);
    put_record(sheet, 0, crossing(columns + 1, ways.row, ways.column), ways.row);
    choose(&ways, columns + 1, sheet);
}
