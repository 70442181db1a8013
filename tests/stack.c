/*
 * How much stack each call takes, at the largest size and at the least square
 * ones, on its longest ways, with blocks as one sector and with as many sectors
 * as can be. A call runs on a stack of its own that was filled with a pattern
 * before; the lowest byte that it has changed tells how deep it went.
 * tests/archive builds and runs this.
 *
 * usage: stack LIMIT. Prints a line for each run, with FAILED where it takes
 * LIMIT bytes or more, or answers something else than it should.
 */
#define _XOPEN_SOURCE 600
#include <stdio.h>
#include <stdlib.h>
#include <string.h>
#include <ucontext.h>

#include "raid2d.h"

enum { SIDE = RAID2D_SIDE_MAX, BLOCK = RAID2D_BLOCK_MAX };
enum { SECTORS = RAID2D_SECTORS_MAX, STACK_BYTES = 1 << 16 };

/* The size of the array that is lent, and how many sectors a block has. */
static size_t rows, columns, sectors;

/* All that is lent, with room for the largest size, the lengths that are
   passed, and where the answer is expected. */
static uint8_t array[RAID2D_ARRAY_BYTES(SIDE, SIDE, BLOCK)];
static uint8_t map[RAID2D_MAP_BYTES(SIDE, SIDE, SECTORS)];
static uint8_t sheets[RAID2D_SHEETS_BYTES(SECTORS)];
static uint8_t data[BLOCK];
static size_t disks, array_len, map_len, sheets_len, wanted;
static size_t out, position;
static size_t result;

static uint8_t stack[STACK_BYTES];
static ucontext_t outside, inside;

static void nothing(void)
{
    result = 0;
}

static void seal(void)
{
    result = raid2d_seal(rows, columns, BLOCK, array, array_len);
}

static void check(void)
{
    result = raid2d_check(rows, columns, BLOCK, array, array_len, &out);
}

static void write(void)
{
    result = raid2d_write(rows, columns, BLOCK, array, array_len, 0, data,
                          BLOCK);
}

static void look(void)
{
    result = raid2d_look(rows, columns, BLOCK, array, array_len,
                         BLOCK / sectors, map, map_len, disks - 1, &out);
}

static void plan(void)
{
    result = raid2d_plan(rows, columns, sectors, map, map_len, sheets,
                         sheets_len, &out, &position);
}

static void plan_disk(void)
{
    result = raid2d_plan_disk(rows, columns, map, map_len, sheets, sheets_len,
                              wanted, &out);
}

static void rebuild_some(size_t limit)
{
    result = raid2d_rebuild(rows, columns, BLOCK, array, array_len,
                            BLOCK / sectors, map, map_len, sheets, sheets_len,
                            limit, &out, &position);
}

static void rebuild(void)
{
    rebuild_some(SIZE_MAX);
}

static void rebuild_one(void)
{
    rebuild_some(1);
}

static void follow(void)
{
    result = raid2d_follow(rows, columns, BLOCK, array, array_len,
                           BLOCK / sectors, map, map_len, sheets, sheets_len,
                           &out);
}

static void save(void)
{
    result = raid2d_save(rows, columns, BLOCK, array, array_len,
                         BLOCK / sectors, map, map_len, &out);
}

static void tidy(void)
{
    result = raid2d_tidy(sheets, sheets_len);
}

/* What a run starts from: arbitrary data, sealed, and no disk erased. Disk 0 is
   the one that is wanted. */
static void prepare(void)
{
    uint32_t x = 1;
    size_t i;

    for (i = 0; i < sizeof array; i++) {
        x = x * 1664525u + 1013904223u;
        array[i] = (uint8_t)(x >> 24);
    }
    memcpy(data, array + 7, sizeof data);
    memset(map, 0, sizeof map);
    memset(sheets, 0, sizeof sheets);
    wanted = 0;
    raid2d_seal(rows, columns, BLOCK, array, array_len);
}

static void sealed(void)
{
}

/* Two equal changes in the last row cancel there, so that all stripes up to a
   column are summed. */
static void damaged(void)
{
    array[array_len - 1] ^= 1;
    array[array_len - 1 - BLOCK] ^= 1;
}

/* All sectors of a disk. */
static void lose(size_t row, size_t column)
{
    memset(map + (row * (columns + 1) + column) * sectors, 1, sectors);
}

/* Row 0 and column 0: the most disks that come back, 31 at the largest size. */
static void cross(void)
{
    size_t i;

    for (i = 0; i <= rows + columns; i++)
        if (i <= columns)
            lose(0, i);
        else
            lose(i - columns, 0);
}

/* The sheets for the same loss, as from elsewhere. */
static void cross_and_sheet(void)
{
    cross();
    plan();
}

/* One disk, and survivors that contradict each other; the sheets for it. */
static void contradicted(void)
{
    damaged();
    lose(0, 0);
    plan();
}

/* A last sheet of 32 records that leads back to its first. */
static void ring(void)
{
    uint8_t *last = sheets + sheets_len - RAID2D_SHEET_BYTES;
    size_t k;

    cross_and_sheet();
    for (k = 0; k < RAID2D_SHEET_RECORDS; k++)
        last[4 + 3 * k] = (uint8_t)((k + 1) % RAID2D_SHEET_RECORDS + 1);
}

/* The same records, the last of which leads nowhere. */
static void full_chain(void)
{
    ring();
    sheets[sheets_len - 1] = 0;
}

/* The last byte of record 32, which no list of repairs gets to. */
static void leftover(void)
{
    cross_and_sheet();
    sheets[sheets_len - 1] = 1;
}

/* The longest cycle: two disks in each row and column of the largest square
   that fits, 32 at the largest size. */
static void stairs(void)
{
    size_t steps = (rows < columns ? rows : columns) + 1, i;

    for (i = 0; i < steps; i++) {
        lose(i, i);
        lose(i, (i + 1) % steps);
    }
}

static void all_lost(void)
{
    memset(map, 1, map_len);
}

/* Four disks at a time along the diagonal, and a disk between each four and the
   next: that one follows from the survivors, though no repair reaches it. */
static void rectangles(void)
{
    size_t i;

    for (i = 0; i + 1 <= rows && i + 1 <= columns; i += 2) {
        lose(i, i);
        lose(i, i + 1);
        lose(i + 1, i);
        lose(i + 1, i + 1);
        if (i + 3 <= rows && i + 3 <= columns)
            lose(i + 1, i + 2);
    }
}

/* The first four of them, and survivors that contradict each other. */
static void contradicted_rectangle(void)
{
    damaged();
    lose(0, 0);
    lose(0, 1);
    lose(1, 0);
    lose(1, 1);
}

/* The longest list for one disk, 28 repairs at the largest size: four disks are
   a cycle, and the wanted one stands in its second column and in row 2. There
   all others are erased, and in column 2 all below. */
static void longest_list(void)
{
    size_t i;

    for (i = 0; i < 4; i++)
        lose(i / 2, i % 2);
    for (i = 1; i <= columns; i++)
        lose(2, i);
    for (i = 3; i <= rows; i++)
        lose(i, 2);
    wanted = 2 * (columns + 1) + 1;
}

struct run {
    const char *name;
    void (*call)(void);
    const char *on;
    void (*input)(void);
    size_t expected;
};

static const struct run runs[] = {
    { "seal", seal, "arbitrary data", sealed, RAID2D_OK },
    { "check", check, "a sealed array", sealed, RAID2D_OK },
    { "check", check, "a damaged column", damaged, RAID2D_NOT_SEALED },
    { "write", write, "a data disk", sealed, RAID2D_OK },
    { "look", look, "the last disk", sealed, BLOCK },
    { "plan", plan, "a row and a column lost", cross, RAID2D_OK },
    { "plan", plan, "the longest cycle", stairs, RAID2D_FATAL },
    { "plan", plan, "all disks erased", all_lost, RAID2D_FATAL },
    { "plan", plan, "rectangles joined", rectangles, RAID2D_FATAL },
    { "plan_disk", plan_disk, "the longest list", longest_list, RAID2D_OK },
    { "plan_disk", plan_disk, "a row and a column lost", cross, RAID2D_OK },
    { "plan_disk", plan_disk, "the longest cycle", stairs, RAID2D_FATAL },
    { "plan_disk", plan_disk, "all disks erased", all_lost, RAID2D_FATAL },
    { "plan_disk", plan_disk, "rectangles joined", rectangles, RAID2D_FATAL },
    { "rebuild", rebuild, "a row and a column lost", cross, RAID2D_OK },
    { "rebuild", rebuild_one, "one repair of the same", cross, RAID2D_OK },
    { "rebuild", rebuild, "the longest cycle", stairs, RAID2D_FATAL },
    { "rebuild", rebuild, "rectangles joined", rectangles, RAID2D_FATAL },
    { "rebuild", rebuild, "survivors that disagree", contradicted,
      RAID2D_ERR_SURVIVORS },
    { "follow", follow, "the longest list", cross_and_sheet, RAID2D_OK },
    { "follow", follow, "a ring of 32 records", ring, RAID2D_ERR_RING },
    { "follow", follow, "a byte off the chain", leftover,
      RAID2D_ERR_LEFTOVERS },
    { "follow", follow, "a chain of 32 records", full_chain,
      RAID2D_ERR_REPAIRS },
    { "follow", follow, "survivors that disagree", contradicted,
      RAID2D_ERR_SURVIVORS },
    { "save", save, "no disk erased", sealed, RAID2D_OK },
    { "save", save, "a row and a column lost", cross, RAID2D_OK },
    { "save", save, "the longest cycle", stairs, RAID2D_OK },
    { "save", save, "rectangles joined", rectangles, RAID2D_OK },
    { "save", save, "all disks erased", all_lost, RAID2D_OK },
    { "save", save, "survivors that disagree", contradicted_rectangle,
      RAID2D_ERR_SURVIVORS },
    { "tidy", tidy, "a byte off the chain", leftover, RAID2D_OK },
    { "tidy", tidy, "a chain of 32 records", full_chain, RAID2D_OK },
    { "tidy", tidy, "a ring of 32 records", ring, RAID2D_ERR_RING }
};

/* How deep a function goes on a stack filled with the byte. */
static size_t depth_over(void (*function)(void), uint8_t byte)
{
    size_t low = 0;

    memset(stack, byte, sizeof stack);
    getcontext(&inside);
    inside.uc_stack.ss_sp = stack;
    inside.uc_stack.ss_size = sizeof stack;
    inside.uc_link = &outside;
    makecontext(&inside, function, 0);
    swapcontext(&outside, &inside);
    while (low < sizeof stack && stack[low] == byte)
        low++;
    return sizeof stack - low;
}

/* The same over two patterns, since a byte that is written can be the same as
   the pattern's. */
static size_t depth_of(const struct run *run)
{
    size_t depth = 0;
    int pattern;

    for (pattern = 0; pattern < 2; pattern++) {
        size_t d;

        prepare();
        run->input();
        d = depth_over(run->call, pattern == 0 ? 0x5a : 0xa5);
        if (d > depth)
            depth = d;
    }
    return depth;
}

static int takes_sectors(const struct run *run)
{
    return run->call == look || run->call == plan || run->call == rebuild
           || run->call == rebuild_one || run->call == follow
           || run->call == save;
}

/* Makes all runs at the size that is set. Empty is the stack that a function
   takes which does nothing. Returns how many runs fail. */
static int run_all(size_t limit, size_t empty)
{
    int failed = 0;
    size_t i;

    for (i = 0; i < sizeof runs / sizeof runs[0]; i++) {
        const struct run *run = &runs[i];
        size_t depth;
        int good;

        if (sectors > 1 && !takes_sectors(run))
            continue;
        depth = depth_of(run) - empty;
        good = depth < limit && result == run->expected;
        printf("%2zu by %2zu, sectors %4zu: %-9s %-24s %4zu bytes of stack%s\n",
               rows, columns, sectors, run->name, run->on, depth,
               good ? "" : "  FAILED");
        failed += !good;
    }
    return failed;
}

/* The lengths for so many sectors in a block. */
static void set_lengths(size_t number)
{
    sectors = number;
    disks = RAID2D_DISKS(rows, columns);
    array_len = RAID2D_ARRAY_BYTES(rows, columns, BLOCK);
    map_len = RAID2D_MAP_BYTES(rows, columns, sectors);
    sheets_len = RAID2D_SHEETS_BYTES(sectors);
}

int main(int argc, char **argv)
{
    static const size_t sizes[][2] = {
        { SIDE, SIDE }, { RAID2D_SIDE_MIN, SIDE }, { SIDE, RAID2D_SIDE_MIN }
    };
    size_t limit = argc == 2 ? strtoul(argv[1], NULL, 10) : 0;
    size_t empty = depth_over(nothing, 0x5a);
    int failed = 0;
    size_t i;

    for (i = 0; i < sizeof sizes / sizeof sizes[0]; i++) {
        rows = sizes[i][0];
        columns = sizes[i][1];
        set_lengths(1);
        failed += run_all(limit, empty);
        set_lengths(SECTORS);
        failed += run_all(limit, empty);
    }
    return failed != 0;
}
