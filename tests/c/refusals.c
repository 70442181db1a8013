/*
 * Refusals: every wrong argument alone, and every pair of them, from calls
 * that are otherwise right; wrong rows with wrong columns count as one. Of a
 * pair the one that comes first in the order's list is returned, also where the
 * two are wrong at different positions of the block. Nothing that is lent may
 * change, but for what the order says of 6 and 7.
 */
#include <string.h>

#include "raid2d.h"
#include "suite.h"

#if SIZE_MAX < UINT64_MAX
#error "numbers above 2^32 are passed here: size_t must have 64 bits"
#endif

#define TWO_TO(k) ((size_t)1 << (k))

/* Buffers longer than this are not lent. */
#define LENDABLE TWO_TO(18)

/* What can be wrong with a call. */
enum argument {
    ROWS, COLUMNS, BLOCK, ARRAY_LENGTH,
    SECTOR,                                /* all with a map but plan's */
    SECTORS,                               /* plan only */
    PARITY_DISK, DATA_LENGTH,              /* write only */
    MAP_LENGTH, MAP_BYTE,                  /* from look on */
    NO_DISK, ERASED,                       /* look only */
    SHEET_LENGTH,                          /* plan to follow, and tidy */
    WANTED,                                /* plan_disk only */
    LOSS,                                  /* plan to follow */
    LIMIT,                                 /* rebuild only */
    CHAIN, RING,                           /* follow and tidy */
    LEFTOVER, STEP,                        /* follow only */
    DAMAGE,                                /* rebuild, follow and save */
    ARGUMENTS
};

/* A value for each, the size of the array that the call starts from, and into
   how many sectors its blocks are cut. */
struct arguments {
    size_t of[ARGUMENTS];
    struct size size;
    size_t sectors;
};

/* The values that one argument is tried with: a right one, then wrong ones. */
struct values {
    size_t count;
    size_t value[16];
};

/* The tests of a call in the order's sequence, and what it returns where one
   fails. Accepted is what it returns where none fails: arbitrary bytes are
   not sealed, and rebuild, follow and save get an array that is. For look that is
   the block's length. */
struct tests {
    enum function function;
    size_t accepted;
    size_t count;
    struct {
        enum argument argument;
        size_t status;
    } test[14];
};

/* Tests that several calls make. */
#define SIZE_TESTS { ROWS, 1 }, { COLUMNS, 1 }
#define ARRAY_TESTS SIZE_TESTS, { BLOCK, 2 }, { ARRAY_LENGTH, 3 }
#define SECTOR_TESTS ARRAY_TESTS, { SECTOR, 16 }
#define MAP_TESTS { MAP_LENGTH, 4 }, { MAP_BYTE, 4 }
#define SHEET_TESTS MAP_TESTS, { SHEET_LENGTH, 5 }
#define CHAIN_TESTS { CHAIN, 10 }, { RING, 13 }

static const struct tests tests[] = {
    { SEAL, 0, 4, { ARRAY_TESTS } },
    { CHECK, 64, 4, { ARRAY_TESTS } },
    { WRITE, 0, 6, { ARRAY_TESTS, { PARITY_DISK, 8 }, { DATA_LENGTH, 9 } } },
    { LOOK, 0, 9, { { ROWS, 0 }, { COLUMNS, 0 }, { BLOCK, 0 },
                    { ARRAY_LENGTH, 0 }, { SECTOR, 0 }, { MAP_LENGTH, 0 },
                    { MAP_BYTE, 0 }, { NO_DISK, 0 }, { ERASED, 0 } } },
    { PLAN, 0, 7, { SIZE_TESTS, { SECTORS, 16 }, SHEET_TESTS, { LOSS, 6 } } },
    { PLAN_DISK, 0, 7, { SIZE_TESTS, SHEET_TESTS, { WANTED, 15 },
                         { LOSS, 6 } } },
    { REBUILD, 0, 11, { SECTOR_TESTS, SHEET_TESTS, { LIMIT, 12 }, { LOSS, 6 },
                        { DAMAGE, 7 } } },
    { FOLLOW, 0, 14, { SECTOR_TESTS, SHEET_TESTS, CHAIN_TESTS,
                       { LEFTOVER, 14 }, { STEP, 11 }, { LOSS, 11 },
                       { DAMAGE, 7 } } },
    { SAVE, 0, 8, { SECTOR_TESTS, MAP_TESTS, { DAMAGE, 7 } } },
    { TIDY, 0, 3, { { SHEET_LENGTH, 5 }, CHAIN_TESTS } }
};

/* Each sheet of follow and tidy has one record, number 32: disk 1 by row 0.
   These are bytes that make it wrong. In its chain: another kind, a number that
   no record has. */
struct sheet_byte {
    size_t place;
    uint8_t byte;
};

static const struct sheet_byte wrong_chain[] = {
    { 0, 0 }, { 0, 2 }, { 0, 3 }, { 0, 255 }, { 1, 33 }, { 1, 255 },
    { 97, 33 }, { 97, 255 }
};

/* Where records 32 and 1 lead to: back to record 32, from it or from record 1,
   or from record 1 to itself. */
static const struct sheet_byte ring[][2] = {
    { { 97, 32 }, { 4, 0 } }, { { 97, 1 }, { 4, 32 } }, { { 97, 1 }, { 4, 1 } }
};

/* Off its chain, also where that goes on to record 1: each byte of a record,
   before record 32 and farther off. */
static const struct sheet_byte leftover[] = {
    { 5, 1 }, { 6, 255 }, { 7, 128 }, { 50, 2 }, { 92, 64 }, { 94, 1 }
};

/* In its step: a present disk, one outside of the grid but for the largest, and
   stripes that do not go through disk 1. */
static const struct sheet_byte wrong_step[] = {
    { 95, 0 }, { 95, 255 }, { 96, 1 }, { 96, 16 }, { 96, 32 }, { 96, 255 }
};

#define WRONG_CHAINS (sizeof wrong_chain / sizeof wrong_chain[0])
#define RINGS (sizeof ring / sizeof ring[0])
#define LEFTOVERS (sizeof leftover / sizeof leftover[0])
#define WRONG_STEPS (sizeof wrong_step / sizeof wrong_step[0])
#define WRONG_WANTED 8

static void add(struct values *v, size_t value)
{
    v->value[v->count++] = value;
}

/* The right rows or columns, and wrong ones. From 256 on they would be right,
   or would give an array of the right length, if they were shortened or could
   wrap. */
static struct values sides(size_t side)
{
    const struct values v = { 14, {
        side, 0, 1, 16, 17, 255,
        side + 256, side + 65536, side + TWO_TO(32), side + TWO_TO(63),
        TWO_TO(32) - 1,      /* rows and columns: 0 disks */
        SIZE_MAX - side - 1, /* rows and columns: the right number of disks */
        SIZE_MAX - 1, SIZE_MAX
    } };

    return v;
}

/* The same for columns. Beside wrong rows only the wrong columns of the same
   line above, so that numbers that wrap together are tried together. */
static struct values columns_beside(struct size s, size_t rows)
{
    struct values v = sides(s.columns), of_rows = sides(s.rows);
    size_t k = 0;

    if (rows == s.rows)
        return v;
    while (of_rows.value[k] != rows)
        k++;
    v.value[1] = v.value[k];
    v.count = 2;
    return v;
}

static struct values blocks(size_t block)
{
    const struct values v = { 9, {
        block, 0, 4097, block + 65536, block + TWO_TO(32),
        block + TWO_TO(56), /* 256 blocks wrap to the right length */
        block + TWO_TO(63), TWO_TO(63), SIZE_MAX
    } };

    return v;
}

/* The length of the sectors that a block is cut into, then 0, longer ones,
   such that do not divide the block, and such that would be right if they were
   shortened. */
static struct values sector_lengths(size_t block, size_t sectors)
{
    size_t right = block / sectors, i;
    const size_t wrong[] = {
        0, block + 1, 2 * block, 2, 3, 4, 5, right + 1, right + 256,
        right + 65536, right + TWO_TO(32), right + TWO_TO(63), TWO_TO(63),
        SIZE_MAX
    };
    struct values v = { 1, { right } };

    for (i = 0; i < COUNT(wrong); i++)
        if (wrong[i] == 0 || block % wrong[i] != 0)
            add(&v, wrong[i]);
    return v;
}

/* The number of sectors, then numbers out of range; with some of these the
   right lengths of map and sheets come out, if numbers wrap or are
   shortened. */
static struct values sector_counts(size_t sectors)
{
    const struct values v = { 10, {
        sectors, 0, 4097, sectors + 65536, sectors + TWO_TO(32),
        sectors + TWO_TO(56), sectors + TWO_TO(60), sectors + TWO_TO(63),
        TWO_TO(63), SIZE_MAX
    } };

    return v;
}

/* The right length and those wrong ones that can be lent. */
static struct values lengths(size_t right)
{
    const size_t wrong[] = {
        0, right - 1, right + 1, 2 * right, right + 256, right + 65536
    };
    struct values v = { 1, { right } };
    size_t i;

    for (i = 0; i < sizeof wrong / sizeof wrong[0]; i++)
        if (wrong[i] != right && wrong[i] <= LENDABLE)
            add(&v, wrong[i]);
    return v;
}

/* The first and the last of each kind of parity disk, then numbers that are
   outside of the grid. */
static struct values parity_disks(struct size s)
{
    const struct values v = { 12, {
        0, disk_at(s, 0, s.columns), disk_at(s, s.rows - 1, s.columns),
        disk_at(s, s.rows, 0), disk_at(s, s.rows, s.columns - 1),
        disk_at(s, s.rows, s.columns), disks_of(s), 256, 65536,
        TWO_TO(32), TWO_TO(63), SIZE_MAX
    } };

    return v;
}

static struct values no_disks(struct size s)
{
    const struct values v = { 7, {
        0, disks_of(s), 256, 65536, TWO_TO(32), TWO_TO(63), SIZE_MAX
    } };

    return v;
}

/* The disk that plan_disk is asked for: one that the loss has and that is on a
   cycle if there is one; or, from number 1 on, a present one, or a number that
   no disk has, most of them such that they would be right if shortened. */
static size_t wanted_disk(const struct arguments *a)
{
    struct size s = a->size;
    size_t erased = a->of[LOSS] ? disks_of(s) - 1 : 1;
    const size_t disks[WRONG_WANTED + 1] = {
        erased, disk_at(s, 1, 1), disk_at(s, s.rows, 1), disks_of(s),
        erased + 256, erased + 65536, erased + TWO_TO(32),
        erased + TWO_TO(63), SIZE_MAX
    };

    return disks[a->of[WANTED]];
}

/* Wrong bytes of a map as 256 * index + byte: on the disk looked at, and on
   the last disk. */
static struct values map_bytes(size_t map_len)
{
    struct values v = { 1, { 0 } };

    if (map_len > 0) {
        add(&v, 2);
        add(&v, 256 * (map_len - 1) + 2);
        add(&v, 256 * (map_len - 1) + 128);
        add(&v, 256 * (map_len - 1) + 255);
    }
    return v;
}

/* The least limit that allows all repairs, and the only wrong one. */
static struct values limits(size_t repairs)
{
    const struct values v = { 2, { repairs, 0 } };

    return v;
}

/* 0 for what is right, then the numbers of so many things that are wrong. */
static struct values numbered(size_t wrong)
{
    struct values v = { 0, { 0 } };

    while (v.count <= wrong)
        add(&v, v.count);
    return v;
}

/* The length that fits rows, columns and block, as numbers that wrap give it;
   where so much can't be lent, the one that fits the size the call started
   from. */
static size_t fitting(const struct arguments *a, size_t block, size_t base)
{
    size_t length = (a->of[ROWS] + 1) * (a->of[COLUMNS] + 1) * block;

    return length <= LENDABLE ? length : disks_of(a->size) * base;
}

/* How many sectors the arguments ask for: what plan is passed, or how often the
   sector goes into the block; where that is none, those the call started
   from. */
static size_t sectors_of(enum function function, const struct arguments *a)
{
    if (function == PLAN)
        return a->of[SECTORS];
    if (function == PLAN_DISK || function == TIDY || a->of[SECTOR] == 0)
        return a->sectors;
    return a->of[BLOCK] / a->of[SECTOR];
}

/* The length of the sheets for so many sectors, likewise. */
static size_t fitting_sheets(const struct arguments *a, size_t sectors)
{
    size_t length = RAID2D_SHEETS_BYTES(sectors);

    return length <= LENDABLE ? length : RAID2D_SHEETS_BYTES(a->sectors);
}

/* How many things can be wrong with an argument that has a number for each. A
   loss and an erased sector can be at each position. */
static size_t wrong_numbers(enum argument argument, size_t sectors)
{
    switch (argument) {
    case WANTED:
        return WRONG_WANTED;
    case CHAIN:
        return WRONG_CHAINS;
    case RING:
        return RINGS;
    case LEFTOVER:
        return LEFTOVERS;
    case STEP:
        return WRONG_STEPS;
    case DAMAGE:
        return 3;
    default:
        return sectors;
    }
}

static struct values values_of(enum function function, enum argument argument,
                               const struct arguments *a)
{
    size_t sectors = sectors_of(function, a);

    switch (argument) {
    case ROWS:
        return sides(a->size.rows);
    case COLUMNS:
        return columns_beside(a->size, a->of[ROWS]);
    case BLOCK:
        return blocks(a->size.block);
    case ARRAY_LENGTH:
        return lengths(fitting(a, a->of[BLOCK], a->size.block));
    case SECTOR:
        return sector_lengths(a->size.block, a->sectors);
    case SECTORS:
        return sector_counts(a->sectors);
    case PARITY_DISK:
        return parity_disks(a->size);
    case DATA_LENGTH:
        return lengths(a->of[BLOCK] <= LENDABLE ? a->of[BLOCK]
                                                : a->size.block);
    case MAP_LENGTH:
        return lengths(fitting(a, sectors, a->sectors));
    case MAP_BYTE:
        return map_bytes(a->of[MAP_LENGTH]);
    case NO_DISK:
        return no_disks(a->size);
    case SHEET_LENGTH:
        return lengths(fitting_sheets(a, sectors));
    case LIMIT:
        return limits(a->sectors);
    default:
        return numbered(wrong_numbers(argument, a->sectors));
    }
}

/* The position of what is wrong with an argument that has a number for each:
   they take the positions in turn. */
static size_t position_of(const struct arguments *a, enum argument argument)
{
    return (a->of[argument] - 1) % a->sectors;
}

/* Erases a sector and puts arbitrary bytes there, where the buffers have it. */
static void lose(struct call *c, const struct arguments *a, size_t position,
                 size_t disk)
{
    size_t sector = a->size.block / a->sectors;
    size_t number = disk * a->sectors + position;

    if (number < c->map.len)
        c->map.bytes[number] = 1;
    if (number < c->array.len / sector)
        fill(c->array.bytes + number * sector, sector);
}

/* A change on a survivor in row 1, the same there and on another survivor of
   the row, or the same there and on another survivor of the column. */
static void damage(struct call *c, const struct arguments *a)
{
    struct size s = a->size;
    size_t sector = s.block / a->sectors;
    size_t place = (position_of(a, DAMAGE) + 1) * sector - 1;

    *cell(c->array.bytes, s, 1, 1, place) ^= 64;
    if (a->of[DAMAGE] == 2)
        *cell(c->array.bytes, s, 1, s.columns, place) ^= 64;
    if (a->of[DAMAGE] == 3)
        *cell(c->array.bytes, s, s.rows, 1, place) ^= 64;
}

/* The four corners of the grid are lost at a position, which is fatal. */
static void lose_corners(struct call *c, const struct arguments *a,
                         size_t position)
{
    struct size s = a->size;

    lose(c, a, position, disk_at(s, 0, 0));
    lose(c, a, position, disk_at(s, 0, s.columns));
    lose(c, a, position, disk_at(s, s.rows, 0));
    lose(c, a, position, disk_at(s, s.rows, s.columns));
}

/* What calls from plan on are tried on: a sealed array that has lost disk 1 at
   every position, or at one of them the four corners. */
static void prepare_loss(struct call *c, const struct arguments *a)
{
    int fits = c->array.len == disks_of(a->size) * a->size.block;
    size_t position;

    if (fits)
        define_parities(c->array.bytes, a->size);
    for (position = 0; position < a->sectors; position++)
        if (a->of[LOSS] && position == position_of(a, LOSS))
            lose_corners(c, a, position);
        else
            lose(c, a, position, 1);
    if (fits && a->of[DAMAGE])
        damage(c, a);
}

/* Sets a byte of the sheet of a position, where it has it. */
static void put(struct call *c, size_t position, struct sheet_byte b)
{
    size_t place = position * RAID2D_SHEET_BYTES + b.place;

    if (place < c->sheet.len)
        c->sheet.bytes[place] = b.byte;
}

/* Off their chains follow's sheets are zero, and tidy's says arbitrary things.
   A number that no record has comes in the place of one that leads back. */
static void prepare_sheets(struct call *c, const struct arguments *a)
{
    static const struct sheet_byte right[] = {
        { 0, 1 }, { 1, 32 }, { 95, 1 }, { 96, 0 }, { 97, 0 }
    };
    size_t i, position;

    if (c->function == FOLLOW && c->sheet.len > 0)
        memset(c->sheet.bytes, 0, c->sheet.len);
    for (position = 0; position < a->sectors; position++)
        for (i = 0; i < COUNT(right); i++)
            put(c, position, right[i]);
    if (a->of[STEP])
        put(c, position_of(a, STEP), wrong_step[a->of[STEP] - 1]);
    if (a->of[LEFTOVER])
        put(c, position_of(a, LEFTOVER), leftover[a->of[LEFTOVER] - 1]);
    for (i = 0; i < 2 && a->of[RING]; i++)
        put(c, position_of(a, RING), ring[a->of[RING] - 1][i]);
    if (a->of[CHAIN])
        put(c, position_of(a, CHAIN), wrong_chain[a->of[CHAIN] - 1]);
}

/* With 6 the sheet of its position lists the corners, and all others are zero;
   with 7 the erased disk 1 is zero, and the sheets but for follow and save.
   Returns what the out-parameter is expected to be. */
static size_t expect_refusal(struct call *c, const struct arguments *a,
                             size_t status)
{
    struct size s = a->size;
    uint8_t rows = (uint8_t)s.rows, columns = (uint8_t)s.columns;
    const uint8_t corners[] = {
        2, 1,
        0, 0, 2,
        columns, (uint8_t)(16 + columns), 3,
        (uint8_t)disk_at(s, s.rows, s.columns), rows, 4,
        (uint8_t)disk_at(s, s.rows, 0), 16, 0
    };

    if (status == 6 || (status == 7 && c->function == REBUILD))
        memset(c->sheet.expected, 0, c->sheet.len);
    if (status == 6) {
        c->fatal = position_of(a, LOSS);
        memcpy(c->sheet.expected + c->fatal * RAID2D_SHEET_BYTES, corners,
               sizeof corners);
    }
    if (status == 7)
        memset(c->array.expected + s.block, 0, s.block);
    return status == 6 ? 4 : OUT_BEFORE;
}

static size_t disk_of(enum function function, const struct arguments *a)
{
    if (function == PLAN_DISK)
        return wanted_disk(a);
    return function == WRITE ? a->of[PARITY_DISK] : a->of[NO_DISK];
}

static struct call call_with(enum function function, const struct arguments *a)
{
    const struct size size = { a->of[ROWS], a->of[COLUMNS], a->of[BLOCK] };
    struct call c = new_call(function, size, a->of[ARRAY_LENGTH],
                             a->of[MAP_LENGTH], a->of[DATA_LENGTH],
                             a->of[SHEET_LENGTH]);

    c.disk = disk_of(function, a);
    c.limit = a->of[LIMIT];
    c.sector = a->of[SECTOR];
    c.sectors = a->of[SECTORS];
    if (a->of[ERASED] && c.disk < c.map.len / a->sectors)
        c.map.bytes[c.disk * a->sectors + position_of(a, ERASED)] = 1;
    if (function >= PLAN)
        prepare_loss(&c, a);
    if (function == FOLLOW || function == TIDY)
        prepare_sheets(&c, a);
    if (a->of[MAP_BYTE])
        c.map.bytes[a->of[MAP_BYTE] / 256] = (uint8_t)(a->of[MAP_BYTE] % 256);
    expect_as_now(&c);
    return c;
}

/* The call with these arguments is accepted, or refused with this status. */
static void try_call(const struct tests *t, const struct arguments *a,
                     size_t wrong, size_t status)
{
    struct call c = call_with(t->function, a);
    size_t accepted = t->function == LOOK ? a->size.block : t->accepted;

    if (wrong > 0)
        expect_run(&c, status, expect_refusal(&c, a, status), "refusal");
    else
        expect(run(&c) == accepted,
               "call %d with nothing wrong, %zu rows, %zu columns, %zu sectors",
               (int)t->function, c.size.rows, c.size.columns, a->sectors);
    end_call(&c);
}

/* How many are wrong with one more: columns count with rows that are wrong. */
static size_t count_wrong(enum argument argument, size_t wrong)
{
    return argument == COLUMNS ? 1 : wrong + 1;
}

/* Tries the call with each value of its arguments from number i on, so that
   at most two are wrong. The status is that of the first that is. */
static void try_from(const struct tests *t, size_t i, struct arguments a,
                     size_t wrong, size_t status)
{
    enum argument argument;
    struct values v;
    size_t k;

    if (i == t->count) {
        try_call(t, &a, wrong, status);
        return;
    }
    argument = t->test[i].argument;
    v = values_of(t->function, argument, &a);
    a.of[argument] = v.value[0];
    try_from(t, i + 1, a, wrong, status);
    for (k = 1; k < v.count && wrong < 2; k++) {
        a.of[argument] = v.value[k];
        try_from(t, i + 1, a, count_wrong(argument, wrong),
                 wrong == 0 ? t->test[i].status : status);
    }
}

static int takes_sectors(enum function function)
{
    return function == LOOK || function == PLAN || function == REBUILD
           || function == FOLLOW || function == SAVE;
}

/* Where blocks are cut, the calls that take sectors. */
static void one_and_two_wrong(struct size size, size_t sectors)
{
    struct arguments start = { { 0 }, { 0, 0, 0 }, 0 };
    size_t i;

    start.size = size;
    start.sectors = sectors;
    for (i = 0; i < COUNT(tests); i++)
        if (sectors == 1 || takes_sectors(tests[i].function))
            try_from(&tests[i], 0, start, 0, 0);
}

/* A size of which one number is wrong, or more, and lengths that would fit it
   if numbers were shortened or could wrap. */
struct wrapped {
    const char *what;
    struct size size;
    size_t disks, array_len, status;
};

/* All calls with the same size. They refuse with the status, but look, which
   returns 0. Plan and plan_disk take no block: they are called where a side is
   wrong. */
static void all_refuse(const struct wrapped *w, struct size size)
{
    const enum function functions[] = {
        SEAL, CHECK, WRITE, LOOK, REBUILD, FOLLOW, SAVE, PLAN, PLAN_DISK
    };
    size_t i;

    for (i = 0; i < (w->status == 1 ? 9 : 7); i++) {
        struct call c = new_call(functions[i], size, w->array_len, w->disks,
                                 1, RAID2D_SHEET_BYTES);

        expect_run(&c, functions[i] == LOOK ? 0 : w->status, OUT_BEFORE,
                   w->what);
        end_call(&c);
    }
}

/* These times 3 and times 9 are 1 modulo 2^64. */
#define THIRD ((size_t)UINT64_C(0xaaaaaaaaaaaaaaab))
#define NINTH ((size_t)UINT64_C(0x8e38e38e38e38e39))

static const struct wrapped wrapped[] = {
    { "0 rows in all", { SIZE_MAX, 2, 1 }, 0, 0, 1 },
    { "0 rows in all", { SIZE_MAX, 15, 4096 }, 0, 0, 1 },
    { "0 rows, 0 columns", { SIZE_MAX, SIZE_MAX, 1 }, 0, 0, 1 },
    { "-1 rows, -1 columns", { SIZE_MAX - 1, SIZE_MAX - 1, 7 }, 1, 7, 1 },
    { "-3 rows, -3 columns", { SIZE_MAX - 3, SIZE_MAX - 3, 1 }, 9, 9, 1 },
    { "-3 rows, -4 columns", { SIZE_MAX - 3, SIZE_MAX - 4, 1 }, 12, 12, 1 },
    { "3 + 2^63 rows", { TWO_TO(63) + 2, 3, 1 }, 12, 12, 1 },
    { "3 + 2^60 rows", { TWO_TO(60) + 2, 15, 5 }, 48, 240, 1 },
    { "3 + 2^63 rows and columns", { TWO_TO(63) + 2, TWO_TO(63) + 2, 1 },
      9, 9, 1 },
    { "2^60 rows", { TWO_TO(60) - 1, 15, 4096 }, 0, 0, 1 },
    { "2^32 rows and columns", { TWO_TO(32) - 1, TWO_TO(32) - 1, 4096 },
      0, 0, 1 },
    { "ten thirds of a row", { 10 * THIRD - 1, 2, 1 }, 10, 10, 1 },
    { "256 blocks of 2^56", { 15, 15, TWO_TO(56) }, 256, 0, 2 },
    { "256 blocks of 2^56 + 1", { 15, 15, TWO_TO(56) + 1 }, 256, 256, 2 },
    { "64 blocks of 2^58 + 3", { 7, 7, TWO_TO(58) + 3 }, 64, 192, 2 },
    { "64 blocks of 2^58 + 3", { 3, 15, TWO_TO(58) + 3 }, 64, 192, 2 },
    { "9 blocks of a ninth", { 2, 2, NINTH }, 9, 1, 2 },
    { "9 blocks of ten ninths", { 2, 2, 10 * NINTH }, 9, 10, 2 },
    { "12 blocks of a third", { 2, 3, THIRD }, 12, 4, 2 },
    { "rows shortened to 8 bits", { 258, 2, 1 }, 9, 9, 1 },
    { "rows shortened to 8 bits", { 258, 3, 1 }, 12, 12, 1 },
    { "both shortened to 8 bits", { 258, 258, 1 }, 9, 9, 1 },
    { "both shortened to 8 bits", { 258, 259, 1 }, 12, 12, 1 },
    { "rows shortened to 32 bits", { TWO_TO(32) + 2, 2, 1 }, 9, 9, 1 },
    { "rows shortened to 32 bits", { TWO_TO(32) + 2, 3, 1 }, 12, 12, 1 },
    { "both shortened to 32 bits", { TWO_TO(32) + 2, TWO_TO(32) + 2, 1 },
      9, 9, 1 },
    { "block shortened to 32 bits", { 2, 2, TWO_TO(32) + 1 }, 9, 9, 2 },
    { "block shortened to 32 bits", { 2, 3, TWO_TO(32) + 1 }, 12, 12, 2 }
};

/* The grid has one more row and one more column than are passed. Each size is
   passed as it stands, and with rows and columns exchanged. */
static void lengths_that_wrap(void)
{
    size_t i;

    for (i = 0; i < sizeof wrapped / sizeof wrapped[0]; i++) {
        struct size s = wrapped[i].size;

        all_refuse(&wrapped[i], s);
        all_refuse(&wrapped[i], (struct size){ s.columns, s.rows, s.block });
    }
}

/* A length of 0 is refused like any other, with NULL and without. */
static void empty_buffers(struct size size)
{
    static const struct {
        enum function function;
        size_t result;
    } calls[] = {
        { SEAL, 3 }, { CHECK, 3 }, { WRITE, 3 }, { LOOK, 0 }, { PLAN, 4 },
        { PLAN_DISK, 4 }, { REBUILD, 3 }, { FOLLOW, 3 }, { SAVE, 3 },
        { TIDY, 5 }
    };
    size_t i, null;

    for (i = 0; i < sizeof calls / sizeof calls[0]; i++)
        for (null = 0; null < 2; null++) {
            struct call c = new_call(calls[i].function, size, 0, 0, 0, 0);

            if (!null) {
                c.array.bytes = c.array.place;
                c.map.bytes = c.map.place;
                c.data.bytes = c.data.place;
                c.sheet.bytes = c.sheet.place;
            }
            expect_run(&c, calls[i].result, OUT_BEFORE, "empty");
            end_call(&c);
        }
}

void test_refusals(void)
{
    static const struct size sizes[] = {
        { 2, 2, 1 }, { 3, 3, 17 }, { 15, 15, 2 }, { 2, 3, 1 }, { 3, 2, 5 },
        { 2, 15, 2 }, { 15, 2, 1 }
    };
    size_t i;

    for (i = 0; i < sizeof sizes / sizeof sizes[0]; i++) {
        one_and_two_wrong(sizes[i], 1);
        empty_buffers(sizes[i]);
    }
    one_and_two_wrong((struct size){ 2, 3, 6 }, 3);
    one_and_two_wrong((struct size){ 3, 2, 3 }, 3);
    one_and_two_wrong((struct size){ 2, 2, 8 }, 2);
    one_and_two_wrong((struct size){ 15, 15, 2 }, 2);
    lengths_that_wrap();
}
