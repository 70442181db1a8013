/*
 * Stands before the archive: every call is passed on to it, with the one fault
 * that the environment variable WRONG names, or none. The faults are of the
 * kind that guard bytes, sums, samples, squares and rebuilds of all disks do not
 * show: a byte that is only read, or written as it was, single losses among
 * millions, rows that are taken for columns, and turns that do not end as they
 * should. These are in what a call makes of blocks as one sector;
 * wrong_sectors.c has the faults in several. wrong_disk.c has plan_disk,
 * wrong_loop.c the loop of a fatal loss, wrong_save.c save, wrong_tidy.c tidy
 * and what follow makes of a sheet.
 * tests/wrong renames the archive's functions and sees that the tests fail.
 */
#include <stdlib.h>
#include <string.h>

#include "raid2d.h"
#include "wrong.h"
#include "wrong_disk.h"
#include "wrong_loop.h"
#include "wrong_sectors.h"
#include "wrong_tidy.h"

size_t right_sheet_next(const uint8_t *sheet, size_t record);
uint32_t right_seal(size_t rows, size_t columns, size_t block,
                    uint8_t *array, size_t array_len);
uint32_t right_check(size_t rows, size_t columns, size_t block,
                     const uint8_t *array, size_t array_len, size_t *stripe);
uint32_t right_write(size_t rows, size_t columns, size_t block,
                     uint8_t *array, size_t array_len, size_t disk,
                     const uint8_t *data, size_t data_len);
/* Asked so often that the environment is looked at only once. */
const char *wanted(void)
{
    static const char *name;

    if (name == NULL)
        name = getenv("WRONG");
    if (name == NULL)
        name = "";
    return name;
}

int wrong(const char *name)
{
    return strcmp(wanted(), name) == 0;
}

/* A fault that each call can have: its name begins with that of the call. */
static int wrong_in(const char *call, const char *fault)
{
    size_t length = strlen(call);

    return strncmp(wanted(), call, length) == 0
           && strcmp(wanted() + length, fault) == 0;
}

void read_at(const void *place)
{
    (void)*(const volatile uint8_t *)place;
}

void write_at(const void *place)
{
    volatile uint8_t *byte = (volatile uint8_t *)(size_t)place;

    *byte = *byte;
}

/* Through a function that the compiler does not know, as the archive does. */
static void *(*volatile set_bytes)(void *, int, size_t) = memset;

/* ---- The two numbers of the size ---- */

static int fits(size_t side)
{
    return side >= RAID2D_SIDE_MIN && side <= RAID2D_SIDE_MAX;
}

struct size passed_on(const char *call, size_t rows, size_t columns)
{
    struct size same = { rows, columns };
    struct size swapped = { columns, rows };
    struct size by_rows = { rows, rows };
    struct size by_columns = { columns, columns };

    if (wrong_in(call, " swaps rows and columns"))
        return swapped;
    if (wrong_in(call, " swaps 13 rows and 14 columns") && rows == 13
        && columns == 14)
        return swapped;
    if (wrong_in(call, " tests only the rows") && !fits(columns))
        return by_rows;
    if (wrong_in(call, " tests only the columns") && !fits(rows))
        return by_columns;
    return same;
}

size_t raid2d_disks(size_t rows, size_t columns)
{
    struct size size = passed_on("disks", rows, columns);

    return right_disks(size.rows, size.columns);
}

size_t raid2d_array_bytes(size_t rows, size_t columns, size_t block)
{
    struct size size = passed_on("array_bytes", rows, columns);

    return right_array_bytes(size.rows, size.columns, block);
}

size_t raid2d_sheet_next(const uint8_t *sheet, size_t record)
{
    if (wrong("sheet_next takes 0 for the first record") && record == 0)
        return right_sheet_next(sheet, 1);
    if (wrong("sheet_next reads record 33") && record == 33)
        read_at(sheet + RAID2D_SHEET_BYTES + 2);
    return right_sheet_next(sheet, record);
}

/* A call makes no more repairs than a square has that is as high or as wide. */
static int too_many(const char *call, size_t rows, size_t columns,
                    size_t repairs)
{
    if (wrong_in(call, " makes twice the rows and one repair"))
        return repairs > 2 * rows + 1;
    if (wrong_in(call, " makes twice the columns and one repair"))
        return repairs > 2 * columns + 1;
    return 0;
}

/* ---- Single losses ---- */

uint32_t plan_one(size_t rows, size_t columns,
                  const uint8_t *map, size_t map_len,
                  uint8_t *sheet, size_t sheet_len, size_t *count)
{
    size_t position;

    return right_plan(rows, columns, 1, map, map_len, sheet, sheet_len, count,
                      &position);
}

/* Four disks at one size. */
struct loss {
    struct size size;
    uint8_t disks[4];
};

/* The map erases these disks and no others. */
static int is_loss(const struct loss *loss, size_t rows, size_t columns,
                   const uint8_t *map, size_t map_len)
{
    size_t disk, count = 0;

    if (rows != loss->size.rows || columns != loss->size.columns)
        return 0;
    for (disk = 0; disk < map_len; disk++)
        count += map[disk];
    return count == 4 && map[loss->disks[0]] && map[loss->disks[1]]
           && map[loss->disks[2]] && map[loss->disks[3]];
}

/* What one loss gets. The rectangle has rows 12 and 14 and columns 9 and 13;
   none of the others is fatal. */
static uint32_t spoil_plan(uint32_t status, size_t rows, size_t columns,
                           const uint8_t *map, size_t map_len,
                           uint8_t *sheet, size_t *count)
{
    static const struct loss rectangle = { { 15, 15 }, { 201, 205, 233, 237 } };
    static const struct loss apart = { { 15, 15 }, { 17, 34, 51, 255 } };
    static const struct loss low = { { 2, 15 }, { 0, 17, 34, 47 } };
    static const struct loss small = { { 4, 4 }, { 11, 17, 23, 24 } };
    static const struct loss smaller = { { 3, 4 }, { 6, 12, 18, 19 } };
    int is_rectangle = is_loss(&rectangle, rows, columns, map, map_len);
    int is_apart = is_loss(&apart, rows, columns, map, map_len);

    if (wrong("takes one rectangle for repaired") && is_rectangle) {
        memcpy(sheet, "\1\1\311\14\2\315\35\3\355\16\4\351\31", 14);
        return 0;
    }
    if (wrong("shows one rectangle from its second disk") && is_rectangle)
        memcpy(sheet, "\2\1\315\14\2\311\31\3\351\16\4\355\35", 14);
    if (wrong("takes one loss of four for fatal") && is_apart)
        return 6;
    if (wrong("repairs one disk by its column") && is_apart)
        sheet[3] = 17;
    if (wrong("counts one loss of four wrongly") && is_apart)
        *count = 3;
    if (wrong("leaves a byte of one sheet") && is_apart)
        sheet[97] = 1;
    if ((wrong("takes one loss of 2 by 15 for fatal")
         && is_loss(&low, rows, columns, map, map_len))
        || (wrong("takes one map of 4 by 4 for fatal")
            && is_loss(&small, rows, columns, map, map_len))
        || (wrong("takes one map of 3 by 4 for fatal")
            && is_loss(&smaller, rows, columns, map, map_len)))
        return 6;
    return status;
}

/* ---- Turns ---- */

/* A call of rebuild. */
struct turn {
    size_t rows, columns, block;
    uint8_t *array;
    size_t array_len, sector;
    uint8_t *map;
    size_t map_len;
    uint8_t *sheet;
    size_t sheet_len, limit;
    size_t *count, *position;
};

static uint32_t make(const struct turn *t)
{
    const struct cut c = { t->rows, t->columns, t->block, t->array,
                           t->array_len, t->sector, 1, t->map, t->map_len,
                           t->sheet, t->sheet_len, t->limit, 0, t->count,
                           t->position };

    return rebuild_in_sectors(c);
}

/* Blocks are one sector, and all lengths are right, so that copies can be
   made. */
static int has_lengths(const struct turn *t)
{
    size_t bytes = right_array_bytes(t->rows, t->columns, t->block);

    return bytes > 0 && t->array_len == bytes && t->sector == t->block
           && t->map_len == right_disks(t->rows, t->columns)
           && t->sheet_len == RAID2D_SHEET_BYTES;
}

static int is_clear(const struct turn *t)
{
    size_t disk = 0;

    while (disk < t->map_len && t->map[disk] == 0)
        disk++;
    return disk == t->map_len;
}

/* What comes of all repairs that are left, on a copy of the array, which is to
   be freed. */
struct rest {
    uint32_t status;
    uint8_t *array;
    uint8_t sheet[RAID2D_SHEET_BYTES];
    size_t count;
};

static struct rest rest_of(const struct turn *t)
{
    struct rest rest = { 0, malloc(t->array_len), { 0 }, 0 };
    uint8_t map[RAID2D_DISKS(RAID2D_SIDE_MAX, RAID2D_SIDE_MAX)];
    size_t position;

    if (rest.array == NULL)
        abort();
    memcpy(rest.array, t->array, t->array_len);
    memcpy(map, t->map, t->map_len);
    rest.status = right_rebuild(t->rows, t->columns, t->block, rest.array,
                                t->array_len, t->block, map, t->map_len,
                                rest.sheet, sizeof rest.sheet, SIZE_MAX,
                                &rest.count, &position);
    return rest;
}

/* Makes the last repairs of plan's order in place of the first, where they are
   not all of them and the survivors agree. */
static uint32_t make_last(const struct turn *t)
{
    struct rest rest = rest_of(t);
    size_t k;

    if (rest.status != 0 || t->limit == 0 || t->limit >= rest.count) {
        free(rest.array);
        return make(t);
    }
    memset(t->sheet, 0, t->sheet_len);
    t->sheet[0] = RAID2D_SHEET_REPAIRS;
    for (k = 1; k <= t->limit; k++) {
        size_t record = rest.count - t->limit + k;
        size_t disk = rest.sheet[3 * record - 1];

        t->sheet[3 * k - 2] = (uint8_t)k;
        t->sheet[3 * k - 1] = (uint8_t)disk;
        t->sheet[3 * k] = rest.sheet[3 * record];
        memcpy(t->array + disk * t->block, rest.array + disk * t->block,
               t->block);
        t->map[disk] = 0;
    }
    *t->count = t->limit;
    free(rest.array);
    return 0;
}

/* Refuses by 7 as the turn that clears the map does. Before are the map and
   the count that this turn has found. */
static uint32_t refuse(const struct turn *t, const uint8_t *before,
                       size_t count)
{
    size_t disk;

    for (disk = 0; disk < t->map_len; disk++)
        if (before[disk] != t->map[disk])
            memset(t->array + disk * t->block, 0, t->block);
    memset(t->sheet, 0, t->sheet_len);
    memcpy(t->map, before, t->map_len);
    *t->count = count;
    return 7;
}

/* What becomes of a turn that has made its repairs. */
static uint32_t spoil_turn(const struct turn *t, const uint8_t *before,
                           size_t count)
{
    struct rest rest;
    size_t all;

    if (wrong("rebuild lists all of plan's repairs"))
        plan_one(t->rows, t->columns, before, t->map_len, t->sheet,
                 t->sheet_len, &all);
    if (wrong("rebuild leaves the map"))
        memcpy(t->map, before, t->map_len);
    if (wrong("rebuild checks in every turn")) {
        rest = rest_of(t);
        free(rest.array);
        if (rest.status == 7)
            return refuse(t, before, count);
    }
    if (wrong("clears a byte behind the map"))
        t->map[t->map_len] = 0;
    if (wrong("clears a byte before the map"))
        t->map[-1] = 0;
    return 0;
}

/* What becomes of the refusal of survivors that contradict each other. */
static uint32_t spoil_refusal(const struct turn *t)
{
    if (wrong("rebuild checks no clear map") && is_clear(t)) {
        t->sheet[0] = RAID2D_SHEET_REPAIRS;
        *t->count = 0;
        return 0;
    }
    if (wrong("rebuild clears the whole map on 7"))
        memset(t->map, 0, t->map_len);
    return 7;
}

/* The limit that a turn goes by. */
static size_t limit_of(const struct turn *t)
{
    uint8_t sheet[RAID2D_SHEET_BYTES];
    size_t count;

    if (wrong("rebuild makes one repair too many") && t->limit > 0
        && t->limit < SIZE_MAX)
        return t->limit + 1;
    if (wrong("rebuild shortens the limit to a byte"))
        return (uint8_t)t->limit;
    if (wrong("rebuild tests the limit behind the loss") && t->limit == 0
        && plan_one(t->rows, t->columns, t->map, t->map_len, sheet,
                    sizeof sheet, &count) == 6)
        return 1;
    return t->limit;
}

static uint32_t make_wrongly(struct turn t)
{
    uint8_t before[RAID2D_DISKS(RAID2D_SIDE_MAX, RAID2D_SIDE_MAX)];
    size_t count = *t.count;
    uint32_t status;

    if (!has_lengths(&t))
        return make(&t);
    if (wrong("rebuild takes the last repairs"))
        return make_last(&t);
    memcpy(before, t.map, t.map_len);
    t.limit = limit_of(&t);
    status = make(&t);
    if (status == 0)
        return spoil_turn(&t, before, count);
    return status == 7 ? spoil_refusal(&t) : status;
}

/* ---- The calls ---- */

uint32_t raid2d_seal(size_t rows, size_t columns, size_t block,
                     uint8_t *array, size_t array_len)
{
    struct size size = passed_on("seal", rows, columns);

    return right_seal(size.rows, size.columns, block, array, array_len);
}

uint32_t raid2d_check(size_t rows, size_t columns, size_t block,
                      const uint8_t *array, size_t array_len,
                      size_t *stripe)
{
    struct size size = passed_on("check", rows, columns);
    size_t before = *stripe, lowest = 0;
    uint32_t status = right_check(size.rows, size.columns, block, array,
                                  array_len, stripe);

    if (status == RAID2D_NOT_SEALED)
        lowest = *stripe;
    if ((wrong("check looks at as many columns as rows")
         && lowest > RAID2D_COLUMN_STRIPE + rows)
        || (wrong("check looks at as many rows as columns")
            && lowest > columns && lowest < RAID2D_COLUMN_STRIPE)) {
        *stripe = before;
        return 0;
    }
    return status;
}

uint32_t raid2d_write(size_t rows, size_t columns, size_t block,
                      uint8_t *array, size_t array_len, size_t disk,
                      const uint8_t *data, size_t data_len)
{
    struct size size = passed_on("write", rows, columns);
    uint32_t status = right_write(size.rows, size.columns, block, array,
                                  array_len, disk, data, data_len);

    if (wrong("reads a byte behind the data") && status == 0)
        read_at(data + data_len);
    if (wrong("reads a byte before the data") && status == 0)
        read_at(data - 1);
    if (wrong("writes the data, the same bytes") && status == 0)
        write_at(data);
    return status;
}

/* A look that takes every number of rows and columns, on blocks as one
   sector. */
static size_t look_untested(const struct cut *c)
{
    size_t disks = RAID2D_DISKS(c->rows, c->columns);
    size_t other;

    if (c->block < RAID2D_BLOCK_MIN || c->block > RAID2D_BLOCK_MAX
        || c->array_len != disks * c->block || c->sector != c->block
        || c->map_len != disks || c->disk >= disks || c->map[c->disk] != 0)
        return 0;
    for (other = 0; other < disks; other++)
        if (c->map[other] > 1)
            return 0;
    *c->count = c->disk * c->block;
    return c->block;
}

/* To swap the numbers would be no fault here. */
size_t raid2d_look(size_t rows, size_t columns, size_t block,
                   const uint8_t *array, size_t array_len, size_t sector,
                   const uint8_t *map, size_t map_len,
                   size_t disk, size_t *offset)
{
    const struct cut c = { rows, columns, block, (uint8_t *)(size_t)array,
                           array_len, sector, 1, (uint8_t *)(size_t)map,
                           map_len, NULL, 0, 0, disk, offset, NULL };

    if ((wrong("look tests only the rows") && fits(rows) && !fits(columns))
        || (wrong("look tests only the columns") && fits(columns)
            && !fits(rows)))
        return look_untested(&c);
    return look_in_sectors(c);
}

/* A byte that is not lent is read or cleared, or one that is only read is
   written. */
static void touch_plan(const struct cut *c)
{
    if (wrong("reads a byte behind the map"))
        read_at(c->map + c->map_len);
    if (wrong("reads a byte before the map"))
        read_at(c->map - 1);
    if (wrong("reads a byte behind the count"))
        read_at(c->count + 1);
    if (wrong("reads a byte before the count"))
        read_at((uint8_t *)c->count - 1);
    if (wrong("reads a byte behind the position"))
        read_at(c->position + 1);
    if (wrong("reads a byte before the position"))
        read_at((uint8_t *)c->position - 1);
    if (wrong("writes the map, the same bytes"))
        write_at(c->map);
    if (wrong("clears a byte behind the sheet"))
        set_bytes(c->sheets + c->sheets_len, 0, 1);
}

uint32_t raid2d_plan(size_t rows, size_t columns, size_t sectors,
                     const uint8_t *map, size_t map_len,
                     uint8_t *sheets, size_t sheets_len,
                     size_t *count, size_t *position)
{
    struct size size = passed_on("plan", rows, columns);
    const struct cut c = { size.rows, size.columns, 0, NULL, 0, 0, sectors,
                           (uint8_t *)(size_t)map, map_len, sheets,
                           sheets_len, 0, 0, count, position };
    uint32_t status = plan_in_sectors(c);

    if (status != 0 && status != 6)
        return status;
    touch_plan(&c);
    if (sectors != 1)
        return status;
    if (status == 0 && too_many("plan", rows, columns, *count))
        return 6;
    if (wrong("plan counts what no repair reaches") && status == 6)
        *count = count_left(rows, columns, map);
    return spoil_plan(status, rows, columns, map, map_len, sheets, count);
}

/* A byte that is not lent is read or cleared, or one that is only read is
   written. */
static void touch_plan_disk(const uint8_t *map, size_t map_len,
                            uint8_t *sheet, const size_t *count)
{
    if (wrong("plan_disk reads a byte behind the map"))
        read_at(map + map_len);
    if (wrong("plan_disk reads a byte before the map"))
        read_at(map - 1);
    if (wrong("plan_disk reads a byte behind the count"))
        read_at(count + 1);
    if (wrong("plan_disk reads a byte before the count"))
        read_at((const uint8_t *)count - 1);
    if (wrong("plan_disk writes the map, the same bytes"))
        write_at(map);
    if (wrong("plan_disk clears a byte behind the sheet"))
        set_bytes(sheet + RAID2D_SHEET_BYTES, 0, 1);
}

uint32_t raid2d_plan_disk(size_t rows, size_t columns,
                          const uint8_t *map, size_t map_len,
                          uint8_t *sheet, size_t sheet_len,
                          size_t disk, size_t *count)
{
    struct size size = passed_on("plan_disk", rows, columns);
    uint32_t status;

    if (strncmp(wanted(), "plan_disk ", 10) != 0) {
        status = right_plan_disk(rows, columns, map, map_len, sheet,
                                 sheet_len, disk, count);
        if (status == 6)
            spoil_loop(rows, columns, 1, map, 0, sheet);
        return status;
    }
    status = plan_disk_wrongly(size.rows, size.columns, map, map_len, sheet,
                               sheet_len, disk, count);
    if (status == 0 || status == 6)
        touch_plan_disk(map, map_len, sheet, count);
    if (status == 0 && too_many("plan_disk", rows, columns, *count))
        return 6;
    return status;
}

uint32_t raid2d_rebuild(size_t rows, size_t columns, size_t block,
                        uint8_t *array, size_t array_len, size_t sector,
                        uint8_t *map, size_t map_len,
                        uint8_t *sheets, size_t sheets_len, size_t limit,
                        size_t *count, size_t *position)
{
    struct size size = passed_on("rebuild", rows, columns);
    struct turn turn = { size.rows, size.columns, block, array, array_len,
                         sector, map, map_len, sheets, sheets_len, limit,
                         count, position };
    uint32_t status = make_wrongly(turn);

    if (sector != block)
        return status;
    if (status == 0 && too_many("rebuild", rows, columns, *count))
        return 6;
    if (wrong("rebuild counts what no repair reaches") && status == 6)
        *count = count_left(rows, columns, map);
    return status;
}

/* Follow on blocks as one sector. */
static uint32_t follow_one(struct size size, size_t block,
                           uint8_t *array, size_t array_len,
                           const uint8_t *map, size_t map_len,
                           const uint8_t *sheet, size_t sheet_len,
                           size_t *count)
{
    uint32_t status = follow_wrongly(size.rows, size.columns, block, array,
                                     array_len, map, map_len, sheet, sheet_len,
                                     count);

    if (wrong("reads a byte behind the array") && status == 0)
        read_at(array + array_len);
    if (wrong("reads a byte before the array") && status == 0)
        read_at(array - 1);
    if (wrong("follow reads a byte behind the sheet") && status == 0)
        read_at(sheet + sheet_len);
    if (wrong("follow reads a byte before the sheet") && status == 0)
        read_at(sheet - 1);
    if (wrong("writes the sheet, the same bytes") && status == 11)
        write_at(sheet);
    return status;
}

uint32_t raid2d_follow(size_t rows, size_t columns, size_t block,
                       uint8_t *array, size_t array_len, size_t sector,
                       const uint8_t *map, size_t map_len,
                       const uint8_t *sheets, size_t sheets_len,
                       size_t *count)
{
    struct size size = passed_on("follow", rows, columns);
    const struct cut c = { size.rows, size.columns, block, array, array_len,
                           sector, 1, (uint8_t *)(size_t)map, map_len,
                           (uint8_t *)(size_t)sheets, sheets_len, 0, 0, count,
                           NULL };
    uint32_t status;

    if (sector != block)
        return follow_in_sectors(c);
    status = follow_one(size, block, array, array_len, map, map_len, sheets,
                        sheets_len, count);
    if (status == 0 && too_many("follow", rows, columns, *count))
        return 11;
    return status;
}

uint32_t raid2d_tidy(uint8_t *sheet, size_t sheet_len)
{
    uint32_t status = tidy_wrongly(sheet, sheet_len);

    if (wrong("tidy reads a byte behind the sheet") && status == 0)
        read_at(sheet + sheet_len);
    if (wrong("tidy reads a byte before the sheet") && status == 0)
        read_at(sheet - 1);
    if (wrong("tidy clears a byte behind the sheet") && status == 0)
        set_bytes(sheet + sheet_len, 0, 1);
    return status;
}
