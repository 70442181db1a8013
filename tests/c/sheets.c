/*
 * What follow makes of sheets from elsewhere, with their exact bytes, on sealed
 * arrays with one byte in a block: the array A of paper 01, one that is wider
 * than high and one that is higher than wide. Each sheet is followed with zeros
 * off its chain, with leftovers there, and with these after tidy.
 */
#include <string.h>

#include "chain.h"
#include "raid2d.h"
#include "suite.h"

/* What stands on the erased disks, where it counts for nothing, and off the
   chain, where follow turns it down. */
#define LEFTOVER 201

/* A sheet for a map: its first records, and the last one, number 32; and what
   follow makes of it where it is zero off the chain. */
struct example {
    const char *what;
    size_t status, count;
    const struct known *known;
    uint8_t erased[12];
    uint8_t begins[2 + 3 * 6];
    uint8_t record_32[3];
};

/* Disks 0, 2 and 6 of A are erased, as in case 3, or none; or row 0 and column
   0 of another array; or others. */
#define CASE_3 &array_a, { 1, 0, 1, 0, 0, 0, 1, 0, 0 }
#define NO_DISK &array_a, { 0, 0, 0, 0, 0, 0, 0, 0, 0 }
#define WIDE_CROSS &array_wide, { 1, 1, 1, 1, 1, 0, 0, 0, 1, 0, 0, 0 }
#define HIGH_CROSS &array_high, { 1, 1, 1, 1, 0, 0, 1, 0, 0, 1, 0, 0 }

static const struct example examples[] = {
    { "case 3's sheet", 0, 3, CASE_3,
      { 1, 1, 2, 18, 2, 0, 0, 3, 6, 2, 0 }, { 0, 0, 0 } },
    { "in another order, the last by column or row", 0, 3, CASE_3,
      { 1, 1, 6, 2, 2, 0, 16, 3, 2, 18, 0 }, { 0, 0, 0 } },
    { "records in other places", 0, 3, CASE_3,
      { 1, 3, 6, 2, 0, 0, 0, 0, 2, 18, 4, 0, 0, 1 }, { 0, 0, 0 } },
    { "number 32 in use", 0, 3, CASE_3,
      { 1, 32, 6, 2, 0, 0, 0, 1 }, { 2, 18, 2 } },
    { "records backwards", 0, 3, CASE_3,
      { 1, 3, 6, 2, 0, 0, 0, 1, 2, 18, 2 }, { 0, 0, 0 } },
    { "number 32 between others", 0, 3, CASE_3,
      { 1, 1, 2, 18, 32, 6, 2, 0 }, { 0, 0, 2 } },
    { "no repair for no disk", 0, 0, NO_DISK, { 1, 0 }, { 0, 0, 0 } },
    { "kind 0", 10, 0, CASE_3,
      { 0, 1, 2, 18, 2, 0, 0, 3, 6, 2, 0 }, { 0, 0, 0 } },
    { "kind 2", 10, 0, CASE_3,
      { 2, 1, 2, 18, 2, 0, 0, 3, 6, 2, 0 }, { 0, 0, 0 } },
    { "kind 3", 10, 0, CASE_3,
      { 3, 1, 2, 18, 2, 0, 0, 3, 6, 2, 0 }, { 0, 0, 0 } },
    { "kind 255", 10, 0, CASE_3,
      { 255, 1, 2, 18, 2, 0, 0, 3, 6, 2, 0 }, { 0, 0, 0 } },
    { "kind 2 for no disk", 10, 0, NO_DISK, { 2, 0 }, { 0, 0, 0 } },
    { "kind 2 and a ring", 10, 0, CASE_3,
      { 2, 1, 2, 18, 2, 0, 0, 3, 6, 2, 1 }, { 0, 0, 0 } },
    { "kind 0 and number 33", 10, 0, CASE_3,
      { 0, 1, 2, 18, 2, 0, 0, 3, 6, 2, 33 }, { 0, 0, 0 } },
    { "first number 33", 10, 0, CASE_3,
      { 1, 33, 2, 18, 2, 0, 0, 3, 6, 2, 0 }, { 0, 0, 0 } },
    { "last number 33", 10, 0, CASE_3,
      { 1, 1, 2, 18, 2, 0, 0, 3, 6, 2, 33 }, { 0, 0, 0 } },
    { "number 255", 10, 0, CASE_3,
      { 1, 1, 2, 18, 255, 0, 0, 3, 6, 2, 0 }, { 0, 0, 0 } },
    { "a ring of three", 13, 0, CASE_3,
      { 1, 1, 2, 18, 2, 0, 0, 3, 6, 2, 1 }, { 0, 0, 0 } },
    { "a ring behind the first", 13, 0, CASE_3,
      { 1, 1, 2, 18, 2, 0, 0, 3, 6, 2, 2 }, { 0, 0, 0 } },
    { "a ring of one", 13, 0, CASE_3, { 1, 32 }, { 2, 18, 32 } },
    { "a ring for no disk", 13, 0, NO_DISK,
      { 1, 1, 0, 0, 2, 0, 0, 1 }, { 0, 0, 0 } },
    { "a ring behind a step that is not allowed", 13, 0, CASE_3,
      { 1, 1, 4, 1, 2, 0, 0, 1 }, { 0, 0, 0 } },
    { "another erased disk on the stripe", 11, 0, CASE_3,
      { 1, 1, 0, 0, 2, 2, 18, 3, 6, 2, 0 }, { 0, 0, 0 } },
    { "a stripe that is not the disk's", 11, 0, CASE_3,
      { 1, 1, 2, 17, 2, 0, 0, 3, 6, 2, 0 }, { 0, 0, 0 } },
    { "a number that no stripe has", 11, 0, CASE_3,
      { 1, 1, 2, 3, 2, 0, 0, 3, 6, 2, 0 }, { 0, 0, 0 } },
    { "a present disk", 11, 0, CASE_3,
      { 1, 1, 2, 18, 2, 0, 0, 3, 6, 2, 4, 4, 1, 0 }, { 0, 0, 0 } },
    { "a disk twice", 11, 0, CASE_3,
      { 1, 1, 2, 18, 2, 0, 0, 3, 6, 2, 4, 6, 2, 0 }, { 0, 0, 0 } },
    { "a disk outside of the grid", 11, 0, CASE_3,
      { 1, 1, 9, 3, 2, 0, 0, 3, 6, 2, 0 }, { 0, 0, 0 } },
    { "one more disk outside of the grid", 11, 0, CASE_3,
      { 1, 1, 2, 18, 2, 0, 0, 3, 6, 2, 32 }, { 9, 3, 0 } },
    { "a disk left over", 11, 0, CASE_3,
      { 1, 1, 2, 18, 2, 0, 0, 0, 6, 2, 0 }, { 0, 0, 0 } },
    { "no repair for three disks", 11, 0, CASE_3, { 1, 0 }, { 0, 0, 0 } },
    { "a fatal loss", 11, 0, &array_a, { 1, 0, 1, 0, 0, 0, 1, 0, 1 },
      { 1, 1, 2, 18, 2, 0, 0, 3, 6, 2, 4, 8, 2, 0 }, { 0, 0, 0 } },
    { "2 by 3, plan's sheet", 0, 6, WIDE_CROSS,
      { 1, 1, 1, 17, 2, 2, 18, 3, 3, 19, 4, 0, 0, 5, 4, 1, 6, 8, 2, 0 },
      { 0, 0, 0 } },
    { "2 by 3, another order", 0, 6, WIDE_CROSS,
      { 1, 32, 4, 1, 2, 0, 16, 3, 1, 17, 4, 2, 18, 5, 3, 0, 0 },
      { 8, 2, 1 } },
    { "2 by 3, a column for each disk of row 0", 0, 4,
      &array_wide, { 1, 1, 1, 1, 0, 0, 0, 0, 0, 0, 0, 0 },
      { 1, 1, 3, 19, 2, 2, 18, 3, 1, 17, 4, 0, 16, 0 }, { 0, 0, 0 } },
    { "2 by 3, the column beside the disk's", 11, 0, WIDE_CROSS,
      { 1, 1, 1, 17, 2, 2, 19, 3, 3, 19, 4, 0, 0, 5, 4, 1, 6, 8, 2, 0 },
      { 0, 0, 0 } },
    { "2 by 3, a row that is not there", 11, 0, WIDE_CROSS,
      { 1, 1, 1, 17, 2, 2, 18, 3, 3, 19, 4, 0, 0, 5, 4, 1, 6, 8, 3, 0 },
      { 0, 0, 0 } },
    { "2 by 3, a column that is not there", 11, 0, WIDE_CROSS,
      { 1, 1, 1, 17, 2, 2, 18, 3, 3, 20, 4, 0, 0, 5, 4, 1, 6, 8, 2, 0 },
      { 0, 0, 0 } },
    { "2 by 3, one more disk outside of the grid", 11, 0, WIDE_CROSS,
      { 1, 1, 1, 17, 2, 2, 18, 3, 3, 19, 4, 0, 0, 5, 4, 1, 6, 8, 2, 32 },
      { 12, 3, 0 } },
    { "2 by 3, a disk left over", 11, 0, WIDE_CROSS,
      { 1, 1, 1, 17, 2, 2, 18, 3, 3, 19, 4, 0, 0, 5, 4, 1, 0, 8, 2, 0 },
      { 0, 0, 0 } },
    { "3 by 2, plan's sheet", 0, 6, HIGH_CROSS,
      { 1, 1, 1, 17, 2, 2, 18, 3, 0, 0, 4, 3, 1, 5, 6, 2, 6, 9, 3, 0 },
      { 0, 0, 0 } },
    { "3 by 2, another order", 0, 6, HIGH_CROSS,
      { 1, 32, 6, 2, 2, 3, 1, 3, 0, 16, 4, 1, 17, 5, 2, 0, 0 },
      { 9, 3, 1 } },
    { "3 by 2, a row for each disk of column 0", 0, 4,
      &array_high, { 1, 0, 0, 1, 0, 0, 1, 0, 0, 1, 0, 0 },
      { 1, 1, 9, 3, 2, 6, 2, 3, 3, 1, 4, 0, 0, 0 }, { 0, 0, 0 } },
    { "3 by 2, the row below the disk's", 11, 0, HIGH_CROSS,
      { 1, 1, 1, 17, 2, 2, 18, 3, 0, 0, 4, 3, 1, 5, 6, 3, 6, 9, 3, 0 },
      { 0, 0, 0 } },
    { "3 by 2, a row that is not there", 11, 0, HIGH_CROSS,
      { 1, 1, 1, 17, 2, 2, 18, 3, 0, 0, 4, 3, 1, 5, 6, 2, 6, 9, 4, 0 },
      { 0, 0, 0 } },
    { "3 by 2, a column that is not there", 11, 0, HIGH_CROSS,
      { 1, 1, 1, 17, 2, 2, 19, 3, 0, 0, 4, 3, 1, 5, 6, 2, 6, 9, 3, 0 },
      { 0, 0, 0 } },
    { "3 by 2, one more disk outside of the grid", 11, 0, HIGH_CROSS,
      { 1, 1, 1, 17, 2, 2, 18, 3, 0, 0, 4, 3, 1, 5, 6, 2, 6, 9, 3, 32 },
      { 12, 4, 0 } },
    { "3 by 2, a disk left over", 11, 0, HIGH_CROSS,
      { 1, 1, 1, 17, 2, 2, 18, 3, 0, 0, 4, 3, 1, 5, 6, 2, 0, 9, 3, 0 },
      { 0, 0, 0 } }
};

/* With this byte all over off the chain. */
static struct call call_of(const struct example *e, uint8_t off_chain)
{
    struct call c = fitting_call(FOLLOW, e->known->size);
    size_t disk;

    memcpy(c.map.bytes, e->erased, c.map.len);
    for (disk = 0; disk < c.map.len; disk++)
        c.array.bytes[disk] =
            e->erased[disk] ? LEFTOVER : e->known->sealed[disk];
    memset(c.sheet.bytes, 0, c.sheet.len);
    memcpy(c.sheet.bytes, e->begins, sizeof e->begins);
    memcpy(c.sheet.bytes + 95, e->record_32, sizeof e->record_32);
    set_off_chain(c.sheet.bytes, off_chain);
    expect_as_now(&c);
    return c;
}

/* Leftovers are refused, unless the chain is, which tidy refuses too. The call
   then has the sheet after tidy. */
static void run_leftovers(struct call *c, const struct example *e)
{
    int refused = e->status == 10 || e->status == 13;
    struct repairs list = listed_on(c->sheet.bytes);

    expect_run(c, refused ? e->status : 14, OUT_BEFORE, e->what);
    expect_tidied(c, refused ? e->status : 0, &list, e->what);
}

static void run_example(const struct example *e, uint8_t off_chain)
{
    struct call c = call_of(e, off_chain);

    if (off_chain != 0)
        run_leftovers(&c, e);
    if (e->status == 0)
        memcpy(c.array.expected, e->known->sealed, c.array.len);
    expect_run(&c, e->status, e->status == 0 ? e->count : OUT_BEFORE, e->what);
    end_call(&c);
}

/* The header's trial: an array of zeros is sealed, and follow gives there the
   status that it gives for any array whose survivors agree. */
static void run_trial(const struct example *e, uint8_t off_chain)
{
    struct call c = call_of(e, off_chain);
    int refused = e->status == 10 || e->status == 13;
    size_t status = off_chain != 0 && !refused ? 14 : e->status;

    memset(c.array.bytes, 0, c.array.len);
    expect_as_now(&c);
    expect_run(&c, status, status == 0 ? e->count : OUT_BEFORE, e->what);
    end_call(&c);
}

/* With the most disks erased that can be repaired, no survivors contradict each
   other. */
static int can_contradict(const struct example *e)
{
    return e->status == 0 && e->count < most_repairs(e->known->size);
}

/* A sheet that can be followed, on survivors that contradict each other. */
static void run_contradiction(const struct example *e, uint8_t off_chain)
{
    struct call c = call_of(e, off_chain);
    size_t disk;

    c.array.bytes[4] = c.array.expected[4] = 9;
    if (off_chain != 0)
        run_leftovers(&c, e);
    for (disk = 0; disk < c.map.len; disk++)
        if (e->erased[disk])
            c.array.expected[disk] = 0;
    expect_run(&c, 7, OUT_BEFORE, e->what);
    end_call(&c);
}

void test_sheets(void)
{
    static const uint8_t off_chain[] = { 0, LEFTOVER };
    size_t i, k;

    for (i = 0; i < sizeof examples / sizeof examples[0]; i++)
        for (k = 0; k < 2; k++) {
            run_example(&examples[i], off_chain[k]);
            run_trial(&examples[i], off_chain[k]);
            if (can_contradict(&examples[i]))
                run_contradiction(&examples[i], off_chain[k]);
        }
}
