/*
 * What plan, rebuild and save make of a loss, and follow of plan's sheet, and
 * the bytes they leave: the order's cases with their exact bytes, and losses of
 * known shapes at every size. Rebuild repairs all of a loss in one turn here.
 */
#include <string.h>

#include "chain.h"
#include "loss.h"
#include "raid2d.h"
#include "suite.h"

/* ---- What is expected ---- */

/* Plan on the call's map answers this, with the sheet expected of the call. To
   tidy that changes nothing: a list is tidy, and a cycle is refused. */
static void expect_plan(const struct call *c, size_t status, size_t count,
                        const char *what)
{
    const struct size size = { c->size.rows, c->size.columns, 1 };
    struct call plan = fitting_call(PLAN, size);

    memcpy(plan.map.bytes, c->map.bytes, plan.map.len);
    expect_as_now(&plan);
    memcpy(plan.sheet.expected, c->sheet.expected, plan.sheet.len);
    expect_run(&plan, status, count, what);
    expect_tidy(plan.sheet.bytes, status == 6 ? 10 : 0, plan.sheet.bytes, what);
    end_call(&plan);
}

/* Follow on the sheet expected of the call answers this, with the array
   expected of the call, and the sheet keeps its bytes. */
static void expect_follow(const struct call *c, size_t status, size_t count,
                          const char *what)
{
    struct call follow = fitting_call(FOLLOW, c->size);

    memcpy(follow.array.bytes, c->array.bytes, follow.array.len);
    memcpy(follow.map.bytes, c->map.bytes, follow.map.len);
    memcpy(follow.sheet.bytes, c->sheet.expected, follow.sheet.len);
    expect_as_now(&follow);
    memcpy(follow.array.expected, c->array.expected, follow.array.len);
    expect_run(&follow, status, count, what);
    end_call(&follow);
}

/* A call of save on the array and the map of the call. The bytes expected of
   its array are those expected of the call's. */
static struct call save_of(const struct call *c)
{
    struct call save = fitting_call(SAVE, c->size);

    memcpy(save.array.bytes, c->array.bytes, save.array.len);
    memcpy(save.map.bytes, c->map.bytes, save.map.len);
    expect_as_now(&save);
    memcpy(save.array.expected, c->array.expected, save.array.len);
    return save;
}

static void expect_save(const struct call *c, size_t status, size_t count,
                        const char *what)
{
    struct call save = save_of(c);

    expect_run(&save, status, count, what);
    end_call(&save);
}

/* Save restores all erased disks but those that the expected sheet lists, so
   many in a cycle: these keep their bytes. */
static void expect_saved_beside_cycle(const struct call *c, size_t records,
                                      const char *what)
{
    struct call save = save_of(c);
    size_t block = c->size.block, erased = 0, i;

    for (i = 0; i < save.map.len; i++)
        erased += save.map.bytes[i];
    for (i = 1; i <= records; i++) {
        size_t at = c->sheet.expected[3 * i - 1] * block;

        memcpy(save.array.expected + at, save.array.bytes + at, block);
    }
    expect_run(&save, 0, erased - records, what);
    end_call(&save);
}

/* Plan, rebuild, follow and save restore so many disks, and the array is as
   expected. Rebuild clears the map. */
static void expect_restored(struct call *c, size_t repairs, const char *what)
{
    struct repairs list = in_plans_order(c);

    expect(list.count == repairs, "%s: %zu repairs for %zu", what, list.count,
           repairs);
    expect_list(c, &list, 0, list.count);
    expect_plan(c, 0, repairs, what);
    expect_follow(c, 0, repairs, what);
    expect_save(c, 0, repairs, what);
    memset(c->map.expected, 0, c->map.len);
    expect_run(c, 0, repairs, what);
}

/* The sheet expected of the call and the number of lost disks are also what
   expect_loop finds. */
static void expect_same_loop(struct call *c, size_t lost, const char *what)
{
    uint8_t typed[RAID2D_SHEET_BYTES];

    memcpy(typed, c->sheet.expected, sizeof typed);
    expect(expect_loop(c) == lost
               && memcmp(typed, c->sheet.expected, sizeof typed) == 0,
           "%s: the smallest loop, %zu rows, %zu columns", what, c->size.rows,
           c->size.columns);
}

/* Plan and rebuild call the loss fatal with the sheet expected of the call,
   which is no list of repairs to follow. The array and the map keep their
   bytes, also where one repair could be made and the limit is 1. */
static void expect_fatal(struct call *c, size_t lost, const char *what)
{
    expect_same_loop(c, lost, what);
    memcpy(c->array.expected, c->array.bytes, c->array.len);
    expect_plan(c, 6, lost, what);
    expect_follow(c, 10, OUT_BEFORE, what);
    expect_run(c, 6, lost, what);
    c->limit = 1;
    fill(c->sheet.bytes, c->sheet.len);
    expect_run(c, 6, lost, what);
}

/* Rebuild, follow and save find that the survivors belong to no sealed array.
   With 7 of rebuild the whole sheet is zero too, and the map keeps its bytes. */
static void expect_contradiction(struct call *c, const char *what)
{
    struct repairs list = in_plans_order(c);

    expect_list(c, &list, 0, list.count);
    expect_plan(c, 0, list.count, what);
    expect_zero_blocks(c);
    expect_follow(c, 7, OUT_BEFORE, what);
    expect_save(c, 7, OUT_BEFORE, what);
    expect_kind(c, 0);
    expect_run(c, 7, OUT_BEFORE, what);
}

/* ---- Losses that are restored ---- */

static void restore_nothing(struct size s)
{
    struct call c = sealed_call(REBUILD, s);

    expect_restored(&c, 0, "no disk erased");
    end_call(&c);
}

static void restore_cross(struct size s)
{
    struct call c = sealed_call(REBUILD, s);

    lose_cross(&c);
    expect_restored(&c, most_repairs(s), "row 0 and column 0");
    end_call(&c);
}

/* One disk short of a cycle. */
static void restore_stair(struct size s)
{
    struct call c = sealed_call(REBUILD, s);

    lose_stair(&c);
    expect_restored(&c, most_repairs(s), "a stair");
    end_call(&c);
}

/* Any data disk with both its parities: the superparity brings it back. */
static void restore_three(struct size s, size_t r, size_t k)
{
    struct call c = sealed_call(REBUILD, s);

    lose(&c, r, k);
    lose(&c, r, s.columns);
    lose(&c, s.rows, k);
    expect_restored(&c, 3, "a data disk with its parities");
    end_call(&c);
}

static void restore_one(struct size s, size_t r, size_t k)
{
    struct call c = sealed_call(REBUILD, s);

    lose(&c, r, k);
    expect_restored(&c, 1, "one disk");
    end_call(&c);
}

static void restore_on_every_disk(struct size s)
{
    size_t r, k;

    for (r = 0; r <= s.rows; r++)
        for (k = 0; k <= s.columns; k++) {
            restore_one(s, r, k);
            if (r < s.rows && k < s.columns)
                restore_three(s, r, k);
        }
}

/* The first disk of each row but row 0 is the sum of the others. */
static void sum_rows(uint8_t *array, struct size s)
{
    size_t r, k;

    for (r = 1; r <= s.rows; r++) {
        uint8_t *first = cell(array, s, r, 0, 0);

        memset(first, 0, s.block);
        for (k = 1; k <= s.columns; k++)
            add_block(first, cell(array, s, r, k, 0), s.block);
    }
}

/* The first disk of each column is the sum of the others. */
static void sum_columns(uint8_t *array, struct size s)
{
    size_t r, k;

    for (k = 0; k <= s.columns; k++) {
        uint8_t *first = cell(array, s, 0, k, 0);

        memset(first, 0, s.block);
        for (r = 1; r <= s.rows; r++)
            add_block(first, cell(array, s, r, k, 0), s.block);
    }
}

/* Without row 0 and column 0 any survivors belong to a sealed array. */
static void restore_from_arbitrary_bytes(struct size s)
{
    struct call c = fitting_call(REBUILD, s);

    lose_cross(&c);
    sum_rows(c.array.expected, s);
    sum_columns(c.array.expected, s);
    expect_restored(&c, most_repairs(s), "arbitrary survivors");
    c.function = CHECK;
    expect_run(&c, 0, OUT_BEFORE, "arbitrary survivors, then check");
    end_call(&c);
}

/* ---- Fatal losses ---- */

/* Whether a stair goes to the right after so many steps, and whether it turns
   there. Its two ends turn to the disk that closes it. */
static int goes_right(struct size s, size_t step)
{
    return stair_row(s, step + 1) == stair_row(s, step);
}

static int turns(struct size s, size_t step)
{
    return step == 0 || step == s.rows + s.columns
           || goes_right(s, step - 1) != goes_right(s, step);
}

/* A stair, and the disk that closes it to a cycle, the first of the last row.
   The cycle goes from turn to turn and cannot be longer: it has two disks of
   each row, or of each column where these are fewer. The other disks can be
   repaired. At 15 by 15 the sheet has no record left. */
static void lose_closed_stair(struct size s)
{
    size_t shorter = s.rows < s.columns ? s.rows : s.columns;
    struct call c = sealed_call(REBUILD, s);
    size_t records = 0, i;

    lose_stair(&c);
    lose(&c, s.rows, 0);
    expect_kind(&c, RAID2D_SHEET_CYCLE);
    for (i = 0; i < most_repairs(s); i++)
        if (turns(s, i)) {
            size_t r = stair_row(s, i), k = stair_column(s, i);
            int by_row = r == s.rows || goes_right(s, i);

            expect_record(&c, ++records, disk_at(s, r, k),
                          by_row ? r : 16 + k);
        }
    expect_record(&c, ++records, disk_at(s, s.rows, 0), 16);
    expect(records == 2 * (shorter + 1),
           "disks of the longest cycle, %zu rows, %zu columns", s.rows,
           s.columns);
    expect_saved_beside_cycle(&c, records, "a cycle as long as can be");
    expect_fatal(&c, records, "a cycle as long as can be");
    end_call(&c);
}

/* The corners of a rectangle, and two disks that can be repaired: they are
   erased but not lost, though disk 0 is the lowest of all. */
static void lose_rectangle(struct size s)
{
    struct call c = sealed_call(REBUILD, s);

    lose(&c, 0, 0);
    lose(&c, 1, 0);
    lose(&c, 0, 1);
    lose(&c, 0, s.columns);
    lose(&c, s.rows, 1);
    lose(&c, s.rows, s.columns);
    expect_kind(&c, RAID2D_SHEET_CYCLE);
    expect_record(&c, 1, 1, 0);
    expect_record(&c, 2, s.columns, 16 + s.columns);
    expect_record(&c, 3, disk_at(s, s.rows, s.columns), s.rows);
    expect_record(&c, 4, disk_at(s, s.rows, 1), 17);
    expect_saved_beside_cycle(&c, 4, "a rectangle and two more");
    expect_fatal(&c, 4, "a rectangle and two more");
    end_call(&c);
}

/* Every disk: of all rectangles that with disks 0 and 1 and those below them
   comes first. The survivors, none, belong to any sealed array. */
static void lose_all(struct size s)
{
    struct call c = fitting_call(REBUILD, s);

    memset(c.map.bytes, 1, c.map.len);
    expect_as_now(&c);
    expect_kind(&c, RAID2D_SHEET_CYCLE);
    expect_record(&c, 1, 0, 0);
    expect_record(&c, 2, 1, 17);
    expect_record(&c, 3, disk_at(s, 1, 1), 1);
    expect_record(&c, 4, disk_at(s, 1, 0), 16);
    expect_save(&c, 0, 0, "all disks");
    expect_fatal(&c, c.map.len, "all disks");
    end_call(&c);
}

/* ---- Contradictory survivors ---- */

/* With all disks present, rebuild finds what check finds. */
static void contradiction_without_loss(struct size s)
{
    struct call c = sealed_call(REBUILD, s);

    damage(&c, below(s.rows + 1), below(s.columns + 1), below(s.block), 1);
    expect_contradiction(&c, "no disk erased, one change");
    end_call(&c);
}

/* Three disks are never all of a cycle: with two of them erased the third
   has to be what the others say. */
static void contradiction_of_one(struct size s)
{
    struct call c = sealed_call(REBUILD, s);
    size_t r = below(s.rows + 1), k = below(s.columns + 1);
    size_t other_row = (r + 1 + below(s.rows)) % (s.rows + 1);
    size_t other_column = (k + 1 + below(s.columns)) % (s.columns + 1);

    lose(&c, r, k);
    lose(&c, other_row, below(s.columns + 1));
    damage(&c, r, other_column, s.block - 1, 128);
    expect_contradiction(&c, "one change");
    end_call(&c);
}

/* Two equal changes in a row show only in columns, two in a column only in
   rows. The erased disk is in another row and column, or in the same row. */
static void contradiction_of_two(struct size s, int in_row, int apart)
{
    struct call c = sealed_call(REBUILD, s);
    size_t r = below(s.rows), k = below(s.columns), place = below(s.block);

    lose(&c, apart ? (r + 2) % (s.rows + 1) : r, (k + 2) % (s.columns + 1));
    damage(&c, r, k, place, 33);
    damage(&c, in_row ? r : r + 1, in_row ? k + 1 : k, place, 33);
    expect_contradiction(&c, "two equal changes");
    end_call(&c);
}

/* ---- Worked cases: those of paper 01, and some that are not square ---- */

struct worked_case {
    const char *what;
    const struct known *known;
    size_t status, count;     /* rebuild's; plan never says 7 */
    uint8_t erased[12];       /* the map */
    uint8_t superparity;      /* where it is present */
    uint8_t sheet[2 + 3 * 6]; /* plan's, as far as it has records */
};

static const struct worked_case cases[] = {
    { "case 2", &array_a, 0, 0, { 0, 0, 0, 0, 0, 0, 0, 0, 0 }, 15, { 1 } },
    { "case 3", &array_a, 0, 3, { 1, 0, 1, 0, 0, 0, 1, 0, 0 }, 15,
      { 1, 1, 2, 18, 2, 0, 0, 3, 6, 2, 0 } },
    { "case 4", &array_a, 6, 4, { 1, 0, 1, 0, 0, 0, 1, 0, 1 }, 15,
      { 2, 1, 0, 0, 2, 2, 18, 3, 8, 2, 4, 6, 16, 0 } },
    { "case 5", &array_a, 6, 4, { 1, 1, 0, 1, 1, 0, 0, 0, 0 }, 15,
      { 2, 1, 0, 0, 2, 1, 17, 3, 4, 1, 4, 3, 16, 0 } },
    { "case 6", &array_a, 0, 3, { 1, 0, 0, 0, 1, 0, 0, 0, 1 }, 15,
      { 1, 1, 0, 0, 2, 4, 1, 3, 8, 2, 0 } },
    { "case 7", &array_a, 0, 5, { 1, 1, 1, 1, 0, 0, 1, 0, 0 }, 15,
      { 1, 1, 1, 17, 2, 2, 18, 3, 0, 0, 4, 3, 1, 5, 6, 2, 0 } },
    { "case 8", &array_a, 7, 1, { 1, 0, 0, 0, 0, 0, 0, 0, 0 }, 14,
      { 1, 1, 0, 0, 0 } },
    { "2 by 3, nothing", &array_wide, 0, 0,
      { 0, 0, 0, 0, 0, 0, 0, 0, 0, 0, 0, 0 }, 63, { 1 } },
    { "2 by 3, a row and a column", &array_wide, 0, 6,
      { 1, 1, 1, 1, 1, 0, 0, 0, 1, 0, 0, 0 }, 63,
      { 1, 1, 1, 17, 2, 2, 18, 3, 3, 19, 4, 0, 0, 5, 4, 1, 6, 8, 2, 0 } },
    { "2 by 3, disk 2 and its parities", &array_wide, 0, 3,
      { 0, 0, 1, 1, 0, 0, 0, 0, 0, 0, 1, 0 }, 63,
      { 1, 1, 3, 19, 2, 2, 0, 3, 10, 2, 0 } },
    { "2 by 3, the corners", &array_wide, 6, 4,
      { 1, 0, 0, 1, 0, 0, 0, 0, 1, 0, 0, 1 }, 63,
      { 2, 1, 0, 0, 2, 3, 19, 3, 11, 2, 4, 8, 16, 0 } },
    { "2 by 3, six in a cycle", &array_wide, 6, 6,
      { 1, 1, 0, 0, 0, 1, 0, 1, 1, 0, 0, 1 }, 63,
      { 2, 1, 0, 0, 2, 1, 17, 3, 5, 1, 4, 7, 19, 5, 11, 2, 6, 8, 16, 0 } },
    { "2 by 3, contradicted", &array_wide, 7, 1,
      { 0, 0, 0, 1, 0, 0, 0, 0, 0, 0, 0, 0 }, 62, { 1, 1, 3, 0, 0 } },
    { "3 by 2, a row and a column", &array_high, 0, 6,
      { 1, 1, 1, 1, 0, 0, 1, 0, 0, 1, 0, 0 }, 63,
      { 1, 1, 1, 17, 2, 2, 18, 3, 0, 0, 4, 3, 1, 5, 6, 2, 6, 9, 3, 0 } },
    { "3 by 2, disk 3 and its parities", &array_high, 0, 3,
      { 0, 0, 0, 1, 0, 1, 0, 0, 0, 1, 0, 0 }, 63,
      { 1, 1, 5, 18, 2, 3, 1, 3, 9, 3, 0 } },
    { "3 by 2, the corners", &array_high, 6, 4,
      { 1, 0, 1, 0, 0, 0, 0, 0, 0, 1, 0, 1 }, 63,
      { 2, 1, 0, 0, 2, 2, 18, 3, 11, 3, 4, 9, 16, 0 } },
    { "3 by 2, six in a cycle", &array_high, 6, 6,
      { 1, 1, 0, 0, 1, 1, 0, 0, 0, 1, 0, 1 }, 63,
      { 2, 1, 0, 0, 2, 1, 17, 3, 4, 1, 4, 5, 18, 5, 11, 3, 6, 9, 16, 0 } },
    { "3 by 2, contradicted", &array_high, 7, 1,
      { 0, 0, 1, 0, 0, 0, 0, 0, 0, 0, 0, 0 }, 62, { 1, 1, 2, 0, 0 } }
};

/* The survivors of a worked case; the erased disks hold arbitrary bytes. */
static struct call call_of(const struct worked_case *w)
{
    struct call c = fitting_call(REBUILD, w->known->size);
    size_t disk, last = c.map.len - 1;

    memcpy(c.map.bytes, w->erased, c.map.len);
    for (disk = 0; disk < last; disk++)
        if (!w->erased[disk])
            c.array.bytes[disk] = w->known->sealed[disk];
    if (!w->erased[last])
        c.array.bytes[last] = w->superparity;
    expect_as_now(&c);
    return c;
}

static void run_case(const struct worked_case *w)
{
    struct call c = call_of(w);

    expect_kind(&c, 0);
    memcpy(c.sheet.expected, w->sheet, sizeof w->sheet);
    expect_plan(&c, w->status == 6 ? 6 : 0, w->count, w->what);
    if (w->status == 0)
        memcpy(c.array.expected, w->known->sealed, c.array.len);
    if (w->status == 7)
        expect_zero_blocks(&c);
    expect_follow(&c, w->status == 6 ? 10 : w->status,
                  w->status == 0 ? w->count : OUT_BEFORE, w->what);
    if (w->status == 6)
        expect_saved_beside_cycle(&c, w->count, w->what);
    else
        expect_save(&c, w->status, w->status == 0 ? w->count : OUT_BEFORE,
                    w->what);
    if (w->status == 7)
        expect_kind(&c, 0);
    if (w->status == 0)
        memset(c.map.expected, 0, c.map.len);
    expect_run(&c, w->status, w->status == 7 ? OUT_BEFORE : w->count, w->what);
    end_call(&c);
}

static void worked_cases(void)
{
    size_t i;

    for (i = 0; i < sizeof cases / sizeof cases[0]; i++)
        run_case(&cases[i]);
}

/* The limits of rows, columns and block; a map byte of 2. That 15 by 15 with
   4096 bytes works is part of at_every_size. */
static void cases_10_and_11(void)
{
    static const struct {
        enum function function;
        struct size size;
        size_t status;
    } calls[] = {
        { PLAN, { 1, 1, 1 }, 1 }, { PLAN, { 16, 16, 1 }, 1 },
        { PLAN, { 1, 2, 1 }, 1 }, { PLAN, { 15, 16, 1 }, 1 },
        { PLAN_DISK, { 1, 1, 1 }, 1 }, { PLAN_DISK, { 16, 16, 1 }, 1 },
        { PLAN_DISK, { 2, 1, 1 }, 1 }, { PLAN_DISK, { 16, 15, 1 }, 1 },
        { REBUILD, { 1, 1, 1 }, 1 }, { REBUILD, { 16, 16, 1 }, 1 },
        { REBUILD, { 2, 1, 1 }, 1 }, { REBUILD, { 16, 15, 1 }, 1 },
        { REBUILD, { 2, 2, 0 }, 2 }, { REBUILD, { 2, 2, 4097 }, 2 },
        { FOLLOW, { 1, 1, 1 }, 1 }, { FOLLOW, { 16, 16, 1 }, 1 },
        { FOLLOW, { 1, 2, 1 }, 1 }, { FOLLOW, { 15, 16, 1 }, 1 },
        { FOLLOW, { 2, 2, 0 }, 2 }, { FOLLOW, { 2, 2, 4097 }, 2 },
        { SAVE, { 1, 1, 1 }, 1 }, { SAVE, { 16, 16, 1 }, 1 },
        { SAVE, { 2, 1, 1 }, 1 }, { SAVE, { 16, 15, 1 }, 1 },
        { SAVE, { 2, 2, 0 }, 2 }, { SAVE, { 2, 2, 4097 }, 2 },
        { PLAN, { 2, 2, 1 }, 4 }, { PLAN_DISK, { 2, 2, 1 }, 4 },
        { REBUILD, { 2, 2, 1 }, 4 }, { FOLLOW, { 2, 2, 1 }, 4 },
        { SAVE, { 2, 2, 1 }, 4 }
    };
    size_t i;

    for (i = 0; i < sizeof calls / sizeof calls[0]; i++) {
        struct call c = fitting_call(calls[i].function, calls[i].size);

        c.disk = 3;
        c.map.bytes[3] = calls[i].status == 4 ? 2 : 1;
        expect_as_now(&c);
        expect_run(&c, calls[i].status, OUT_BEFORE, "cases 10 and 11");
        end_call(&c);
    }
}

/* How many of the sets with so many disks more, all from disk `from` on, are
   fatal together with those that the map has erased. */
static size_t fatal_sets(uint8_t *map, struct size s, size_t from, size_t more)
{
    uint8_t sheet[RAID2D_SHEET_BYTES];
    size_t count = 0, position = 0, fatal = 0, disk;

    if (more == 0)
        return raid2d_plan(s.rows, s.columns, 1, map, disks_of(s), sheet,
                           sizeof sheet, &count, &position) == RAID2D_FATAL;
    for (disk = from; disk < disks_of(s); disk++) {
        map[disk] = 1;
        fatal += fatal_sets(map, s, disk + 1, more - 1);
        map[disk] = 0;
    }
    return fatal;
}

/* Two rows and two columns of the grid make a fatal set of four. */
static void case_12(struct size s)
{
    size_t pairs_of_rows = s.rows * (s.rows + 1) / 2;
    size_t pairs_of_columns = s.columns * (s.columns + 1) / 2;
    uint8_t map[DISKS] = { 0 };

    expect(fatal_sets(map, s, 0, 4) == pairs_of_rows * pairs_of_columns,
           "case 12, sets of four, %zu rows, %zu columns", s.rows, s.columns);
    expect(fatal_sets(map, s, 0, 3) == 0,
           "case 12, three, %zu rows, %zu columns", s.rows, s.columns);
}

static void case_12_up_to_4(void)
{
    struct size s = { 0, 0, 1 };

    for (s.rows = 2; s.rows <= 4; s.rows++)
        for (s.columns = 2; s.columns <= 4; s.columns++)
            case_12(s);
}

/* ---- All of it ---- */

static void at_size(struct size s)
{
    restore_nothing(s);
    restore_cross(s);
    restore_stair(s);
    restore_three(s, below(s.rows), below(s.columns));
    restore_from_arbitrary_bytes(s);
    lose_closed_stair(s);
    lose_rectangle(s);
    lose_all(s);
    contradiction_without_loss(s);
    contradiction_of_one(s);
    contradiction_of_two(s, 0, 0);
    contradiction_of_two(s, 0, 1);
    contradiction_of_two(s, 1, 0);
    contradiction_of_two(s, 1, 1);
}

static void on_every_disk(void)
{
    static const struct size sizes[] = {
        { 2, 2, 3 }, { 3, 3, 1 }, { 15, 15, 1 }, { 2, 3, 1 }, { 3, 2, 3 },
        { 2, 15, 3 }, { 15, 2, 1 }
    };
    size_t i;

    for (i = 0; i < sizeof sizes / sizeof sizes[0]; i++)
        restore_on_every_disk(sizes[i]);
}

void test_losses(void)
{
    worked_cases();
    cases_10_and_11();
    case_12_up_to_4();
    at_every_size(at_size);
    on_every_disk();
}
