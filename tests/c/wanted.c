/*
 * plan_disk: the shortest list of repairs that ends with the disk that is
 * wanted. On every map of small grids the list is found by a search through all
 * lists; at every size it is what is left of all repairs when none can be left
 * out. And what a host does with the list: it makes the repairs by hand, looks
 * at the disk, and rebuilds the rest.
 */
#include <string.h>

#include "chain.h"
#include "loss.h"
#include "raid2d.h"
#include "suite.h"
#include "turns.h"

/* ---- What is expected ---- */

/* The sheet lists these repairs. If there are none, the disk is one that no
   repair reaches, and the loop is that of the whole map. */
static void expect_answer(struct call *c, const struct repairs *list,
                          const char *what)
{
    fill(c->sheet.bytes, c->sheet.len);
    expect_as_now(c);
    if (list->count > 0) {
        expect_list(c, list, 0, list->count);
        expect_run(c, 0, list->count, what);
    } else {
        expect_run(c, 6, expect_loop(c), what);
    }
}

/* The disk is none that can be wanted: nothing changes. */
static void expect_not_wanted(struct call *c, const char *what)
{
    fill(c->sheet.bytes, c->sheet.len);
    expect_as_now(c);
    expect_run(c, 15, OUT_BEFORE, what);
}

/* ---- The list that nothing can be left out of ---- */

/* Repairs these disks as far as they can be, and then the disk by the stripe.
   No repair at all if that is not allowed then. */
static struct repairs ending_with(const uint8_t *map, struct size s,
                                  const uint8_t *among, size_t disk,
                                  size_t stripe)
{
    static const struct repairs none;
    struct repairs list = in_order_among(map, s, among);
    uint8_t now[DISKS];
    size_t k;

    memcpy(now, map, disks_of(s));
    for (k = 0; k < list.count; k++)
        now[list.number[k].disk] = 0;
    if (erased_on(now, s, stripe) > 1)
        return none;
    add_repair(&list, disk, stripe);
    return list;
}

/* The same with the fewest disks before: each that can be left out is. */
static struct repairs fewest_by(const uint8_t *map, struct size s, size_t disk,
                                size_t stripe)
{
    uint8_t among[DISKS];
    struct repairs list;
    size_t other;

    memcpy(among, map, disks_of(s));
    among[disk] = 0;
    list = ending_with(map, s, among, disk, stripe);
    for (other = 0; other < disks_of(s) && list.count > 1; other++)
        if (among[other]) {
            struct repairs shorter;

            among[other] = 0;
            shorter = ending_with(map, s, among, disk, stripe);
            among[other] = shorter.count == 0;
            if (shorter.count > 0)
                list = shorter;
        }
    return list;
}

/* The shorter of the two, that by the row if they are equally short. */
static struct repairs fewest(const uint8_t *map, struct size s, size_t disk)
{
    struct repairs by_row = fewest_by(map, s, disk, row_of(s, disk));
    struct repairs by_column = fewest_by(map, s, disk, column_of(s, disk));

    if (by_row.count > 0
        && (by_column.count == 0 || by_row.count <= by_column.count))
        return by_row;
    return by_column;
}

static void expect_fewest(struct call *c, size_t disk, const char *what)
{
    struct repairs list = fewest(c->map.bytes, c->size, disk);

    c->disk = disk;
    expect_answer(c, &list, what);
}

/* ---- Every map of a small grid, by search ---- */

/* A map is a set of bits here. */
enum { SMALL_DISKS = 12, MAPS = 1 << SMALL_DISKS, NEVER = 255 };

/* How many repairs the shortest list has that ends with a disk by its row, and
   by its column, for every map. */
static uint8_t shortest[2][MAPS];

static int allows(struct size s, unsigned map, size_t disk, size_t stripe)
{
    unsigned others = 0;
    size_t k;

    for (k = 0; k < disks_on(s, stripe); k++)
        others |= 1u << disk_on(s, stripe, k);
    return (map & others) == 1u << disk;
}

/* Whether the disk can be repaired now. */
static int allows_some(struct size s, unsigned map, size_t disk)
{
    return allows(s, map, disk, row_of(s, disk))
           || allows(s, map, disk, column_of(s, disk));
}

/* One, or one more than from any map that a repair of another disk leads to. */
static uint8_t search(struct size s, unsigned map, size_t disk, int by_column)
{
    size_t stripe = by_column ? column_of(s, disk) : row_of(s, disk), other;
    uint8_t least = NEVER;

    if (allows(s, map, disk, stripe))
        return 1;
    for (other = 0; other < disks_of(s); other++)
        if (other != disk && allows_some(s, map, other)) {
            uint8_t rest = shortest[by_column][map & ~(1u << other)];

            if (rest < NEVER && rest + 1 < least)
                least = (uint8_t)(rest + 1);
        }
    return least;
}

/* A repair leads to a map with a lower number. */
static void search_all(struct size s, size_t disk)
{
    unsigned map;

    for (map = 0; map < 1u << disks_of(s); map++) {
        shortest[0][map] = search(s, map, disk, 0);
        shortest[1][map] = search(s, map, disk, 1);
    }
}

/* The lowest other disk whose repair leads one step nearer to the end. */
static size_t lowest_nearer(struct size s, unsigned map, size_t disk,
                            int by_column)
{
    size_t other = 0;

    while (other == disk || !allows_some(s, map, other)
           || shortest[by_column][map & ~(1u << other)] + 1
                  != shortest[by_column][map])
        other++;
    return other;
}

static struct repairs searched(struct size s, unsigned map, size_t disk)
{
    int by_column = shortest[1][map] < shortest[0][map];
    struct repairs list = { 0, { { 0, 0 } } };

    if (shortest[by_column][map] == NEVER)
        return list;
    while (shortest[by_column][map] > 1) {
        size_t other = lowest_nearer(s, map, disk, by_column);
        size_t row = row_of(s, other), column = column_of(s, other);

        add_repair(&list, other, allows(s, map, other, row) ? row : column);
        map &= ~(1u << other);
    }
    add_repair(&list, disk, by_column ? column_of(s, disk) : row_of(s, disk));
    return list;
}

static void set_map(struct call *c, unsigned map)
{
    size_t disk;

    for (disk = 0; disk < c->map.len; disk++)
        c->map.bytes[disk] = (uint8_t)(map >> disk & 1);
}

static int is_same(struct repairs one, struct repairs two)
{
    return memcmp(&one, &two, sizeof one) == 0;
}

/* One disk in every map. Returns in how many of them the search finds another
   list than the other way. */
static size_t plan_in_every_map(struct call *c)
{
    size_t differ = 0;
    unsigned map;

    search_all(c->size, c->disk);
    for (map = 0; map < 1u << disks_of(c->size); map++) {
        struct repairs list = searched(c->size, map, c->disk);

        set_map(c, map);
        if (c->map.bytes[c->disk]) {
            expect_answer(c, &list, "every map");
            differ += !is_same(list, fewest(c->map.bytes, c->size, c->disk));
        } else {
            expect_not_wanted(c, "every map, a present disk");
        }
    }
    return differ;
}

static void plan_all_of(struct size s)
{
    struct call c = fitting_call(PLAN_DISK, s);

    for (c.disk = 0; c.disk < disks_of(s); c.disk++)
        expect(plan_in_every_map(&c) == 0,
               "lists by search, %zu rows, %zu columns, disk %zu", s.rows,
               s.columns, c.disk);
    end_call(&c);
}

/* ---- Worked examples ---- */

/* Erased disks, one of which is wanted, or none; the answer, and the sheet as
   far as it has records. */
struct example {
    const char *what;
    size_t rows, columns, disk, status, count;
    size_t erased_count;
    uint8_t erased[9];
    uint8_t sheet[2 + 3 * 6];
};

static const struct example examples[] = {
    { "the header's", 2, 2, 4, 0, 3, 5, { 1, 2, 3, 4, 6 },
      { 1, 1, 6, 2, 2, 3, 16, 3, 4, 1, 0 } },
    { "one disk, by its row", 2, 2, 4, 0, 1, 1, { 4 }, { 1, 1, 4, 1, 0 } },
    { "the superparity", 2, 2, 8, 0, 1, 1, { 8 }, { 1, 1, 8, 2, 0 } },
    { "row and column equally long", 2, 2, 0, 0, 2, 3, { 0, 1, 3 },
      { 1, 1, 1, 17, 2, 0, 0, 0 } },
    { "by its column at once", 2, 2, 1, 0, 1, 2, { 0, 1 },
      { 1, 1, 1, 17, 0 } },
    { "by its row at once", 2, 2, 3, 0, 1, 2, { 0, 3 }, { 1, 1, 3, 1, 0 } },
    { "disks that have nothing to do with it", 2, 2, 8, 0, 1, 3, { 0, 4, 8 },
      { 1, 1, 8, 2, 0 } },
    { "all disks that come back", 2, 2, 0, 0, 3, 5, { 0, 1, 2, 3, 6 },
      { 1, 1, 1, 17, 2, 2, 18, 3, 0, 0, 0 } },
    { "a fatal loss beside it", 2, 2, 8, 0, 1, 5, { 0, 1, 3, 4, 8 },
      { 1, 1, 8, 2, 0 } },
    { "a cycle in its row", 2, 2, 2, 0, 1, 5, { 0, 1, 2, 3, 4 },
      { 1, 1, 2, 18, 0 } },
    { "a cycle in its column, a disk in its row", 2, 2, 7, 0, 2, 6,
      { 0, 1, 3, 4, 7, 8 }, { 1, 1, 8, 18, 2, 7, 2, 0 } },
    { "a disk of the cycle", 2, 2, 4, 6, 4, 5, { 0, 1, 3, 4, 8 },
      { 2, 1, 0, 0, 2, 1, 17, 3, 4, 1, 4, 3, 16, 0 } },
    { "a present disk", 2, 2, 2, 15, 0, 2, { 0, 1 }, { 0 } },
    { "no disk erased", 2, 2, 0, 15, 0, 0, { 0 }, { 0 } },
    { "behind the grid", 2, 2, 9, 15, 0, 2, { 0, 1 }, { 0 } },
    { "a present disk, a fatal loss", 2, 2, 8, 15, 0, 4, { 0, 1, 3, 4 },
      { 0 } },
    { "behind the grid, a fatal loss", 2, 2, 9, 15, 0, 4, { 0, 1, 3, 4 },
      { 0 } },
    { "2 by 3, by the column", 2, 3, 0, 0, 2, 4, { 0, 1, 2, 4 },
      { 1, 1, 4, 1, 2, 0, 16, 0 } },
    { "2 by 3, by the row", 2, 3, 0, 0, 2, 4, { 0, 1, 4, 8 },
      { 1, 1, 1, 17, 2, 0, 0, 0 } },
    { "2 by 3, behind the grid", 2, 3, 12, 15, 0, 2, { 0, 11 }, { 0 } },
    { "3 by 2, by the column", 3, 2, 0, 0, 2, 4, { 0, 1, 2, 3 },
      { 1, 1, 3, 1, 2, 0, 16, 0 } },
    { "3 by 2, by the row", 3, 2, 0, 0, 2, 4, { 0, 1, 3, 6 },
      { 1, 1, 1, 17, 2, 0, 0, 0 } },
    { "3 by 2, behind the grid", 3, 2, 12, 15, 0, 2, { 0, 11 }, { 0 } },
    { "3 by 3, lowest first and not branch by branch", 3, 3, 3, 0, 4, 7,
      { 1, 2, 3, 5, 8, 11, 12 },
      { 1, 1, 2, 18, 2, 5, 1, 3, 1, 17, 4, 3, 0, 0 } },
    { "3 by 3, between two cycles", 3, 3, 6, 6, 8, 9,
      { 0, 1, 4, 5, 6, 10, 11, 14, 15 },
      { 2, 1, 0, 0, 2, 1, 17, 3, 5, 1, 4, 4, 16, 0 } },
    { "3 by 3, on the second of two cycles", 3, 3, 10, 6, 8, 9,
      { 0, 1, 4, 5, 6, 10, 11, 14, 15 },
      { 2, 1, 0, 0, 2, 1, 17, 3, 5, 1, 4, 4, 16, 0 } },
    { "3 by 3, on a longer cycle than the shortest", 3, 3, 0, 6, 8, 8,
      { 0, 1, 4, 6, 9, 10, 13, 14 },
      { 2, 1, 9, 2, 2, 10, 18, 3, 14, 3, 4, 13, 17, 0 } }
};

static void run_example(const struct example *e)
{
    const struct size size = { e->rows, e->columns, 1 };
    struct call c = fitting_call(PLAN_DISK, size);
    size_t i;

    for (i = 0; i < e->erased_count; i++)
        c.map.bytes[e->erased[i]] = 1;
    c.disk = e->disk;
    expect_as_now(&c);
    if (e->status != 15) {
        expect_kind(&c, 0);
        memcpy(c.sheet.expected, e->sheet, sizeof e->sheet);
    }
    expect_run(&c, e->status, e->status == 15 ? OUT_BEFORE : e->count,
               e->what);
    end_call(&c);
}

/* ---- Losses of known shapes ---- */

/* Disks 0, 1 and those below them are a cycle. The disk in row 2 and column 1
   can only go by its row, after the rest of row 2 and, before that, the disks
   below in column 2. No loss has a longer list for a disk, but at 2 by 2. */
static void lose_longest(struct call *c)
{
    struct size s = c->size;
    size_t i;

    for (i = 0; i < 4; i++)
        lose(c, i / 2, i % 2);
    for (i = 1; i <= s.columns; i++)
        lose(c, 2, i);
    for (i = 3; i <= s.rows; i++)
        lose(c, i, 2);
}

/* Some disks, as many as can be restored or fewer, or a few more. */
static void lose_some(struct call *c)
{
    size_t wanted = 1 + below(most_repairs(c->size) + 2);

    for (; wanted > 0; wanted--)
        lose(c, below(c->size.rows + 1), below(c->size.columns + 1));
}

/* A disk in each row, in a column that is not far off, and some more: trees
   with many branches, and a cycle now and then. */
static void lose_near(struct call *c)
{
    struct size s = c->size;
    size_t i;

    for (i = 0; i < most_repairs(s) - 1; i++)
        lose(c, i % (s.rows + 1), (i / 2 + below(3)) % (s.columns + 1));
}

/* A disk of which the map says this, looked for once around from some disk on:
   a wrong call may have changed the map. */
static size_t next_that_is(const struct call *c, uint8_t erased, size_t from)
{
    size_t disk = from % c->map.len, i;

    for (i = 0; i < c->map.len && c->map.bytes[disk] != erased; i++)
        disk = (disk + 1) % c->map.len;
    return disk;
}

/* A present disk and the first number behind the grid are not to be had. */
static void want_others(struct call *c, const char *what)
{
    c->disk = next_that_is(c, 0, below(c->map.len));
    expect_not_wanted(c, what);
    c->disk = c->map.len;
    expect_not_wanted(c, what);
}

/* Every erased disk of the loss is wanted in turn. */
static void plan_every_disk(struct size s, void (*loss)(struct call *c),
                            const char *what)
{
    struct call c = fitting_call(PLAN_DISK, s);
    size_t disk;

    loss(&c);
    for (disk = 0; disk < c.map.len; disk++)
        if (c.map.bytes[disk])
            expect_fewest(&c, disk, what);
    want_others(&c, what);
    end_call(&c);
}

/* Some erased disks of the loss are wanted. */
static void plan_some_disks(struct size s, void (*loss)(struct call *c),
                            const char *what)
{
    struct call c = fitting_call(PLAN_DISK, s);
    size_t i;

    loss(&c);
    for (i = 0; i < 4; i++)
        expect_fewest(&c, next_that_is(&c, 1, below(c.map.len)), what);
    want_others(&c, what);
    end_call(&c);
}

/* The loss has a list of so many repairs for the disk, which ends with this
   stripe. */
static void expect_length(struct size s, void (*loss)(struct call *c),
                          size_t disk, size_t count, size_t stripe,
                          const char *what)
{
    struct call c = fitting_call(PLAN_DISK, s);
    struct repairs list;

    loss(&c);
    list = fewest(c.map.bytes, s, disk);
    expect(list.count == count && list.number[count - 1].stripe == stripe,
           "%s: %zu repairs for %zu, %zu rows, %zu columns", what, list.count,
           count, s.rows, s.columns);
    expect_fewest(&c, disk, what);
    end_call(&c);
}

/* Disk 0 in a cross: the shorter of its row and its column, the row of a
   square. */
static void plan_corner(struct size s)
{
    int by_row = s.columns <= s.rows;

    expect_length(s, lose_cross, 0, (by_row ? s.columns : s.rows) + 1,
                  by_row ? 0 : 16, "the corner of a row and a column");
}

static void plan_shapes(struct size s)
{
    plan_corner(s);
    expect_length(s, lose_longest, disk_at(s, 2, 1), s.rows + s.columns - 2, 2,
                  "the longest list");
    plan_some_disks(s, lose_stair, "a stair");
    plan_some_disks(s, lose_longest, "a cycle and the longest list");
    plan_some_disks(s, lose_some, "some disks");
    plan_some_disks(s, lose_near, "disks near each other");
}

static void plan_all_disks(void)
{
    static const struct size sizes[] = {
        { 2, 2, 1 }, { 3, 3, 1 }, { 15, 15, 1 }, { 2, 3, 1 }, { 3, 2, 1 },
        { 2, 15, 1 }, { 15, 2, 1 }
    };
    size_t i;

    for (i = 0; i < COUNT(sizes); i++) {
        plan_every_disk(sizes[i], lose_cross, "row 0 and column 0");
        plan_every_disk(sizes[i], lose_stair, "a stair");
        plan_every_disk(sizes[i], lose_longest, "a cycle and the longest list");
    }
}

/* ---- What a host does with the list ---- */

/* The list, and behind it plan's for what is left, in one sheet: follow
   restores all of it. */
static void follow_joined(const struct call *c, const struct repairs *list,
                          const uint8_t *sealed)
{
    struct call follow = fitting_call(FOLLOW, c->size);
    struct repairs joined = *list, rest;
    size_t k;

    memcpy(follow.array.bytes, c->array.bytes, c->array.len);
    memcpy(follow.map.bytes, c->map.bytes, c->map.len);
    for (k = 0; k < list->count; k++)
        follow.map.bytes[list->number[k].disk] = 0;
    rest = in_plans_order(&follow);
    for (k = 0; k < rest.count; k++)
        add_repair(&joined, rest.number[k].disk, rest.number[k].stripe);
    memcpy(follow.map.bytes, c->map.bytes, c->map.len);
    expect_list(&follow, &joined, 0, joined.count);
    memcpy(follow.sheet.bytes, follow.sheet.expected, follow.sheet.len);
    expect_as_now(&follow);
    memcpy(follow.array.expected, sealed, follow.array.len);
    expect_run(&follow, 0, joined.count, "the list and plan's rest");
    end_call(&follow);
}

/* Makes the repairs of a list as a host does. */
static void repair_by_hand(struct call *c, const struct repairs *list)
{
    size_t k;

    expect_as_now(c);
    for (k = 0; k < list->count; k++)
        expect_repair(c, list->number[k].disk, list->number[k].stripe);
    memcpy(c->array.bytes, c->array.expected, c->array.len);
    memcpy(c->map.bytes, c->map.expected, c->map.len);
}

/* Look hands the disk out after the last repair, and not before. */
static void look_after_repairs(struct call *c, const struct repairs *list,
                               const uint8_t *sealed)
{
    size_t block = c->size.block, at = c->disk * block;

    c->function = LOOK;
    expect_as_now(c);
    expect_run(c, 0, OUT_BEFORE, "look before the repairs");
    repair_by_hand(c, list);
    expect_run(c, block, at, "look after the repairs");
    expect(sealed == NULL
               || memcmp(c->array.bytes + at, sealed + at, block) == 0,
           "the wanted block, %zu rows, %zu columns, disk %zu", c->size.rows,
           c->size.columns, c->disk);
}

/* Plan lists what is left to repair. */
static void plan_rest(struct call *c)
{
    struct repairs rest = in_plans_order(c);

    c->function = PLAN;
    expect_list(c, &rest, 0, rest.count);
    expect_run(c, 0, rest.count, "plan after a disk first");
}

/* One disk of a loss first, the next from some disk on, then the others in
   turns. */
static void deliver(struct size s, void (*loss)(struct call *c), size_t from)
{
    static uint8_t sealed[DISKS * RAID2D_BLOCK_MAX];
    struct call c = sealed_call(PLAN_DISK, s);
    struct repairs list;

    memcpy(sealed, c.array.bytes, c.array.len);
    loss(&c);
    c.disk = next_that_is(&c, 1, from);
    list = fewest(c.map.bytes, s, c.disk);
    expect_answer(&c, &list, "a disk first");
    expect_tidy(c.sheet.bytes, 0, c.sheet.bytes, "a disk first, tidy");
    follow_joined(&c, &list, sealed);
    look_after_repairs(&c, &list, sealed);
    plan_rest(&c);
    c.function = REBUILD;
    expect_turns(&c, most_repairs(s) / 2, 1, "then the others");
    expect(memcmp(sealed, c.array.bytes, c.array.len) == 0,
           "the array after a disk first, %zu rows, %zu columns, block %zu",
           s.rows, s.columns, s.block);
    end_call(&c);
}

/* The same with a changed survivor of the last row, of which no disk is erased:
   no repair shows it, and the last turn does. */
static void deliver_damaged(struct size s, size_t from)
{
    struct call c = sealed_call(PLAN_DISK, s);
    struct repairs list;

    lose_most_of_stair(&c);
    damage(&c, s.rows, below(s.columns + 1), below(s.block), 3);
    c.disk = next_that_is(&c, 1, from);
    list = fewest(c.map.bytes, s, c.disk);
    expect_answer(&c, &list, "a changed survivor");
    look_after_repairs(&c, &list, NULL);
    c.function = REBUILD;
    expect_turns(&c, most_repairs(s) / 2, 0, "a change in the last turn");
    end_call(&c);
}

/* A disk that a fatal loss lets through. The others stay lost: plan counts as
   many as before. */
static void deliver_from_fatal(struct size s)
{
    static uint8_t sealed[DISKS * RAID2D_BLOCK_MAX];
    struct call c = sealed_call(PLAN_DISK, s);
    struct repairs list;

    memcpy(sealed, c.array.bytes, c.array.len);
    lose_longest(&c);
    c.disk = disk_at(s, 2, 1 + below(s.columns));
    list = fewest(c.map.bytes, s, c.disk);
    expect_answer(&c, &list, "a disk of a fatal loss");
    look_after_repairs(&c, &list, sealed);
    c.function = PLAN;
    expect_kind(&c, RAID2D_SHEET_CYCLE);
    expect_record(&c, 1, 0, 0);
    expect_record(&c, 2, 1, 17);
    expect_record(&c, 3, disk_at(s, 1, 1), 1);
    expect_record(&c, 4, disk_at(s, 1, 0), 16);
    expect_run(&c, 6, 4, "the cycle that is left");
    end_call(&c);
}

/* ---- All of it ---- */

/* Another disk of the stair at each size. */
static void at_size(struct size s)
{
    size_t some = s.rows * s.columns * s.block;

    deliver(s, lose_cross, 0);
    deliver(s, lose_stair, some);
    deliver_damaged(s, some);
    deliver_from_fatal(s);
}

void test_wanted(void)
{
    size_t i;

    for (i = 0; i < COUNT(examples); i++)
        run_example(&examples[i]);
    plan_all_of((struct size){ 2, 2, 1 });
    plan_all_of((struct size){ 2, 3, 1 });
    plan_all_of((struct size){ 3, 2, 1 });
    at_every_grid(plan_shapes);
    plan_all_disks();
    at_every_size(at_size);
}
