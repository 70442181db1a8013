/*
 * Which loop the sheet of a fatal loss shows: the shortest of its loops, and of
 * equal ones that whose disk numbers in ascending order come first. Typed
 * losses; every map of small grids, whose loops are found as sets of disks;
 * losses with several loops at every size, whose loop ../loop.c finds by trying
 * all lists; and what the rule says of turns, of sectors and of a wanted disk.
 */
#include <string.h>

#include "../loop.h"
#include "loss.h"
#include "positions.h"
#include "raid2d.h"
#include "suite.h"

/* ---- What is expected ---- */

/* The highest disk that no repair reaches. */
static size_t last_unreached(const struct call *c)
{
    struct repairs list = in_plans_order(c);
    uint8_t left[DISKS];
    size_t k, disk = c->map.len - 1;

    memcpy(left, c->map.bytes, c->map.len);
    for (k = 0; k < list.count; k++)
        left[list.number[k].disk] = 0;
    while (disk > 0 && !left[disk])
        disk--;
    return disk;
}

/* A call of another function on the same map. */
static void expect_by(enum function function, const struct call *c,
                      size_t lost, const char *what)
{
    struct call other = fitting_call(function, c->size);

    memcpy(other.map.bytes, c->map.bytes, other.map.len);
    expect_as_now(&other);
    memcpy(other.sheet.expected, c->sheet.expected, other.sheet.len);
    other.disk = last_unreached(c);
    expect_run(&other, 6, lost, what);
    end_call(&other);
}

/* Plan, plan_disk for a disk that no repair reaches, and a call of rebuild, for
   all repairs and for one, show the loop on the sheet expected of that call. */
static void expect_shown(struct call *c, size_t lost, const char *what)
{
    expect_by(PLAN, c, lost, what);
    expect_by(PLAN_DISK, c, lost, what);
    memcpy(c->array.expected, c->array.bytes, c->array.len);
    expect_run(c, 6, lost, what);
    c->limit = 1;
    fill(c->sheet.bytes, c->sheet.len);
    expect_run(c, 6, lost, what);
}

/* ---- Typed losses ---- */

/* Erased disks, how many of them are lost, and the sheet as far as it has
   records. */
struct typed {
    const char *what;
    size_t rows, columns, lost, erased_count;
    uint8_t erased[12];
    uint8_t sheet[2 + 3 * 6];
};

static const struct typed typed[] = {
    { "equal loops, another is found first", 3, 3, 9, 9,
      { 0, 1, 4, 6, 7, 9, 11, 13, 14 },
      { 2, 1, 0, 0, 2, 1, 17, 3, 13, 3, 4, 14, 18, 5, 6, 1, 6, 4, 16, 0 } },
    { "equal loops, another is listed first", 3, 3, 9, 9,
      { 1, 3, 4, 5, 6, 10, 11, 12, 15 },
      { 2, 1, 1, 0, 2, 3, 19, 3, 15, 3, 4, 12, 16, 5, 4, 1, 6, 5, 17, 0 } },
    { "equal loops, another has lower rows", 3, 3, 7, 8,
      { 0, 1, 2, 3, 4, 6, 8, 9 },
      { 2, 1, 0, 0, 2, 1, 17, 3, 9, 2, 4, 8, 16, 0 } },
    { "equal loops, another has lower columns", 3, 3, 8, 8,
      { 1, 3, 5, 7, 8, 10, 12, 14 },
      { 2, 1, 1, 0, 2, 3, 19, 3, 7, 1, 4, 5, 17, 0 } },
    { "equal loops, another ends lower", 3, 3, 8, 8,
      { 0, 1, 2, 3, 5, 6, 12, 15 },
      { 2, 1, 0, 0, 2, 3, 19, 3, 15, 3, 4, 12, 16, 0 } },
    { "a longer loop begins lower", 3, 3, 8, 8, { 0, 1, 4, 6, 9, 10, 13, 14 },
      { 2, 1, 9, 2, 2, 10, 18, 3, 14, 3, 4, 13, 17, 0 } },
    { "a longer loop begins alike and goes on lower", 3, 3, 8, 8,
      { 0, 1, 3, 5, 6, 12, 14, 15 },
      { 2, 1, 0, 0, 2, 3, 19, 3, 15, 3, 4, 12, 16, 0 } },
    { "2 by 3, equal loops", 2, 3, 8, 8, { 0, 1, 2, 3, 4, 6, 9, 11 },
      { 2, 1, 0, 0, 2, 2, 18, 3, 6, 1, 4, 4, 16, 0 } },
    { "3 by 2, equal loops", 3, 2, 8, 8, { 0, 1, 4, 5, 6, 7, 10, 11 },
      { 2, 1, 0, 0, 2, 1, 17, 3, 7, 2, 4, 6, 16, 0 } },
    { "2 by 3, a loop of six and two of four", 2, 3, 7, 7,
      { 0, 1, 5, 6, 8, 9, 10 },
      { 2, 1, 0, 0, 2, 1, 17, 3, 9, 2, 4, 8, 16, 0 } },
    { "15 by 15, the first and the last", 15, 15, 8, 8,
      { 0, 1, 16, 17, 238, 239, 254, 255 },
      { 2, 1, 0, 0, 2, 1, 17, 3, 17, 1, 4, 16, 16, 0 } },
    { "15 by 15, disks 127 and 128", 15, 15, 8, 8,
      { 126, 127, 128, 129, 142, 143, 144, 145 },
      { 2, 1, 126, 7, 2, 127, 31, 3, 143, 8, 4, 142, 30, 0 } }
};

static void run_typed(const struct typed *t)
{
    const struct size size = { t->rows, t->columns, 1 };
    struct call c = fitting_call(REBUILD, size);
    size_t i;

    for (i = 0; i < t->erased_count; i++)
        c.map.bytes[t->erased[i]] = 1;
    expect_as_now(&c);
    expect(expect_loop(&c) == t->lost
               && memcmp(c.sheet.expected, t->sheet, sizeof t->sheet) == 0,
           "%s: the smallest loop", t->what);
    expect_kind(&c, 0);
    memcpy(c.sheet.expected, t->sheet, sizeof t->sheet);
    expect_shown(&c, t->lost, t->what);
    end_call(&c);
}

/* ---- Every map of a small grid ---- */

/* A set of disks is a set of bits here. The grid of 3 by 3 has the most loops:
   36 of four disks, 96 of six and 72 of eight. */
enum { MOST_LOOPS = 204 };

/* The loops of a grid, the shortest first, and equal ones in their order. */
struct loops {
    size_t count;
    unsigned set[MOST_LOOPS];
};

static size_t count_bits(unsigned set)
{
    size_t count = 0;

    for (; set != 0; set &= set - 1)
        count++;
    return count;
}

/* The disks of row i for i up to the last row, and behind these of column 0 and
   so on. */
static unsigned stripe_bits(struct size s, size_t i)
{
    size_t stripe = i <= s.rows ? i : 16 + i - s.rows - 1, k;
    unsigned bits = 0;

    for (k = 0; k < disks_on(s, stripe); k++)
        bits |= 1u << disk_on(s, stripe, k);
    return bits;
}

/* Every stripe holds none of the disks or two, and from one disk all others are
   reached along stripes. */
static int is_loop(struct size s, unsigned set)
{
    size_t stripes = s.rows + s.columns + 2, i, k;
    unsigned part = set & (0 - set);

    for (i = 0; i < stripes; i++)
        if (count_bits(set & stripe_bits(s, i)) % 2 != 0
            || count_bits(set & stripe_bits(s, i)) > 2)
            return 0;
    for (k = 0; k < stripes; k++)
        for (i = 0; i < stripes; i++)
            if (part & stripe_bits(s, i))
                part |= set & stripe_bits(s, i);
    return set != 0 && part == set;
}

/* The set with fewer disks; of equal ones that with the lowest disk that is not
   in both. */
static int is_before(unsigned one, unsigned two)
{
    size_t of_one = count_bits(one), of_two = count_bits(two);
    unsigned differ = one ^ two;

    if (of_one != of_two)
        return of_one < of_two;
    return (one & differ & (0 - differ)) != 0;
}

static void find_loops(struct size s, struct loops *loops)
{
    unsigned set;
    size_t k;

    loops->count = 0;
    for (set = 0; set < 1u << disks_of(s); set++)
        if (is_loop(s, set)) {
            for (k = loops->count++; k > 0 && is_before(set, loops->set[k - 1]);
                 k--)
                loops->set[k] = loops->set[k - 1];
            loops->set[k] = set;
        }
}

static size_t lowest_bit(unsigned set)
{
    return count_bits((set & (0 - set)) - 1);
}

/* The sheet lists the disks of a set: from the lowest along its row, and from
   each to the other disk of the stripe. */
static void expect_set(struct call *c, unsigned set)
{
    size_t disk = lowest_bit(set), length = count_bits(set), k;

    expect_kind(c, RAID2D_SHEET_CYCLE);
    for (k = 1; k <= length; k++) {
        int along_row = k % 2 == 1;
        size_t row = row_of(c->size, disk), column = column_of(c->size, disk);
        unsigned stripe = stripe_bits(
            c->size, along_row ? row : c->size.rows + 1 + column - 16);

        expect_record(c, k, disk, along_row ? row : column);
        disk = lowest_bit(set & stripe & ~(1u << disk));
    }
}

/* The loss of this map, of which the set is the smallest loop. Returns whether
   ../loop.c finds another one. */
static int plan_map(struct call *c, unsigned map, unsigned set)
{
    uint8_t found[RAID2D_SHEET_BYTES];
    size_t disk, lost;

    for (disk = 0; disk < c->map.len; disk++)
        c->map.bytes[disk] = (uint8_t)(map >> disk & 1);
    fill(c->sheet.bytes, c->sheet.len);
    expect_as_now(c);
    lost = expect_loop(c);
    memcpy(found, c->sheet.expected, sizeof found);
    expect_set(c, set);
    expect_run(c, 6, lost, "every map");
    return memcmp(found, c->sheet.expected, sizeof found) != 0;
}

/* Every map in which some loop is erased. Plan is lent no array, so that it is
   not called for several sectors too. */
static void plan_every_map(struct size s, size_t loops_due)
{
    static struct loops loops;
    struct call c = new_call(PLAN, s, 0, disks_of(s), 0, RAID2D_SHEET_BYTES);
    size_t differ = 0, k;
    unsigned map;

    find_loops(s, &loops);
    expect(loops.count == loops_due, "loops of %zu rows, %zu columns", s.rows,
           s.columns);
    for (map = 0; map < 1u << disks_of(s); map++) {
        for (k = 0; k < loops.count && (loops.set[k] & ~map) != 0; k++)
            ;
        if (k < loops.count)
            differ += (size_t)plan_map(&c, map, loops.set[k]);
    }
    expect(differ == 0, "loops as lists and as sets, %zu rows, %zu columns",
           s.rows, s.columns);
    end_call(&c);
}

/* ---- Losses with several loops ---- */

/* Numbers from 0 up in an arbitrary order. */
static void shuffle(size_t *numbers, size_t count)
{
    size_t i;

    for (i = 0; i < count; i++) {
        size_t k = below(i + 1);

        numbers[i] = numbers[k];
        numbers[k] = i;
    }
}

/* A longest loop, which takes the rows and the columns in any order. */
static void lose_longest_loop(struct call *c)
{
    size_t rows = c->size.rows + 1, columns = c->size.columns + 1;
    size_t steps = rows < columns ? rows : columns, i;
    size_t row[16], column[16];

    shuffle(row, rows);
    shuffle(column, columns);
    for (i = 0; i < steps; i++) {
        lose(c, row[i], column[i]);
        lose(c, row[i], column[(i + 1) % steps]);
    }
}

/* The same with one to three disks more: most of them close shorter loops. */
static void lose_with_chords(struct call *c)
{
    size_t more = 1 + below(3);

    lose_longest_loop(c);
    for (; more > 0; more--)
        lose(c, below(c->size.rows + 1), below(c->size.columns + 1));
}

/* Two to five rectangles. */
static void lose_rectangles(struct call *c)
{
    size_t rows = c->size.rows, columns = c->size.columns;
    size_t left = 2 + below(4);

    for (; left > 0; left--) {
        size_t r = below(rows), low = r + 1 + below(rows - r);
        size_t k = below(columns), right = k + 1 + below(columns - k);

        lose(c, r, k);
        lose(c, r, right);
        lose(c, low, k);
        lose(c, low, right);
    }
}

/* A loss that would come back gets rectangles. */
static void make_fatal(struct call *c)
{
    if (count_undetermined(c->map.bytes, c->size) == 0)
        lose_rectangles(c);
}

/* Many disks, but no rectangle if they have a loop without one: loops of six or
   more. */
static void lose_no_rectangle(struct call *c)
{
    const struct loss_at loss = { c->size.rows, c->size.columns,
                                  c->map.bytes };
    size_t left = 2 * disks_of(c->size);

    for (; left > 0; left--) {
        size_t r = below(c->size.rows + 1), k = below(c->size.columns + 1);

        if (!closes_rectangle(&loss, disk_at(c->size, r, k)))
            lose(c, r, k);
    }
    make_fatal(c);
}

/* Any disks, and any number of them. */
static void lose_any(struct call *c)
{
    size_t left = 1 + below(disks_of(c->size));

    for (; left > 0; left--)
        lose(c, below(c->size.rows + 1), below(c->size.columns + 1));
    make_fatal(c);
}

static void (*const several[])(struct call *c) = {
    lose_longest_loop, lose_with_chords, lose_rectangles, lose_no_rectangle,
    lose_any
};

static void show(struct size s, void (*loss)(struct call *c))
{
    struct call c = fitting_call(REBUILD, s);

    loss(&c);
    expect_as_now(&c);
    expect_shown(&c, expect_loop(&c), "several loops");
    end_call(&c);
}

/* ---- Turns ---- */

/* Row 0 and column 0 are lost, and a turn repairs row 0. Then the disks below
   and to the right of the corner are lost: the loop of the next turn is that of
   the map which it finds. With row 0 another would come first. */
static void lose_between_turns(struct size s)
{
    struct call c = sealed_call(REBUILD, s);
    struct repairs list;
    size_t k;

    lose_cross(&c);
    expect_as_now(&c);
    c.limit = s.columns + 1;
    list = in_plans_order(&c);
    for (k = 0; k < c.limit; k++)
        expect_repair(&c, list.number[k].disk, list.number[k].stripe);
    expect_list(&c, &list, 0, c.limit);
    expect_run(&c, 0, c.limit, "a turn before a fatal one");
    for (k = 0; k < 4; k++)
        lose(&c, 1 + k / 2, 1 + k % 2);
    fill(c.sheet.bytes, c.sheet.len);
    expect_as_now(&c);
    expect_kind(&c, RAID2D_SHEET_CYCLE);
    expect_record(&c, 1, disk_at(s, 1, 0), 1);
    expect_record(&c, 2, disk_at(s, 1, 1), 17);
    expect_record(&c, 3, disk_at(s, 2, 1), 2);
    expect_record(&c, 4, disk_at(s, 2, 0), 16);
    expect_shown(&c, 6, "a fatal turn");
    end_call(&c);
}

/* ---- Sectors ---- */

/* Losses at two positions, behind one that comes back. The first of them is
   named, and shows its own loop. */
static void show_at_positions(struct size s, void (*one)(struct call *c),
                              void (*two)(struct call *c))
{
    const struct size cut = { s.rows, s.columns, 3 };
    struct call c = sealed_cut_call(REBUILD, cut, 3), plan;
    size_t lost;

    lose_at(&c, 0, lose_cross);
    lose_at(&c, 1, one);
    lose_at(&c, 2, two);
    expect_as_now(&c);
    lost = expect_loop_at(&c, 1);
    plan = same_for(PLAN, &c);
    plan.fatal = 1;
    memcpy(plan.sheet.expected, c.sheet.expected, plan.sheet.len);
    expect_run(&plan, 6, lost, "loops at two positions");
    end_call(&plan);
    expect_run(&c, 6, lost, "loops at two positions");
    end_call(&c);
}

/* ---- All of it ---- */

static void at_grid(struct size s)
{
    size_t i;

    for (i = 0; i < COUNT(several); i++) {
        show(s, several[i]);
        show(s, several[i]);
        show_at_positions(s, several[i], several[below(COUNT(several))]);
    }
    lose_between_turns(s);
}

void test_loops(void)
{
    size_t i;

    for (i = 0; i < COUNT(typed); i++)
        run_typed(&typed[i]);
    plan_every_map((struct size){ 2, 2, 1 }, 15);
    plan_every_map((struct size){ 2, 3, 1 }, 42);
    plan_every_map((struct size){ 3, 2, 1 }, 42);
    plan_every_map((struct size){ 3, 3, 1 }, MOST_LOOPS);
    at_every_grid(at_grid);
}
