/*
 * Rebuild in turns on blocks that are cut into sectors: a turn goes over the
 * positions from the first on, and only the one that leaves nothing erased at
 * any of them judges the survivors.
 */
#include <string.h>

#include "positions.h"
#include "raid2d.h"
#include "suite.h"

/* ---- What is expected of turns ---- */

/* Repairs of all positions in their order. */
struct steps {
    size_t count;
    struct {
        size_t position, disk, stripe;
    } number[RAID2D_SECTORS_MAX * RAID2D_SHEET_RECORDS];
};

/* Plan's repairs of position 0, then of position 1, and so on. */
static void list_steps(const struct call *c, struct steps *steps)
{
    size_t position, k;

    steps->count = 0;
    for (position = 0; position < c->sectors; position++) {
        struct repairs list = repairs_at(c, position);

        for (k = 0; k < list.count; k++) {
            steps->number[steps->count].position = position;
            steps->number[steps->count].disk = list.number[k].disk;
            steps->number[steps->count++].stripe = list.number[k].stripe;
        }
    }
}

/* The repairs from one number up to another are made, and each is listed on the
   sheet of its position. */
static void expect_steps(struct call *c, const struct steps *steps,
                         size_t from, size_t to)
{
    struct repairs list = { 0, { { 0, 0 } } };
    size_t k;

    expect_kinds(c, RAID2D_SHEET_REPAIRS);
    for (k = from; k < to; k++) {
        size_t position = steps->number[k].position;

        if (k > from && position != steps->number[k - 1].position)
            list.count = 0;
        add_repair(&list, steps->number[k].disk, steps->number[k].stripe);
        expect_repair_at(c, position, steps->number[k].disk,
                         steps->number[k].stripe);
        expect_list_at(c, position, &list, 0, list.count);
    }
}

/* One turn, which begins with this number. The turn that makes the last repair
   refuses by 7 if the survivors do not agree: then what is erased before it is
   zero at every position. Returns the number that the next turn begins with. */
static size_t expect_turn(struct call *c, const struct steps *steps,
                          size_t from, int agree, const char *what)
{
    size_t left = steps->count - from;
    size_t to = from + (c->limit < left ? c->limit : left);

    fill(c->sheet.bytes, c->sheet.len);
    expect_as_now(c);
    if (to == steps->count && !agree) {
        expect_zero_sectors(c);
        memset(c->sheet.expected, 0, c->sheet.len);
        expect_run(c, 7, OUT_BEFORE, what);
    } else {
        expect_steps(c, steps, from, to);
        expect_run(c, 0, to - from, what);
    }
    return to;
}

/* As many turns as the limit asks for, and one where nothing is erased. */
static void expect_all_turns(struct call *c, size_t limit, int agree,
                             const char *what)
{
    static struct steps steps;
    size_t made = 0;

    list_steps(c, &steps);
    c->limit = limit;
    do
        made = expect_turn(c, &steps, made, agree, what);
    while (made < steps.count);
}

/* ---- Losses in turns ---- */

/* Most of a stair is lost, one sector, most of a stair, nothing, and so on from
   the first position. A survivor of one of them is changed, or of none, in the
   last row, of which no disk is erased. */
static void turn_by_turn(struct size s, size_t sectors, size_t limit,
                         size_t changed)
{
    struct call c = sealed_cut_call(REBUILD, s, sectors);
    size_t position;

    for (position = 0; position < sectors; position++)
        if (position % 4 == 1)
            lose_sector(&c, position, below(disk_at(s, s.rows, 0)));
        else if (position % 4 != 3)
            lose_at(&c, position, lose_most_of_stair);
    if (changed < sectors)
        damage_at(&c, changed, s.rows, below(s.columns + 1));
    expect_all_turns(&c, limit, changed >= sectors, "turns over positions");
    expect_all_turns(&c, limit, changed >= sectors, "turns over positions");
    end_call(&c);
}

/* Every limit up to more than all repairs, and such that would be 0 or 1 if
   they were shortened. */
static void every_limit(struct size s, size_t sectors)
{
    static const size_t large[] = {
        256, 257, 65536, 65537, (size_t)UINT32_MAX + 1,
        (size_t)UINT32_MAX + 2, SIZE_MAX / 2 + 1, SIZE_MAX
    };
    size_t most = most_repairs(s) * sectors, i, changed;

    for (changed = 0; changed <= sectors; changed++) {
        for (i = 1; i <= most; i++)
            turn_by_turn(s, sectors, i, changed);
        for (i = 0; i < COUNT(large); i++)
            turn_by_turn(s, sectors, large[i], changed);
    }
}

/* ---- All of it ---- */

/* All sectors of 31 disks at 4096 positions. */
static void turn_most(void)
{
    struct call c = sealed_cut_call(REBUILD, (struct size){ 15, 15, 4096 },
                                    4096);

    lose_most_sectors(&c);
    expect_all_turns(&c, 50000, 1, "turns over 4096 positions");
    end_call(&c);
}

/* The greatest number of sectors up to 128, and some limit and some position
   that is changed or none, others at each size. */
static void at_size(struct size s)
{
    size_t some = 7 * s.rows + 3 * s.columns + s.block;
    size_t sectors = s.block < 128 ? s.block : 128;

    while (s.block % sectors != 0)
        sectors--;
    if (disks_of(s) * sectors < 4096)
        turn_by_turn(s, sectors, 1 + some % (most_repairs(s) * sectors),
                     some % (2 * sectors));
}

void test_sector_turns(void)
{
    every_limit((struct size){ 2, 2, 12 }, 2);
    every_limit((struct size){ 2, 3, 12 }, 3);
    every_limit((struct size){ 3, 2, 24 }, 4);
    at_every_size(at_size);
    turn_most();
}
