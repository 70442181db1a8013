/*
 * Rebuild in turns, each on the array and the map that the one before left:
 * what every turn answers and the bytes it leaves, for limits of all kinds, on
 * sealed arrays and on survivors that contradict each other.
 */
#include <string.h>

#include "chain.h"
#include "loss.h"
#include "raid2d.h"
#include "suite.h"
#include "turns.h"

/* ---- What is expected of turns ---- */

/* On the map from before a turn its list is one for follow if the turn was the
   last. After any other disks stay erased. */
static void expect_follow(const struct call *turn, const uint8_t *before,
                          size_t made, int last, const char *what)
{
    struct call c = fitting_call(FOLLOW, turn->size);

    memcpy(c.array.bytes, turn->array.bytes, c.array.len);
    memcpy(c.map.bytes, before, c.map.len);
    memcpy(c.sheet.bytes, turn->sheet.bytes, c.sheet.len);
    expect_as_now(&c);
    expect_run(&c, last ? 0 : 11, last ? made : OUT_BEFORE, what);
    end_call(&c);
}

/* One turn, which begins with this number of the list. If it makes the last
   repair and the survivors do not agree, it refuses by 7: the blocks of its
   disks and the sheet are zero, and the map keeps its bytes. To tidy changes
   nothing: a turn's list is tidy, and zeros are none. Returns the number that
   the next turn begins with. */
static size_t expect_turn(struct call *c, const struct repairs *list,
                          size_t from, int agree, const char *what)
{
    uint8_t before[DISKS];
    size_t left = list->count - from;
    size_t to = from + (c->limit < left ? c->limit : left), k;

    memcpy(before, c->map.bytes, c->map.len);
    fill(c->sheet.bytes, c->sheet.len);
    expect_as_now(c);
    if (to == list->count && !agree) {
        expect_zero_blocks(c);
        expect_kind(c, 0);
        expect_run(c, 7, OUT_BEFORE, what);
        expect_tidy(c->sheet.bytes, 10, c->sheet.bytes, what);
        return to;
    }
    for (k = from; k < to; k++)
        expect_repair(c, list->number[k].disk, list->number[k].stripe);
    expect_list(c, list, from, to);
    expect_run(c, 0, to - from, what);
    expect_tidy(c->sheet.bytes, 0, c->sheet.bytes, what);
    expect_follow(c, before, to - from, to == list->count, what);
    return to;
}

void expect_turns(struct call *c, size_t limit, int agree, const char *what)
{
    struct repairs list = in_plans_order(c);
    size_t made = 0;

    c->limit = limit;
    do
        made = expect_turn(c, &list, made, agree, what);
    while (made < list.count);
}

/* ---- Losses in turns ---- */

/* The array is then what it was before the loss, and one more turn finds
   nothing to do. */
static void restore(struct size s, void (*loss)(struct call *c), size_t limit,
                    const char *what)
{
    static uint8_t sealed[DISKS * RAID2D_BLOCK_MAX];
    struct call c = sealed_call(REBUILD, s);

    memcpy(sealed, c.array.bytes, c.array.len);
    loss(&c);
    expect_turns(&c, limit, 1, what);
    expect(memcmp(sealed, c.array.bytes, c.array.len) == 0,
           "%s: the array after turns of %zu, %zu rows, %zu columns, block %zu",
           what, limit, s.rows, s.columns, s.block);
    expect_turns(&c, limit, 1, what);
    end_call(&c);
}

/* A survivor of the last row is changed, of which no disk is erased: so its
   sum is wrong, whatever the repairs make of the change. */
static void contradict(struct size s, void (*loss)(struct call *c),
                       size_t limit, const char *what)
{
    struct call c = sealed_call(REBUILD, s);

    loss(&c);
    damage(&c, s.rows, below(s.columns + 1), below(s.block),
           (uint8_t)(1 + below(255)));
    expect_turns(&c, limit, 0, what);
    end_call(&c);
}

/* A limit of 0 is refused, also where there is nothing to repair. */
static void refuse_no_repair(struct size s, void (*loss)(struct call *c))
{
    struct call c = sealed_call(REBUILD, s);

    loss(&c);
    expect_as_now(&c);
    c.limit = 0;
    expect_run(&c, 12, OUT_BEFORE, "a limit of 0");
    end_call(&c);
}

/* ---- All of it ---- */

static void with_limit(struct size s, size_t limit)
{
    restore(s, lose_cross, limit, "row 0 and column 0 in turns");
    restore(s, lose_stair, limit, "a stair in turns");
    contradict(s, lose_most_of_stair, limit, "most of a stair, one change");
    contradict(s, lose_nothing, limit, "no disk erased, one change");
}

/* Some limit that is none too many, another one at each size. */
static void at_size(struct size s)
{
    with_limit(s, 1 + (s.rows * s.columns + s.block) % most_repairs(s));
    refuse_no_repair(s, lose_nothing);
    refuse_no_repair(s, lose_stair);
}

/* All limits up to one more than the repairs, and such that would be 0, 1 or
   the like if they were shortened or could wrap. */
static void with_every_limit(struct size s)
{
    static const size_t large[] = {
        255, 256, 257, 65536, 65537, (size_t)UINT32_MAX + 1,
        (size_t)UINT32_MAX + 2, SIZE_MAX / 3, SIZE_MAX / 3 + 1,
        SIZE_MAX / 2 + 1, SIZE_MAX / 2 + 2, SIZE_MAX - 1, SIZE_MAX
    };
    size_t i;

    for (i = 1; i <= most_repairs(s) + 1; i++)
        with_limit(s, i);
    for (i = 0; i < sizeof large / sizeof large[0]; i++)
        with_limit(s, large[i]);
}

void test_turns(void)
{
    static const struct size sizes[] = {
        { 2, 2, 3 }, { 3, 3, 1 }, { 15, 15, 1 }, { 2, 3, 1 }, { 3, 2, 3 },
        { 2, 15, 3 }, { 15, 2, 1 }
    };
    size_t i;

    at_every_size(at_size);
    for (i = 0; i < sizeof sizes / sizeof sizes[0]; i++)
        with_every_limit(sizes[i]);
}
