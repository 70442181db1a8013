/*
 * Save on fatal losses: disks that follow from the survivors though no repair
 * reaches them, disks that nothing brings back, and survivors that contradict
 * each other though every stripe has an erased disk. losses.c has the losses
 * of which repairs tell all.
 */
#include <string.h>

#include "loss.h"
#include "raid2d.h"
#include "suite.h"

/* ---- Rectangles along the diagonal ---- */

/* Erases a disk that nothing brings back: it keeps the bytes put there. */
static void lose_for_good(struct call *c, size_t r, size_t k)
{
    size_t at = disk_at(c->size, r, k) * c->size.block;

    lose(c, r, k);
    memcpy(c->array.expected + at, c->array.bytes + at, c->size.block);
}

/* How many rectangles there is room for. Number i has rows and columns 2i and
   2i + 1. */
static size_t rectangles(struct size s)
{
    return ((s.rows < s.columns ? s.rows : s.columns) + 1) / 2;
}

static void lose_rectangles(struct call *c)
{
    size_t i;

    for (i = 0; i < rectangles(c->size); i++) {
        lose_for_good(c, 2 * i, 2 * i);
        lose_for_good(c, 2 * i, 2 * i + 1);
        lose_for_good(c, 2 * i + 1, 2 * i);
        lose_for_good(c, 2 * i + 1, 2 * i + 1);
    }
}

/* The disk between rectangle i and the next, on a row of the one and a column
   of the other: neither stripe has it as its only erased disk. It follows from
   survivors all the same. In a sealed array the disks of the rows up to
   rectangle i and those of the columns up to there, but for the disks of both,
   add up to zero; and no other of these is erased. */
static void lose_between(struct call *c, size_t i)
{
    size_t last = 2 * i + 1, r, k;
    uint8_t *sum = cell(c->array.expected, c->size, last, last + 1, 0);

    lose(c, last, last + 1);
    memset(sum, 0, c->size.block);
    for (r = 0; r <= c->size.rows; r++)
        for (k = 0; k <= c->size.columns; k++)
            if ((r <= last) != (k <= last) && (r != last || k != last + 1))
                add_block(sum, cell(c->array.bytes, c->size, r, k, 0),
                          c->size.block);
}

/* The disks between all rectangles, but for the one behind rectangle `but`.
   Returns how many. */
static size_t lose_all_between(struct call *c, size_t but)
{
    size_t i, lost = 0;

    for (i = 0; i + 1 < rectangles(c->size); i++)
        if (i != but) {
            lose_between(c, i);
            lost++;
        }
    return lost;
}

/* The blocks that save restores are also those of the sealed array. */
static void save_between(struct size s)
{
    static uint8_t sealed[DISKS * RAID2D_BLOCK_MAX];
    struct call c = sealed_call(SAVE, s);
    size_t saved, i, block = s.block;

    memcpy(sealed, c.array.bytes, c.array.len);
    lose_rectangles(&c);
    saved = lose_all_between(&c, SIZE_MAX);
    expect_run(&c, 0, saved, "between rectangles");
    for (i = 0; i < saved; i++) {
        size_t at = disk_at(s, 2 * i + 1, 2 * i + 2) * block;

        expect(memcmp(c.array.bytes + at, sealed + at, block) == 0,
               "saved disk %zu, %zu rows, %zu columns", at / block, s.rows,
               s.columns);
    }
    end_call(&c);
}

/* Where rectangles have all stripes, and the disks between them join them, any
   survivors belong to a sealed array. */
static void save_from_arbitrary_bytes(struct size s)
{
    struct call c = fitting_call(SAVE, s);
    size_t saved;

    lose_rectangles(&c);
    saved = lose_all_between(&c, SIZE_MAX);
    expect_run(&c, 0, saved, "between rectangles, arbitrary survivors");
    end_call(&c);
}

/* One disk between two rectangles is present, and changed: its row and its
   column have erased disks, and yet the other survivors contradict it. All
   erased blocks are zero then, also those that nothing brings back. */
static void contradict_between(struct size s, size_t i)
{
    struct call c = sealed_call(SAVE, s);

    lose_rectangles(&c);
    lose_all_between(&c, i);
    damage(&c, 2 * i + 1, 2 * i + 2, below(s.block), (uint8_t)(1 + below(255)));
    expect_zero_blocks(&c);
    expect_run(&c, 7, OUT_BEFORE, "a change between rectangles");
    end_call(&c);
}

/* The same change on another survivor between the two rectangles: they then
   belong to a sealed array again. */
static void agree_between(struct size s, size_t i)
{
    struct call c = sealed_call(SAVE, s);
    size_t place = below(s.block), saved;

    damage(&c, 2 * i + 1, 2 * i + 2, place, 5);
    damage(&c, 2 * i, 2 * i + 3, place, 5);
    lose_rectangles(&c);
    saved = lose_all_between(&c, i);
    expect_run(&c, 0, saved, "two equal changes between rectangles");
    end_call(&c);
}

/* Nothing but rectangles: no block changes, and the count is 0. */
static void save_nothing(struct size s)
{
    struct call c = sealed_call(SAVE, s);

    lose_rectangles(&c);
    expect_run(&c, 0, 0, "rectangles");
    end_call(&c);
}

/* ---- The nine dead cards of paper 02 ---- */

static const struct size square = { 3, 3, 1 };

/* Two rectangles and disk 6 between them, with arbitrary survivors: they belong
   to a sealed array. */
static struct call nine_cards(enum function function)
{
    struct call c = fitting_call(function, square);

    lose_rectangles(&c);
    lose_between(&c, 0);
    return c;
}

/* Plan, plan_disk and rebuild count eight lost disks, and list the rectangle
   that comes first. No repair reaches disk 6, which save restores. */
static void count_nine_cards(void)
{
    const enum function functions[] = { PLAN, PLAN_DISK, REBUILD };
    size_t i;

    for (i = 0; i < COUNT(functions); i++) {
        struct call c = nine_cards(functions[i]);

        c.disk = 6;
        expect_as_now(&c);
        expect_kind(&c, RAID2D_SHEET_CYCLE);
        expect_record(&c, 1, 0, 0);
        expect_record(&c, 2, 1, 17);
        expect_record(&c, 3, 5, 1);
        expect_record(&c, 4, 4, 16);
        expect_run(&c, 6, 8, "nine cards: lost");
        end_call(&c);
    }
}

static void save_nine_cards(void)
{
    static const size_t summands[] = { 2, 3, 7, 8, 9, 12, 13 };
    struct call c = nine_cards(SAVE);
    uint8_t sum = 0;
    size_t i;

    for (i = 0; i < sizeof summands / sizeof summands[0]; i++)
        sum ^= c.array.bytes[summands[i]];
    c.array.expected[6] = sum;
    expect_run(&c, 0, 1, "nine cards");
    end_call(&c);
}

/* Without disk 6 every stripe still has erased disks. A change of any survivor
   shows, and equal changes of two do not. */
static void change_eight_cards(size_t one, size_t two)
{
    struct call c = sealed_call(SAVE, square);

    damage(&c, one / 4, one % 4, 0, 77);
    if (two != one)
        damage(&c, two / 4, two % 4, 0, 77);
    lose_rectangles(&c);
    if (two == one)
        expect_zero_blocks(&c);
    expect_run(&c, two == one ? 7 : 0, two == one ? OUT_BEFORE : 0,
               "eight cards");
    end_call(&c);
}

static void contradict_eight_cards(void)
{
    static const size_t survivors[] = { 2, 3, 6, 7, 8, 9, 12, 13 };
    size_t i, j;

    for (i = 0; i < 8; i++)
        for (j = 0; j < 8; j++)
            change_eight_cards(survivors[i], survivors[j]);
}

/* ---- All of it ---- */

static void at_size(struct size s)
{
    size_t apart = rectangles(s) - 1;

    save_nothing(s);
    save_between(s);
    if (s.rows == s.columns && s.rows % 2 == 1)
        save_from_arbitrary_bytes(s);
    if (apart > 0) {
        contradict_between(s, below(apart));
        agree_between(s, below(apart));
    }
}

void test_saves(void)
{
    count_nine_cards();
    save_nine_cards();
    contradict_eight_cards();
    at_every_size(at_size);
}
