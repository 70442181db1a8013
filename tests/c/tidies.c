/*
 * Tidy, byte by byte: lists of every length at any places of a sheet, whatever
 * stands off their chain. And follow, which turns down every single byte off
 * the chain that is not zero, and takes the same sheet after tidy.
 */
#include <string.h>

#include "chain.h"
#include "loss.h"
#include "raid2d.h"
#include "suite.h"

/* ---- Worked sheets ---- */

/* A sheet: its first records, and the last one, number 32; and what tidy makes
   of it. All other bytes are zero. */
struct example {
    const char *what;
    size_t status;
    uint8_t begins[2 + 3 * 4];
    uint8_t record_32[3];
    uint8_t tidy[2 + 3 * 4];
};

#define CASE_3 { 1, 1, 2, 18, 2, 0, 0, 3, 6, 2, 0 }

static const struct example examples[] = {
    { "case 3's sheet", 0, CASE_3, { 0, 0, 0 }, CASE_3 },
    { "leftovers behind it", 0,
      { 1, 1, 2, 18, 2, 0, 0, 3, 6, 2, 0, 1, 0, 0 }, { 0, 0, 1 }, CASE_3 },
    { "a repair left off the chain", 0,
      { 1, 1, 2, 18, 2, 0, 0, 0, 6, 2, 0 }, { 0, 0, 0 },
      { 1, 1, 2, 18, 2, 0, 0, 0 } },
    { "records in other places", 0,
      { 1, 3, 6, 2, 0, 9, 9, 9, 2, 18, 4, 0, 0, 1 }, { 77, 77, 77 }, CASE_3 },
    { "records backwards", 0,
      { 1, 3, 6, 2, 0, 0, 0, 1, 2, 18, 2 }, { 0, 0, 0 }, CASE_3 },
    { "number 32 first", 0,
      { 1, 32, 6, 2, 0, 0, 0, 1 }, { 2, 18, 2 }, CASE_3 },
    { "number 32 last", 0,
      { 1, 2, 0, 0, 32, 2, 18, 1 }, { 6, 2, 0 }, CASE_3 },
    { "number 32 alone", 0, { 1, 32 }, { 5, 17, 0 }, { 1, 1, 5, 17, 0 } },
    { "an empty list", 0, { 1 }, { 0, 0, 0 }, { 1 } },
    { "leftovers beside an empty list", 0,
      { 1, 0, 9, 9, 9, 0, 0, 1 }, { 9, 9, 9 }, { 1 } },
    { "a record of zeros", 0, { 1, 4 }, { 0, 0, 0 }, { 1, 1, 0, 0, 0 } },
    { "numbers that no grid has", 0,
      { 1, 2, 255, 255, 0, 16, 32, 4, 0, 0, 0, 200, 15, 1 }, { 0, 0, 0 },
      { 1, 1, 16, 32, 2, 200, 15, 3, 255, 255, 0 } },
    { "a repair twice", 0, { 1, 2, 7, 7, 0, 7, 7, 1 }, { 0, 0, 0 },
      { 1, 1, 7, 7, 2, 7, 7, 0 } },
    { "a number that no record has, off the chain", 0,
      { 1, 1, 2, 18, 0, 0, 0, 33, 0, 0, 255 }, { 0, 0, 0 },
      { 1, 1, 2, 18, 0 } },
    { "a ring off the chain", 0,
      { 1, 1, 2, 18, 0, 0, 0, 2 }, { 0, 0, 32 }, { 1, 1, 2, 18, 0 } },
    { "kind 0", 10, { 0, 1, 2, 18, 0 }, { 0, 0, 0 }, { 0 } },
    { "zeros", 10, { 0 }, { 0, 0, 0 }, { 0 } },
    { "a cycle", 10,
      { 2, 1, 0, 0, 2, 2, 18, 3, 8, 2, 4, 6, 16, 0 }, { 0, 0, 0 }, { 0 } },
    { "a cycle that is a ring", 10,
      { 2, 1, 0, 0, 2, 2, 18, 3, 8, 2, 4, 6, 16, 1 }, { 0, 0, 0 }, { 0 } },
    { "kind 3", 10, { 3, 1, 2, 18, 0 }, { 0, 0, 0 }, { 0 } },
    { "kind 255 and number 33", 10, { 255, 33 }, { 0, 0, 0 }, { 0 } },
    { "first number 33", 10, { 1, 33, 2, 18, 0 }, { 0, 0, 0 }, { 0 } },
    { "first number 255", 10, { 1, 255 }, { 0, 0, 0 }, { 0 } },
    { "last number 33", 10, { 1, 32 }, { 2, 18, 33 }, { 0 } },
    { "a ring of one", 13, { 1, 32 }, { 2, 18, 32 }, { 0 } },
    { "a ring of two", 13, { 1, 32, 0, 0, 32 }, { 2, 18, 1 }, { 0 } },
    { "a ring behind the first", 13,
      { 1, 32, 0, 0, 2, 6, 2, 1 }, { 2, 18, 1 }, { 0 } }
};

static void run_example(const struct example *e)
{
    uint8_t sheet[RAID2D_SHEET_BYTES] = { 0 };
    uint8_t tidy[RAID2D_SHEET_BYTES] = { 0 };

    memcpy(sheet, e->begins, sizeof e->begins);
    memcpy(sheet + 95, e->record_32, sizeof e->record_32);
    memcpy(tidy, e->tidy, sizeof e->tidy);
    expect_tidy(sheet, e->status, e->status == 0 ? tidy : sheet, e->what);
}

/* ---- Lists at any places ---- */

/* The numbers of all records in some order. A list has the first of them. */
struct places {
    size_t number[RAID2D_SHEET_RECORDS];
};

static struct places in_order(void)
{
    struct places p;
    size_t k;

    for (k = 0; k < RAID2D_SHEET_RECORDS; k++)
        p.number[k] = k + 1;
    return p;
}

static struct places backwards(void)
{
    struct places p;
    size_t k;

    for (k = 0; k < RAID2D_SHEET_RECORDS; k++)
        p.number[k] = RAID2D_SHEET_RECORDS - k;
    return p;
}

static struct places shuffled(void)
{
    struct places p = in_order();
    size_t k;

    for (k = RAID2D_SHEET_RECORDS - 1; k > 0; k--) {
        size_t other = below(k + 1), kept = p.number[k];

        p.number[k] = p.number[other];
        p.number[other] = kept;
    }
    return p;
}

/* Runs a test on a list with its records in every kind of order. */
static void at_all_places(void (*test)(const struct repairs *list,
                                       const struct places *places),
                          const struct repairs *list)
{
    const struct places places[] = {
        in_order(), backwards(), shuffled(), shuffled()
    };
    size_t i;

    for (i = 0; i < COUNT(places); i++)
        test(list, &places[i]);
}

/* Where the number of record k of a list stands, k from 0 on: in the record
   before, or at byte 1. For the list's length: where its end is. */
static size_t link_to(const struct places *places, size_t k)
{
    return k == 0 ? 1 : 3 * places->number[k - 1] + 1;
}

/* Writes a list into a sheet. Bytes off its chain stay. */
static void put_list(uint8_t *sheet, const struct repairs *list,
                     const struct places *places)
{
    size_t k;

    sheet[0] = RAID2D_SHEET_REPAIRS;
    for (k = 0; k < list->count; k++) {
        size_t number = places->number[k];

        sheet[link_to(places, k)] = (uint8_t)number;
        sheet[3 * number - 1] = (uint8_t)list->number[k].disk;
        sheet[3 * number] = (uint8_t)list->number[k].stripe;
    }
    sheet[link_to(places, list->count)] = 0;
}

/* Any numbers for disks and stripes. */
static struct repairs arbitrary_list(size_t count)
{
    struct repairs list = { 0, { { 0, 0 } } };

    while (list.count < count) {
        list.number[list.count].disk = below(256);
        list.number[list.count++].stripe = below(256);
    }
    return list;
}

/* The sheet becomes that of the same list at places 1, 2, 3 and so on, with
   zeros behind. */
static void expect_tidy_list(const uint8_t *sheet, const struct repairs *list,
                             const char *what)
{
    const struct places first = in_order();
    uint8_t tidy[RAID2D_SHEET_BYTES] = { 0 };

    put_list(tidy, list, &first);
    expect_tidy(sheet, 0, tidy, what);
}

/* One byte of the sheet is another, for one call that refuses. */
static void expect_refused_with(uint8_t *sheet, size_t place, size_t byte,
                                size_t status, const char *what)
{
    uint8_t kept = sheet[place];

    sheet[place] = (uint8_t)byte;
    expect_tidy(sheet, status, sheet, what);
    sheet[place] = kept;
}

/* Every kind but 1, whether the chain ends or not. */
static void refuse_other_kinds(uint8_t *sheet)
{
    static const uint8_t kinds[] = { 0, 2, 3, 128, 129, 255 };
    size_t i;

    for (i = 0; i < COUNT(kinds); i++)
        expect_refused_with(sheet, 0, kinds[i], 10, "another kind");
}

/* A number that no record has, in place of each number on the chain. */
static void refuse_high_numbers(uint8_t *sheet, const struct repairs *list,
                                const struct places *places)
{
    static const uint8_t numbers[] = { 33, 34, 64, 128, 255 };
    size_t k;

    for (k = 0; k <= list->count; k++)
        expect_refused_with(sheet, link_to(places, k),
                            numbers[below(COUNT(numbers))], 10,
                            "a number that no record has");
}

/* The last record leads back to each record in turn; and then the kind is
   another one too. */
static void refuse_rings(uint8_t *sheet, const struct repairs *list,
                         const struct places *places)
{
    size_t end = link_to(places, list->count), k;

    for (k = 0; k < list->count; k++)
        expect_refused_with(sheet, end, places->number[k], 13, "a ring");
    if (list->count > 0) {
        sheet[end] = (uint8_t)places->number[below(list->count)];
        refuse_other_kinds(sheet);
        sheet[end] = 0;
    }
}

/* A list with zeros off its chain, with arbitrary bytes there, and with no zero
   there. */
static void tidy_list(const struct repairs *list, const struct places *places)
{
    uint8_t sheet[RAID2D_SHEET_BYTES] = { 0 };

    put_list(sheet, list, places);
    expect_tidy_list(sheet, list, "zeros off the chain");
    set_off_chain(sheet, 255);
    expect_tidy_list(sheet, list, "no zero off the chain");
    fill(sheet, sizeof sheet);
    put_list(sheet, list, places);
    expect_tidy_list(sheet, list, "arbitrary bytes off the chain");
    refuse_other_kinds(sheet);
    refuse_high_numbers(sheet, list, places);
    refuse_rings(sheet, list, places);
}

/* ---- Single leftovers ---- */

/* Runs a test with each byte off the chain of a sheet that is zero there: with
   its lowest bit, its highest one, or an arbitrary number set. */
static void with_each_leftover(uint8_t *sheet,
                               void (*test)(void *of, const char *what),
                               void *of)
{
    uint8_t on[RAID2D_SHEET_BYTES];
    size_t i;

    mark_chain(sheet, on);
    for (i = 0; i < sizeof on; i++)
        if (!on[i]) {
            sheet[i] = 1;
            test(of, "lowest bit off the chain");
            sheet[i] = 128;
            test(of, "highest bit off the chain");
            sheet[i] = (uint8_t)(1 + below(255));
            test(of, "a byte off the chain");
            sheet[i] = 0;
        }
}

/* A sheet and the list that it has. */
struct listed {
    uint8_t sheet[RAID2D_SHEET_BYTES];
    const struct repairs *list;
};

static void tidy_leftover(void *of, const char *what)
{
    const struct listed *l = of;

    expect_tidy_list(l->sheet, l->list, what);
}

static void tidy_leftovers(const struct repairs *list,
                           const struct places *places)
{
    struct listed l = { { 0 }, list };

    put_list(l.sheet, list, places);
    with_each_leftover(l.sheet, tidy_leftover, &l);
}

/* ---- Follow ---- */

static void refuse_leftover(void *of, const char *what)
{
    struct call *follow = of;

    memcpy(follow->sheet.expected, follow->sheet.bytes, follow->sheet.len);
    expect_run(follow, 14, OUT_BEFORE, what);
}

/* Follow refuses each single leftover of a sheet that it takes without one. */
static void follow_leftovers(struct size s, void (*loss)(struct call *c),
                             struct places places)
{
    static uint8_t sealed[DISKS];
    struct call c = sealed_call(FOLLOW, s);
    struct repairs list;

    loss(&c);
    list = in_plans_order(&c);
    memcpy(sealed, c.array.expected, c.array.len);
    memset(c.sheet.bytes, 0, c.sheet.len);
    put_list(c.sheet.bytes, &list, &places);
    expect_as_now(&c);
    with_each_leftover(c.sheet.bytes, refuse_leftover, &c);
    expect_as_now(&c);
    memcpy(c.array.expected, sealed, c.array.len);
    expect_run(&c, 0, list.count, "zeros off the chain");
    end_call(&c);
}

/* A list with one record free, which stands at every place in turn: at the
   largest size no more records are ever followed. */
static void follow_beside_each_record(struct size s)
{
    size_t last = most_repairs(s), k;

    for (k = 0; k < RAID2D_SHEET_RECORDS; k++) {
        struct places p = in_order();

        p.number[k] = p.number[last];
        p.number[last] = k + 1;
        follow_leftovers(s, lose_stair, p);
    }
}

static void lose_one(struct call *c)
{
    lose(c, below(c->size.rows + 1), below(c->size.columns + 1));
}

static void follow_all_leftovers(void)
{
    static const struct size sizes[] = {
        { 2, 2, 1 }, { 2, 3, 1 }, { 3, 2, 1 }, { 2, 15, 1 }, { 15, 2, 1 },
        { 15, 15, 1 }
    };
    size_t i;

    for (i = 0; i < COUNT(sizes); i++) {
        follow_leftovers(sizes[i], lose_nothing, in_order());
        follow_leftovers(sizes[i], lose_one, backwards());
        follow_leftovers(sizes[i], lose_one, shuffled());
        follow_leftovers(sizes[i], lose_cross, in_order());
        follow_leftovers(sizes[i], lose_cross, backwards());
        follow_leftovers(sizes[i], lose_stair, shuffled());
    }
    follow_beside_each_record(sizes[5]);
}

/* All records are on the chain: one more than any loss has repairs. */
static void follow_full_chain(void)
{
    static const struct size largest = { 15, 15, 1 };
    struct places places = shuffled();
    struct call c = sealed_call(FOLLOW, largest);
    struct repairs list;

    lose_stair(&c);
    list = in_plans_order(&c);
    list.number[list.count++] = list.number[0];
    put_list(c.sheet.bytes, &list, &places);
    expect_as_now(&c);
    expect_run(&c, 11, OUT_BEFORE, "32 records");
    expect_tidied(&c, 0, &list, "32 records");
    expect_run(&c, 11, OUT_BEFORE, "32 records after tidy");
    c.sheet.bytes[c.sheet.len - 1] = 1;
    expect_as_now(&c);
    expect_run(&c, 13, OUT_BEFORE, "a ring of 32 records");
    expect_tidied(&c, 13, &list, "a ring of 32 records");
    end_call(&c);
}

/* Arbitrary leftovers come before survivors that do not agree; after tidy these
   are judged. The disks of the last row are all present. */
static void follow_tidied(struct size s, int agree)
{
    static uint8_t after[DISKS * RAID2D_BLOCK_MAX];
    struct places places = shuffled();
    struct call c = sealed_call(FOLLOW, s);
    struct repairs list;

    lose_most_of_stair(&c);
    list = in_plans_order(&c);
    if (!agree) {
        damage(&c, s.rows, below(s.columns + 1), below(s.block), 9);
        expect_zero_blocks(&c);
    }
    memcpy(after, c.array.expected, c.array.len);
    put_list(c.sheet.bytes, &list, &places);
    expect_as_now(&c);
    expect_run(&c, 14, OUT_BEFORE, "arbitrary leftovers");
    expect_tidied(&c, 0, &list, "arbitrary leftovers");
    memcpy(c.array.expected, after, c.array.len);
    expect_run(&c, agree ? 0 : 7, agree ? list.count : OUT_BEFORE,
               "a sheet after tidy");
    end_call(&c);
}

/* ---- All of it ---- */

static void at_size(struct size s)
{
    follow_tidied(s, 1);
    follow_tidied(s, 0);
}

void test_tidies(void)
{
    size_t i;

    for (i = 0; i < COUNT(examples); i++)
        run_example(&examples[i]);
    for (i = 0; i <= RAID2D_SHEET_RECORDS; i++) {
        const struct repairs list = arbitrary_list(i);

        at_all_places(tidy_list, &list);
        at_all_places(tidy_leftovers, &list);
    }
    follow_all_leftovers();
    follow_full_chain();
    at_every_size(at_size);
}
