/*
 * What seal, check, write and look answer where they do not refuse, and the
 * bytes they leave, against plain loops over the order's definitions.
 */
#include <string.h>

#include "raid2d.h"
#include "suite.h"

/* Stripes are numbered below this. Those of rows and columns that the grid
   does not have stand empty. */
#define STRIPES 32

static void sum_stripe(uint8_t *array, struct size s, size_t stripe,
                       uint8_t *sum)
{
    int is_row = stripe < 16;
    int empty = is_row ? stripe > s.rows : stripe - 16 > s.columns;
    size_t last = is_row ? s.columns : s.rows, k;

    memset(sum, 0, s.block);
    for (k = 0; k <= last && !empty; k++)
        add_block(sum, is_row ? cell(array, s, stripe, k, 0)
                              : cell(array, s, k, stripe - 16, 0), s.block);
}

/* The sums of all stripes, one after the other. */
static void sum_stripes(uint8_t *array, struct size s, uint8_t *sums)
{
    size_t stripe;

    for (stripe = 0; stripe < STRIPES; stripe++)
        sum_stripe(array, s, stripe, sums + stripe * s.block);
}

/* ---- Seal ---- */

static void seal_fills(struct size s)
{
    struct call c = fitting_call(SEAL, s);

    define_parities(c.array.expected, s);
    expect_run(&c, 0, OUT_BEFORE, "seal fills the parities");
    expect_run(&c, 0, OUT_BEFORE, "seal keeps a sealed array");
    end_call(&c);
}

/* ---- Check ---- */

/* Changes one byte, then makes the call, which must not change any. */
static void change_and_run(struct call *c, uint8_t *byte, uint8_t change,
                           size_t result, size_t out, const char *what)
{
    *byte ^= change;
    expect_as_now(c);
    expect_run(c, result, out, what);
}

/* Equal changes at the corners of a rectangle, one after the other: they
   cancel in rows and in columns. */
static void check_of_rectangle(struct size s)
{
    struct call c = sealed_call(CHECK, s);
    size_t r = below(s.rows), low = r + 1 + below(s.rows - r);
    size_t k = below(s.columns), right = k + 1 + below(s.columns - k);
    size_t place = below(s.block);
    uint8_t change = (uint8_t)(1 + below(255));

    expect_run(&c, 0, OUT_BEFORE, "check of a sealed array");
    change_and_run(&c, cell(c.array.bytes, s, low, right, place), change,
                   64, low, "one change shows in its row");
    change_and_run(&c, cell(c.array.bytes, s, low, k, place), change,
                   64, 16 + k, "two in a row show in columns");
    change_and_run(&c, cell(c.array.bytes, s, r, k, place), change,
                   64, r, "three show in the upper row");
    change_and_run(&c, cell(c.array.bytes, s, r, right, place), change,
                   0, OUT_BEFORE, "four show nowhere");
    end_call(&c);
}

/* Two changes in a row that do not cancel: at different places, and of
   different bits at the same place. */
static void check_of_row(struct size s)
{
    struct call c = sealed_call(CHECK, s);
    uint8_t *first = cell(c.array.bytes, s, s.rows, 0, 0);
    uint8_t *second = cell(c.array.bytes, s, s.rows, s.columns, 0);

    change_and_run(&c, first, 6, 64, s.rows, "one change in the last row");
    change_and_run(&c, second, 2, 64, s.rows, "two unequal changes");
    change_and_run(&c, second, 4, 64, 16, "two equal changes");
    change_and_run(&c, second, 6, 64, s.rows, "the second undone");
    change_and_run(&c, second + s.block - 1, 6, 64,
                   s.block == 1 ? 16 : s.rows,
                   "two equal changes, places apart");
    end_call(&c);
}

/* Every bit of a sealed array changed by itself. */
static void check_of_every_bit(struct size s)
{
    struct call c = sealed_call(CHECK, s);
    size_t i, bit;

    for (i = 0; i < c.array.len; i++)
        for (bit = 0; bit < 8; bit++) {
            change_and_run(&c, &c.array.bytes[i], (uint8_t)(1 << bit), 64,
                           i / s.block / (s.columns + 1), "every bit");
            c.array.bytes[i] ^= (uint8_t)(1 << bit);
        }
    end_call(&c);
}

/* Equal changes on two disks of a row, for every row and pair of columns. */
static void check_of_every_pair(struct size s)
{
    struct call c = sealed_call(CHECK, s);
    size_t r, k, right;

    for (r = 0; r <= s.rows; r++)
        for (k = 0; k < s.columns; k++)
            for (right = k + 1; right <= s.columns; right++) {
                uint8_t *first = cell(c.array.bytes, s, r, k, s.block - 1);
                uint8_t *second =
                    cell(c.array.bytes, s, r, right, s.block - 1);

                *first ^= 129;
                change_and_run(&c, second, 129, 64, 16 + k, "every pair");
                *first ^= 129;
                *second ^= 129;
            }
    end_call(&c);
}

/* ---- Write ---- */

/* Changes a block's expected bytes by the difference of old data and new. */
static void expect_difference(struct call *c, size_t disk)
{
    size_t block = c->size.block, place;
    const uint8_t *old = c->array.bytes + c->disk * block;
    uint8_t *expected = c->array.expected + disk * block;

    for (place = 0; place < block; place++)
        expected[place] ^= old[place] ^ c->data.bytes[place];
}

/* On arbitrary bytes: four blocks change, and no stripe's sum does. */
static void write_keeps_sums(struct size s, size_t r, size_t k)
{
    static uint8_t before[STRIPES * RAID2D_BLOCK_MAX];
    static uint8_t after[STRIPES * RAID2D_BLOCK_MAX];
    struct call c = fitting_call(WRITE, s);

    c.disk = disk_at(s, r, k);
    expect_difference(&c, c.disk);
    expect_difference(&c, disk_at(s, r, s.columns));
    expect_difference(&c, disk_at(s, s.rows, k));
    expect_difference(&c, disk_at(s, s.rows, s.columns));
    sum_stripes(c.array.bytes, s, before);
    expect_run(&c, 0, OUT_BEFORE, "write on arbitrary bytes");
    sum_stripes(c.array.bytes, s, after);
    expect(memcmp(before, after, STRIPES * s.block) == 0,
           "sums of stripes after write, %zu rows, %zu columns, block %zu, "
           "disk %zu", s.rows, s.columns, s.block, c.disk);
    end_call(&c);
}

/* On a sealed array: write is what seal makes of the changed data. */
static void write_is_seal(struct size s, size_t r, size_t k)
{
    struct call c = sealed_call(WRITE, s);

    c.disk = disk_at(s, r, k);
    memcpy(c.array.expected + c.disk * s.block, c.data.bytes, s.block);
    expect(raid2d_seal(s.rows, s.columns, s.block, c.array.expected,
                       c.array.len) == 0,
           "seal of the changed data");
    expect_run(&c, 0, OUT_BEFORE, "write on a sealed array");
    end_call(&c);
}

static void write_on_every_disk(struct size s)
{
    size_t r, k;

    for (r = 0; r < s.rows; r++)
        for (k = 0; k < s.columns; k++) {
            write_keeps_sums(s, r, k);
            write_is_seal(s, r, k);
        }
}

/* ---- Look ---- */

/* A look at the disk where all disks are present, where it alone is erased,
   where all others are, and where another's byte of the map is wrong. */
static void look_at(struct call *c, size_t disk)
{
    size_t block = c->size.block, present = disk * block;

    c->disk = disk;
    memset(c->map.bytes, 0, c->map.len);
    expect_as_now(c);
    expect_run(c, block, present, "look, all present");
    change_and_run(c, &c->map.bytes[disk], 1, 0, OUT_BEFORE, "look, erased");
    memset(c->map.bytes, 1, c->map.len);
    change_and_run(c, &c->map.bytes[disk], 1, block, present,
                   "look, all others erased");
    c->map.bytes[(disk + 1) % c->map.len] = 0;
    change_and_run(c, &c->map.bytes[(disk + 1) % c->map.len],
                   (uint8_t)(2 + below(254)), 0, OUT_BEFORE,
                   "look, another's byte wrong");
}

static void look_at_every_disk(struct size s)
{
    struct call c = fitting_call(LOOK, s);
    size_t disk;

    for (disk = 0; disk < c.map.len; disk++)
        look_at(&c, disk);
    end_call(&c);
}

static void look_at_last_disk(struct size s)
{
    struct call c = fitting_call(LOOK, s);

    look_at(&c, c.map.len - 1);
    end_call(&c);
}

/* ---- Worked cases: those of paper 01, and some that are not square ---- */

/* The call turns an array into another, which check then finds sealed. */
static void expect_change(struct call *c, const uint8_t *before,
                          const uint8_t *after, const char *what)
{
    memcpy(c->array.bytes, before, c->array.len);
    expect_as_now(c);
    memcpy(c->array.expected, after, c->array.len);
    expect_run(c, 0, OUT_BEFORE, what);
    c->function = CHECK;
    expect_run(c, 0, OUT_BEFORE, what);
    end_call(c);
}

static void expect_seal(const struct known *known, const uint8_t *before,
                        const char *what)
{
    struct call c = fitting_call(SEAL, known->size);

    expect_change(&c, before, known->sealed, what);
}

static void expect_write(const struct known *known, size_t disk, uint8_t data,
                         const uint8_t *after, const char *what)
{
    struct call c = fitting_call(WRITE, known->size);

    c.disk = disk;
    c.data.bytes[0] = data;
    expect_change(&c, known->sealed, after, what);
}

static void cases_1_and_9(void)
{
    static const uint8_t data[9] = { 1, 2, 200, 4, 8, 201, 202, 203, 204 };
    static const uint8_t written[9] = { 9, 2, 11, 4, 8, 12, 13, 10, 7 };

    expect_seal(&array_a, data, "case 1");
    expect_write(&array_a, 0, 9, written, "case 9");
}

static void seal_and_write_unequal(void)
{
    static const uint8_t wide_data[12] = {
        1, 2, 4, 200, 8, 16, 32, 201, 202, 203, 204, 205
    };
    static const uint8_t wide_written[12] = {
        1, 2, 9, 10, 8, 16, 32, 56, 9, 18, 41, 50
    };
    static const uint8_t high_data[12] = {
        1, 8, 200, 2, 16, 201, 4, 32, 202, 203, 204, 205
    };
    static const uint8_t high_written[12] = {
        1, 8, 9, 9, 16, 25, 4, 32, 36, 12, 56, 52
    };

    expect_seal(&array_wide, wide_data, "seal of 2 by 3");
    expect_write(&array_wide, 2, 9, wide_written, "write to 2 by 3");
    expect_seal(&array_high, high_data, "seal of 3 by 2");
    expect_write(&array_high, 3, 9, high_written, "write to 3 by 2");
}

/* The limits of rows, columns and block for seal, check and write. */
static void case_10(void)
{
    static const struct {
        struct size size;
        size_t status;
    } sizes[] = {
        { { 1, 1, 1 }, 1 }, { { 1, 2, 1 }, 1 }, { { 2, 1, 1 }, 1 },
        { { 16, 16, 1 }, 1 }, { { 16, 15, 1 }, 1 }, { { 15, 16, 1 }, 1 },
        { { 2, 2, 0 }, 2 }, { { 2, 2, 4097 }, 2 }
    };
    const enum function functions[] = { SEAL, CHECK, WRITE };
    struct call c = sealed_call(SEAL, (struct size){ 15, 15, 4096 });
    size_t i, k;

    for (i = 0; i < 3; i++) {
        for (k = 0; k < sizeof sizes / sizeof sizes[0]; k++) {
            struct call wrong = fitting_call(functions[i], sizes[k].size);

            expect_run(&wrong, sizes[k].status, OUT_BEFORE, "case 10, wrong");
            end_call(&wrong);
        }
        /* Writing what is there changes nothing. */
        c.function = functions[i];
        memcpy(c.data.bytes, c.array.bytes, 4096);
        memcpy(c.data.expected, c.array.bytes, 4096);
        expect_run(&c, 0, OUT_BEFORE, "case 10, right");
    }
    end_call(&c);
}

/* The first row parity is no data disk. */
static void write_to_row_parity(const struct known *known, const char *what)
{
    struct call c = fitting_call(WRITE, known->size);

    c.disk = known->size.columns;
    expect_run(&c, 8, OUT_BEFORE, what);
    end_call(&c);
}

static void case_11(void)
{
    struct call look = fitting_call(LOOK, array_a.size);

    write_to_row_parity(&array_a, "case 11, write to disk 2");
    write_to_row_parity(&array_wide, "write to disk 3 of 2 by 3");
    write_to_row_parity(&array_high, "write to disk 2 of 3 by 2");
    change_and_run(&look, &look.map.bytes[4], 2, 0, OUT_BEFORE,
                   "case 11, look");
    change_and_run(&look, &look.map.bytes[4], 2, 1, 0,
                   "case 11, the byte undone");
    end_call(&look);
}

/* ---- All of it ---- */

static void at_size(struct size s)
{
    seal_fills(s);
    check_of_rectangle(s);
    check_of_row(s);
    write_keeps_sums(s, below(s.rows), below(s.columns));
    write_is_seal(s, 0, 0);
    write_is_seal(s, s.rows - 1, s.columns - 1);
    look_at_last_disk(s);
}

static void on_every_disk(void)
{
    static const struct size sizes[] = {
        { 2, 2, 3 }, { 2, 3, 1 }, { 3, 2, 17 }, { 2, 15, 1 }, { 15, 2, 3 },
        { 15, 15, 1 }
    };
    size_t i;

    for (i = 0; i < sizeof sizes / sizeof sizes[0]; i++) {
        check_of_every_bit(sizes[i]);
        check_of_every_pair(sizes[i]);
        write_on_every_disk(sizes[i]);
        look_at_every_disk(sizes[i]);
    }
}

void test_answers(void)
{
    cases_1_and_9();
    seal_and_write_unequal();
    case_10();
    case_11();
    at_every_size(at_size);
    on_every_disk();
    look_at_every_disk((struct size){ 2, 2, 1 });
    look_at_every_disk((struct size){ 3, 3, 17 });
    look_at_every_disk((struct size){ 15, 15, 4096 });
    look_at_every_disk((struct size){ 2, 15, 4096 });
}
