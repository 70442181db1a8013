/*
 * Losses of known shapes, plan's order and what is expected: loss.h has what
 * each function is for.
 */
#include <string.h>

#include "../loop.h"
#include "loss.h"

/* ---- Losses ---- */

void lose(struct call *c, size_t r, size_t k)
{
    size_t disk = disk_at(c->size, r, k), block = c->size.block;

    c->map.bytes[disk] = c->map.expected[disk] = 1;
    fill(c->array.bytes + disk * block, block);
}

void lose_nothing(struct call *c)
{
    (void)c;
}

void lose_cross(struct call *c)
{
    size_t columns = c->size.columns, i;

    for (i = 0; i < most_repairs(c->size); i++)
        if (i <= columns)
            lose(c, 0, i);
        else
            lose(c, i - columns, 0);
}

size_t stair_row(struct size s, size_t step)
{
    return step * s.rows / (s.rows + s.columns);
}

size_t stair_column(struct size s, size_t step)
{
    return step - stair_row(s, step);
}

void lose_most_of_stair(struct call *c)
{
    size_t i;

    for (i = 0; i < most_repairs(c->size) - 1; i++)
        lose(c, stair_row(c->size, i), stair_column(c->size, i));
}

void lose_stair(struct call *c)
{
    lose_most_of_stair(c);
    lose(c, c->size.rows, c->size.columns);
}

void damage(struct call *c, size_t r, size_t k, size_t place, uint8_t change)
{
    *cell(c->array.bytes, c->size, r, k, place) ^= change;
    *cell(c->array.expected, c->size, r, k, place) ^= change;
}

/* ---- Plan's order ---- */

size_t disk_on(struct size s, size_t stripe, size_t k)
{
    return stripe < 16 ? disk_at(s, stripe, k) : disk_at(s, k, stripe - 16);
}

size_t disks_on(struct size s, size_t stripe)
{
    return (stripe < 16 ? s.columns : s.rows) + 1;
}

size_t row_of(struct size s, size_t disk)
{
    return disk / (s.columns + 1);
}

size_t column_of(struct size s, size_t disk)
{
    return 16 + disk % (s.columns + 1);
}

size_t erased_on(const uint8_t *map, struct size s, size_t stripe)
{
    size_t count = 0, k;

    for (k = 0; k < disks_on(s, stripe); k++)
        count += map[disk_on(s, stripe, k)];
    return count;
}

void add_repair(struct repairs *list, size_t disk, size_t stripe)
{
    list->number[list->count].disk = disk;
    list->number[list->count++].stripe = stripe;
}

struct repairs in_order_among(const uint8_t *map, struct size s,
                              const uint8_t *among)
{
    size_t disks = disks_of(s), disk = 0;
    struct repairs list = { 0, { { 0, 0 } } };
    uint8_t now[DISKS];

    memcpy(now, map, disks);
    while (disk < disks) {
        size_t row = row_of(s, disk), column = column_of(s, disk);
        int left = among[disk] && now[disk];
        int by_row = left && erased_on(now, s, row) == 1;

        if (by_row || (left && erased_on(now, s, column) == 1)) {
            add_repair(&list, disk, by_row ? row : column);
            now[disk] = 0;
            disk = 0;
        } else {
            disk++;
        }
    }
    return list;
}

struct repairs in_plans_order(const struct call *c)
{
    return in_order_among(c->map.bytes, c->size, c->map.bytes);
}

/* ---- What nothing brings back ---- */

/* No stripe has a higher number. */
#define STRIPES 32

/* Follows the other erased disks from the row of a disk on, from stripe to
   stripe, as long as they lead to further ones. Whether its column is among
   them. */
static int is_joined(const uint8_t *map, struct size s, size_t disk)
{
    uint8_t reached[STRIPES] = { 0 };
    size_t before = 0, now = 1, other;

    reached[row_of(s, disk)] = 1;
    while (now > before) {
        before = now;
        for (other = 0; other < disks_of(s); other++) {
            uint8_t *row = &reached[row_of(s, other)];
            uint8_t *column = &reached[column_of(s, other)];

            if (map[other] && other != disk && *row != *column) {
                *row = *column = 1;
                now++;
            }
        }
    }
    return reached[column_of(s, disk)];
}

size_t count_undetermined(const uint8_t *map, struct size s)
{
    size_t count = 0, disk;

    for (disk = 0; disk < disks_of(s); disk++)
        count += map[disk] && is_joined(map, s, disk);
    return count;
}

/* ---- What is expected ---- */

void expect_kind(struct call *c, uint8_t kind)
{
    memset(c->sheet.expected, 0, c->sheet.len);
    c->sheet.expected[0] = kind;
}

/* The number of record k stands in record k-1, that of record 1 in the same
   distance from it, at byte 1. */
void expect_record(struct call *c, size_t k, size_t disk, size_t stripe)
{
    c->sheet.expected[3 * k - 2] = (uint8_t)k;
    c->sheet.expected[3 * k - 1] = (uint8_t)disk;
    c->sheet.expected[3 * k] = (uint8_t)stripe;
}

void expect_list(struct call *c, const struct repairs *list, size_t from,
                 size_t to)
{
    size_t k;

    expect_kind(c, RAID2D_SHEET_REPAIRS);
    for (k = from; k < to; k++)
        expect_record(c, k - from + 1, list->number[k].disk,
                      list->number[k].stripe);
}

size_t expect_loop(struct call *c)
{
    const struct loss_at loss = { c->size.rows, c->size.columns,
                                  c->map.bytes };
    struct loop loop = smallest_loop(&loss);

    list_loop(&loss, &loop, c->sheet.expected);
    return count_undetermined(c->map.bytes, c->size);
}

void expect_zero_blocks(struct call *c)
{
    size_t block = c->size.block, disk;

    for (disk = 0; disk < c->map.len; disk++)
        if (c->map.bytes[disk])
            memset(c->array.expected + disk * block, 0, block);
}

void expect_repair(struct call *c, size_t disk, size_t stripe)
{
    size_t block = c->size.block, k;
    uint8_t *sum = c->array.expected + disk * block;

    memset(sum, 0, block);
    for (k = 0; k < disks_on(c->size, stripe); k++) {
        size_t other = disk_on(c->size, stripe, k);

        if (other != disk)
            add_block(sum, c->array.expected + other * block, block);
    }
    c->map.expected[disk] = 0;
}
