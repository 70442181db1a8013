/*
 * plan_disk before a right one, with the one fault that is wanted, or none: a
 * list that is not the shortest, or in another order, refusals in another
 * order, and buffers that they change. tests/wrong and tests/fuzz/wrong take
 * the faults' names from the calls of `wrong` below.
 */
#include <string.h>

#include "raid2d.h"
#include "wrong_disk.h"
#include "wrong_loop.h"

enum {
    BYTES = RAID2D_SHEET_BYTES,
    DISKS = RAID2D_DISKS(RAID2D_SIDE_MAX, RAID2D_SIDE_MAX),
    COLUMN = RAID2D_COLUMN_STRIPE
};

/* A call, and what the sheet and the count held before it. */
struct asked {
    size_t rows, columns;
    const uint8_t *map;
    size_t map_len;
    uint8_t *sheet;
    size_t sheet_len, disk;
    size_t *count;
    uint8_t sheet_before[BYTES];
    size_t count_before;
};

/* Repairs in their order. */
struct list {
    size_t count;
    size_t disk[DISKS], stripe[DISKS];
};

static void add(struct list *l, size_t disk, size_t stripe)
{
    l->disk[l->count] = disk;
    l->stripe[l->count++] = stripe;
}

/* ---- Stripes ---- */

static size_t row_of(const struct asked *a, size_t disk)
{
    return disk / (a->columns + 1);
}

static size_t column_of(const struct asked *a, size_t disk)
{
    return COLUMN + disk % (a->columns + 1);
}

static int is_on(const struct asked *a, size_t disk, size_t stripe)
{
    return row_of(a, disk) == stripe || column_of(a, disk) == stripe;
}

/* The other stripe of a disk. */
static size_t other_stripe(const struct asked *a, size_t disk, size_t stripe)
{
    return row_of(a, disk) + column_of(a, disk) - stripe;
}

/* No disk of the stripe is erased but this one. */
static int is_alone(const struct asked *a, const uint8_t *map, size_t disk,
                    size_t stripe)
{
    size_t other;

    for (other = 0; other < a->map_len; other++)
        if (other != disk && map[other] == 1 && is_on(a, other, stripe))
            return 0;
    return 1;
}

/* ---- Lists ---- */

/* The erased disks but the wanted one that are joined with a stripe through
   each other. */
static void mark_side(const struct asked *a, size_t stripe, uint8_t *side)
{
    size_t disk;

    for (disk = 0; disk < a->map_len; disk++)
        if (a->map[disk] == 1 && disk != a->disk && !side[disk]
            && is_on(a, disk, stripe)) {
            side[disk] = 1;
            mark_side(a, other_stripe(a, disk, stripe), side);
        }
}

/* Repairs these disks on a map as far as they can be, at each step the lowest,
   or the highest. */
static void repair_these(const struct asked *a, uint8_t *map,
                         const uint8_t *these, int highest, struct list *l)
{
    size_t k = 0;

    while (k < a->map_len) {
        size_t disk = highest ? a->map_len - 1 - k : k;
        int is_left = these[disk] && map[disk] == 1;
        int by_row = is_left && is_alone(a, map, disk, row_of(a, disk));

        k++;
        if (by_row
            || (is_left && is_alone(a, map, disk, column_of(a, disk)))) {
            add(l, disk, by_row ? row_of(a, disk) : column_of(a, disk));
            map[disk] = 0;
            k = 0;
        }
    }
}

/* The list that ends with the wanted disk by this stripe, without any repair if
   there is none. What comes before goes by the lowest number, or the highest;
   meanwhile the wanted disk is erased, or counts as present. */
static struct list list_by(const struct asked *a, size_t stripe, int highest,
                           int present)
{
    struct list l = { 0, { 0 }, { 0 } };
    uint8_t side[DISKS] = { 0 }, map[DISKS];

    memcpy(map, a->map, a->map_len);
    if (present)
        map[a->disk] = 0;
    mark_side(a, stripe, side);
    repair_these(a, map, side, highest, &l);
    if (is_alone(a, map, a->disk, stripe))
        add(&l, a->disk, stripe);
    else
        l.count = 0;
    return l;
}

/* All repairs of plan's order up to that of the wanted disk. */
static struct list list_of_plan(const struct asked *a)
{
    struct list l = { 0, { 0 }, { 0 } };
    uint8_t map[DISKS];
    size_t k = 0;

    memcpy(map, a->map, a->map_len);
    repair_these(a, map, a->map, 0, &l);
    while (k < l.count && l.disk[k] != a->disk)
        k++;
    l.count = k < l.count ? k + 1 : 0;
    return l;
}

/* The disks on both sides of the wanted one, then that one by this stripe. */
static struct list list_of_both(const struct asked *a, size_t stripe)
{
    struct list l = { 0, { 0 }, { 0 } };
    uint8_t sides[DISKS] = { 0 }, map[DISKS];

    memcpy(map, a->map, a->map_len);
    mark_side(a, row_of(a, a->disk), sides);
    mark_side(a, column_of(a, a->disk), sides);
    repair_these(a, map, sides, 0, &l);
    add(&l, a->disk, stripe);
    return l;
}

/* What has to be repaired before a disk can be by this stripe, one branch after
   the other, then the disk. */
static void list_branches(const struct asked *a, size_t disk, size_t stripe,
                          struct list *l)
{
    size_t other;

    for (other = 0; other < a->map_len; other++)
        if (other != disk && a->map[other] == 1 && is_on(a, other, stripe))
            list_branches(a, other, other_stripe(a, other, stripe), l);
    add(l, disk, stripe);
}

/* The list in the order of the disks' numbers, the wanted one last. */
static void sort_list(struct list *l)
{
    size_t k, i;

    for (k = 1; k + 1 < l->count; k++)
        for (i = k; i > 0 && l->disk[i - 1] > l->disk[i]; i--) {
            size_t disk = l->disk[i], stripe = l->stripe[i];

            l->disk[i] = l->disk[i - 1];
            l->stripe[i] = l->stripe[i - 1];
            l->disk[i - 1] = disk;
            l->stripe[i - 1] = stripe;
        }
}

/* Only what is on the last repair's stripe. */
static void keep_stripe(const struct asked *a, struct list *l)
{
    size_t last = l->stripe[l->count - 1], all = l->count, k;

    l->count = 0;
    for (k = 0; k < all; k++)
        if (is_on(a, l->disk[k], last))
            add(l, l->disk[k], l->stripe[k]);
}

/* Behind the list, what else can be repaired. */
static void go_on(const struct asked *a, struct list *l)
{
    uint8_t map[DISKS];
    size_t k;

    memcpy(map, a->map, a->map_len);
    for (k = 0; k < l->count; k++)
        map[l->disk[k]] = 0;
    repair_these(a, map, a->map, 0, l);
}

static struct list read_list(const struct asked *a)
{
    struct list l = { 0, { 0 }, { 0 } };
    size_t k;

    for (k = 1; k <= *a->count; k++)
        add(&l, a->sheet[3 * k - 1], a->sheet[3 * k]);
    return l;
}

static void write_list(const struct asked *a, const struct list *l)
{
    size_t k;

    memset(a->sheet, 0, BYTES);
    a->sheet[0] = RAID2D_SHEET_REPAIRS;
    for (k = 1; k <= l->count; k++) {
        a->sheet[3 * k - 2] = (uint8_t)k;
        a->sheet[3 * k - 1] = (uint8_t)l->disk[k - 1];
        a->sheet[3 * k] = (uint8_t)l->stripe[k - 1];
    }
    *a->count = l->count;
}

/* ---- A disk that repairs reach ---- */

/* Where there is a list by the row and one by the column, the wrong one. */
static void choose_wrongly(const struct asked *a, struct list *l)
{
    struct list by_row = list_by(a, row_of(a, a->disk), 0, 0);
    struct list by_column = list_by(a, column_of(a, a->disk), 0, 0);

    if (by_row.count == 0 || by_column.count == 0)
        return;
    if ((wrong("plan_disk lets the column win a tie")
         && by_row.count == by_column.count)
        || (wrong("plan_disk takes the longer list")
            && by_row.count < by_column.count)
        || wrong("plan_disk goes by the column if it can"))
        *l = by_column;
    if ((wrong("plan_disk takes the longer list")
         && by_row.count > by_column.count)
        || wrong("plan_disk goes by the row if it can"))
        *l = by_row;
}

/* Another list in its place, or in another order. */
static void change_list(const struct asked *a, struct list *l)
{
    size_t last = l->stripe[l->count - 1];

    choose_wrongly(a, l);
    if (wrong("plan_disk goes by the highest number"))
        *l = list_by(a, last, 1, 0);
    if (wrong("plan_disk lets the disk go by its other stripe first"))
        *l = list_by(a, last, 0, 1);
    if (wrong("plan_disk repairs all that plan repairs before it"))
        *l = list_of_plan(a);
    if (wrong("plan_disk repairs both of its sides"))
        *l = list_of_both(a, last);
    if (wrong("plan_disk sorts the list"))
        sort_list(l);
    if (wrong("plan_disk goes branch by branch")) {
        l->count = 0;
        list_branches(a, a->disk, last, l);
    }
    if (wrong("plan_disk repairs only what is on the stripe"))
        keep_stripe(a, l);
    if (wrong("plan_disk ends with the row always"))
        l->stripe[l->count - 1] = row_of(a, a->disk);
    if (wrong("plan_disk leaves the disk itself out"))
        l->count--;
    if (wrong("plan_disk lists what is left too"))
        go_on(a, l);
}

/* The map says that the listed disks are present. */
static void clear_listed(const struct asked *a, const struct list *l)
{
    uint8_t *map = (uint8_t *)(size_t)a->map;
    size_t k;

    for (k = 0; k < l->count; k++)
        map[l->disk[k]] = 0;
}

/* The loss is fatal, whether the disk can be repaired or not. */
static int is_fatal(const struct asked *a)
{
    uint8_t sheet[BYTES];
    size_t count, position;

    return raid2d_plan(a->rows, a->columns, 1, a->map, a->map_len, sheet,
                       BYTES, &count, &position) == RAID2D_FATAL;
}

static uint32_t as_plan(const struct asked *a)
{
    size_t position;

    return raid2d_plan(a->rows, a->columns, 1, a->map, a->map_len, a->sheet,
                       BYTES, a->count, &position);
}

static uint32_t spoil_list(const struct asked *a)
{
    struct list l = read_list(a);

    if (wrong("plan_disk gives 6 for each fatal loss") && is_fatal(a))
        return as_plan(a);
    change_list(a, &l);
    write_list(a, &l);
    if (wrong("plan_disk clears the map"))
        clear_listed(a, &l);
    if (wrong("plan_disk counts what comes before the disk"))
        --*a->count;
    if (wrong("plan_disk leaves the count"))
        *a->count = a->count_before;
    if (wrong("plan_disk leaves the end of the sheet"))
        memcpy(a->sheet + BYTES - 3, a->sheet_before + BYTES - 3, 3);
    return RAID2D_OK;
}

/* ---- A disk that no repair reaches ---- */

/* How many erased disks no repair reaches. */
static size_t count_left(const struct asked *a)
{
    struct list l = { 0, { 0 }, { 0 } };
    uint8_t map[DISKS];
    size_t disk, count = 0;

    memcpy(map, a->map, a->map_len);
    repair_these(a, map, a->map, 0, &l);
    for (disk = 0; disk < a->map_len; disk++)
        count += map[disk];
    return count;
}

/* Plan on the map without a disk: its count is left in *count. */
static uint32_t plan_without(const struct asked *a, size_t disk,
                             uint8_t *sheet, size_t *count)
{
    uint8_t map[DISKS];
    size_t position;

    memcpy(map, a->map, a->map_len);
    map[disk] = 0;
    return raid2d_plan(a->rows, a->columns, 1, map, a->map_len, sheet, BYTES,
                       count, &position);
}

/* A cycle without some disk of the one that plan shows, where there is such. */
static void show_other_cycle(const struct asked *a)
{
    uint8_t sheet[BYTES];
    size_t k, unused;

    for (k = 1; k != 0; k = a->sheet[3 * k + 1])
        if (plan_without(a, a->sheet[3 * k - 1], sheet, &unused)
            == RAID2D_FATAL) {
            memcpy(a->sheet, sheet, BYTES);
            return;
        }
}

/* A cycle without the disk, where there is such. */
static void show_cycle_without(const struct asked *a)
{
    uint8_t sheet[BYTES];
    size_t unused;

    if (plan_without(a, a->disk, sheet, &unused) == RAID2D_FATAL)
        memcpy(a->sheet, sheet, BYTES);
}

/* Where the disk is determined, without it as many disks are lost. */
static int is_determined(const struct asked *a)
{
    uint8_t sheet[BYTES];
    size_t count = 0;

    return plan_without(a, a->disk, sheet, &count) == RAID2D_FATAL
           && count == *a->count;
}

static uint32_t spoil_fatal(const struct asked *a)
{
    struct list alone = { 0, { 0 }, { 0 } };

    if (wrong("plan_disk takes what save restores") && is_determined(a)) {
        add(&alone, a->disk, row_of(a, a->disk));
        write_list(a, &alone);
        return RAID2D_OK;
    }
    if (wrong("plan_disk counts what no repair reaches"))
        *a->count = count_left(a);
    if (wrong("plan_disk shows another cycle than plan"))
        show_other_cycle(a);
    if (wrong("plan_disk shows the smallest cycle through the disk"))
        show_loop_through(a->rows, a->columns, a->map, a->disk, a->sheet);
    if (wrong("plan_disk shows the smallest cycle without the disk"))
        show_cycle_without(a);
    if (wrong("plan_disk leaves the sheet with 6"))
        memcpy(a->sheet, a->sheet_before, BYTES);
    if (wrong("plan_disk leaves the count with 6"))
        *a->count = a->count_before;
    if (wrong("plan_disk gives 15 for 6"))
        return RAID2D_ERR_WANTED;
    return RAID2D_FATAL;
}

/* ---- A disk that cannot be wanted, and other refusals ---- */

static uint32_t spoil_refusal(const struct asked *a)
{
    static const struct list empty;

    if (wrong("plan_disk gives 6 before 15") && is_fatal(a))
        return as_plan(a);
    if (wrong("plan_disk takes a present disk") && a->disk < a->map_len) {
        write_list(a, &empty);
        return RAID2D_OK;
    }
    if (wrong("plan_disk takes the number behind the last disk")
        && a->disk == a->map_len)
        return right_plan_disk(a->rows, a->columns, a->map, a->map_len,
                               a->sheet, BYTES, a->disk - 1, a->count);
    if (wrong("plan_disk clears the sheet with 15"))
        memset(a->sheet, 0, BYTES);
    if (wrong("plan_disk counts with 15"))
        *a->count = 0;
    if (wrong("plan_disk gives 8 for 15"))
        return RAID2D_ERR_DISK;
    return RAID2D_ERR_WANTED;
}

/* Plan_disk on a map with its bytes 2 taken for 1. */
static uint32_t take_bytes_of_2(const struct asked *a)
{
    uint8_t map[DISKS];
    size_t disk;

    for (disk = 0; disk < a->map_len; disk++)
        map[disk] = a->map[disk] == 2 ? 1 : a->map[disk];
    return right_plan_disk(a->rows, a->columns, map, a->map_len, a->sheet,
                           a->sheet_len, a->disk, a->count);
}

/* The refusals before that of the disk: a later one, or none. */
static uint32_t spoil_earlier(const struct asked *a, uint32_t status)
{
    size_t disks = RAID2D_DISKS(a->rows, a->columns);

    if (wrong("plan_disk gives 15 before 5")
        && status == RAID2D_ERR_SHEET_LENGTH
        && (a->disk >= disks || a->map[a->disk] == 0))
        return RAID2D_ERR_WANTED;
    if (wrong("plan_disk gives 15 before 4") && status == RAID2D_ERR_MAP
        && a->disk >= disks)
        return RAID2D_ERR_WANTED;
    if (wrong("plan_disk gives 5 before 4") && status == RAID2D_ERR_MAP
        && a->sheet_len != BYTES)
        return RAID2D_ERR_SHEET_LENGTH;
    if (wrong("plan_disk takes a map byte of 2") && status == RAID2D_ERR_MAP
        && a->map_len == disks)
        return take_bytes_of_2(a);
    return status;
}

/* The number of the disk as it is taken. */
static size_t shortened(size_t disk)
{
    if (wrong("plan_disk shortens the disk to a byte"))
        return (uint8_t)disk;
    if (wrong("plan_disk shortens the disk to 32 bits"))
        return (uint32_t)disk;
    return disk;
}

uint32_t plan_disk_wrongly(size_t rows, size_t columns,
                           const uint8_t *map, size_t map_len,
                           uint8_t *sheet, size_t sheet_len,
                           size_t disk, size_t *count)
{
    struct asked a = { rows, columns, map, map_len, sheet, sheet_len,
                       shortened(disk), count, { 0 }, *count };
    uint32_t status;

    if (wrong("plan_disk takes any longer sheet") && sheet_len > BYTES)
        a.sheet_len = BYTES;
    if (a.sheet_len == BYTES)
        memcpy(a.sheet_before, sheet, BYTES);
    status = right_plan_disk(rows, columns, map, map_len, sheet, a.sheet_len,
                             a.disk, count);
    switch (status) {
    case RAID2D_OK:
        return spoil_list(&a);
    case RAID2D_FATAL:
        return spoil_fatal(&a);
    case RAID2D_ERR_WANTED:
        return spoil_refusal(&a);
    default:
        return spoil_earlier(&a, status);
    }
}
