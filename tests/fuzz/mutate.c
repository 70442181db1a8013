/*
 * Changes inputs in ways that keep most of them near to a valid call: a loss at
 * each position that can be repaired or just not, with a sheet that lists its
 * repairs, with a limit for its turns or a disk that is wanted, and from there
 * one small fault or another at one of the positions. The general mutator of
 * the fuzzer has its turn too.
 */
#include <string.h>

#include "../loop.h"
#include "input.h"
#include "model.h"

size_t LLVMFuzzerMutate(uint8_t *data, size_t size, size_t max_size);
size_t LLVMFuzzerCustomMutator(uint8_t *data, size_t size, size_t max_size,
                               unsigned int seed);

/* An input while it is being changed: all its bytes, and what they mean. It has
   a sheet and a map for each of the first positions, one of which is being
   changed. */
struct draft {
    uint8_t bytes[INPUT_MAX];
    uint8_t *sheet, *map;
    size_t columns; /* how many of these count */
    struct grid grid;
    size_t disks;
    struct numbers random;
};

static int one_in(struct draft *d, uint32_t bound)
{
    return draw(&d->random, bound) == 0;
}

static size_t kept_in_range(uint8_t side)
{
    return side < 2 || side > SIDE_MAX ? 2 : side;
}

static int is_call(const struct draft *d, enum call call)
{
    return call_of(d->bytes[AT_FLAGS], d->bytes[AT_LOOK]) == call;
}

/* From now on this sheet and map are changed. */
static void at_column(struct draft *d, size_t column)
{
    d->sheet = d->bytes + sheet_in_input(column);
    d->map = d->bytes + map_in_input(column);
}

/* The grid that the input asks for, kept to what the library takes, and how
   many of its sheets and maps count. */
static void read_grid(struct draft *d)
{
    size_t sectors = d->bytes[AT_SECTORS];

    d->grid.rows = kept_in_range(d->bytes[AT_ROWS]);
    d->grid.columns = kept_in_range(d->bytes[AT_COLUMNS]);
    d->disks = disks_of(d->grid);
    d->columns = sectors > COLUMNS ? COLUMNS : sectors < 1 ? 1 : sectors;
    if (is_call(d, PLAN_DISK) || is_call(d, TIDY))
        d->columns = 1;
}

/* ---- losses */

/*
 * Marks a disk unless that closes a loop: rows and columns that are joined by
 * erased disks have the same part number.
 */
static int mark_in_forest(struct draft *d, uint8_t *part, size_t disk)
{
    uint8_t row = part[row_of(d->grid, disk)];
    uint8_t column = part[column_of(d->grid, disk)];
    size_t i;

    if (row == column)
        return 0;
    for (i = 0; i < STRIPES; i++)
        if (part[i] == column)
            part[i] = row;
    d->map[disk] = 1;
    return 1;
}

/* At first every stripe is a part by itself. */
static void part_all(uint8_t *part)
{
    size_t i;

    for (i = 0; i < STRIPES; i++)
        part[i] = (uint8_t)i;
}

/* Marks about this many disks more that close no loop. */
static void grow_forest(struct draft *d, uint8_t *part, size_t wanted)
{
    size_t tries;

    for (tries = 0; wanted > 0 && tries < 400; tries++)
        if (mark_in_forest(d, part, draw(&d->random, (uint32_t)d->disks)))
            wanted--;
}

/* A loss that can be repaired, of about this many disks. */
static void draw_forest(struct draft *d, size_t wanted)
{
    uint8_t part[STRIPES];

    part_all(part);
    grow_forest(d, part, wanted);
}

static size_t draw_row(struct draft *d)
{
    return draw(&d->random, (uint32_t)d->grid.rows + 1);
}

static size_t draw_column(struct draft *d)
{
    return draw(&d->random, (uint32_t)d->grid.columns + 1);
}

/* Four disks in the corners of a rectangle. */
static void draw_corners(struct draft *d)
{
    size_t row = draw_row(d), column = draw_column(d);
    size_t down = row + 1 + draw(&d->random, (uint32_t)d->grid.rows);
    size_t right = column + 1 + draw(&d->random, (uint32_t)d->grid.columns);

    d->map[disk_around(d->grid, row, column)] = 1;
    d->map[disk_around(d->grid, row, right)] = 1;
    d->map[disk_around(d->grid, down, column)] = 1;
    d->map[disk_around(d->grid, down, right)] = 1;
}

/* So many rectangles along a diagonal, and about so many disks more that close
   no further loop: some of these follow from the survivors though no repair
   reaches them. */
static void draw_rectangles(struct draft *d, size_t rectangles, size_t more)
{
    size_t row = draw_row(d), column = draw_column(d), i;
    uint8_t part[STRIPES];

    part_all(part);
    for (i = 0; i < 4 * rectangles; i++) {
        size_t disk = disk_around(d->grid, row + i / 2,
                                  column + i / 4 * 2 + i % 2);

        mark_in_forest(d, part, disk);
        d->map[disk] = 1;
    }
    grow_forest(d, part, more);
}

/* A stair of this many steps from an arbitrary disk on. It comes back to its
   beginning, but for so many disks that are left out. */
static void draw_stair(struct draft *d, size_t steps, size_t left_out)
{
    size_t row = draw_row(d), column = draw_column(d), i;

    for (i = left_out; i < 2 * steps; i++)
        d->map[disk_around(d->grid, row + i / 2,
                           column + (i + 1) / 2 % steps)] = 1;
}

/* Many disks, but no rectangle: several loops of six or more. */
static void draw_longer_loops(struct draft *d)
{
    const struct loss_at loss = {d->grid.rows, d->grid.columns, d->map};
    size_t left = draw(&d->random, 2 * (uint32_t)d->disks);

    for (; left > 0; left--) {
        size_t disk = draw(&d->random, (uint32_t)d->disks);

        if (!closes_rectangle(&loss, disk))
            d->map[disk] = 1;
    }
}

/* As many disks as can be repaired, or fewer; such a loss with a loop in it;
   one loop, or a longest one that is open; all disks or none; rectangles with
   disks between them, or all that there is room for with few between them;
   longer loops that share disks. */
static void draw_loss(struct draft *d)
{
    size_t rows = d->grid.rows, columns = d->grid.columns;
    size_t longest = (rows < columns ? rows : columns) + 1;
    uint32_t most = (uint32_t)(rows + columns + 1);

    memset(d->map, 0, COLUMN_BYTES - SHEET_BYTES);
    switch (draw(&d->random, 11)) {
    case 0:
        draw_forest(d, most);
        break;
    case 1:
        draw_forest(d, draw(&d->random, most + 1));
        draw_corners(d);
        break;
    case 2:
        draw_stair(d, 2 + draw(&d->random, (uint32_t)longest - 1), 0);
        break;
    case 3:
        draw_stair(d, longest, draw(&d->random, 3));
        break;
    case 4:
        memset(d->map, one_in(d, 2), d->disks);
        break;
    case 5:
        draw_rectangles(d, 1 + draw(&d->random, (uint32_t)longest / 2),
                        draw(&d->random, most + 1));
        break;
    case 6:
        draw_rectangles(d, longest / 2, draw(&d->random, 4));
        break;
    case 7:
        draw_longer_loops(d);
        break;
    default:
        draw_forest(d, draw(&d->random, most + 1));
    }
}

/* ---- sheets */

/* Record numbers in an arbitrary order. */
static void draw_places(struct draft *d, uint8_t place[RECORDS])
{
    size_t i, j;
    uint8_t kept;

    for (i = 0; i < RECORDS; i++)
        place[i] = (uint8_t)(i + 1);
    for (i = RECORDS - 1; i > 0; i--) {
        j = draw(&d->random, (uint32_t)i + 1);
        kept = place[i];
        place[i] = place[j];
        place[j] = kept;
    }
}

/* An allowed repair, looked for from an arbitrary disk on. 0 if none is. */
static int draw_repair(struct draft *d, const uint8_t *work, uint8_t record[2])
{
    size_t from = draw(&d->random, (uint32_t)d->disks), i;

    for (i = 0; i < d->disks; i++) {
        size_t disk = (from + i) % d->disks;
        size_t row = row_of(d->grid, disk);
        size_t column = column_of(d->grid, disk);
        size_t first = one_in(d, 2) ? row : column;

        record[0] = (uint8_t)disk;
        record[1] = (uint8_t)first;
        if (may_repair(d->grid, work, disk, first))
            return 1;
        record[1] = (uint8_t)(row + column - first);
        if (may_repair(d->grid, work, disk, record[1]))
            return 1;
    }
    return 0;
}

/* Puts a record at this place, and its number where the link is. Returns the
   link to the record behind it. */
static uint8_t *put_record(struct draft *d, uint8_t *link, uint8_t place,
                           const uint8_t repair[2])
{
    uint8_t *record = d->sheet + record_at(place);

    memcpy(record, repair, 2);
    *link = place;
    return record + 2;
}

static void clear_sheet(struct draft *d)
{
    memset(d->sheet, 0, SHEET_BYTES);
    d->sheet[0] = 1;
}

/* A sheet of repairs in an arbitrary allowed order and at arbitrary places. */
static void draw_sheet(struct draft *d)
{
    uint8_t work[DISKS_MAX], place[RECORDS], repair[2];
    uint8_t *link = d->sheet + 1;
    size_t k;

    memcpy(work, d->map, d->disks);
    clear_sheet(d);
    draw_places(d, place);
    for (k = 0; k < RECORDS && draw_repair(d, work, repair); k++) {
        work[repair[0]] = 0;
        link = put_record(d, link, place[k], repair);
    }
}

/* A sheet of any disks and stripes at arbitrary places, some or as many as
   there are. */
static void draw_list(struct draft *d)
{
    size_t count = one_in(d, 4) ? RECORDS : draw(&d->random, RECORDS), k;
    uint8_t place[RECORDS], repair[2];
    uint8_t *link = d->sheet + 1;

    clear_sheet(d);
    draw_places(d, place);
    for (k = 0; k < count; k++) {
        repair[0] = (uint8_t)draw(&d->random, 256);
        repair[1] = (uint8_t)draw(&d->random, 256);
        link = put_record(d, link, place[k], repair);
    }
}

static void plan_sheet(struct draft *d)
{
    uint8_t work[DISKS_MAX];

    memcpy(work, d->map, d->disks);
    plan_repairs(d->grid, work, d->sheet);
}

/* The record numbers on the chain, as far as it can be walked. */
static size_t walk(const struct draft *d, uint8_t order[RECORDS])
{
    uint8_t visited[RECORDS + 1] = {0};
    size_t count = 0, number = d->sheet[1];

    while (number != 0 && number <= RECORDS && !visited[number]) {
        visited[number] = 1;
        order[count++] = (uint8_t)number;
        number = d->sheet[record_at(number) + 2];
    }
    return count;
}

/* A record of the chain; any record if the chain is empty. */
static uint8_t *some_record(struct draft *d)
{
    uint8_t order[RECORDS];
    size_t count = walk(d, order), k;

    k = count == 0 ? 1 + draw(&d->random, RECORDS)
                   : order[draw(&d->random, (uint32_t)count)];
    return d->sheet + record_at(k);
}

/* The same chain at other places. What stood off the chain or was moved stays
   there, or all that is zero. */
static void move_records(struct draft *d)
{
    uint8_t order[RECORDS], place[RECORDS], old[SHEET_BYTES];
    uint8_t *link = d->sheet + 1;
    size_t count = walk(d, order), i;

    memcpy(old, d->sheet, SHEET_BYTES);
    if (one_in(d, 2))
        memset(d->sheet + record_at(1), 0, SHEET_BYTES - record_at(1));
    draw_places(d, place);
    for (i = 0; i < count; i++)
        link = put_record(d, link, place[i], old + record_at(order[i]));
    *link = 0;
}

/* A number for a link: mostly of a record, else around the limit. */
static uint8_t draw_link(struct draft *d)
{
    static const uint8_t edges[] = {0, 1, 31, 32, 33, 34, 64, 255};

    if (one_in(d, 2))
        return (uint8_t)(1 + draw(&d->random, RECORDS));
    return edges[draw(&d->random, sizeof edges)];
}

static void change_stripe(struct draft *d, uint8_t *record)
{
    switch (draw(&d->random, 4)) {
    case 0:
        record[1] = (uint8_t)row_of(d->grid, record[0]);
        break;
    case 1:
        record[1] = (uint8_t)column_of(d->grid, record[0]);
        break;
    case 2:
        record[1] ^= COLUMN_STRIPE;
        break;
    default:
        record[1] = (uint8_t)draw(&d->random, one_in(d, 2) ? 256 : 34);
    }
}

/* Swaps what two records repair. */
static void swap_records(struct draft *d)
{
    uint8_t *one = some_record(d), *two = some_record(d), kept[2];

    memcpy(kept, one, 2);
    memcpy(one, two, 2);
    memcpy(two, kept, 2);
}

/* Bytes below this bound, which are zeros for 1, in all records that the chain
   does not visit. */
static void fill_off_chain(struct draft *d, uint32_t bound)
{
    uint8_t order[RECORDS], visited[RECORDS + 1] = {0};
    size_t count = walk(d, order), i, k;

    for (i = 0; i < count; i++)
        visited[order[i]] = 1;
    for (k = 1; k <= RECORDS; k++)
        for (i = 0; i < 3 && !visited[k]; i++)
            d->sheet[record_at(k) + i] = (uint8_t)draw(&d->random, bound);
}

/* One byte in a record that the chain does not visit, and zeros in the others;
   or zeros only, where the record is visited. */
static void leave_one(struct draft *d)
{
    size_t k = one_in(d, 4) ? RECORDS : 1 + draw(&d->random, RECORDS);
    size_t at = record_at(k) + draw(&d->random, 3);
    uint8_t order[RECORDS];

    fill_off_chain(d, 1);
    if (memchr(order, (int)k, walk(d, order)) == NULL)
        d->sheet[at] = (uint8_t)(1 + draw(&d->random, 255));
}

/* One more record at the chain's end: any disk of the grid. */
static void lengthen(struct draft *d)
{
    uint8_t order[RECORDS];
    size_t count = walk(d, order);
    uint8_t next = (uint8_t)(1 + draw(&d->random, RECORDS));

    if (count == 0)
        d->sheet[1] = next;
    else
        d->sheet[record_at(order[count - 1]) + 2] = next;
    d->sheet[record_at(next)] = (uint8_t)draw(&d->random, (uint32_t)d->disks);
    change_stripe(d, d->sheet + record_at(next));
    d->sheet[record_at(next) + 2] = 0;
}

/* The last record leads back to one of the chain. */
static void close_ring(struct draft *d)
{
    uint8_t order[RECORDS];
    size_t count = walk(d, order);

    if (count > 0)
        d->sheet[record_at(order[count - 1]) + 2] =
            order[draw(&d->random, (uint32_t)count)];
}

static void change_chain(struct draft *d)
{
    switch (draw(&d->random, 12)) {
    case 0:
        some_record(d)[2] = draw_link(d);
        break;
    case 1:
        some_record(d)[0] = (uint8_t)draw(&d->random, 256);
        break;
    case 2:
        some_record(d)[0] = (uint8_t)draw(&d->random, (uint32_t)d->disks + 2);
        break;
    case 3:
        change_stripe(d, some_record(d));
        break;
    case 4:
        d->sheet[0] = (uint8_t)draw(&d->random, one_in(d, 2) ? 4 : 256);
        break;
    case 5:
        d->sheet[1] = draw_link(d);
        break;
    case 6:
        swap_records(d);
        break;
    case 7:
        some_record(d)[2] = 0;
        break;
    case 8:
        lengthen(d);
        break;
    case 9:
        close_ring(d);
        break;
    default:
        move_records(d);
    }
}

static void change_off_chain(struct draft *d)
{
    if (one_in(d, 3))
        fill_off_chain(d, 256);
    else
        leave_one(d);
}

/* Mostly another chain. Off the chain zeros, or what is there, or leftovers. */
static void change_sheet(struct draft *d)
{
    if (!one_in(d, 4))
        change_chain(d);
    if (one_in(d, 2))
        fill_off_chain(d, 1);
    else if (one_in(d, 2))
        change_off_chain(d);
}

/* ---- turns */

/* A limit of few repairs, or of a part of the loss, or that is just enough for
   it, or nearly; else any. */
static uint8_t draw_limit(struct draft *d)
{
    size_t erased = 0, column;

    for (column = 0; column < d->columns; column++)
        erased += count_erased(d->bytes + map_in_input(column), d->disks);

    switch (draw(&d->random, 4)) {
    case 0:
        return (uint8_t)draw(&d->random, 4);
    case 1:
        return (uint8_t)(1 + draw(&d->random, (uint32_t)erased % 250 + 1));
    case 2:
        return (uint8_t)(erased + draw(&d->random, 3) - 1);
    default:
        return (uint8_t)draw(&d->random, 256);
    }
}

/* ---- a wanted disk */

/* Mostly an erased one, looked for from an arbitrary disk on; else any, or the
   first number behind the grid, or one that is far off. */
static void draw_wanted(struct draft *d)
{
    size_t disk = draw(&d->random, (uint32_t)d->disks), i;
    uint32_t how = draw(&d->random, 16);

    for (i = 0; how > 2 && i < d->disks && d->map[disk] != 1; i++)
        disk = (disk + 1) % d->disks;
    if (how == 0)
        disk = d->disks;
    d->bytes[AT_DISK] = (uint8_t)disk;
    d->bytes[AT_APART] = (uint8_t)(how == 3 ? draw(&d->random, 256) : 0);
}

/* ---- what matters to each call */

/* What a call needs beside the loss: rebuild a limit, plan_disk and look a
   disk, others plan's sheet. Save does not look at it. */
static void fit_to_loss(struct draft *d)
{
    if (is_call(d, REBUILD))
        d->bytes[AT_LIMIT] = draw_limit(d);
    else if (is_call(d, PLAN_DISK) || is_call(d, LOOK))
        draw_wanted(d);
    else
        plan_sheet(d);
}

/* To tidy any list is as good as one of allowed repairs. */
static void draw_any_sheet(struct draft *d)
{
    if (one_in(d, is_call(d, TIDY) ? 2 : 8))
        draw_list(d);
    else
        draw_sheet(d);
}

static void change_survivors(struct draft *d)
{
    d->bytes[AT_CONTENTS] = (uint8_t)draw(&d->random, CONTENTS);
    d->bytes[AT_DISK] = (uint8_t)draw(&d->random, (uint32_t)d->disks);
}

/* Another limit, or other survivors. */
static void change_turns(struct draft *d)
{
    if (one_in(d, 2))
        d->bytes[AT_LIMIT] = draw_limit(d);
    else
        change_survivors(d);
}

/* ---- sectors */

/* Mostly a number that divides the block, none too great; else any. */
static uint8_t draw_sectors(struct draft *d)
{
    uint8_t block = d->bytes[AT_BLOCK], sectors;
    uint32_t most = one_in(d, 4) ? 16 : 4;

    if (one_in(d, 16))
        return (uint8_t)draw(&d->random, 256);
    if (is_call(d, PLAN) || block > BLOCK_CODES)
        return (uint8_t)(1 + draw(&d->random, most));
    for (sectors = (uint8_t)(1 + draw(&d->random, most));
         block % sectors != 0; sectors--)
        ;
    return sectors;
}

/* A block that can be cut. */
static void draw_block_in_sectors(struct draft *d)
{
    d->bytes[AT_BLOCK] = (uint8_t)((2 + draw(&d->random, 3)) *
                                   (1 + draw(&d->random, 4)));
    d->bytes[AT_SECTORS] = draw_sectors(d);
    read_grid(d);
}

/* The same sheet and map as at position 0. */
static void copy_first(struct draft *d)
{
    memcpy(d->sheet, d->bytes + AT_SHEET, SHEET_BYTES);
    memcpy(d->map, d->bytes + AT_MAP, COLUMN_BYTES - SHEET_BYTES);
}

/* A loss at each position but the first that counts: that of the first or one
   of its own, with what the call needs for it. */
static void draw_other_columns(struct draft *d)
{
    size_t column;

    for (column = 1; column < d->columns; column++) {
        at_column(d, column);
        if (one_in(d, 3)) {
            copy_first(d);
        } else {
            draw_loss(d);
            if (one_in(d, 2))
                draw_sheet(d);
            else
                plan_sheet(d);
        }
    }
    at_column(d, 0);
}

/* Another number of sectors. Positions that come in with it are drawn. */
static void change_sectors(struct draft *d)
{
    size_t before = d->columns;

    if (one_in(d, 2))
        draw_block_in_sectors(d);
    else
        d->bytes[AT_SECTORS] = draw_sectors(d);
    read_grid(d);
    if (d->columns > before || one_in(d, 4))
        draw_other_columns(d);
}

/* ---- the rest of an input */

static void change_map(struct draft *d)
{
    static const uint8_t edges[] = {2, 3, 128, 129, 255};
    uint8_t *byte = d->map + draw(&d->random, (uint32_t)d->disks);

    if (one_in(d, 6))
        *byte = edges[draw(&d->random, sizeof edges)];
    else
        *byte ^= 1;
    if (one_in(d, 3))
        fit_to_loss(d);
}

/* A length byte: mostly right, else a little off, else anything. */
static uint8_t draw_length(struct draft *d)
{
    if (one_in(d, 2))
        return 0;
    return (uint8_t)(one_in(d, 2) ? draw(&d->random, 3) + 255
                                  : draw(&d->random, 256));
}

/* Follow mostly, or another call; what is lent on either side of a page. */
static void draw_call(struct draft *d)
{
    static const uint8_t others[] = {FLAG_REBUILD, FLAG_SAVE, FLAG_TIDY,
                                     FLAG_PLAN_DISK};
    uint8_t flags = (uint8_t)draw(&d->random, 4) | !one_in(d, 4);

    if (one_in(d, 2))
        flags |= others[draw(&d->random, sizeof others)];
    d->bytes[AT_FLAGS] = flags;
    d->bytes[AT_LOOK] = (uint8_t)one_in(d, 8);
}

/* One length, or two. */
static void change_lengths(struct draft *d, size_t at)
{
    d->bytes[at] = draw_length(d);
    if (one_in(d, 4))
        d->bytes[AT_ARRAY_LEN + draw(&d->random, 3)] = draw_length(d);
}

static void change_head(struct draft *d)
{
    size_t at = draw(&d->random, AT_SHEET);

    if (at >= AT_ARRAY_LEN && at <= AT_SHEET_LEN)
        change_lengths(d, at);
    else if (at == AT_FLAGS && !one_in(d, 4))
        draw_call(d);
    else if ((at == AT_ROWS || at == AT_COLUMNS) && !one_in(d, 4))
        d->bytes[at] = (uint8_t)draw(&d->random, SIDE_CODES + 1);
    else if (at == AT_BLOCK && !one_in(d, 4))
        d->bytes[at] = (uint8_t)draw(&d->random, BLOCK_CODES + 1);
    else
        d->bytes[at] = (uint8_t)draw(&d->random, 256);
    read_grid(d);
}

/* The same map and sheet with rows and columns swapped: the lengths stay
   right, and the disks' rows and columns are others. */
static void swap_sides(struct draft *d)
{
    uint8_t rows = d->bytes[AT_ROWS];

    d->bytes[AT_ROWS] = d->bytes[AT_COLUMNS];
    d->bytes[AT_COLUMNS] = rows;
    read_grid(d);
}

static uint8_t draw_side(struct draft *d)
{
    if (one_in(d, 8))
        return SIDE_MAX;
    return (uint8_t)(2 + draw(&d->random, one_in(d, 2) ? 3 : 14));
}

/* A new input: right lengths, a loss, and a sheet, a limit or a disk for it. */
static void draw_input(struct draft *d)
{
    size_t i;

    memset(d->bytes, 0, INPUT_MAX);
    at_column(d, 0);
    draw_call(d);
    d->bytes[AT_ROWS] = draw_side(d);
    d->bytes[AT_COLUMNS] = draw_side(d);
    d->bytes[AT_BLOCK] = (uint8_t)(1 + draw(&d->random, one_in(d, 2) ? 4 : 40));
    d->bytes[AT_CONTENTS] = (uint8_t)draw(&d->random, CONTENTS);
    for (i = AT_DISK; i < AT_SHEET; i++)
        d->bytes[i] = (uint8_t)draw(&d->random, 256);
    read_grid(d);
    if (one_in(d, 3))
        draw_block_in_sectors(d);
    draw_loss(d);
    draw_other_columns(d);
    if ((is_call(d, FOLLOW) || is_call(d, TIDY)) && one_in(d, 2))
        draw_any_sheet(d);
    else
        fit_to_loss(d);
}

/* What matters to the call beside the loss: survivors, a limit, a disk, a
   sheet. */
static void change_rest(struct draft *d)
{
    if (is_call(d, SAVE))
        change_survivors(d);
    else if (is_call(d, REBUILD))
        change_turns(d);
    else if (is_call(d, PLAN_DISK) || is_call(d, LOOK))
        draw_wanted(d);
    else
        change_sheet(d);
}

/* At one of the positions, where they are several. */
static void change(struct draft *d)
{
    at_column(d, draw(&d->random, (uint32_t)d->columns));
    switch (draw(&d->random, 17)) {
    case 0:
        draw_input(d);
        break;
    case 1:
        draw_loss(d);
        fit_to_loss(d);
        break;
    case 2:
        fit_to_loss(d);
        break;
    case 3:
        draw_any_sheet(d);
        break;
    case 4:
    case 5:
        change_map(d);
        break;
    case 6:
    case 7:
        change_head(d);
        break;
    case 8:
        swap_sides(d);
        break;
    case 9:
        change_sectors(d);
        break;
    default:
        change_rest(d);
    }
}

/* The bytes of an input that count. */
static size_t length_of(const struct draft *d)
{
    if (d->columns > 1)
        return map_in_input(d->columns - 1) + d->disks;
    if (d->bytes[AT_SECTORS] != 0 || d->bytes[AT_LOOK] != 0)
        return AT_MORE;
    return AT_MAP + d->disks;
}

size_t LLVMFuzzerCustomMutator(uint8_t *data, size_t size, size_t max_size,
                               unsigned int seed)
{
    struct draft d;
    uint32_t left;
    size_t length;

    d.random = numbers_from(seed);
    if (max_size < INPUT_MAX || one_in(&d, 16))
        return LLVMFuzzerMutate(data, size, max_size);
    memset(d.bytes, 0, INPUT_MAX);
    memcpy(d.bytes, data, size < INPUT_MAX ? size : INPUT_MAX);
    read_grid(&d);
    for (left = 1 + draw(&d.random, 3); left > 0; left--)
        change(&d);
    length = length_of(&d);
    memcpy(data, d.bytes, length);
    return length;
}
