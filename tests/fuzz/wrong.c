/*
 * A stand-in for the archive that is wrong on purpose: the model's plan, follow
 * and rebuild, with the one fault that the environment variable WRONG names, or
 * none. wrong_save.c has save, ../wrong_disk.c plan_disk, ../wrong_tidy.c tidy
 * and what follow makes of a sheet, ../wrong_loop.c the loop of a fatal loss,
 * ../wrong_sectors.c what the calls make of several sectors; the faults below
 * are in blocks as one. tests/fuzz/wrong sees that the fuzzer finds each fault.
 * It takes their names from the calls of `wrong` below and in these files.
 */
#include <stdlib.h>
#include <string.h>

#include "../wrong_disk.h"
#include "../wrong_loop.h"
#include "../wrong_sectors.h"
#include "../wrong_tidy.h"
#include "model.h"
#include "raid2d.h"
#include "wrong.h"

/* Asked so often that the environment is looked at only once. */
int wrong(const char *name)
{
    static const char *wanted;

    if (wanted == NULL)
        wanted = getenv("WRONG");
    if (wanted == NULL)
        wanted = "";
    return strcmp(wanted, name) == 0;
}

/* ---- sizes */

size_t untested(size_t side)
{
    return side < 2 || side > SIDE_MAX ? SIDE_MAX : side;
}

struct grid swapped(struct grid g)
{
    struct grid other = {g.columns, g.rows};

    return other;
}

/* The size as follow takes it. */
static struct grid grid_of_follow(size_t rows, size_t columns)
{
    struct grid g = {rows, columns};

    if (wrong("shortens rows to a byte"))
        g.rows = (uint8_t)rows;
    if (wrong("shortens columns to a byte"))
        g.columns = (uint8_t)columns;
    if (wrong("follow tests the columns only"))
        g.rows = untested(rows);
    if (wrong("follow tests the rows only"))
        g.columns = untested(columns);
    return wrong("follow swaps rows and columns") ? swapped(g) : g;
}

struct grid half_tested(size_t rows, size_t columns, int columns_only,
                        int rows_only)
{
    struct grid g = {rows, columns};

    if (columns_only)
        g.rows = untested(rows);
    if (rows_only)
        g.columns = untested(columns);
    return g;
}

/* The size by which plan finds a disk's row and column. */
static struct grid grid_to_plan_in(struct grid g)
{
    struct grid other = g;

    if (wrong("plan takes rows for columns"))
        other.columns = g.rows;
    if (wrong("plan takes columns for rows"))
        other.rows = g.columns;
    return wrong("plan swaps rows and columns") ? swapped(g) : other;
}

/* ---- follow: faults in what the model is given, and in what it left */

/* The last number of a chain: 0, one that no record has, or that of a record
   which it comes back to. */
static uint8_t *last_link(uint8_t *sheet)
{
    uint8_t visited[RECORDS + 1] = {0};
    uint8_t *link = sheet + 1;

    while (*link != 0 && *link <= RECORDS && !visited[*link]) {
        visited[*link] = 1;
        link = sheet + record_at(*link) + 2;
    }
    return link;
}

/* A chain that ends with this number ends as it should. */
static void end_chain_at(uint8_t *sheet, size_t number)
{
    uint8_t *link = last_link(sheet);

    if (*link == number)
        *link = 0;
}

/* A chain that comes back to a record ends there. */
static void cut_ring(uint8_t *sheet)
{
    uint8_t *link = last_link(sheet);

    if (*link <= RECORDS)
        *link = 0;
}

static int visits_record_32(const uint8_t *sheet)
{
    uint8_t order[RECORDS];
    int count = read_chain(sheet, order);

    return count > 0 && memchr(order, 32, (size_t)count) != NULL;
}

/* Takes the disks off the map that no record of the chain has. */
static void forget_left_over(uint8_t *map, size_t disks, const uint8_t *sheet)
{
    uint8_t order[RECORDS], listed[DISKS_MAX] = {0};
    int i, count = read_chain(sheet, order);
    size_t disk;

    for (i = 0; i < count; i++)
        listed[sheet[record_at(order[i])]] = 1;
    for (disk = 0; disk < disks; disk++)
        map[disk] &= listed[disk];
}

/* Stripes of columns beyond the grid are taken for the last column. */
static void pull_columns_in(uint8_t *sheet, struct grid g)
{
    size_t k;

    for (k = 1; k <= RECORDS; k++)
        if (sheet[record_at(k) + 1] > COLUMN_STRIPE + g.columns)
            sheet[record_at(k) + 1] = (uint8_t)(COLUMN_STRIPE + g.columns);
}

/* A record off the chain has a number above 32. */
static int off_chain_too_high(const uint8_t *sheet)
{
    uint8_t order[RECORDS], visited[RECORDS + 1] = {0};
    int i, count = read_chain(sheet, order);
    size_t k;

    for (i = 0; i < count; i++)
        visited[order[i]] = 1;
    for (k = 1; count >= 0 && k <= RECORDS; k++)
        if (!visited[k] && sheet[record_at(k) + 2] > RECORDS)
            return 1;
    return 0;
}

static void spoil_given(struct grid g, uint8_t *map, uint8_t *sheet)
{
    if (wrong("takes number 33 for the end"))
        end_chain_at(sheet, 33);
    if (wrong("takes number 255 for the end"))
        end_chain_at(sheet, 255);
    if (wrong("takes a record reached twice for the end"))
        cut_ring(sheet);
    if (wrong("ignores left-over disks"))
        forget_left_over(map, disks_of(g), sheet);
    if (wrong("takes any high stripe for the last column"))
        pull_columns_in(sheet, g);
    if (wrong("follows a sheet of kind 2") && sheet[0] == 2)
        sheet[0] = 1;
    if (wrong("follows a sheet of kind 3") && sheet[0] == 3)
        sheet[0] = 1;
    if (wrong("judges records off the chain") && off_chain_too_high(sheet))
        sheet[0] = 0;
    if (wrong("cannot use record 32") && visits_record_32(sheet))
        sheet[record_at(32) + 2] = 33;
}

/* The repair is allowed to one who sees too few disks of the stripe. */
static int may_repair_unseen(struct grid g, const uint8_t *work,
                             size_t disk, size_t stripe)
{
    int short_rows = wrong("takes a row's length from rows");
    int short_columns = wrong("takes a column's length from columns");
    uint8_t seen[DISKS_MAX];
    size_t other;

    memcpy(seen, work, disks_of(g));
    for (other = 0; other < disks_of(g); other++)
        if (other != disk &&
            (stripe < COLUMN_STRIPE
                 ? short_rows && column_of(g, other) > COLUMN_STRIPE + g.rows
                 : short_columns && row_of(g, other) > g.columns))
            seen[other] = 0;
    return may_repair(g, seen, disk, stripe);
}

/* Each step of a chain is such a repair, and no disk remains erased. */
static int steps_allowed_unseen(struct grid g, const uint8_t *map,
                                const uint8_t *sheet)
{
    uint8_t order[RECORDS], work[DISKS_MAX];
    int i, count = read_chain(sheet, order);

    memcpy(work, map, disks_of(g));
    for (i = 0; i < count; i++) {
        const uint8_t *record = sheet + record_at(order[i]);

        if (!may_repair_unseen(g, work, record[0], record[1]))
            return 0;
        work[record[0]] = 0;
    }
    return count_erased(work, disks_of(g)) == 0;
}

/* Makes the repairs by columns once more, from the first columns + 1 rows. */
static void sum_short_columns(struct grid g, size_t block, uint8_t *array,
                              const uint8_t *sheet)
{
    struct grid upper = g;
    uint8_t order[RECORDS];
    int i, count = read_chain(sheet, order);

    if (g.rows > g.columns)
        upper.rows = g.columns;
    for (i = 0; i < count; i++)
        if (sheet[record_at(order[i]) + 1] >= COLUMN_STRIPE)
            make_repair(upper, block, array, sheet + record_at(order[i]));
}

/* The stripes from the first to the last are sealed. */
static int are_sealed(struct grid g, size_t block, const uint8_t *array,
                      size_t first, size_t last)
{
    size_t stripe;

    for (stripe = first; stripe <= last; stripe++)
        if (!stripe_is_sealed(g, block, array, stripe))
            return 0;
    return 1;
}

/* A check that leaves out some stripes takes the array for sealed. */
static int passes_check(struct grid g, size_t block, const uint8_t *array)
{
    if (wrong("checks the rows only"))
        return are_sealed(g, block, array, 0, COLUMN_STRIPE - 1);
    if (wrong("checks as many rows as columns"))
        return are_sealed(g, block, array, 0, g.columns) &&
               are_sealed(g, block, array, COLUMN_STRIPE, STRIPES - 1);
    if (wrong("checks as many columns as rows"))
        return are_sealed(g, block, array, 0, COLUMN_STRIPE + g.rows);
    return 0;
}

static uint32_t spoil_left(uint32_t status, struct grid g, size_t block,
                           uint8_t *array, size_t array_len,
                           const uint8_t *map, size_t *count)
{
    if (wrong("writes a byte behind the array") && status == 0)
        array[array_len] ^= 1;
    if (wrong("writes a byte before the array") && status == 0)
        array[-1] ^= 1;
    if (wrong("reads a byte behind the map") && status == 0)
        *count += *(const volatile uint8_t *)(map + disks_of(g)) & 0;
    if (wrong("writes the map, the same bytes") && status == 0)
        *(volatile uint8_t *)(size_t)map = map[0];
    if (wrong("counts with 7") && status == 7)
        *count = 0;
    if (wrong("counts with 11") && status == 11)
        *count = 0;
    if (wrong("counts one too many") && status == 0)
        (*count)++;
    if (wrong("zeroes the array with 7") && status == 7)
        memset(array, 0, array_len);
    if (wrong("gives 6 for 11") && status == 11)
        return 6;
    if (status == 7 && passes_check(g, block, array))
        return 0;
    return status;
}

/* What ../wrong_tidy.c and ../wrong_sectors.c stand before. */
uint32_t right_follow(size_t rows, size_t columns, size_t block,
                      uint8_t *array, size_t array_len, size_t sector,
                      const uint8_t *map, size_t map_len,
                      const uint8_t *sheets, size_t sheets_len,
                      size_t *count)
{
    struct grid g = {rows, columns};

    return model_follow(g, block, array, array_len, sector, map, map_len,
                        sheets, sheets_len, count);
}

uint32_t right_tidy(uint8_t *sheet, size_t sheet_len)
{
    return model_tidy(sheet, sheet_len);
}

/* The model on copies that it may be given with faults. */
static uint32_t follow_with_fault(struct grid g, size_t block,
                                  uint8_t *array, size_t array_len,
                                  const uint8_t *map, size_t map_len,
                                  const uint8_t *sheet, size_t *count)
{
    uint8_t own_map[DISKS_MAX], own_sheet[SHEET_BYTES], first;
    uint32_t status;

    memcpy(own_map, map, map_len);
    memcpy(own_sheet, sheet, SHEET_BYTES);
    first = array[0];
    spoil_given(g, own_map, own_sheet);
    if (wrong("judges steps before the chain's end") && sheet[0] == 1 &&
        sheet[1] >= 1 && sheet[1] <= RECORDS &&
        !may_repair(g, map, sheet[record_at(sheet[1])],
                    sheet[record_at(sheet[1]) + 1]))
        return 11;
    status = follow_wrongly(g.rows, g.columns, block, array, array_len,
                            own_map, map_len, own_sheet, SHEET_BYTES, count);
    if (wrong("sums a column's first columns + 1 disks") && status == 0)
        sum_short_columns(g, block, array, sheet);
    if (status == 11 && steps_allowed_unseen(g, own_map, own_sheet))
        return 0;
    if (wrong("reads a byte behind follow's sheet"))
        (void)*(const volatile uint8_t *)(sheet + SHEET_BYTES);
    if (wrong("leaves the first block with 7") && status == 7)
        array[0] = first;
    if (wrong("zeroes an erased block with 11") && status == 11 && map[0] == 1)
        memset(array, 0, block);
    return spoil_left(status, g, block, array, array_len, map, count);
}

/* Follow on blocks as one sector. */
static uint32_t follow_one(size_t rows, size_t columns, size_t block,
                           uint8_t *array, size_t array_len,
                           const uint8_t *map, size_t map_len,
                           const uint8_t *sheet, size_t sheet_len,
                           size_t *count)
{
    struct grid g = grid_of_follow(rows, columns);

    if (wrong("shortens block to 32 bits"))
        block = (uint32_t)block;
    if (wrong("takes any longer sheet") && sheet_len > SHEET_BYTES)
        sheet_len = SHEET_BYTES;
    if (wrong("tests the sheet's length before the map") && grid_fits(g) &&
        block >= 1 && block <= 4096 && array_len == disks_of(g) * block &&
        sheet_len != SHEET_BYTES)
        return 5;
    if (!grid_fits(g) || map_len != disks_of(g) || sheet_len != SHEET_BYTES ||
        block < 1 || block > 4096 || array_len != map_len * block)
        return model_follow(g, block, array, array_len, block, map, map_len,
                            sheet, sheet_len, count);
    return follow_with_fault(g, block, array, array_len, map, map_len, sheet,
                             count);
}

uint32_t raid2d_follow(size_t rows, size_t columns, size_t block,
                       uint8_t *array, size_t array_len, size_t sector,
                       const uint8_t *map, size_t map_len,
                       const uint8_t *sheets, size_t sheets_len,
                       size_t *count)
{
    const struct cut c = {rows, columns, block, array, array_len, sector, 1,
                          (uint8_t *)(size_t)map, map_len,
                          (uint8_t *)(size_t)sheets, sheets_len, 0, 0, count,
                          NULL};

    if (sector != block)
        return follow_in_sectors(c);
    return follow_one(rows, columns, block, array, array_len, map, map_len,
                      sheets, sheets_len, count);
}

/* ---- tidy */

uint32_t raid2d_tidy(uint8_t *sheet, size_t sheet_len)
{
    uint32_t status = tidy_wrongly(sheet, sheet_len);

    if (wrong("tidy reads a byte behind the sheet") && status == 0)
        (void)*(volatile uint8_t *)(sheet + sheet_len);
    if (wrong("tidy reads a byte before the sheet") && status == 0)
        (void)*(volatile uint8_t *)(sheet - 1);
    if (wrong("tidy writes a byte behind the sheet") && status == 0)
        sheet[sheet_len] ^= 1;
    return status;
}

/* ---- plan */

static void spoil_repairs(struct grid g, uint8_t *sheet, size_t repairs)
{
    size_t k;

    if (wrong("leaves the rest of the sheet") && repairs < RECORDS)
        sheet[SHEET_BYTES - 1] = 1;
    if (wrong("says first record 1 for no repair"))
        sheet[1] = 1;
    for (k = 1; wrong("sums columns only") && k <= repairs; k++)
        sheet[record_at(k) + 1] = (uint8_t)column_of(g, sheet[record_at(k)]);
    if (wrong("leaves out the last of the longest list") &&
        repairs == g.rows + g.columns + 1)
        memset(sheet + record_at(repairs) - 1, 0, 4);
}

/* So many repairs are taken for a fatal loss. */
static int too_many(struct grid g, size_t repairs)
{
    if (wrong("calls rows + columns + 1 disks fatal"))
        return repairs > g.rows + g.columns;
    if (wrong("calls more than 2 rows + 1 disks fatal"))
        return repairs > 2 * g.rows + 1;
    if (wrong("calls more than 2 columns + 1 disks fatal"))
        return repairs > 2 * g.columns + 1;
    return 0;
}

/* A fatal loss shows the right loop here. */
static uint32_t plan_with_fault(struct grid g, const uint8_t *map,
                                size_t map_len, uint8_t *sheet, size_t *count)
{
    uint8_t work[DISKS_MAX] = {0}, is_lost[DISKS_MAX];
    size_t repairs, left;

    memcpy(work, map, map_len);
    repairs = plan_repairs(g, work, sheet);
    left = count_erased(work, disks_of(g));
    *count = repairs;
    if (left == 0) {
        spoil_repairs(g, sheet, repairs);
        return too_many(g, repairs) ? 6 : 0;
    }
    *count = find_lost(g, map, is_lost);
    if (wrong("counts all that no repair reaches as lost"))
        *count = left;
    if (wrong("counts all erased disks as lost"))
        *count = count_erased(map, map_len);
    if (wrong("counts lost disks in a byte"))
        *count = (uint8_t)*count;
    show_loop(g, map, sheet);
    return 6;
}

/* Plan for one position. */
static uint32_t plan_one(size_t rows, size_t columns,
                         const uint8_t *map, size_t map_len,
                         uint8_t *sheet, size_t sheet_len, size_t *count)
{
    struct grid g = half_tested(rows, columns,
                                wrong("plan tests the columns only"),
                                wrong("plan tests the rows only"));
    struct grid in = grid_to_plan_in(g);
    uint8_t own_map[DISKS_MAX] = {0};
    uint32_t status;
    size_t disk;

    if (!grid_fits(g))
        return 1;
    if (wrong("tests plan's sheet before its map") && sheet_len != SHEET_BYTES)
        return 5;
    if (map_len != disks_of(g))
        return 4;
    for (disk = 0; disk < map_len; disk++)
        if (map[disk] > (wrong("takes a map byte of 2") ? 2 : 1))
            return 4;
    if (sheet_len != SHEET_BYTES)
        return 5;
    memcpy(own_map, map, map_len);
    status = plan_with_fault(in, own_map, map_len, sheet, count);
    if (status == 6)
        spoil_loop(in.rows, in.columns, 1, own_map, 0, sheet);
    return status;
}

/* Plans each position, up to a fatal one. The other sheets are zero then. */
static uint32_t plan_each(struct grid g, size_t sectors, const uint8_t *map,
                          uint8_t *sheets, size_t *count, size_t *position)
{
    uint8_t column[DISKS_MAX];
    size_t repairs = 0, here = 0, p;

    for (p = 0; p < sectors; p++) {
        uint8_t *sheet = sheets + p * SHEET_BYTES;

        read_column(g, sectors, map, p, column);
        if (plan_with_fault(g, column, disks_of(g), sheet, &here) == 6) {
            memset(sheets, 0, p * SHEET_BYTES);
            memset(sheet + SHEET_BYTES, 0, (sectors - p - 1) * SHEET_BYTES);
            *count = here;
            *position = p;
            return 6;
        }
        repairs += here;
    }
    *count = repairs;
    return 0;
}

/* What ../wrong_sectors.c stands before. */
uint32_t right_plan(size_t rows, size_t columns, size_t sectors,
                    const uint8_t *map, size_t map_len,
                    uint8_t *sheets, size_t sheets_len,
                    size_t *count, size_t *position)
{
    struct grid g = {rows, columns};
    size_t i;

    if (!grid_fits(g))
        return 1;
    if (sectors < 1 || sectors > SECTORS_MAX)
        return 16;
    if (map_len != disks_of(g) * sectors)
        return 4;
    for (i = 0; i < map_len; i++)
        if (map[i] > 1)
            return 4;
    if (sheets_len != SHEET_BYTES * sectors)
        return 5;
    return plan_each(g, sectors, map, sheets, count, position);
}

uint32_t raid2d_plan(size_t rows, size_t columns, size_t sectors,
                     const uint8_t *map, size_t map_len,
                     uint8_t *sheets, size_t sheets_len,
                     size_t *count, size_t *position)
{
    const struct cut c = {rows, columns, 0, NULL, 0, 0, sectors,
                          (uint8_t *)(size_t)map, map_len, sheets, sheets_len,
                          0, 0, count, position};
    uint32_t status;

    if (sectors != 1)
        return plan_in_sectors(c);
    status = plan_one(rows, columns, map, map_len, sheets, sheets_len, count);
    if (status == 6)
        *position = 0;
    return status;
}

/* ---- look */

size_t right_look(size_t rows, size_t columns, size_t block,
                  const uint8_t *array, size_t array_len, size_t sector,
                  const uint8_t *map, size_t map_len,
                  size_t disk, size_t *offset)
{
    struct grid g = {rows, columns};

    (void)array;
    return model_look(g, block, array_len, sector, map, map_len, disk, offset);
}

size_t raid2d_look(size_t rows, size_t columns, size_t block,
                   const uint8_t *array, size_t array_len, size_t sector,
                   const uint8_t *map, size_t map_len,
                   size_t disk, size_t *offset)
{
    struct grid g = half_tested(rows, columns,
                                wrong("look tests the columns only"),
                                wrong("look tests the rows only"));
    struct cut c = {g.rows, g.columns, block, (uint8_t *)(size_t)array,
                    array_len, sector, 1, (uint8_t *)(size_t)map, map_len,
                    NULL, 0, 0, disk, offset, NULL};

    if (wrong("look shortens the disk to a byte"))
        c.disk = (uint8_t)disk;
    if (wrong("look writes the offset with 0"))
        *offset = 0;
    if (wrong("look takes the number behind the last disk") &&
        disk == disks_of(g))
        c.disk = disk - 1;
    return look_in_sectors(c);
}

/* ---- plan_disk */

/* What ../wrong_disk.c stands before: plan refuses first, and then the model
   says more. */
uint32_t right_plan_disk(size_t rows, size_t columns,
                         const uint8_t *map, size_t map_len,
                         uint8_t *sheet, size_t sheet_len,
                         size_t disk, size_t *count)
{
    struct grid g = {rows, columns};
    uint8_t unused[SHEET_BYTES];
    size_t repairs;
    uint32_t status = plan_one(rows, columns, map, map_len, unused,
                               sheet_len, &repairs);

    if (status != 0 && status != 6)
        return status;
    if (disk >= map_len || map[disk] == 0)
        return 15;
    repairs = plan_for_disk(g, map, disk, sheet);
    if (repairs == 0)
        return plan_one(rows, columns, map, map_len, sheet, sheet_len, count);
    *count = repairs;
    return 0;
}

/* The size as plan_disk takes it. */
static struct grid grid_of_plan_disk(size_t rows, size_t columns)
{
    struct grid g = half_tested(rows, columns,
                                wrong("plan_disk tests the columns only"),
                                wrong("plan_disk tests the rows only"));

    return wrong("plan_disk swaps rows and columns") ? swapped(g) : g;
}

uint32_t raid2d_plan_disk(size_t rows, size_t columns,
                          const uint8_t *map, size_t map_len,
                          uint8_t *sheet, size_t sheet_len,
                          size_t disk, size_t *count)
{
    struct grid g = grid_of_plan_disk(rows, columns);
    volatile uint8_t *own = (volatile uint8_t *)(size_t)map;
    uint32_t status = plan_disk_wrongly(g.rows, g.columns, map, map_len, sheet,
                                        sheet_len, disk, count);

    if (status != 0)
        return status;
    if (wrong("plan_disk writes the map, the same bytes"))
        own[0] = own[0];
    if (wrong("plan_disk reads a byte behind the map"))
        (void)own[map_len];
    if (wrong("plan_disk reads a byte before the map"))
        (void)own[-1];
    if (wrong("plan_disk writes a byte behind the sheet"))
        sheet[sheet_len] ^= 1;
    return 0;
}

/* ---- rebuild */

/* A turn on blocks as one sector, with arguments that are not refused, and what
   plan says of its loss before it. */
struct turn {
    struct grid grid;
    size_t block;
    uint8_t *array;
    size_t array_len;
    uint8_t *map;
    size_t map_len;
    uint8_t *sheet;
    size_t limit;
    size_t *count, *position;
    uint8_t map_before[DISKS_MAX], planned[SHEET_BYTES];
    size_t repairs, lost;
};

static void plan_turn(struct turn *t)
{
    uint8_t left[DISKS_MAX];

    memcpy(t->map_before, t->map, t->map_len);
    memcpy(left, t->map, t->map_len);
    t->repairs = plan_repairs(t->grid, left, t->planned);
    t->lost = count_erased(left, t->map_len);
}

/* The limit as rebuild takes it. */
static size_t limit_of_turn(const struct turn *t)
{
    size_t limit = t->limit;

    if (wrong("shortens the limit to a byte"))
        return (uint8_t)limit;
    if (wrong("shortens the limit to 32 bits"))
        return (uint32_t)limit;
    if (wrong("takes a limit of 0 for 1") && limit == 0)
        return 1;
    if (wrong("gives 12 after 6") && limit == 0 && t->lost > 0)
        return 1;
    if (wrong("makes one repair too many") && limit > 0 && limit < t->repairs)
        return limit + 1;
    if (wrong("makes one repair too few") && limit > 1 && limit < t->repairs)
        return limit - 1;
    return limit;
}

/* Makes the last of plan's repairs in place of the first. */
static uint32_t take_last(struct turn *t)
{
    size_t first = t->repairs - t->limit + 1, k;

    memset(t->sheet, 0, SHEET_BYTES);
    memcpy(t->sheet, t->planned, 2);
    for (k = 1; k <= t->limit; k++) {
        const uint8_t *record = t->planned + record_at(first + k - 1);

        make_repair(t->grid, t->block, t->array, record);
        t->map[record[0]] = 0;
        memcpy(t->sheet + record_at(k), record, 2);
        t->sheet[record_at(k) + 2] = (uint8_t)(k < t->limit ? k + 1 : 0);
    }
    *t->count = t->limit;
    return 0;
}

/* A stripe without an erased disk is not sealed. */
static int seems_contradicted(const struct turn *t)
{
    size_t stripe, disk;

    for (stripe = 0; stripe < STRIPES; stripe++) {
        for (disk = 0; disk < t->map_len; disk++)
            if (t->map[disk] == 1 && on_stripe(t->grid, disk, stripe))
                break;
        if (disk == t->map_len &&
            !stripe_is_sealed(t->grid, t->block, t->array, stripe))
            return 1;
    }
    return 0;
}

/* What is wrong after a turn that made its repairs. */
static uint32_t spoil_made(struct turn *t)
{
    int left = count_erased(t->map, t->map_len) > 0;

    if (wrong("checks in every turn") && seems_contradicted(t))
        return 7;
    if (wrong("leaves the map"))
        memcpy(t->map, t->map_before, t->map_len);
    if (wrong("leaves the map while disks are erased") && left)
        memcpy(t->map, t->map_before, t->map_len);
    if (wrong("clears the whole map"))
        memset(t->map, 0, t->map_len);
    if (wrong("lists all of plan's repairs"))
        memcpy(t->sheet, t->planned, SHEET_BYTES);
    if (wrong("ends a turn's list with a number") && left)
        t->sheet[record_at(*t->count) + 2] = (uint8_t)(*t->count + 1);
    if (wrong("counts all of plan's repairs"))
        *t->count = t->repairs;
    return 0;
}

/* What is wrong after a turn that found a contradiction. */
static uint32_t spoil_undone(struct turn *t)
{
    if (wrong("clears the map with 7"))
        memset(t->map, 0, t->map_len);
    if (wrong("leaves the sheet's kind with 7"))
        t->sheet[0] = 1;
    if (wrong("rebuild counts with 7"))
        *t->count = 0;
    if (wrong("rebuild zeroes the array with 7"))
        memset(t->array, 0, t->array_len);
    if (wrong("rebuild leaves a block with 7") && t->repairs > 0)
        make_repair(t->grid, t->block, t->array, t->planned + record_at(1));
    if (wrong("skips the check of a clear map") && t->repairs == 0)
        return 0;
    if (wrong("skips the check of a last turn") && t->limit == t->repairs)
        return 0;
    return 7;
}

/* Takes the first disk of a loop off a map that still has another without
   it. */
static void break_loop(struct grid g, uint8_t *map, const uint8_t *sheet)
{
    uint8_t left[DISKS_MAX], unused[SHEET_BYTES];
    size_t k;

    for (k = 1; k != 0; k = sheet[record_at(k) + 2]) {
        memcpy(left, map, disks_of(g));
        left[sheet[record_at(k)]] = 0;
        plan_repairs(g, left, unused);
        if (count_erased(left, disks_of(g)) > 0) {
            map[sheet[record_at(k)]] = 0;
            return;
        }
    }
}

/* What is wrong after a turn that found the loss fatal. Count and sheet are
   plan's. */
static uint32_t spoil_fatal(struct turn *t)
{
    struct grid g = t->grid;
    size_t unused;

    plan_one(g.rows, g.columns, t->map_before, t->map_len, t->sheet,
             SHEET_BYTES, t->count);
    if (wrong("clears the map with 6"))
        memset(t->map, 0, t->map_len);
    if (wrong("makes a fatal loss's repairs first") && t->limit <= t->repairs)
        return 0;
    if (wrong("rebuild shows another loop than plan")) {
        break_loop(g, t->map_before, t->sheet);
        plan_one(g.rows, g.columns, t->map_before, t->map_len, t->sheet,
                 SHEET_BYTES, &unused);
    }
    return 6;
}

static uint32_t rebuild_with_fault(struct turn *t)
{
    uint32_t status;

    plan_turn(t);
    t->limit = limit_of_turn(t);
    if (wrong("takes the last of plan's repairs") && t->lost == 0 &&
        t->limit > 0 && t->limit < t->repairs)
        return take_last(t);
    status = model_rebuild(t->grid, t->block, t->array, t->array_len,
                           t->block, t->map, t->map_len, t->sheet, SHEET_BYTES,
                           t->limit, t->count, t->position);
    if (status == 0)
        return spoil_made(t);
    if (status == 7)
        return spoil_undone(t);
    return status == 6 ? spoil_fatal(t) : status;
}

/* The refusal that comes before that of the limit, 12 if there is none: with a
   limit of 0 the model tests all else and changes nothing. */
static uint32_t refusal_before_limit(struct turn *t, size_t sheet_len)
{
    uint32_t status;

    if (wrong("tests the limit before the sheet's length") && t->limit == 0)
        sheet_len = SHEET_BYTES;
    if (wrong("rebuild takes any longer sheet") && sheet_len > SHEET_BYTES)
        sheet_len = SHEET_BYTES;
    status = model_rebuild(t->grid, t->block, t->array, t->array_len,
                           t->block, t->map, t->map_len, t->sheet, sheet_len,
                           0, t->count, t->position);
    if (wrong("tests rebuild's map before its array") && status == 3 &&
        t->map_len != disks_of(t->grid))
        return 4;
    if (wrong("tests rebuild's sheet before its map") && status == 4 &&
        sheet_len != SHEET_BYTES)
        return 5;
    return status;
}

/* Rebuild on blocks as one sector. */
static uint32_t rebuild_one(const struct cut *c)
{
    struct grid g = half_tested(c->rows, c->columns,
                                wrong("rebuild tests the columns only"),
                                wrong("rebuild tests the rows only"));
    struct turn t = {g, c->block, c->array, c->array_len, c->map, c->map_len,
                     c->sheets, c->limit, c->count, c->position,
                     {0}, {0}, 0, 0};
    uint32_t status = refusal_before_limit(&t, c->sheets_len);

    if (status != 12)
        return status;
    if (wrong("rebuild swaps rows and columns"))
        t.grid = swapped(t.grid);
    return rebuild_with_fault(&t);
}

/* What ../wrong_sectors.c stands before. The count of a fatal loss is plan's,
   with its fault. */
uint32_t right_rebuild(size_t rows, size_t columns, size_t block,
                       uint8_t *array, size_t array_len, size_t sector,
                       uint8_t *map, size_t map_len,
                       uint8_t *sheets, size_t sheets_len,
                       size_t limit, size_t *count, size_t *position)
{
    struct grid g = {rows, columns};
    uint32_t status = model_rebuild(g, block, array, array_len, sector, map,
                                    map_len, sheets, sheets_len, limit, count,
                                    position);

    if (status == 6)
        plan_each(g, block / sector, map, sheets, count, position);
    return status;
}

uint32_t raid2d_rebuild(size_t rows, size_t columns, size_t block,
                        uint8_t *array, size_t array_len, size_t sector,
                        uint8_t *map, size_t map_len,
                        uint8_t *sheets, size_t sheets_len,
                        size_t limit, size_t *count, size_t *position)
{
    const struct cut c = {rows, columns, block, array, array_len, sector, 1,
                          map, map_len, sheets, sheets_len, limit, 0, count,
                          position};

    return sector == block ? rebuild_one(&c) : rebuild_in_sectors(c);
}
