/*
 * Follow and tidy before right ones, with the one fault that is wanted, or
 * none: leftovers that are overlooked or kept, refusals in another order, lists
 * that are not the chain's. tests/wrong and tests/fuzz/wrong take the faults'
 * names from the calls of `wrong` below.
 */
#include <string.h>

#include "raid2d.h"
#include "wrong_tidy.h"

enum {
    BYTES = RAID2D_SHEET_BYTES,
    RECORDS = RAID2D_SHEET_RECORDS,
    DISKS = RAID2D_DISKS(RAID2D_SIDE_MAX, RAID2D_SIDE_MAX)
};

/* ---- Chains ---- */

/* A chain as far as it can be walked, whatever the sheet's kind: its records in
   order, which they are, and where the number stands that ends it: 0, or one
   that no record has, or that of a record that was visited. */
struct chain {
    size_t count, order[RECORDS];
    uint8_t visited[RECORDS + 1];
    size_t end;
};

/* Where record k begins. */
static size_t record_at(size_t k)
{
    return 2 + 3 * (k - 1);
}

static struct chain walk(const uint8_t *sheet)
{
    struct chain c = { 0, { 0 }, { 0 }, 1 };
    size_t k = sheet[1];

    while (k != 0 && k <= RECORDS && !c.visited[k]) {
        c.visited[k] = 1;
        c.order[c.count++] = k;
        c.end = record_at(k) + 2;
        k = sheet[c.end];
    }
    return c;
}

static int is_ring(const uint8_t *sheet)
{
    size_t last = sheet[walk(sheet).end];

    return last != 0 && last <= RECORDS;
}

/* The lowest number on the chain, or the highest; 0 if it is empty. */
static size_t lowest_on(const struct chain *c)
{
    size_t k = 1;

    while (k <= RECORDS && !c->visited[k])
        k++;
    return k <= RECORDS ? k : 0;
}

static size_t highest_on(const struct chain *c)
{
    size_t k = RECORDS;

    while (k > 0 && !c->visited[k])
        k--;
    return k;
}

/* All records off the chain become zero. */
static void clear_off_chain(uint8_t *sheet)
{
    struct chain c = walk(sheet);
    size_t k;

    for (k = 1; k <= RECORDS; k++)
        if (!c.visited[k])
            memset(sheet + record_at(k), 0, 3);
}

static int has_leftovers(const uint8_t *sheet)
{
    uint8_t cleared[BYTES];

    memcpy(cleared, sheet, BYTES);
    clear_off_chain(cleared);
    return memcmp(cleared, sheet, BYTES) != 0;
}

/* ---- Follow ---- */

/* Zeros where follow does not look for leftovers. */
static void overlook(uint8_t *sheet)
{
    struct chain c = walk(sheet);
    size_t k;

    for (k = 1; k <= RECORDS; k++) {
        uint8_t *record = sheet + record_at(k);

        if (c.visited[k])
            continue;
        if ((wrong("follow overlooks record 32") && k == RECORDS)
            || (wrong("follow overlooks records before the chain's")
                && k < lowest_on(&c))
            || (wrong("follow looks behind the chain's records only")
                && k < highest_on(&c)))
            memset(record, 0, 3);
        if (wrong("follow overlooks the third byte of a record")
            || (wrong("follow overlooks the sheet's last byte")
                && k == RECORDS))
            record[2] = 0;
    }
    if (wrong("follow overlooks all leftovers")
        || wrong("follow looks for leftovers at last"))
        clear_off_chain(sheet);
}

/* The repairs of a sheet with leftovers are not allowed either. No block
   counts for that: those here have one byte. */
static int repairs_are_refused(size_t rows, size_t columns,
                               const uint8_t *map, size_t map_len,
                               const uint8_t *sheet)
{
    uint8_t blocks[DISKS] = { 0 }, cleared[BYTES];
    size_t unused;

    memcpy(cleared, sheet, BYTES);
    clear_off_chain(cleared);
    return right_follow(rows, columns, 1, blocks, map_len, 1, map, map_len,
                        cleared, BYTES, &unused) == RAID2D_ERR_REPAIRS;
}

/* Another refusal of the sheet than the first one. */
static uint32_t refuse_otherwise(uint32_t status, const uint8_t *sheet)
{
    if (wrong("follow gives 10 for 13") && status == RAID2D_ERR_RING)
        return RAID2D_ERR_CHAIN;
    if (wrong("follow refuses 32 records") && status == RAID2D_ERR_REPAIRS
        && walk(sheet).count == RECORDS)
        return RAID2D_ERR_RING;
    if (wrong("follow judges a ring before the kind")
        && status == RAID2D_ERR_CHAIN && is_ring(sheet))
        return RAID2D_ERR_RING;
    if (((wrong("follow gives 14 before 10") && status == RAID2D_ERR_CHAIN)
         || (wrong("follow gives 14 before 13") && status == RAID2D_ERR_RING)
         || (wrong("follow looks for leftovers at last") && status == 0))
        && has_leftovers(sheet))
        return RAID2D_ERR_LEFTOVERS;
    return status;
}

uint32_t follow_wrongly(size_t rows, size_t columns, size_t block,
                        uint8_t *array, size_t array_len,
                        const uint8_t *map, size_t map_len,
                        const uint8_t *sheet, size_t sheet_len, size_t *count)
{
    uint8_t seen[BYTES];
    uint32_t status;

    if (sheet_len != BYTES)
        return right_follow(rows, columns, block, array, array_len, block, map,
                            map_len, sheet, sheet_len, count);
    memcpy(seen, sheet, BYTES);
    overlook(seen);
    status = right_follow(rows, columns, block, array, array_len, block, map,
                          map_len, seen, BYTES, count);
    if (wrong("follow gives 14 after 11") && status == RAID2D_ERR_LEFTOVERS
        && repairs_are_refused(rows, columns, map, map_len, sheet))
        return RAID2D_ERR_REPAIRS;
    return refuse_otherwise(status, sheet);
}

/* ---- Tidy ---- */

/* Makes of a sheet that is to be refused one that is not. */
static void take(uint8_t *sheet)
{
    size_t end = walk(sheet).end;

    if (wrong("tidy takes kind 2") && sheet[0] == RAID2D_SHEET_CYCLE)
        sheet[0] = RAID2D_SHEET_REPAIRS;
    if (wrong("tidy takes number 33 for the end") && sheet[end] == 33)
        sheet[end] = 0;
    if (wrong("tidy takes a ring for a chain's end") && is_ring(sheet))
        sheet[end] = 0;
}

/* Lists these records of another sheet, so many, in tidy form. */
static void list_these(uint8_t *sheet, const uint8_t *from,
                       const size_t *records, size_t count)
{
    size_t k;

    memset(sheet + 1, 0, BYTES - 1);
    for (k = 1; k <= count; k++) {
        sheet[record_at(k) - 1] = (uint8_t)k;
        memcpy(sheet + record_at(k), from + record_at(records[k - 1]), 2);
    }
}

/* The records of the chain by their numbers. */
static void list_by_number(uint8_t *sheet, const uint8_t *from,
                           const struct chain *c)
{
    size_t records[RECORDS], count = 0, k;

    for (k = 1; k <= RECORDS; k++)
        if (c->visited[k])
            records[count++] = k;
    list_these(sheet, from, records, count);
}

/* A number above 32 stands off the chain. */
static int is_high_off_chain(const uint8_t *sheet, const struct chain *c)
{
    size_t k = 1;

    while (k <= RECORDS
           && (c->visited[k] || sheet[record_at(k) + 2] <= RECORDS))
        k++;
    return k <= RECORDS;
}

/* A stripe on the chain is one that no grid has. */
static int is_high_stripe(const uint8_t *sheet, const struct chain *c)
{
    size_t k = 0;

    while (k < c->count && sheet[record_at(c->order[k]) + 1] < 32)
        k++;
    return k < c->count;
}

/* The status of a sheet that is to be taken. */
static uint32_t refuse_right(const uint8_t *sheet, const struct chain *c)
{
    if (wrong("tidy gives 14") && has_leftovers(sheet))
        return RAID2D_ERR_LEFTOVERS;
    if (wrong("tidy refuses 32 records") && c->count == RECORDS)
        return RAID2D_ERR_RING;
    if (wrong("tidy judges numbers off the chain")
        && is_high_off_chain(sheet, c))
        return RAID2D_ERR_CHAIN;
    if (wrong("tidy judges stripes") && is_high_stripe(sheet, c))
        return RAID2D_ERR_REPAIRS;
    return 0;
}

/* What becomes of a sheet that is tidy. From is what it was made of. */
static void spoil_tidy(uint8_t *sheet, const uint8_t *from,
                       const struct chain *c)
{
    size_t behind = record_at(c->count + 1);

    if (wrong("tidy keeps leftovers"))
        memcpy(sheet + behind, from + behind, BYTES - behind);
    if (wrong("tidy goes by the records' numbers"))
        list_by_number(sheet, from, c);
    if (wrong("tidy drops the last record") && c->count > 0)
        list_these(sheet, from, c->order, c->count - 1);
    if (wrong("tidy leaves the first number"))
        sheet[1] = from[1];
    sheet[0] = from[0];
}

/* What becomes of a refusal. */
static uint32_t spoil_refusal(uint32_t status, uint8_t *sheet,
                              const uint8_t *before)
{
    struct chain c = walk(before);

    memcpy(sheet, before, BYTES);
    if (wrong("tidy writes before it refuses") && before[0] == 1)
        list_these(sheet, before, c.order, c.count);
    if (wrong("tidy gives 10 for 13") && status == RAID2D_ERR_RING)
        return RAID2D_ERR_CHAIN;
    if (wrong("tidy judges a ring before the kind") && is_ring(before))
        return RAID2D_ERR_RING;
    return status;
}

uint32_t tidy_wrongly(uint8_t *sheet, size_t sheet_len)
{
    uint8_t before[BYTES];
    struct chain c;
    uint32_t status;

    if (wrong("tidy takes any longer sheet") && sheet_len > BYTES)
        sheet_len = BYTES;
    if (sheet_len != BYTES)
        return right_tidy(sheet, sheet_len);
    memcpy(before, sheet, BYTES);
    c = walk(before);
    take(sheet);
    status = right_tidy(sheet, sheet_len);
    if (status == 0)
        status = refuse_right(before, &c);
    if (status != 0)
        return spoil_refusal(status, sheet, before);
    spoil_tidy(sheet, before, &c);
    return 0;
}
