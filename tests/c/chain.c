/*
 * Chains of sheets: chain.h has what each function is for.
 */
#include <string.h>

#include "chain.h"

/* The numbers of the records on a chain. Returns how many. */
static size_t walk(const uint8_t *sheet, size_t records[RAID2D_SHEET_RECORDS])
{
    uint8_t reached[RAID2D_SHEET_RECORDS + 1] = { 0 };
    size_t count = 0, k = sheet[1];

    while (k != 0 && k <= RAID2D_SHEET_RECORDS && !reached[k]) {
        reached[k] = 1;
        records[count++] = k;
        k = sheet[3 * k + 1];
    }
    return count;
}

struct repairs listed_on(const uint8_t *sheet)
{
    struct repairs list = { 0, { { 0, 0 } } };
    size_t records[RAID2D_SHEET_RECORDS], k;

    list.count = walk(sheet, records);
    for (k = 0; k < list.count; k++) {
        list.number[k].disk = sheet[3 * records[k] - 1];
        list.number[k].stripe = sheet[3 * records[k]];
    }
    return list;
}

void mark_chain(const uint8_t *sheet, uint8_t on[RAID2D_SHEET_BYTES])
{
    size_t records[RAID2D_SHEET_RECORDS], count = walk(sheet, records), k;

    memset(on, 0, RAID2D_SHEET_BYTES);
    memset(on, 1, 2);
    for (k = 0; k < count; k++)
        memset(on + 3 * records[k] - 1, 1, 3);
}

void set_off_chain(uint8_t *sheet, uint8_t byte)
{
    uint8_t on[RAID2D_SHEET_BYTES];
    size_t i;

    mark_chain(sheet, on);
    for (i = 0; i < sizeof on; i++)
        if (!on[i])
            sheet[i] = byte;
}

void expect_tidy(const uint8_t *sheet, size_t status, const uint8_t *after,
                 const char *what)
{
    static const struct size none = { 0, 0, 0 };
    struct call c = new_call(TIDY, none, 0, 0, 0, RAID2D_SHEET_BYTES);

    memcpy(c.sheet.bytes, sheet, c.sheet.len);
    expect_as_now(&c);
    memcpy(c.sheet.expected, after, c.sheet.len);
    expect_run(&c, status, OUT_BEFORE, what);
    if (status == 0)
        expect_run(&c, 0, OUT_BEFORE, what);
    end_call(&c);
}

void expect_tidied(struct call *follow, size_t status,
                   const struct repairs *list, const char *what)
{
    follow->function = TIDY;
    if (status == 0)
        expect_list(follow, list, 0, list->count);
    expect_run(follow, status, OUT_BEFORE, what);
    follow->function = FOLLOW;
}
