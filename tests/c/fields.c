/*
 * The lengths of a map and of an array, and the numbers of a sheet, at every
 * value that counts: in range, beside it, and such that would be in range if
 * they were shortened or wrapped.
 */
#include <stdint.h>
#include <string.h>

#include "raid2d.h"
#include "suite.h"

static const size_t sides[] = {
    0, 1, 2, 3, 4, 5, 6, 7, 8, 9, 10, 11, 12, 13, 14, 15, 16, 17, 255, 256,
    258, 65538, (size_t)UINT32_MAX + 3, SIZE_MAX - 1, SIZE_MAX
};

static const size_t blocks[] = {
    0, 1, 2, 100, 4095, 4096, 4097, 65537, (size_t)UINT32_MAX + 2,
    SIZE_MAX / 12, SIZE_MAX
};

static int in_range(size_t number, size_t least, size_t most)
{
    return least <= number && number <= most;
}

static void lengths_of(size_t rows, size_t columns)
{
    int fits = in_range(rows, 2, 15) && in_range(columns, 2, 15);
    size_t disks = fits ? (rows + 1) * (columns + 1) : 0;
    size_t i;

    expect(raid2d_disks(rows, columns) == disks, "disks of %zu x %zu", rows,
           columns);
    for (i = 0; i < COUNT(blocks); i++)
        expect(raid2d_array_bytes(rows, columns, blocks[i])
                   == (in_range(blocks[i], 1, 4096) ? disks * blocks[i] : 0),
               "bytes of %zu x %zu with %zu", rows, columns, blocks[i]);
}

/* A field of a record, straight from the sheet's format. */
static size_t field(const uint8_t *sheet, size_t record, size_t which)
{
    return in_range(record, 1, 32) ? sheet[2 + 3 * (record - 1) + which] : 0;
}

static void record_of(const uint8_t *sheet, size_t record)
{
    expect(raid2d_sheet_disk(sheet, record) == field(sheet, record, 0),
           "disk of record %zu", record);
    expect(raid2d_sheet_stripe(sheet, record) == field(sheet, record, 1),
           "stripe of record %zu", record);
    expect(raid2d_sheet_next(sheet, record) == field(sheet, record, 2),
           "next of record %zu", record);
}

/* Numbers that no record has: behind the last, and such that three times the
   number wraps to a place of the sheet. */
static const size_t no_records[] = {
    0, 33, 34, 255, 256, 257, 288, 65537, (size_t)UINT32_MAX + 2,
    SIZE_MAX / 3, SIZE_MAX / 3 + 1, SIZE_MAX / 3 + 2, SIZE_MAX / 3 * 2 + 2,
    SIZE_MAX - 1, SIZE_MAX
};

/* The sheet is lent as to a call, with arbitrary bytes. */
static void fields_of_a_sheet(void)
{
    static const struct size size = { 2, 3, 1 };
    struct call call = fitting_call(FOLLOW, size);
    uint8_t before[RAID2D_SHEET_BYTES];
    const uint8_t *sheet = call.sheet.bytes;
    size_t i;

    memcpy(before, sheet, sizeof before);
    expect(raid2d_sheet_kind(sheet) == sheet[0], "kind of a sheet");
    expect(raid2d_sheet_first(sheet) == sheet[1], "first record of a sheet");
    for (i = 1; i <= RAID2D_SHEET_RECORDS; i++)
        record_of(sheet, i);
    for (i = 0; i < COUNT(no_records); i++)
        record_of(sheet, no_records[i]);
    expect(memcmp(before, sheet, sizeof before) == 0, "a sheet that was read");
    end_call(&call);
}

void test_fields(void)
{
    size_t i, k;

    for (i = 0; i < COUNT(sides); i++)
        for (k = 0; k < COUNT(sides); k++)
            lengths_of(sides[i], sides[k]);
    for (i = 0; i < 100; i++)
        fields_of_a_sheet();
}
