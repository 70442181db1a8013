/*
 * What the header itself gives: limits, sizes, statuses and their words. The
 * file is C and C++, so that the header can be compiled as both.
 */
#include <string.h>

#include "raid2d.h"
#include "raid2d.h" /* a second time: the guard keeps it out */
#include "suite.h"

/* The largest array, as a static one. */
static uint8_t largest[RAID2D_ARRAY_BYTES(RAID2D_SIDE_MAX, RAID2D_SIDE_MAX,
                                          RAID2D_BLOCK_MAX)];

/* The largest map, and the most sheets. */
static uint8_t largest_map[RAID2D_MAP_BYTES(RAID2D_SIDE_MAX, RAID2D_SIDE_MAX,
                                            RAID2D_SECTORS_MAX)];
static uint8_t most_sheets[RAID2D_SHEETS_BYTES(RAID2D_SECTORS_MAX)];

static const uint32_t statuses[] = {
    0, 1, 2, 3, 4, 5, 6, 7, 8, 9, 10, 11, 12, 13, 14, 15, 16, 64
};

#define STATUSES (sizeof statuses / sizeof statuses[0])

static void limits_and_sizes(void)
{
    expect(RAID2D_SIDE_MIN == 2 && RAID2D_SIDE_MAX == 15, "range of a side");
    expect(RAID2D_BLOCK_MIN == 1 && RAID2D_BLOCK_MAX == 4096, "range of block");
    expect(sizeof largest == 1048576 && largest[0] == 0,
           "bytes of the largest array");
    expect(RAID2D_SECTORS_MIN == 1 && RAID2D_SECTORS_MAX == 4096,
           "range of sectors");
    expect(sizeof largest_map == 1048576 && largest_map[0] == 0,
           "bytes of the largest map");
    expect(sizeof most_sheets == 401408 && most_sheets[0] == 0,
           "bytes of the most sheets");
    expect(RAID2D_COLUMN_STRIPE == 16, "stripe of column 0");
    expect(RAID2D_DISKS(2, 2) == 9 && RAID2D_DISKS(15, 15) == 256
               && RAID2D_DISKS(2, 15) == 48 && RAID2D_DISKS(15, 2) == 48,
           "disks");
    expect(RAID2D_DISKS(1 + 1, 1 + 2) == 12, "disks, from expressions");
    expect(RAID2D_ARRAY_BYTES(1 + 1, 1 + 2, 2 + 3) == 60,
           "bytes, from expressions");
    expect(RAID2D_MAP_BYTES(1 + 1, 1 + 2, 2 + 3) == 60,
           "bytes of a map, from expressions");
    expect(RAID2D_SHEETS_BYTES(1 + 1) == 196,
           "bytes of sheets, from expressions");
    expect(RAID2D_SHEET_BYTES == 98, "bytes of a sheet");
    expect(RAID2D_SHEET_RECORDS == 32, "records of a sheet");
    expect(RAID2D_SHEET_REPAIRS == 1 && RAID2D_SHEET_CYCLE == 2, "kinds");
}

static void version(void)
{
    expect(RAID2D_VERSION_NUMBER == 10000 * RAID2D_VERSION_MAJOR
               + 100 * RAID2D_VERSION_MINOR + RAID2D_VERSION_PATCH,
           "version as one number");
    expect(raid2d_version_number() == RAID2D_VERSION_NUMBER,
           "version of the archive");
}

static void numbers_of_statuses(void)
{
    expect(RAID2D_OK == 0, "number of success");
    expect(RAID2D_ERR_SIDE == 1, "number of wrong rows or columns");
    expect(RAID2D_ERR_BLOCK == 2, "number of a wrong block");
    expect(RAID2D_ERR_ARRAY_LENGTH == 3, "number of a wrong array length");
    expect(RAID2D_ERR_MAP == 4, "number of a wrong map");
    expect(RAID2D_ERR_SHEET_LENGTH == 5, "number of a wrong sheet length");
    expect(RAID2D_FATAL == 6, "number of a fatal loss");
    expect(RAID2D_ERR_SURVIVORS == 7, "number of wrong survivors");
    expect(RAID2D_ERR_DISK == 8, "number of a wrong disk");
    expect(RAID2D_ERR_DATA_LENGTH == 9, "number of a wrong data length");
    expect(RAID2D_ERR_CHAIN == 10, "number of a wrong chain");
    expect(RAID2D_ERR_REPAIRS == 11, "number of wrong repairs");
    expect(RAID2D_ERR_LIMIT == 12, "number of a limit of 0");
    expect(RAID2D_ERR_RING == 13, "number of a record reached twice");
    expect(RAID2D_ERR_LEFTOVERS == 14, "number of leftovers");
    expect(RAID2D_ERR_WANTED == 15, "number of a wrong wanted disk");
    expect(RAID2D_ERR_SECTOR == 16, "number of a wrong sector");
    expect(RAID2D_NOT_SEALED == 64, "number of an array that is not sealed");
}

/* Each status has words of its own; all other numbers share theirs. */
static void words_of_statuses(void)
{
    static const uint32_t others[] = { 17, 63, 65, 256, 0xffffffffu };
    const char *unknown = raid2d_strerror(others[0]);
    size_t i, j;

    for (i = 0; i < STATUSES; i++) {
        const char *words = raid2d_strerror(statuses[i]);

        expect(strcmp(words, unknown) != 0, "words of status %u", statuses[i]);
        for (j = 0; j < i; j++)
            expect(strcmp(words, raid2d_strerror(statuses[j])) != 0,
                   "words of statuses %u and %u", statuses[j], statuses[i]);
    }
    for (i = 0; i < sizeof others / sizeof others[0]; i++)
        expect(strcmp(raid2d_strerror(others[i]), unknown) == 0,
               "words of unknown status %u", others[i]);
}

void test_header(void)
{
    limits_and_sizes();
    version();
    numbers_of_statuses();
    words_of_statuses();
}
