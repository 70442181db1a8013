/*
 * An input of the fuzzer: a call of raid2d_plan, raid2d_plan_disk,
 * raid2d_follow, raid2d_save, raid2d_look or raid2d_tidy, or turns of
 * raid2d_rebuild, in a few hundred bytes.
 *
 *   byte 0       bit 0: follow, else plan. Bit 1: what is lent begins right
 *                behind a page without access, else it ends right before one.
 *                Bit 2: NULL is passed for what is empty. Bit 3: rebuild,
 *                whatever bit 0 is. Bit 5: save, whatever these are. Bit 6:
 *                tidy, whatever all these are. Bit 7: plan_disk, whatever all
 *                these are.
 *   bytes 1..3   rows, columns and block: small numbers as they are, others
 *                by a table
 *   bytes 4..6   how much longer the array, the map and the sheet are than
 *                rows, columns and block ask for, from -128 to 127
 *   byte 7       what the array holds: one of enum contents
 *   byte 8       the disk that is damaged; for plan_disk the one that is
 *                wanted, for look the one that is looked at
 *   bytes 9..12  the seed of all arbitrary bytes
 *   98 bytes     the sheet that follow reads or tidy rewrites. Rebuild reads
 *                none: the first of them is its limit, small numbers as they
 *                are, others by a table. Plan_disk and look read none either:
 *                the first of them says what is added to the disk's number,
 *                nothing if it is small, else by a table
 *   324 bytes    the map, one byte for each disk
 *   1 byte       into how many sectors a block is cut: 0 and 1 for one, small
 *                numbers as they are, whether they divide the block or not,
 *                others by a table
 *   1 byte       bit 0: look, whatever byte 0 is
 *   3 times      a sheet and a map as above, for positions 1, 2 and 3. Where
 *                there are more, position 3 is the last one, and the others
 *                have those of positions 0, 1 and 2 in turn
 *
 * Plan_disk and tidy take no sectors. Bytes that are missing are zero, so every
 * byte string is an input.
 */
#ifndef INPUT_H
#define INPUT_H

#include <stddef.h>
#include <stdint.h>

#include "model.h"

enum {
    AT_FLAGS = 0,
    AT_ROWS = 1,
    AT_COLUMNS = 2,
    AT_BLOCK = 3,
    AT_ARRAY_LEN = 4,
    AT_MAP_LEN = 5,
    AT_SHEET_LEN = 6,
    AT_CONTENTS = 7,
    AT_DISK = 8,
    AT_SEED = 9,
    AT_SHEET = 13,
    AT_LIMIT = AT_SHEET,
    AT_APART = AT_SHEET,
    AT_MAP = AT_SHEET + 98,
    AT_SECTORS = AT_MAP + 18 * 18,
    AT_LOOK = AT_SECTORS + 1,
    AT_MORE = AT_LOOK + 1,
    COLUMNS = 4, /* sheets and maps in an input */
    COLUMN_BYTES = 98 + 18 * 18,
    INPUT_MAX = AT_MORE + (COLUMNS - 1) * COLUMN_BYTES
};

enum {
    FLAG_FOLLOW = 1,
    FLAG_BEHIND = 2,
    FLAG_NULL = 4,
    FLAG_REBUILD = 8,
    FLAG_SAVE = 32,
    FLAG_TIDY = 64,
    FLAG_PLAN_DISK = 128
};

enum call { PLAN, FOLLOW, REBUILD, SAVE, TIDY, PLAN_DISK, LOOK };

/* The array is sealed; or one byte of one disk is changed; or two disks of a
   row, of a column, or four in the corners of a rectangle are changed by the
   same; or it holds arbitrary bytes. In each the erased blocks are arbitrary. */
enum contents {
    SEALED, ONE_CHANGED, ROW_CHANGED, COLUMN_CHANGED, CORNERS_CHANGED,
    ARBITRARY, CONTENTS
};

/* Numbers up to these stand for themselves in bytes 1 to 3, for a limit and for
   sectors; up to APART_CODES nothing is added to a disk's number. */
enum {
    SIDE_CODES = 17,
    BLOCK_CODES = 64,
    LIMIT_CODES = 40,
    SECTOR_CODES = 64,
    APART_CODES = 200
};

/* The most positions, of a grid with few disks and of any grid. */
enum { FEW_DISKS = 16, POSITIONS_OF_FEW = 4096, POSITIONS = SECTOR_CODES };

/* The most bytes that an input can ask for. */
enum {
    ARRAY_LEN_MAX = 18 * 18 * 4098 + 127,
    MAP_LEN_MAX = FEW_DISKS * POSITIONS_OF_FEW + 127,
    SHEET_LEN_MAX = 98 * POSITIONS_OF_FEW + 127
};

struct input {
    enum call call;
    int behind, pass_null;
    struct grid grid;   /* as it is passed */
    struct grid small;  /* the same, with small numbers for great ones */
    size_t block;
    size_t block_len;   /* likewise for block */
    size_t sector, sectors; /* as they are passed, one to plan */
    size_t positions;   /* how many positions the map and the sheets have */
    size_t array_len, map_len, sheet_len;
    enum contents contents;
    size_t disk, wanted;
    uint32_t seed;
    size_t limit;
    uint8_t sheet[SHEET_LEN_MAX];
    uint8_t map[MAP_LEN_MAX];
};

/* The call that byte 0 and the byte for look stand for. */
enum call call_of(uint8_t flags, uint8_t look);

/* Whether a call takes sectors. */
int takes_sectors(enum call call);

/* Which of the sheets and maps of an input a position has, if there are so many
   positions; and where it stands in the input. */
size_t column_of_position(size_t position, size_t positions);
size_t sheet_in_input(size_t column);
size_t map_in_input(size_t column);

void read_input(struct input *in, const uint8_t *data, size_t size);

/* Fills an array of the input's length as the input says. */
void fill_array(const struct input *in, uint8_t *array);

/* The disk in this row and column, both counted around the grid. */
size_t disk_around(struct grid g, size_t row, size_t column);

/* Numbers that look arbitrary, the same from the same seed. */
struct numbers {
    uint64_t state;
};

struct numbers numbers_from(uint32_t seed);
uint32_t draw(struct numbers *r, uint32_t bound);
void fill_arbitrary(uint32_t seed, uint8_t *bytes, size_t len);

#endif
