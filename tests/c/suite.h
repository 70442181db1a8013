/*
 * What the C tests share: counting, lent memory with guards and fences around
 * it, and a call with all that it is lent.
 */
#ifndef SUITE_H
#define SUITE_H

#include "../fence.h"

/* How many entries an array has. */
#define COUNT(list) (sizeof list / sizeof list[0])

/* Counts one check. Where it does not hold, the rest says what was checked. */
void expect(int holds, const char *format, ...);

/*
 * Bytes lent to the library, in a memory with a guard before them and one
 * after them, as far as the placement has them. The same with what is expected
 * after the call stands in a second memory.
 */
struct lent {
    uint8_t *bytes;    /* what is passed: NULL where len is 0 */
    uint8_t *expected; /* what bytes should hold after the call */
    size_t len;
    uint8_t *place;    /* where the bytes stand, also where len is 0 */
    uint8_t *memory, *expected_memory;
    size_t memory_len;
    struct fenced fenced;
};

/* What an array's size is made of: data rows, data columns and the bytes in a
   block. */
struct size {
    size_t rows, columns, block;
};

/* A size with one byte in a block, and a sealed array of it. */
struct known {
    struct size size;
    uint8_t sealed[12];
};

/* The array A of paper 01; one that is wider than high; and the same with its
   rows for columns, so that it is higher than wide. */
extern const struct known array_a, array_wide, array_high;

enum function {
    SEAL, CHECK, WRITE, LOOK, PLAN, PLAN_DISK, REBUILD, FOLLOW, SAVE, TIDY
};

/* A call: its numbers, what it is lent, and its out-parameters, each a size_t
   that is lent too: one that most calls have, and the position of plan and
   rebuild. Plan is passed the number of sectors, others their length. The sheet
   is all sheets, one behind the other. Calls pass over what they have no
   parameter for. */
struct call {
    enum function function;
    struct size size;
    size_t disk, limit, sectors, sector;
    size_t fatal; /* the position that is expected with 6 of plan and rebuild */
    struct lent array, map, data, sheet, out, position;
};

/* What an out-parameter holds before each call: no stripe, no offset, no count
   and no position, and no byte of it zero. */
#define OUT_BEFORE (SIZE_MAX / 255 * 0x5a)

/* A call lent buffers of these lengths. The array, the data and the sheet are
   filled with arbitrary bytes, the same in every run; the map says that all
   disks are present. The disk is 0 and the limit is the largest. A block is one
   sector, and 6 is expected at position 0. */
struct call new_call(enum function function, struct size size,
                     size_t array_len, size_t map_len, size_t data_len,
                     size_t sheet_len);

/* The same, with the lengths that the size asks for. */
struct call fitting_call(enum function function, struct size size);

/* The same for blocks that are cut into so many sectors. */
struct call cut_call(enum function function, struct size size, size_t sectors);

/* The same two on an array that is sealed by its definition. */
struct call sealed_call(enum function function, struct size size);
struct call sealed_cut_call(enum function function, struct size size,
                            size_t sectors);

/* The number of disks; how many of them can be restored at most; the number of
   the disk in row r and column c; and the byte at a place of its block. */
size_t disks_of(struct size size);
size_t most_repairs(struct size size);
size_t disk_at(struct size size, size_t r, size_t c);
uint8_t *cell(uint8_t *array, struct size size, size_t r, size_t c,
              size_t place);

/* Adds a block to a sum. */
void add_block(uint8_t *sum, const uint8_t *bytes, size_t block);

/* Sets the parities of an array, straight from their definitions. */
void define_parities(uint8_t *array, struct size size);

/* Fills a buffer with arbitrary bytes, the same in every run. */
void fill(uint8_t *bytes, size_t len);

/* An arbitrary number below the bound, the same in every run. */
size_t below(size_t bound);

/* From here on, each buffer is expected to keep the bytes that it has now. */
void expect_as_now(struct call *call);

/* Makes the call and returns its result. */
size_t run(struct call *call);

/* Makes the call and counts one check: its result is this, its out-parameter
   is then that, its position the one that is expected with 6 or as before, and
   all bytes and guards are as expected. Where the call has a whole block for a
   sector, the same is expected of smaller sectors, as split.h says, and counted
   as one more check. */
void expect_run(struct call *call, size_t result, size_t out, const char *what);

void end_call(struct call *call);

/* Runs a test at every number of rows and of columns. Squares, the lowest and
   the narrowest of the largest get block lengths on both sides of what the
   library sums at a time, the others two of these lengths in turn. */
void at_every_size(void (*test)(struct size size));

/* The same with one byte in a block. */
void at_every_grid(void (*test)(struct size size));

/* The parts of the suite, one to a file. */
void test_header(void);
void test_fields(void);
void test_refusals(void);
void test_answers(void);
void test_losses(void);
void test_loops(void);
void test_wanted(void);
void test_turns(void);
void test_saves(void);
void test_sheets(void);
void test_tidies(void);
void test_sectors(void);
void test_sector_turns(void);

#endif
