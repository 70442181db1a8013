/*
 * A peer: another implementation of the library's calls, with the library's prototypes for blocks of one sector: these
 * have no sector, no sectors and no position. Peers test no argument; the library tests them all. In their code
 * `across` stands for the disks of a row, columns + 1, and `down` for those of a column, rows + 1.
 */
#ifndef PEER_H
#define PEER_H

#include <stddef.h>
#include <stdint.h>

typedef uint32_t seal_call(size_t rows, size_t columns, size_t block, uint8_t *array, size_t array_len);
typedef uint32_t check_call(size_t rows, size_t columns, size_t block, const uint8_t *array, size_t array_len,
                            size_t *stripe);
typedef uint32_t write_call(size_t rows, size_t columns, size_t block, uint8_t *array, size_t array_len, size_t disk,
                            const uint8_t *data, size_t data_len);
typedef uint32_t plan_call(size_t rows, size_t columns, const uint8_t *map, size_t map_len, uint8_t *sheet,
                           size_t sheet_len, size_t *count);
typedef uint32_t plan_disk_call(size_t rows, size_t columns, const uint8_t *map, size_t map_len, uint8_t *sheet,
                                size_t sheet_len, size_t disk, size_t *count);
typedef uint32_t rebuild_call(size_t rows, size_t columns, size_t block, uint8_t *array, size_t array_len, uint8_t *map,
                              size_t map_len, uint8_t *sheet, size_t sheet_len, size_t limit, size_t *count);
typedef uint32_t tidy_call(uint8_t *sheet, size_t sheet_len);

/* The library's own prototypes, for blocks of many sectors. */
typedef uint32_t plan_sectors_call(size_t rows, size_t columns, size_t sectors, const uint8_t *map, size_t map_len,
                                   uint8_t *sheets, size_t sheets_len, size_t *count, size_t *position);
typedef uint32_t rebuild_sectors_call(size_t rows, size_t columns, size_t block, uint8_t *array, size_t array_len,
                                      size_t sector, uint8_t *map, size_t map_len, uint8_t *sheets, size_t sheets_len,
                                      size_t limit, size_t *count, size_t *position);

struct peer {
    const char *name;
    /* The block's length has to be a multiple of this. */
    size_t unit;
    /* The peer only moves the bytes: it stands for scale, with no result to compare. */
    int bound;
    /* A call that the peer does not have is null; its rows are left out. */
    seal_call *seal;
    check_call *check;
    write_call *write;
    plan_call *plan;
    rebuild_call *rebuild;
};

enum { LIBRARY, PLAIN, TUNED, ROWS, NATIVE, RUST, ISAL, ISAL_SSE, READ, COPY, PEERS };

/* Where ISA-L is not installed, its peers have no call. */
extern const struct peer peers[PEERS];

/* The tuned peer also plans for those that only differ in how they sum. */
plan_call tuned_plan;

/* With sectors there is the tuned peer only. */
plan_sectors_call tuned_plan_sectors;
rebuild_sectors_call tuned_rebuild_sectors;

/* Of tidy, and of a plan for one disk, there are plain loops only. */
tidy_call plain_tidy;
plan_disk_call plain_plan_disk;

/* What the calls return besides 0, and the stripe of column 0, in the numbers of the C interface. */
enum { SEALED = 0, FATAL = 6, CONTRADICTORY = 7, NOT_SEALED = 64, FIRST_COLUMN = 16 };

/* The largest array: disks of a row or a column, parity disks included, all disks, and bytes in a block. Stripe numbers are
   below STRIPES. */
enum { STRIPE_MAX = 16, DISKS_MAX = 256, BLOCK_MAX = 4096, STRIPES = 32 };

#endif
