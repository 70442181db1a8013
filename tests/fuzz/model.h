/*
 * What plan, plan_disk, follow, rebuild, save, look and tidy must answer, in
 * plain C, written from the order alone: its rules, its numbers and its
 * formats. Only the words are those of include/raid2d.h. It goes position by
 * position, disk by disk and byte by byte. ../loop.h has the loop of a fatal
 * loss.
 */
#ifndef MODEL_H
#define MODEL_H

#include <stddef.h>
#include <stdint.h>

enum {
    SIDE_MAX = 15,
    DISKS_MAX = 256,
    COLUMN_STRIPE = 16, /* the stripe number of column 0 */
    STRIPES = 32,
    SHEET_BYTES = 98,
    RECORDS = 32,
    SECTORS_MAX = 4096
};

/* The size of an array: its data rows and data columns. The grid of all disks
   has one more of each. */
struct grid {
    size_t rows, columns;
};

/* Both numbers are 2 to 15. */
int grid_fits(struct grid g);

size_t disks_of(struct grid g);

/* The disk in this row and column. */
size_t disk_at(struct grid g, size_t row, size_t column);

/* The stripes of a disk: the number of its row, and of its column. */
size_t row_of(struct grid g, size_t disk);
size_t column_of(struct grid g, size_t disk);

/* The disk is on the stripe. */
int on_stripe(struct grid g, size_t disk, size_t stripe);

/* Where record k of a sheet begins: its disk, its stripe, the next number. */
size_t record_at(size_t k);

/* The disk, which the working map says is erased, may be repaired by the
   stripe now. Any numbers are allowed. */
int may_repair(struct grid g, const uint8_t *work, size_t disk, size_t stripe);

/*
 * Plan's order on a working map, until no repair is allowed. Writes the sheet
 * that lists the repairs, takes the repaired disks off the map, and returns
 * the number of repairs: at most 32, since no stripe is used twice. Where a disk
 * is left on the map, the loss is fatal.
 */
size_t plan_repairs(struct grid g, uint8_t *work, uint8_t *sheet);

/*
 * The shortest list of allowed repairs that ends with an erased disk, the row's
 * if it is as short as the column's, in a sheet. Returns the number of repairs,
 * 0 if no list reaches the disk.
 */
size_t plan_for_disk(struct grid g, const uint8_t *map, size_t disk,
                     uint8_t *sheet);

/* How many disks a map says are erased. */
size_t count_erased(const uint8_t *map, size_t disks);

/* How many of them are lost: two sealed arrays with the same survivors differ
   in them. is_lost gets a byte for each disk: 1 for these, else 0. */
size_t find_lost(struct grid g, const uint8_t *map, uint8_t *is_lost);

/* The sheet of a fatal position, with these bytes of the map: the smallest
   loop. */
void show_loop(struct grid g, const uint8_t *column, uint8_t *sheet);

/*
 * The chain of a sheet from elsewhere: its record numbers in order, and how
 * many. A chain that is refused gives the refusal's number below 0: -10 if the
 * kind is not 1 or a number exceeds 32, -13 if a record is reached twice.
 */
int read_chain(const uint8_t *sheet, uint8_t order[RECORDS]);

/* Sets the disk of a sheet's record to the sum of the other disks of the
   record's stripe. */
void make_repair(struct grid g, size_t block, uint8_t *array,
                 const uint8_t *record);

/* The bytes of a map for one position, one for each disk. */
void read_column(struct grid g, size_t sectors, const uint8_t *map,
                 size_t position, uint8_t *column);

/* The stripe's sum is zero at every byte place, or the grid has no such
   stripe. */
int stripe_is_sealed(struct grid g, size_t block, const uint8_t *array,
                     size_t stripe);

/* What raid2d_follow must do, with its parameters. */
uint32_t model_follow(struct grid g, size_t block,
                      uint8_t *array, size_t array_len, size_t sector,
                      const uint8_t *map, size_t map_len,
                      const uint8_t *sheets, size_t sheets_len,
                      size_t *count);

/* What raid2d_rebuild must do in one turn, with its parameters. */
uint32_t model_rebuild(struct grid g, size_t block,
                       uint8_t *array, size_t array_len, size_t sector,
                       uint8_t *map, size_t map_len,
                       uint8_t *sheets, size_t sheets_len,
                       size_t limit, size_t *count, size_t *position);

/* What raid2d_tidy must do, with its parameters. */
uint32_t model_tidy(uint8_t *sheet, size_t sheet_len);

/* What raid2d_save must do, with its parameters. */
uint32_t model_save(struct grid g, size_t block,
                    uint8_t *array, size_t array_len, size_t sector,
                    const uint8_t *map, size_t map_len, size_t *count);

/* What raid2d_look must do, with its parameters but for the array itself. */
size_t model_look(struct grid g, size_t block, size_t array_len,
                  size_t sector, const uint8_t *map, size_t map_len,
                  size_t disk, size_t *offset);

/* A call of raid2d_plan or raid2d_plan_disk: what it was lent, and what it left
   and returned. Plan_disk has one sector. */
struct planned {
    struct grid grid;
    size_t sectors;
    const uint8_t *map;
    size_t map_len;
    const uint8_t *sheets_before, *sheets;
    size_t sheets_len;
    size_t count_before, count, position_before, position;
    uint32_t status;
};

/* What is wrong with the answer, in words; NULL if nothing. */
const char *judge_plan(const struct planned *p);
const char *judge_plan_disk(const struct planned *p, size_t disk);

#endif
