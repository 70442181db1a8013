/* What stands before the archive's calls: the fault that is wanted, and the
   archive's own functions. */
#ifndef WRONG_H
#define WRONG_H

#include <stddef.h>
#include <stdint.h>

size_t right_disks(size_t rows, size_t columns);
size_t right_array_bytes(size_t rows, size_t columns, size_t block);

/* The archive's plan for one position. */
uint32_t plan_one(size_t rows, size_t columns,
                  const uint8_t *map, size_t map_len,
                  uint8_t *sheet, size_t sheet_len, size_t *count);

/* The fault, empty for none, and whether it is this one. */
const char *wanted(void);
int wrong(const char *name);

/* Reads a byte, or writes the one that is there. */
void read_at(const void *place);
void write_at(const void *place);

struct size {
    size_t rows;
    size_t columns;
};

/* The size that a call passes on. A number that is not tested is taken for the
   other one where it is out of range. */
struct size passed_on(const char *call, size_t rows, size_t columns);

/* How many erased disks are left when no repair is allowed any more. */
size_t count_left(size_t rows, size_t columns, const uint8_t *map);

#endif
