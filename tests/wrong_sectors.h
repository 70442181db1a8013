/*
 * The calls that take sectors, with a fault in what they make of several
 * positions. They stand before right ones: those of the archive, where
 * tests/wrong has them, or those of the fuzzer's model, where tests/fuzz/wrong
 * does.
 */
#ifndef WRONG_SECTORS_H
#define WRONG_SECTORS_H

#include <stddef.h>
#include <stdint.h>

/* The right ones. */
size_t right_look(size_t rows, size_t columns, size_t block,
                  const uint8_t *array, size_t array_len, size_t sector,
                  const uint8_t *map, size_t map_len,
                  size_t disk, size_t *offset);
uint32_t right_plan(size_t rows, size_t columns, size_t sectors,
                    const uint8_t *map, size_t map_len,
                    uint8_t *sheets, size_t sheets_len,
                    size_t *count, size_t *position);
uint32_t right_rebuild(size_t rows, size_t columns, size_t block,
                       uint8_t *array, size_t array_len, size_t sector,
                       uint8_t *map, size_t map_len,
                       uint8_t *sheets, size_t sheets_len,
                       size_t limit, size_t *count, size_t *position);
uint32_t right_follow(size_t rows, size_t columns, size_t block,
                      uint8_t *array, size_t array_len, size_t sector,
                      const uint8_t *map, size_t map_len,
                      const uint8_t *sheets, size_t sheets_len,
                      size_t *count);
uint32_t right_save(size_t rows, size_t columns, size_t block,
                    uint8_t *array, size_t array_len, size_t sector,
                    const uint8_t *map, size_t map_len, size_t *count);

/* Whether this is the fault that is wanted. */
int wrong(const char *name);

/* A call: what it is given, as far as it has it. What it only reads is cast to
   be written by no fault but those that are named so. */
struct cut {
    size_t rows, columns, block;
    uint8_t *array;
    size_t array_len, sector, sectors;
    uint8_t *map;
    size_t map_len;
    uint8_t *sheets;
    size_t sheets_len, limit, disk;
    size_t *count, *position;
};

/* Plan is given the number of sectors, the others their length. */
size_t look_in_sectors(struct cut c);
uint32_t plan_in_sectors(struct cut c);
uint32_t rebuild_in_sectors(struct cut c);
uint32_t follow_in_sectors(struct cut c);
uint32_t save_in_sectors(struct cut c);

#endif
