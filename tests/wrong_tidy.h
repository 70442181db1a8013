/*
 * Follow and tidy with a fault in what they make of a sheet. They stand before
 * right ones: those of the archive, where tests/wrong has them, or those of the
 * fuzzer's model, where tests/fuzz/wrong does.
 */
#ifndef WRONG_TIDY_H
#define WRONG_TIDY_H

#include <stddef.h>
#include <stdint.h>

/* The right ones. */
uint32_t right_follow(size_t rows, size_t columns, size_t block,
                      uint8_t *array, size_t array_len, size_t sector,
                      const uint8_t *map, size_t map_len,
                      const uint8_t *sheets, size_t sheets_len,
                      size_t *count);
uint32_t right_tidy(uint8_t *sheet, size_t sheet_len);

/* Whether this is the fault that is wanted. */
int wrong(const char *name);

/* With blocks as one sector. */
uint32_t follow_wrongly(size_t rows, size_t columns, size_t block,
                        uint8_t *array, size_t array_len,
                        const uint8_t *map, size_t map_len,
                        const uint8_t *sheet, size_t sheet_len, size_t *count);
uint32_t tidy_wrongly(uint8_t *sheet, size_t sheet_len);

#endif
