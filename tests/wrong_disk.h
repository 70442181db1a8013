/*
 * plan_disk with a fault in its list, its refusals or what it leaves. It stands
 * before a right one: that of the archive, where tests/wrong has it, or that of
 * the fuzzer's model, where tests/fuzz/wrong does.
 */
#ifndef WRONG_DISK_H
#define WRONG_DISK_H

#include <stddef.h>
#include <stdint.h>

/* The right one. */
uint32_t right_plan_disk(size_t rows, size_t columns,
                         const uint8_t *map, size_t map_len,
                         uint8_t *sheet, size_t sheet_len,
                         size_t disk, size_t *count);

/* Whether this is the fault that is wanted. */
int wrong(const char *name);

uint32_t plan_disk_wrongly(size_t rows, size_t columns,
                           const uint8_t *map, size_t map_len,
                           uint8_t *sheet, size_t sheet_len,
                           size_t disk, size_t *count);

#endif
