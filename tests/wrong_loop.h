/*
 * The loop of a fatal loss, chosen or listed wrongly. It stands behind a call
 * that has shown the right one: of the archive, where tests/wrong has it, or of
 * the fuzzer's model, where tests/fuzz/wrong does.
 */
#ifndef WRONG_LOOP_H
#define WRONG_LOOP_H

#include <stddef.h>
#include <stdint.h>

/* Whether this is the fault that is wanted. */
int wrong(const char *name);

/* What becomes of the sheet of a position, out of so many, that is fatal. */
void spoil_loop(size_t rows, size_t columns, size_t sectors,
                const uint8_t *map, size_t position, uint8_t *sheets);

/* The sheet shows the smallest of the loops that hold this disk, if there is
   one and few disks are erased. */
void show_loop_through(size_t rows, size_t columns, const uint8_t *map,
                       size_t disk, uint8_t *sheet);

#endif
