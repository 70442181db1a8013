/*
 * The peer that a C programmer writes for speed: sums are kept in a local array of 256 bytes, which the compiler
 * knows to overlap nothing, and the last row is summed from whole rows. It is compiled twice, as `tuned` and as
 * `native`.
 */
#include "peer.h"
#include "rebuild.h"
#include "tuned_repair.h"

#include <string.h>

#define JOIN(peer, call) peer##_##call
#define NAME(peer, call) JOIN(peer, call)

/* Sets `sum`, a local array of the caller, to the sum of `count` stretches that stand `step` bytes apart. */
static inline void sum_stretches(uint8_t sum[STRETCH], const uint8_t *first, size_t step, size_t count, size_t width)
{
    memcpy(sum, first, width);
    for (size_t k = 1; k < count; k++)
        for (size_t i = 0; i < width; i++)
            sum[i] ^= first[k * step + i];
}

/* Sums the next stretch, by a loop of constant length where `left` allows a whole one, and gives its width. */
static inline size_t next_stretch(uint8_t sum[STRETCH], const uint8_t *first, size_t step, size_t count, size_t left)
{
    if (left >= STRETCH) {
        sum_stretches(sum, first, step, count, STRETCH);
        return STRETCH;
    }
    sum_stretches(sum, first, step, count, left);
    return left;
}

static void put_sum(uint8_t *to, const uint8_t *first, size_t step, size_t count, size_t length)
{
    uint8_t sum[STRETCH];
    for (size_t at = 0, width; at < length; at += width) {
        width = next_stretch(sum, first + at, step, count, length - at);
        memcpy(to + at, sum, width);
    }
}

static int is_zero(const uint8_t *first, size_t step, size_t count, size_t length)
{
    uint8_t sum[STRETCH];
    for (size_t at = 0, width; at < length; at += width) {
        uint8_t any = 0;
        width = next_stretch(sum, first + at, step, count, length - at);
        for (size_t i = 0; i < width; i++)
            any |= sum[i];
        if (any != 0)
            return 0;
    }
    return 1;
}

uint32_t NAME(PEER, seal)(size_t rows, size_t columns, size_t block, uint8_t *array, size_t array_len)
{
    size_t row = (columns + 1) * block;
    (void)array_len;
    for (size_t r = 0; r < rows; r++)
        put_sum(array + r * row + columns * block, array + r * row, block, columns, block);
    put_sum(array + rows * row, array, row, rows, row);
    return 0;
}

/* The lowest of `stripes` stripes whose sum is not zero, or their number. They begin `apart` bytes from each other and
   have `count` blocks that stand `step` bytes apart. */
static size_t lowest(size_t stripes, size_t apart, const uint8_t *array, size_t step, size_t count, size_t block)
{
    size_t s = 0;
    while (s < stripes && is_zero(array + s * apart, step, count, block))
        s++;
    return s;
}

uint32_t NAME(PEER, check)(size_t rows, size_t columns, size_t block, const uint8_t *array, size_t array_len,
                           size_t *stripe)
{
    size_t down = rows + 1, across = columns + 1, row = across * block;
    size_t found = lowest(down, row, array, block, across, block);
    (void)array_len;
    if (found < down) {
        *stripe = found;
        return NOT_SEALED;
    }
    if (is_zero(array, row, down, row))
        return SEALED;
    *stripe = FIRST_COLUMN + lowest(across, block, array, row, down, block);
    return NOT_SEALED;
}

/* The five blocks overlap nowhere, which restrict tells the compiler. */
static void store(uint8_t *restrict old, uint8_t *restrict row_parity, uint8_t *restrict column_parity,
                  uint8_t *restrict superparity, const uint8_t *restrict data, size_t block)
{
    for (size_t i = 0; i < block; i++) {
        uint8_t difference = old[i] ^ data[i];
        old[i] = data[i];
        row_parity[i] ^= difference;
        column_parity[i] ^= difference;
        superparity[i] ^= difference;
    }
}

uint32_t NAME(PEER, write)(size_t rows, size_t columns, size_t block, uint8_t *array, size_t array_len, size_t disk,
                           const uint8_t *data, size_t data_len)
{
    size_t across = columns + 1, r = disk / across, c = disk % across;
    (void)array_len, (void)data_len;
    store(array + disk * block, array + (r * across + columns) * block, array + (rows * across + c) * block,
          array + (rows * across + columns) * block, data, block);
    return 0;
}

uint32_t NAME(PEER, rebuild)(size_t rows, size_t columns, size_t block, uint8_t *array, size_t array_len, uint8_t *map,
                             size_t map_len, uint8_t *sheet, size_t sheet_len, size_t limit, size_t *count)
{
    return rebuild_by(tuned_plan, repair, NAME(PEER, check), rows, columns, block, array, array_len, map, map_len,
                      sheet, sheet_len, limit, count);
}
