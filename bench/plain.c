/* The peer that a C programmer writes first: byte loops over whole blocks, summed in place. */
#include "peer.h"
#include "rebuild.h"

#include <string.h>

static void xor_into(uint8_t *sum, const uint8_t *bytes, size_t length)
{
    for (size_t i = 0; i < length; i++)
        sum[i] ^= bytes[i];
}

/* Sets `sum` to the sum of `count` blocks that stand `step` bytes apart. */
static void sum_blocks(uint8_t *sum, const uint8_t *first, size_t step, size_t count, size_t block)
{
    memset(sum, 0, block);
    for (size_t k = 0; k < count; k++)
        xor_into(sum, first + k * step, block);
}

uint32_t plain_seal(size_t rows, size_t columns, size_t block, uint8_t *array, size_t array_len)
{
    size_t row = (columns + 1) * block;
    (void)array_len;
    for (size_t r = 0; r < rows; r++)
        sum_blocks(array + r * row + columns * block, array + r * row, block, columns, block);
    for (size_t c = 0; c <= columns; c++)
        sum_blocks(array + rows * row + c * block, array + c * block, row, rows, block);
    return 0;
}

/* Whether the sum of a stripe is zero at every place. */
static int is_zero(const uint8_t *first, size_t step, size_t count, size_t block)
{
    uint8_t sum[BLOCK_MAX];
    sum_blocks(sum, first, step, count, block);
    for (size_t i = 0; i < block; i++)
        if (sum[i] != 0)
            return 0;
    return 1;
}

uint32_t plain_check(size_t rows, size_t columns, size_t block, const uint8_t *array, size_t array_len, size_t *stripe)
{
    size_t row = (columns + 1) * block;
    (void)array_len;
    for (size_t r = 0; r <= rows; r++) {
        if (!is_zero(array + r * row, block, columns + 1, block)) {
            *stripe = r;
            return NOT_SEALED;
        }
    }
    for (size_t c = 0; c <= columns; c++) {
        if (!is_zero(array + c * block, row, rows + 1, block)) {
            *stripe = FIRST_COLUMN + c;
            return NOT_SEALED;
        }
    }
    return SEALED;
}

uint32_t plain_write(size_t rows, size_t columns, size_t block, uint8_t *array, size_t array_len, size_t disk,
                     const uint8_t *data, size_t data_len)
{
    size_t across = columns + 1, r = disk / across, c = disk % across;
    uint8_t difference[BLOCK_MAX];
    (void)array_len;
    memcpy(difference, data, data_len);
    xor_into(difference, array + disk * block, block);
    xor_into(array + disk * block, difference, block);
    xor_into(array + (r * across + columns) * block, difference, block);
    xor_into(array + (rows * across + c) * block, difference, block);
    xor_into(array + (rows * across + columns) * block, difference, block);
    return 0;
}

static void repair(uint8_t *first, size_t step, size_t count, size_t own, size_t block)
{
    memset(first + own * step, 0, block);
    for (size_t k = 0; k < count; k++)
        if (k != own)
            xor_into(first + own * step, first + k * step, block);
}

plan_call plain_plan;

uint32_t plain_rebuild(size_t rows, size_t columns, size_t block, uint8_t *array, size_t array_len, uint8_t *map,
                       size_t map_len, uint8_t *sheet, size_t sheet_len, size_t limit, size_t *count)
{
    return rebuild_by(plain_plan, repair, plain_check, rows, columns, block, array, array_len, map, map_len, sheet,
                      sheet_len, limit, count);
}
