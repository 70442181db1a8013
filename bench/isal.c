/*
 * The peer that calls Intel's ISA-L. It wants aligned buffers, so it takes part where blocks are multiples of 32. Its
 * repairs are planned by the tuned peer.
 */
#include "peer.h"
#include "rebuild.h"

#include ISAL_HEADER

typedef int xor_function(int vectors, int length, void **array);

/* Applies a function of ISA-L to `count` stretches that stand `step` bytes apart; the last is the sum of the others. */
static int over(xor_function *function, const uint8_t *first, size_t step, size_t count, size_t length)
{
    void *stretches[STRIPE_MAX];
    for (size_t k = 0; k < count; k++)
        stretches[k] = (void *)(first + k * step);
    return function((int)count, (int)length, stretches);
}

static uint32_t seal_by(xor_function *function, size_t rows, size_t columns, size_t block, uint8_t *array)
{
    size_t row = (columns + 1) * block;
    for (size_t r = 0; r < rows; r++)
        over(function, array + r * row, block, columns + 1, block);
    over(function, array, row, rows + 1, row);
    return 0;
}

uint32_t isal_seal(size_t rows, size_t columns, size_t block, uint8_t *array, size_t array_len)
{
    (void)array_len;
    return seal_by(xor_gen, rows, columns, block, array);
}

uint32_t isal_sse_seal(size_t rows, size_t columns, size_t block, uint8_t *array, size_t array_len)
{
    (void)array_len;
    return seal_by(xor_gen_sse, rows, columns, block, array);
}

uint32_t isal_check(size_t rows, size_t columns, size_t block, const uint8_t *array, size_t array_len, size_t *stripe)
{
    size_t down = rows + 1, across = columns + 1, row = across * block, r = 0, c = 0;
    (void)array_len;
    while (r < down && over(xor_check, array + r * row, block, across, block) == 0)
        r++;
    if (r == down && over(xor_check, array, row, down, row) == 0)
        return SEALED;
    while (r == down && over(xor_check, array + c * block, row, down, block) == 0)
        c++;
    *stripe = r < down ? r : FIRST_COLUMN + c;
    return NOT_SEALED;
}

static void repair(uint8_t *first, size_t step, size_t count, size_t own, size_t block)
{
    void *blocks[STRIPE_MAX];
    size_t others = 0;
    for (size_t k = 0; k < count; k++)
        if (k != own)
            blocks[others++] = first + k * step;
    blocks[others] = first + own * step;
    xor_gen((int)count, (int)block, blocks);
}

uint32_t isal_rebuild(size_t rows, size_t columns, size_t block, uint8_t *array, size_t array_len, uint8_t *map,
                      size_t map_len, uint8_t *sheet, size_t sheet_len, size_t limit, size_t *count)
{
    return rebuild_by(tuned_plan, repair, isal_check, rows, columns, block, array, array_len, map, map_len, sheet,
                      sheet_len, limit, count);
}
