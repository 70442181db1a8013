/*
 * Lends a pointer that is not valid, for tests/archive, which looks at where a
 * debugger stops.
 */
#include "raid2d.h"

static uint32_t lend_badly(uint8_t *array)
{
    return raid2d_seal(2, 3, 64, array, RAID2D_ARRAY_BYTES(2, 3, 64));
}

int main(void)
{
    return (int)lend_badly((uint8_t *)64);
}
