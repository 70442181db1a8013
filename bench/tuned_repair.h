/* The repair of the tuned peer, which sums in a local array, as its other sums do. */
#ifndef TUNED_REPAIR_H
#define TUNED_REPAIR_H

#include <stddef.h>
#include <stdint.h>
#include <string.h>

enum { STRETCH = 256 };

/* Sets `sum` to the sum of all stretches but number `own`. */
static inline void sum_others(uint8_t sum[STRETCH], const uint8_t *first, size_t step, size_t count, size_t own,
                              size_t width)
{
    size_t start = own == 0 ? 1 : 0;
    memcpy(sum, first + start * step, width);
    for (size_t k = start + 1; k < count; k++) {
        if (k == own)
            continue;
        for (size_t i = 0; i < width; i++)
            sum[i] ^= first[k * step + i];
    }
}

/* Sets stretch number `own` of `count` that stand `step` bytes apart to the sum of the others. */
static void repair(uint8_t *first, size_t step, size_t count, size_t own, size_t length)
{
    uint8_t sum[STRETCH], *to = first + own * step;
    size_t at = 0;
    for (; length - at >= STRETCH; at += STRETCH) {
        sum_others(sum, first + at, step, count, own, STRETCH);
        memcpy(to + at, sum, STRETCH);
    }
    if (at < length) {
        sum_others(sum, first + at, step, count, own, length - at);
        memcpy(to + at, sum, length - at);
    }
}

#endif
