/* The disks that are left as words, for the tuned peers in C: for each stripe the stripes across it with which it shares
   such a disk, a bit for each. */
#ifndef WORDS_H
#define WORDS_H

#include "peer.h"

#include <string.h>

/* Eight bytes that are 0 or 1 as eight bits, the first one lowest. */
static inline uint32_t eight_bits(const uint8_t *bytes)
{
    uint64_t eight;
    memcpy(&eight, bytes, sizeof eight);
    return (uint32_t)((eight & 0x0101010101010101u) * 0x0102040810204080u >> 56);
}

/* A row is read as if it had 16 disks; what stands behind it is not taken. */
static inline void load_words(uint32_t others[STRIPES], size_t down, size_t across, const uint8_t left[DISKS_MAX])
{
    uint32_t whole = (1u << across) - 1;
    uint16_t columns[STRIPE_MAX] = {0};
    memset(others, 0, STRIPES * sizeof *others);
    for (size_t r = 0; r < down; r++) {
        const uint8_t *row = left + r * across;
        others[r] = ((eight_bits(row) | eight_bits(row + 8) << 8) & whole) << FIRST_COLUMN;
        for (size_t c = 0; c < STRIPE_MAX; c++)
            columns[c] |= (uint16_t)(row[c] << r);
    }
    for (size_t c = 0; c < across; c++)
        others[FIRST_COLUMN + c] = columns[c];
}

/* The lowest stripe of a set that is not empty. */
static inline size_t lowest(uint32_t set)
{
    return (size_t)__builtin_ctz(set);
}

/* The stripes that share a disk with one of a set. */
static inline uint32_t beside(const uint32_t others[STRIPES], uint32_t set)
{
    uint32_t found = 0;
    for (; set != 0; set &= set - 1)
        found |= others[lowest(set)];
    return found;
}

/* The disk in which two stripes cross. */
static inline size_t crossing(size_t across, size_t stripe, size_t other)
{
    return stripe < other ? stripe * across + other - FIRST_COLUMN : other * across + stripe - FIRST_COLUMN;
}

#endif
