/* Counters for the planners in C: the erased disks of each stripe, kept as repairs are made. */
#ifndef TALLY_H
#define TALLY_H

#include "sheet.h"

struct tally {
    uint8_t left[DISKS_MAX];
    /* How many of them each stripe has. */
    uint8_t on[STRIPES];
};

/* The column of the lowest disk of a row that can be repaired, or the number of disks in it. */
static inline size_t in_row(const struct tally *tally, size_t across, size_t row)
{
    const uint8_t *left = tally->left + row * across, *columns = tally->on + FIRST_COLUMN;
    int only = tally->on[row] == 1;
    size_t c = 0;
    while (c < across && (left[c] & (only | (columns[c] == 1))) == 0)
        c++;
    return c;
}

/* Makes the next repair and records it; false where there is none. */
static inline int next_repair(struct tally *tally, size_t down, size_t across, uint8_t *sheet, size_t made)
{
    for (size_t r = 0; r < down; r++) {
        size_t c = tally->on[r] == 0 ? across : in_row(tally, across, r);
        if (c == across)
            continue;
        put_record(sheet, made, r * across + c, tally->on[r] == 1 ? r : FIRST_COLUMN + c);
        tally->left[r * across + c] = 0;
        tally->on[r]--;
        tally->on[FIRST_COLUMN + c]--;
        return 1;
    }
    return 0;
}

/* Lists repairs until `most` are made or none is allowed any more, and says how many. */
static inline size_t list_repairs(struct tally *tally, size_t down, size_t across, size_t most, uint8_t *sheet,
                                  size_t sheet_len)
{
    size_t made = 0;
    put_kind(sheet, sheet_len, REPAIRS);
    while (made < most && next_repair(tally, down, across, sheet, made))
        made++;
    return made;
}

#endif
