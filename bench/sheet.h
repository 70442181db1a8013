/* Sheets as the peers in C write and read them: records in chain order. */
#ifndef SHEET_H
#define SHEET_H

#include "peer.h"

#include <string.h>

enum { REPAIRS = 1, LOOP = 2 };

static inline void put_kind(uint8_t *sheet, size_t sheet_len, uint8_t kind)
{
    memset(sheet, 0, sheet_len);
    sheet[0] = kind;
}

/* Record number k + 1 at the end of the chain. */
static inline void put_record(uint8_t *sheet, size_t k, size_t disk, size_t stripe)
{
    sheet[3 * k + 1] = (uint8_t)(k + 1);
    sheet[3 * k + 2] = (uint8_t)disk;
    sheet[3 * k + 3] = (uint8_t)stripe;
}

/* Only the first `count` records stay on the chain. */
static inline void cut_list(uint8_t *sheet, size_t sheet_len, size_t count)
{
    memset(sheet + 3 * count + 1, 0, sheet_len - (3 * count + 1));
}

static inline size_t disk_of(const uint8_t *sheet, size_t k)
{
    return sheet[3 * k + 2];
}

static inline size_t stripe_of(const uint8_t *sheet, size_t k)
{
    return sheet[3 * k + 3];
}

#endif
