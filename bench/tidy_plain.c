/* Tidy in the plainest way: walk the chain, mark the records seen, put each at the end of a blank sheet, copy that. */
#include "raid2d.h"
#include "sheet.h"

/* The sheet is blank by its initializer: of put_kind, for this length, gcc makes a slower `rep stos`. */
uint32_t plain_tidy(uint8_t *sheet, size_t sheet_len)
{
    uint8_t tidied[RAID2D_SHEET_BYTES] = {REPAIRS}, seen[RAID2D_SHEET_RECORDS + 1] = {0};
    size_t count = 0;
    (void)sheet_len;
    if (sheet[0] != REPAIRS)
        return RAID2D_ERR_CHAIN;
    for (size_t number = sheet[1]; number != 0; number = sheet[3 * number + 1]) {
        if (number > RAID2D_SHEET_RECORDS)
            return RAID2D_ERR_CHAIN;
        if (seen[number])
            return RAID2D_ERR_RING;
        seen[number] = 1;
        put_record(tidied, count++, sheet[3 * number - 1], sheet[3 * number]);
    }
    memcpy(sheet, tidied, sizeof tidied);
    return RAID2D_OK;
}
