/* Plan with counters: the erased disks of each stripe are counted once, and the counters kept as repairs are made. Two
   peers differ in what a fatal loss needs: the tuned one has the library's method, the other goes from row to row. */
#include "bridges.h"
#include "loop.h"
#include "tally.h"
#include "words.h"

static size_t load(struct tally *tally, size_t down, size_t across, const uint8_t *map)
{
    size_t erased = 0;
    uint8_t columns[STRIPE_MAX] = {0};
    memset(tally->on, 0, sizeof tally->on);
    memcpy(tally->left, map, down * across);
    for (size_t r = 0; r < down; r++) {
        uint8_t row = 0;
        for (size_t c = 0; c < across; c++) {
            row += map[r * across + c];
            columns[c] += map[r * across + c];
        }
        tally->on[r] = row;
        erased += row;
    }
    memcpy(tally->on + FIRST_COLUMN, columns, across);
    return erased;
}

/* A plan with these two calls for a fatal loss. */
static inline uint32_t plan_by(count_lost_call *count_lost, put_loop_call *put_loop, size_t rows, size_t columns,
                               const uint8_t *map, uint8_t *sheet, size_t sheet_len, size_t *count)
{
    struct tally tally;
    size_t erased = load(&tally, rows + 1, columns + 1, map);
    size_t made = list_repairs(&tally, rows + 1, columns + 1, erased, sheet, sheet_len);
    uint32_t others[STRIPES];
    *count = made;
    if (made == erased)
        return 0;
    load_words(others, rows + 1, columns + 1, tally.left);
    *count = count_lost(others, erased - made);
    put_loop(columns, others, sheet, sheet_len);
    return FATAL;
}

uint32_t tuned_plan(size_t rows, size_t columns, const uint8_t *map, size_t map_len, uint8_t *sheet, size_t sheet_len,
                    size_t *count)
{
    (void)map_len;
    return plan_by(count_lost_tuned, put_loop_tuned, rows, columns, map, sheet, sheet_len, count);
}

uint32_t rows_plan(size_t rows, size_t columns, const uint8_t *map, size_t map_len, uint8_t *sheet, size_t sheet_len,
                   size_t *count)
{
    (void)map_len;
    return plan_by(count_lost_rows, put_loop_rows, rows, columns, map, sheet, sheet_len, count);
}
