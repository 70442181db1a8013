/* The smallest loop straight from its definition: for each disk the shortest way from its row to its column over higher
   disks, and of such ways the one whose disks come first. */
#include "loop.h"
#include "sheet.h"

/* The ways from the row of a disk: in how many steps each stripe is reached, and by which disks, a byte for each. Of
   equal ways that with the lowest disk in which they differ is kept. A stripe not yet reached has STRIPES steps. */
struct ways {
    size_t steps[STRIPES];
    uint8_t on[STRIPES][DISKS_MAX];
};

/* Goes from one stripe of a disk to the other, if that is not reached by another way that is shorter or comes first. */
static void go(struct ways *ways, size_t disk, size_t from, size_t to, size_t step)
{
    uint8_t on[DISKS_MAX];
    if (ways->steps[from] != step - 1 || ways->steps[to] < step)
        return;
    memcpy(on, ways->on[from], sizeof on);
    on[disk] = 1;
    if (ways->steps[to] > step || memcmp(on, ways->on[to], sizeof on) > 0)
        memcpy(ways->on[to], on, sizeof on);
    ways->steps[to] = step;
}

/* Finds the ways over the disks above the first up to its column, or to so many steps, and says in how many. */
static size_t find_ways(struct ways *ways, size_t across, const uint8_t *left, size_t disks, size_t first, size_t most)
{
    size_t row = first / across, column = FIRST_COLUMN + first % across;
    for (size_t s = 0; s < STRIPES; s++)
        ways->steps[s] = STRIPES;
    ways->steps[row] = 0;
    memset(ways->on[row], 0, DISKS_MAX);
    ways->on[row][first] = 1;
    for (size_t step = 1; step <= most && ways->steps[column] == STRIPES; step++) {
        for (size_t d = first + 1; d < disks; d++) {
            if (left[d] == 0)
                continue;
            go(ways, d, d / across, FIRST_COLUMN + d % across, step);
            go(ways, d, FIRST_COLUMN + d % across, d / across, step);
        }
    }
    return ways->steps[column];
}

/* The other disk of the loop on a stripe. */
static size_t partner(size_t across, const uint8_t *loop, size_t disk, size_t stripe)
{
    size_t step = stripe < FIRST_COLUMN ? 1 : across;
    size_t at = stripe < FIRST_COLUMN ? stripe * across : stripe - FIRST_COLUMN;
    while (loop[at] == 0 || at == disk)
        at += step;
    return at;
}

/* From the lowest disk along its row, then along a column, and so on in turn. */
static void put_disks(size_t across, const uint8_t *loop, size_t first, size_t length, uint8_t *sheet)
{
    size_t disk = first;
    for (size_t k = 0; k < length; k++) {
        size_t stripe = k % 2 == 0 ? disk / across : FIRST_COLUMN + disk % across;
        put_record(sheet, k, disk, stripe);
        disk = partner(across, loop, disk, stripe);
    }
}

void put_loop_plain(size_t columns, const uint8_t *left, size_t disks, uint8_t *sheet, size_t sheet_len)
{
    struct ways ways;
    uint8_t loop[DISKS_MAX];
    size_t across = columns + 1, first = 0, best = STRIPES;
    /* No loop has less than four disks. */
    for (size_t d = 0; d < disks && best > 3; d++) {
        size_t steps = left[d] == 0 ? STRIPES : find_ways(&ways, across, left, disks, d, best - 1);
        if (steps < best) {
            best = steps;
            first = d;
            memcpy(loop, ways.on[FIRST_COLUMN + d % across], sizeof loop);
        }
    }
    put_kind(sheet, sheet_len, LOOP);
    put_disks(across, loop, first, best + 1, sheet);
}
