/* The smallest loop row by row. From the lowest row of a loop two ways lead over higher rows until they meet. So for
   each row its columns are followed side by side, step by step, and no stripe is looked at twice. Where no loop is
   shorter, only one way leads to each stripe before two meet: so the lowest column whose way meets another, and the
   lowest that it meets, are on the loop that comes first, and only the stripe where they meet is left to choose. */
#include "loop.h"
#include "sheet.h"
#include "words.h"

/* What is known of a loop: its lowest row, the two columns of its disks there, the lower first, and in how many steps
   from the row both ways come to the stripe where they meet: half of the loop's disks. */
struct half_way {
    size_t row, first, second, steps;
};

/* The ways from the columns of a row: the column, and the stripes reached in the last step. */
struct ways {
    size_t count;
    uint8_t column[STRIPE_MAX];
    uint32_t front[STRIPE_MAX];
    /* The stripes that no way comes to any more. */
    uint32_t seen;
};

/* The row and all lower ones. */
static inline uint32_t up_to(size_t row)
{
    return (2u << row) - 1;
}

/* The first two steps: to the columns of a row, and to the higher rows with which they share a disk. Ways that end are
   dropped. Whether two of the others meet. */
static int start(struct ways *ways, const uint32_t others[STRIPES], size_t row)
{
    uint32_t once = 0, twice = 0;
    ways->count = 0;
    for (uint32_t columns = others[row]; columns != 0; columns &= columns - 1) {
        size_t column = lowest(columns);
        uint32_t front = others[column] & ~up_to(row);
        ways->column[ways->count] = (uint8_t)column;
        ways->front[ways->count] = front;
        ways->count += front != 0;
        twice |= once & front;
        once |= front;
    }
    ways->seen = others[row] | up_to(row) | once;
    return twice != 0;
}

/* One step more on each way, likewise. */
static int step(struct ways *ways, const uint32_t others[STRIPES])
{
    uint32_t once = 0, twice = 0;
    size_t count = 0;
    for (size_t i = 0; i < ways->count; i++) {
        uint32_t front = beside(others, ways->front[i]) & ~ways->seen;
        ways->column[count] = ways->column[i];
        ways->front[count] = front;
        count += front != 0;
        twice |= once & front;
        once |= front;
    }
    ways->count = count;
    ways->seen |= once;
    return twice != 0;
}

/* The lowest column whose way meets that of a higher one, and the lowest that it meets. */
static void choose_columns(const struct ways *ways, struct half_way *best)
{
    size_t first = 0, second;
    uint32_t higher = 0;
    for (size_t i = ways->count; i-- > 0; higher |= ways->front[i])
        if ((ways->front[i] & higher) != 0)
            first = i;
    second = first + 1;
    while ((ways->front[first] & ways->front[second]) == 0)
        second++;
    best->first = ways->column[first];
    best->second = ways->column[second];
}

/* Looks for a loop with this lowest row that is shorter than the best so far, which has more than four disks. */
static void search_row(const uint32_t others[STRIPES], size_t row, struct half_way *best)
{
    struct ways ways;
    size_t steps = 2;
    int meet = start(&ways, others, row);
    while (!meet && ways.count >= 2 && steps + 1 < best->steps) {
        meet = step(&ways, others);
        steps++;
    }
    if (meet) {
        best->row = row;
        best->steps = steps;
        choose_columns(&ways, best);
    }
}

/* The stripes to which a way leads from one column of the row, by steps, up to where it meets the other. */
static void follow(const uint32_t others[STRIPES], const struct half_way *best, size_t column, uint32_t *fronts)
{
    uint32_t seen = 1u << column | up_to(best->row);
    fronts[1] = 1u << column;
    for (size_t k = 2; k <= best->steps; k++) {
        fronts[k] = beside(others, fronts[k - 1]) & ~seen;
        seen |= fronts[k];
    }
}

/* The loop in which the ways meet at this stripe: its stripes from the row on, along the second column. */
static void trace(const uint32_t others[STRIPES], const struct half_way *best, const uint32_t *first,
                  const uint32_t *second, size_t middle, uint8_t *loop)
{
    size_t half = best->steps;
    loop[0] = (uint8_t)best->row;
    loop[half] = (uint8_t)middle;
    for (size_t k = half - 1; k > 0; k--) {
        loop[k] = (uint8_t)lowest(others[loop[k + 1]] & second[k]);
        loop[2 * half - k] = (uint8_t)lowest(others[loop[2 * half - k - 1]] & first[k]);
    }
}

/* For two loops of one length: whether the lowest of the disks that only one of them has is on the first. */
static int comes_first(size_t across, const uint8_t *loop, const uint8_t *other, size_t length)
{
    size_t lowest_here = DISKS_MAX, lowest_there = DISKS_MAX;
    for (size_t k = 1; k < length; k++) {
        size_t here = crossing(across, loop[k - 1], loop[k]), there = crossing(across, other[k - 1], other[k]);
        if (here == there)
            continue;
        lowest_here = here < lowest_here ? here : lowest_here;
        lowest_there = there < lowest_there ? there : lowest_there;
    }
    return lowest_here < lowest_there;
}

/* Of the loops with these two disks of their lowest row the first. Where they have four disks, it has the lowest other
   row. */
static void choose_loop(size_t across, const uint32_t others[STRIPES], const struct half_way *best, uint8_t *loop)
{
    uint32_t first[STRIPE_MAX + 1], second[STRIPE_MAX + 1], meeting;
    uint8_t other[STRIPES];
    follow(others, best, best->first, first);
    follow(others, best, best->second, second);
    meeting = first[best->steps] & second[best->steps];
    trace(others, best, first, second, lowest(meeting), loop);
    for (meeting &= best->steps > 2 ? meeting - 1 : 0; meeting != 0; meeting &= meeting - 1) {
        trace(others, best, first, second, lowest(meeting), other);
        if (comes_first(across, other, loop, 2 * best->steps))
            memcpy(loop, other, 2 * best->steps);
    }
}

void put_loop_rows(size_t columns, uint32_t others[STRIPES], uint8_t *sheet, size_t sheet_len)
{
    struct half_way best = {.steps = STRIPE_MAX + 1};
    uint8_t loop[STRIPES];
    size_t before;
    for (size_t row = 0; row < FIRST_COLUMN && best.steps > 2; row++)
        search_row(others, row, &best);
    choose_loop(columns + 1, others, &best, loop);
    put_kind(sheet, sheet_len, LOOP);
    before = loop[2 * best.steps - 1];
    for (size_t k = 0; k < 2 * best.steps; k++) {
        put_record(sheet, k, crossing(columns + 1, before, loop[k]), loop[k]);
        before = loop[k];
    }
}
