/*
 * The loop that the sheet of a fatal loss shows: loop.h has what each function
 * is for. Written from the order's words, and from nothing of the library.
 */
#include <string.h>

#include "loop.h"

enum { SIDES = 16, SHEET_BYTES = 98, CYCLE = 2 };

/* A list that may become a loop, and how many of its disks each row and each
   column holds. */
struct search {
    const struct loss_at *loss;
    struct loop list;
    size_t wanted;
    size_t on_row[SIDES], on_column[SIDES];
    loop_visit *visit;
    void *kept;
};

static size_t row_of(const struct loss_at *loss, size_t disk)
{
    return disk / (loss->columns + 1);
}

static size_t column_of(const struct loss_at *loss, size_t disk)
{
    return disk % (loss->columns + 1);
}

static void put(struct search *s, size_t disk)
{
    s->list.disk[s->list.length++] = disk;
    s->on_row[row_of(s->loss, disk)]++;
    s->on_column[column_of(s->loss, disk)]++;
}

static void take_back(struct search *s)
{
    size_t disk = s->list.disk[--s->list.length];

    s->on_row[row_of(s->loss, disk)]--;
    s->on_column[column_of(s->loss, disk)]--;
}

/* The disk can be the next of the list: it is erased, the first one is lower,
   it is not the last one itself, and no stripe then holds three. */
static int can_follow(const struct search *s, size_t disk)
{
    return s->loss->map[disk] == 1 && disk > s->list.disk[0]
           && disk != s->list.disk[s->list.length - 1]
           && s->on_row[row_of(s->loss, disk)] < 2
           && s->on_column[column_of(s->loss, disk)] < 2;
}

/* Tries each disk that can be the next: on the row of the last one behind the
   first disk, the third and so on, else on its column. The list is a loop if
   the last one shares a column with the first. */
static void go_on(struct search *s)
{
    const struct loss_at *loss = s->loss;
    size_t last = s->list.disk[s->list.length - 1];
    size_t row = row_of(loss, last), column = column_of(loss, last);
    int along_row = s->list.length % 2 == 1;
    size_t most = along_row ? loss->columns : loss->rows, i;

    if (s->list.length == s->wanted) {
        if (column == column_of(loss, s->list.disk[0]))
            s->visit(&s->list, s->kept);
        return;
    }
    for (i = 0; i <= most; i++) {
        size_t disk = along_row ? row * (loss->columns + 1) + i
                                : i * (loss->columns + 1) + column;

        if (can_follow(s, disk)) {
            put(s, disk);
            go_on(s);
            take_back(s);
        }
    }
}

void each_loop_from(const struct loss_at *loss, size_t first, size_t length,
                    loop_visit *visit, void *kept)
{
    struct search s = { loss, { 0, { 0 } }, length, { 0 }, { 0 }, visit,
                        kept };

    if (loss->map[first] != 1)
        return;
    put(&s, first);
    go_on(&s);
}

void ascending(const struct loop *loop, size_t numbers[LOOP_MOST])
{
    size_t i, k;

    for (i = 0; i < loop->length; i++) {
        for (k = i; k > 0 && numbers[k - 1] > loop->disk[i]; k--)
            numbers[k] = numbers[k - 1];
        numbers[k] = loop->disk[i];
    }
}

int comes_first(const struct loop *one, const struct loop *two)
{
    size_t of_one[LOOP_MOST], of_two[LOOP_MOST], i = 0;

    ascending(one, of_one);
    ascending(two, of_two);
    while (i < one->length && of_one[i] == of_two[i])
        i++;
    return i < one->length && of_one[i] < of_two[i];
}

static void keep_first(const struct loop *loop, void *kept)
{
    struct loop *best = kept;

    if (best->length == 0 || comes_first(loop, best))
        *best = *loop;
}

/* Loops that are longer, or that begin with a higher disk, come later. */
struct loop smallest_loop(const struct loss_at *loss)
{
    size_t disks = (loss->rows + 1) * (loss->columns + 1), length, first;
    struct loop best = { 0, { 0 } };

    for (length = LOOP_LEAST; length <= LOOP_MOST; length += 2)
        for (first = 0; first < disks && best.length == 0; first++)
            each_loop_from(loss, first, length, keep_first, &best);
    return best;
}

int closes_rectangle(const struct loss_at *loss, size_t disk)
{
    size_t across = loss->columns + 1, low, right;
    size_t row = row_of(loss, disk), column = column_of(loss, disk);

    for (low = 0; low <= loss->rows; low++)
        for (right = 0; right <= loss->columns; right++)
            if (low != row && right != column
                && loss->map[row * across + right] == 1
                && loss->map[low * across + column] == 1
                && loss->map[low * across + right] == 1)
                return 1;
    return 0;
}

/* The number of record k stands in the record before it, and that of record 1
   as far before it, at byte 1. */
void list_loop(const struct loss_at *loss, const struct loop *loop,
               uint8_t *sheet)
{
    size_t k;

    memset(sheet, 0, SHEET_BYTES);
    sheet[0] = CYCLE;
    for (k = 1; k <= loop->length; k++) {
        size_t disk = loop->disk[k - 1];
        size_t stripe = k % 2 == 1 ? row_of(loss, disk)
                                   : SIDES + column_of(loss, disk);

        sheet[3 * k - 2] = (uint8_t)k;
        sheet[3 * k - 1] = (uint8_t)disk;
        sheet[3 * k] = (uint8_t)stripe;
    }
}
