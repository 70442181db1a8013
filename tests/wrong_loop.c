/*
 * The loop of a fatal loss with the one fault that is wanted, or none: another
 * choice among its loops, or another listing of the right one. The calls that
 * show a loop share these faults, so that their sheets are the same.
 * tests/wrong and tests/fuzz/wrong take the faults' names from the calls of
 * `wrong` below.
 */
#include <string.h>

#include "loop.h"
#include "raid2d.h"
#include "wrong_loop.h"

enum {
    BYTES = RAID2D_SHEET_BYTES,
    DISKS = RAID2D_DISKS(RAID2D_SIDE_MAX, RAID2D_SIDE_MAX),
    COLUMN = RAID2D_COLUMN_STRIPE,
    STRIPES = 32
};

/* To try loops that are longer than the shortest takes too long where more
   disks are erased. */
enum { FEW = 20 };

static size_t disks_of(const struct loss_at *loss)
{
    return RAID2D_DISKS(loss->rows, loss->columns);
}

static size_t row_of(const struct loss_at *loss, size_t disk)
{
    return disk / (loss->columns + 1);
}

static size_t column_of(const struct loss_at *loss, size_t disk)
{
    return COLUMN + disk % (loss->columns + 1);
}

static int has_few(const struct loss_at *loss)
{
    size_t erased = 0, disk;

    for (disk = 0; disk < disks_of(loss); disk++)
        erased += loss->map[disk];
    return erased <= FEW;
}

/* ---- Another order of equal loops ---- */

/* What two loops of equal length are compared by, number by number: the one
   with the lower number comes first. */
typedef void keys(const struct loss_at *loss, const struct loop *loop,
                  long key[LOOP_MOST]);

static void from_the_last(const struct loss_at *loss, const struct loop *loop,
                          long key[LOOP_MOST])
{
    size_t numbers[LOOP_MOST], i;

    (void)loss;
    ascending(loop, numbers);
    for (i = 0; i < loop->length; i++)
        key[i] = -(long)numbers[i];
}

static void from_the_highest(const struct loss_at *loss,
                             const struct loop *loop, long key[LOOP_MOST])
{
    size_t numbers[LOOP_MOST], i;

    (void)loss;
    ascending(loop, numbers);
    for (i = 0; i < loop->length; i++)
        key[i] = (long)numbers[loop->length - 1 - i];
}

static void as_listed(const struct loss_at *loss, const struct loop *loop,
                      long key[LOOP_MOST])
{
    size_t i;

    (void)loss;
    for (i = 0; i < loop->length; i++)
        key[i] = (long)loop->disk[i];
}

/* The first disk, and then from the last one on. */
static void as_listed_backwards(const struct loss_at *loss,
                                const struct loop *loop, long key[LOOP_MOST])
{
    size_t i;

    (void)loss;
    for (i = 0; i < loop->length; i++)
        key[i] = (long)loop->disk[(loop->length - i) % loop->length];
}

/* The numbers that the disks had if they went down the columns. */
static void by_columns(const struct loss_at *loss, const struct loop *loop,
                       long key[LOOP_MOST])
{
    struct loop turned = *loop;
    size_t numbers[LOOP_MOST], i;

    for (i = 0; i < loop->length; i++)
        turned.disk[i] = (column_of(loss, loop->disk[i]) - COLUMN)
                             * (loss->rows + 1)
                         + row_of(loss, loop->disk[i]);
    ascending(&turned, numbers);
    for (i = 0; i < loop->length; i++)
        key[i] = (long)numbers[i];
}

/* All rows that are touched, then all columns. */
static void by_stripes(const struct loss_at *loss, const struct loop *loop,
                       long key[LOOP_MOST])
{
    struct loop stripes = *loop;
    size_t numbers[LOOP_MOST], i;

    for (i = 0; i < loop->length; i++)
        stripes.disk[i] = i % 2 == 0 ? row_of(loss, loop->disk[i])
                                     : column_of(loss, loop->disk[i]);
    ascending(&stripes, numbers);
    for (i = 0; i < loop->length; i++)
        key[i] = (long)numbers[i];
}

static void by_sum(const struct loss_at *loss, const struct loop *loop,
                   long key[LOOP_MOST])
{
    size_t numbers[LOOP_MOST], i;

    (void)loss;
    ascending(loop, numbers);
    key[0] = (long)numbers[0];
    for (i = 1; i < loop->length; i++) {
        key[0] += (long)numbers[i];
        key[i] = (long)numbers[i - 1];
    }
}

/* Numbers from 128 on count as lower than all others. */
static void as_signed(const struct loss_at *loss, const struct loop *loop,
                      long key[LOOP_MOST])
{
    size_t numbers[LOOP_MOST], i;

    (void)loss;
    ascending(loop, numbers);
    for (i = 0; i < loop->length; i++)
        key[i] = (long)numbers[i] - (numbers[i] >= 128 ? 256 : 0);
}

/* The highest of the first disks, and then as it should be. */
static void by_a_later_first(const struct loss_at *loss,
                             const struct loop *loop, long key[LOOP_MOST])
{
    size_t numbers[LOOP_MOST], i;

    (void)loss;
    ascending(loop, numbers);
    key[0] = -(long)numbers[0];
    for (i = 1; i < loop->length; i++)
        key[i] = (long)numbers[i];
}

/* The first two disks only; what comes after that stays as it is found. */
static void by_two(const struct loss_at *loss, const struct loop *loop,
                   long key[LOOP_MOST])
{
    size_t numbers[LOOP_MOST];

    (void)loss;
    memset(key, 0, LOOP_MOST * sizeof *key);
    ascending(loop, numbers);
    key[0] = (long)numbers[0];
    key[1] = (long)numbers[1];
}

static keys *wrong_keys(void)
{
    if (wrong("shows the last of equal loops"))
        return from_the_last;
    if (wrong("compares equal loops from their highest disk"))
        return from_the_highest;
    if (wrong("compares equal loops as they are listed"))
        return as_listed;
    if (wrong("compares equal loops as they are listed backwards"))
        return as_listed_backwards;
    if (wrong("compares equal loops by columns"))
        return by_columns;
    if (wrong("compares the stripes of equal loops"))
        return by_stripes;
    if (wrong("compares the sums of equal loops"))
        return by_sum;
    if (wrong("compares numbers of disks with a sign"))
        return as_signed;
    if (wrong("lets a later disk win among equal loops"))
        return by_a_later_first;
    if (wrong("compares the lowest two disks of equal loops"))
        return by_two;
    return NULL;
}

/* The first so far in such an order. */
struct choice {
    const struct loss_at *loss;
    keys *keys;
    struct loop best;
};

static void keep_by_keys(const struct loop *loop, void *kept)
{
    struct choice *c = kept;
    long of_best[LOOP_MOST], of_this[LOOP_MOST];
    size_t i = 0;

    if (c->best.length > 0) {
        c->keys(c->loss, &c->best, of_best);
        c->keys(c->loss, loop, of_this);
        while (i < loop->length && of_best[i] == of_this[i])
            i++;
    }
    if (c->best.length == 0 || (i < loop->length && of_this[i] < of_best[i]))
        c->best = *loop;
}

/* The first of all loops with so many disks. */
static struct loop first_by(const struct loss_at *loss, size_t length,
                            keys *keys)
{
    struct choice c = { loss, keys, { 0, { 0 } } };
    size_t first;

    for (first = 0; first < disks_of(loss); first++)
        each_loop_from(loss, first, length, keep_by_keys, &c);
    return c.best;
}

/* ---- Longer loops ---- */

static void keep_first(const struct loop *loop, void *kept)
{
    struct loop *best = kept;

    if (best->length == 0 || comes_first(loop, best))
        *best = *loop;
}

/* The numbers of one loop come before those of another, whatever their lengths
   are. */
static int is_earlier(const struct loop *one, const struct loop *two)
{
    size_t of_one[LOOP_MOST], of_two[LOOP_MOST], i = 0;

    ascending(one, of_one);
    ascending(two, of_two);
    while (of_one[i] == of_two[i] && i + 1 < one->length
           && i + 1 < two->length)
        i++;
    return of_one[i] < of_two[i];
}

static void keep_earliest(const struct loop *loop, void *kept)
{
    struct loop *best = kept;

    if (best->length == 0 || is_earlier(loop, best))
        *best = *loop;
}

/* Of all loops that begin with the lowest disk on any, the shortest, or the
   earliest. */
static struct loop loop_of_lowest(const struct loss_at *loss, int earliest)
{
    struct loop best = { 0, { 0 } };
    size_t first, length;

    for (first = 0; first < disks_of(loss) && best.length == 0; first++)
        for (length = LOOP_LEAST; length <= LOOP_MOST; length += 2)
            if (earliest || best.length == 0)
                each_loop_from(loss, first, length,
                               earliest ? keep_earliest : keep_first, &best);
    return best;
}

/* The first of the loops with two disks more, if there is one. */
static struct loop longer_loop(const struct loss_at *loss,
                               const struct loop *right)
{
    struct loop best = { 0, { 0 } };
    size_t first;

    for (first = 0; first < disks_of(loss) && best.length == 0; first++)
        if (right->length < LOOP_MOST)
            each_loop_from(loss, first, right->length + 2, keep_first, &best);
    return best.length > 0 ? best : *right;
}

/* Only loops that hold a disk. */
struct holding {
    size_t disk;
    struct loop best;
};

static void keep_holding(const struct loop *loop, void *kept)
{
    struct holding *h = kept;
    size_t i = 0;

    while (i < loop->length && loop->disk[i] != h->disk)
        i++;
    if (i < loop->length)
        keep_first(loop, &h->best);
}

void show_loop_through(size_t rows, size_t columns, const uint8_t *map,
                       size_t disk, uint8_t *sheet)
{
    const struct loss_at loss = { rows, columns, map };
    struct holding h = { disk, { 0, { 0 } } };
    size_t length, first;

    for (length = LOOP_LEAST; has_few(&loss) && length <= LOOP_MOST;
         length += 2)
        for (first = 0; first < disks_of(&loss) && h.best.length == 0; first++)
            each_loop_from(&loss, first, length, keep_holding, &h);
    if (h.best.length > 0)
        list_loop(&loss, &h.best, sheet);
}

/* ---- Other ways to a loop ---- */

/* Disks are left out, the highest first or the lowest first, as long as a loop
   remains. */
static struct loop after_dropping(const struct loss_at *loss, int highest)
{
    size_t disks = disks_of(loss), i;
    uint8_t map[DISKS];
    struct loss_at rest = { loss->rows, loss->columns, map };

    memcpy(map, loss->map, disks);
    for (i = 0; i < disks; i++) {
        uint8_t *disk = &map[highest ? disks - 1 - i : i], erased = *disk;

        *disk = 0;
        if (erased)
            *disk = smallest_loop(&rest).length == 0;
    }
    return smallest_loop(&rest);
}

/* Which disk leads to each stripe first, level by level from one stripe on,
   over the disks above this one. */
static void find_ways(const struct loss_at *loss, size_t above, size_t from,
                      size_t by[STRIPES])
{
    uint8_t reached[STRIPES] = { 0 };
    size_t level, disk;

    reached[from] = 1;
    for (level = 1; level < LOOP_MOST; level++)
        for (disk = above + 1; disk < disks_of(loss); disk++) {
            size_t r = row_of(loss, disk), c = column_of(loss, disk);
            int by_row = reached[r] == level && !reached[c];

            if (loss->map[disk]
                && (by_row || (reached[c] == level && !reached[r]))) {
                reached[by_row ? c : r] = (uint8_t)(level + 1);
                by[by_row ? c : r] = disk;
            }
        }
}

/* A loop with the first disk of the right one: from its row to its column by
   these ways, or from its column to its row. */
static struct loop first_way(const struct loss_at *loss,
                             const struct loop *right, int back)
{
    size_t first = right->disk[0], by[STRIPES] = { 0 }, way[LOOP_MOST];
    size_t row = row_of(loss, first), column = column_of(loss, first);
    size_t from = back ? column : row, to = back ? row : column, count, k;
    struct loop loop = { 1, { first } };

    find_ways(loss, first, from, by);
    for (count = 0; to != from; count++) {
        way[count] = by[to];
        to = row_of(loss, by[to]) + column_of(loss, by[to]) - to;
    }
    for (k = 0; k < count; k++)
        loop.disk[loop.length++] = way[back ? k : count - 1 - k];
    return loop;
}

/* The lowest other disk of a stripe that is left on a map. */
static size_t next_on(const struct loss_at *loss, size_t disk, int along_row)
{
    size_t other;

    for (other = 0; other < disks_of(loss); other++)
        if (other != disk && loss->map[other]
            && (along_row ? row_of(loss, other) == row_of(loss, disk)
                          : column_of(loss, other) == column_of(loss, disk)))
            return other;
    return disk;
}

/* From the first disk of the right loop always to the lowest disk that shares
   the stripe, until it comes again or no record is left. */
static struct loop walk_on(const struct loss_at *loss,
                           const struct loop *right)
{
    struct loop walk = { 1, { right->disk[0] } };

    while (walk.length < LOOP_MOST) {
        size_t next = next_on(loss, walk.disk[walk.length - 1],
                              walk.length % 2 == 1);

        if (next == walk.disk[0])
            break;
        walk.disk[walk.length++] = next;
    }
    return walk;
}

/* ---- The loop that is shown ---- */

static struct loop wrong_loop(const struct loss_at *loss,
                              const struct loop *right)
{
    keys *keys = wrong_keys();

    if (keys != NULL)
        return first_by(loss, right->length, keys);
    if (wrong("keeps the first way from row to column"))
        return first_way(loss, right, 0);
    if (wrong("keeps the first way from column to row"))
        return first_way(loss, right, 1);
    if (wrong("drops the highest disks while a loop remains"))
        return after_dropping(loss, 1);
    if (wrong("drops the lowest disks while a loop remains"))
        return after_dropping(loss, 0);
    if (wrong("shows a walk that is not cut"))
        return walk_on(loss, right);
    if (!has_few(loss))
        return *right;
    if (wrong("shows the shortest loop of the lowest disk on one"))
        return loop_of_lowest(loss, 0);
    if (wrong("shows the earliest loop of any length"))
        return loop_of_lowest(loss, 1);
    if (wrong("shows a loop of two disks more"))
        return longer_loop(loss, right);
    return *right;
}

/* The loop from its second disk on, back to the first along its row. */
static struct loop from_the_second(const struct loop *loop)
{
    struct loop other = *loop;
    size_t k;

    for (k = 0; k < loop->length; k++)
        other.disk[k] = loop->disk[(loop->length + 1 - k) % loop->length];
    return other;
}

/* Another listing. */
static void spoil_listing(const struct loss_at *loss, const struct loop *loop,
                          uint8_t *sheet)
{
    struct loop second = from_the_second(loop);
    size_t last = loop->length, k;

    if (wrong("begins a loop with its second disk"))
        list_loop(loss, &second, sheet);
    for (k = 1; k <= last && wrong("leaves a loop's first disk by its column");
         k++) {
        size_t disk = loop->disk[(last + 1 - k) % last];

        sheet[3 * k - 1] = (uint8_t)disk;
        sheet[3 * k] = (uint8_t)(k % 2 == 1 ? column_of(loss, disk)
                                            : row_of(loss, disk));
    }
    if (wrong("swaps rows and columns of a loop"))
        sheet[3] ^= COLUMN;
    if (wrong("numbers a loop's records in a ring"))
        sheet[3 * last + 1] = 1;
    if (wrong("leaves the bytes behind a loop") && last < LOOP_MOST)
        sheet[BYTES - 1] = 1;
    if (wrong("leaves out record 32 of a loop") && last == LOOP_MOST)
        memset(sheet + BYTES - 4, 0, 4);
    if (wrong("shows one stock loop"))
        memcpy(sheet, "\2\1\0\0\2\1\21\3\4\1\4\3\20", 14);
}

/* The loop that a sheet shows. */
static struct loop read_loop(const uint8_t *sheet)
{
    struct loop loop = { 0, { 0 } };
    size_t k;

    for (k = sheet[1]; k != 0 && loop.length < LOOP_MOST; k = sheet[3 * k + 1])
        loop.disk[loop.length++] = sheet[3 * k - 1];
    return loop;
}

void spoil_loop(size_t rows, size_t columns, size_t sectors,
                const uint8_t *map, size_t position, uint8_t *sheets)
{
    uint8_t *sheet = sheets + position * BYTES, column[DISKS];
    const struct loss_at loss = { rows, columns, column };
    struct loop right = read_loop(sheet), shown;
    size_t disk;

    for (disk = 0; disk < disks_of(&loss); disk++)
        column[disk] = map[disk * sectors + position];
    shown = wrong_loop(&loss, &right);
    if (memcmp(&shown, &right, sizeof right) != 0)
        list_loop(&loss, &shown, sheet);
    spoil_listing(&loss, &shown, sheet);
}
