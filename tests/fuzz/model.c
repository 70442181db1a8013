/*
 * The model: what plan, plan_disk, follow, rebuild, save, look and tidy must
 * answer. Written from the order's words, and from nothing of the library.
 */
#include <string.h>

#include "../loop.h"
#include "model.h"

/* The refusals, by the order's numbers. */
enum {
    DONE = 0,
    WRONG_SIDE = 1,
    WRONG_BLOCK = 2,
    WRONG_ARRAY = 3,
    WRONG_MAP = 4,
    WRONG_SHEET = 5,
    FATAL = 6,
    CONTRADICTION = 7,
    BROKEN_CHAIN = 10,
    NOT_ALLOWED = 11,
    WRONG_LIMIT = 12,
    REACHED_TWICE = 13,
    LEFTOVERS = 14,
    NOT_WANTED = 15,
    WRONG_SECTOR = 16
};

/* ---- the grid */

int grid_fits(struct grid g)
{
    return g.rows >= 2 && g.rows <= SIDE_MAX &&
           g.columns >= 2 && g.columns <= SIDE_MAX;
}

size_t disks_of(struct grid g)
{
    return (g.rows + 1) * (g.columns + 1);
}

size_t disk_at(struct grid g, size_t row, size_t column)
{
    return row * (g.columns + 1) + column;
}

size_t row_of(struct grid g, size_t disk)
{
    return disk / (g.columns + 1);
}

size_t column_of(struct grid g, size_t disk)
{
    return COLUMN_STRIPE + disk % (g.columns + 1);
}

int on_stripe(struct grid g, size_t disk, size_t stripe)
{
    if (stripe < COLUMN_STRIPE)
        return row_of(g, disk) == stripe;
    return column_of(g, disk) == stripe;
}

static int has_stripe(struct grid g, size_t stripe)
{
    if (stripe < COLUMN_STRIPE)
        return stripe <= g.rows;
    return stripe - COLUMN_STRIPE <= g.columns;
}

/* The disks of a stripe: how many, the first, and how far it is from each to
   the next. */
struct stripe {
    size_t length, first, step;
};

/* A row has a disk for each column, and a column one for each row. */
static struct stripe stripe_of(struct grid g, size_t number)
{
    struct stripe row = {g.columns + 1, disk_at(g, number, 0), 1};
    struct stripe column = {g.rows + 1, number - COLUMN_STRIPE, g.columns + 1};

    return number < COLUMN_STRIPE ? row : column;
}

/* ---- sheets, maps and repairs */

size_t record_at(size_t k)
{
    return 2 + 3 * (k - 1);
}

int may_repair(struct grid g, const uint8_t *work, size_t disk, size_t stripe)
{
    struct stripe s = stripe_of(g, stripe);
    size_t i;

    if (disk >= disks_of(g))
        return 0;
    if (work[disk] != 1)
        return 0;
    if (!on_stripe(g, disk, stripe))
        return 0;
    for (i = 0; i < s.length; i++) {
        size_t other = s.first + i * s.step;

        if (other != disk && work[other] == 1)
            return 0;
    }
    return 1;
}

size_t count_erased(const uint8_t *map, size_t disks)
{
    size_t disk, count = 0;

    for (disk = 0; disk < disks; disk++)
        count += map[disk] == 1;
    return count;
}

static int map_fits(struct grid g, size_t sectors, const uint8_t *map,
                    size_t map_len)
{
    size_t i;

    if (map_len != disks_of(g) * sectors)
        return 0;
    for (i = 0; i < map_len; i++)
        if (map[i] != 0 && map[i] != 1)
            return 0;
    return 1;
}

/* All sectors of disk 0 come first in a map, then all of disk 1, and so on. */
void read_column(struct grid g, size_t sectors, const uint8_t *map,
                 size_t position, uint8_t *column)
{
    size_t disk;

    for (disk = 0; disk < disks_of(g); disk++)
        column[disk] = map[disk * sectors + position];
}

/* ---- parts of blocks */

/* The bytes of each block that a position has. */
struct places {
    size_t first, length;
};

static struct places places_of(size_t sector, size_t position)
{
    struct places p = {position * sector, sector};

    return p;
}

/* ---- equations */

/* What is known of the erased disks: some of them, one byte for each disk of
   the grid, add up to a block. */
struct equation {
    uint8_t disks[DISKS_MAX];
    uint8_t sum[4096];
};

/* At first one for each stripe: its erased disks add up to what its survivors
   do. */
static struct equation equations[STRIPES];

static void add_bytes(uint8_t *to, const uint8_t *bytes, size_t len)
{
    size_t i;

    for (i = 0; i < len; i++)
        to[i] ^= bytes[i];
}

static void put_in(struct equation *e, size_t disk, int erased,
                   const uint8_t *bytes, size_t block)
{
    if (erased)
        e->disks[disk] = 1;
    else
        add_bytes(e->sum, bytes, block);
}

/* The equations of one position, with its bytes of the map. That it has 0 bytes
   of each block says that nothing but the map is of interest. */
static void set_up(struct grid g, size_t block, const uint8_t *array,
                   struct places p, const uint8_t *map)
{
    size_t disk, k;

    for (k = 0; k < STRIPES; k++) {
        memset(equations[k].disks, 0, DISKS_MAX);
        memset(equations[k].sum, 0, p.length);
    }
    for (disk = 0; disk < disks_of(g); disk++) {
        const uint8_t *bytes =
            p.length > 0 ? array + disk * block + p.first : NULL;

        put_in(&equations[row_of(g, disk)], disk, map[disk], bytes, p.length);
        put_in(&equations[column_of(g, disk)], disk, map[disk], bytes,
               p.length);
    }
}

/* Takes a disk out of all equations but number `kept`, which has it. */
static void take_out(size_t disk, size_t kept, size_t disks, size_t block)
{
    size_t k;

    for (k = 0; k < STRIPES; k++)
        if (k != kept && equations[k].disks[disk]) {
            add_bytes(equations[k].disks, equations[kept].disks, disks);
            add_bytes(equations[k].sum, equations[kept].sum, block);
        }
}

/* Elimination: each disk in turn is kept in one equation that is not kept for
   a disk before it, if there is such a one, and taken out of all others. */
static void solve(size_t disks, size_t block)
{
    uint8_t is_kept[STRIPES] = {0};
    size_t disk, k;

    for (disk = 0; disk < disks; disk++)
        for (k = 0; k < STRIPES; k++)
            if (!is_kept[k] && equations[k].disks[disk]) {
                is_kept[k] = 1;
                take_out(disk, k, disks, block);
                break;
            }
}

/* The disk that an equation has alone, and so determines. As many as there are
   disks if it has none or several. */
static size_t determined_by(const struct equation *e, size_t disks)
{
    size_t disk = 0;

    if (count_erased(e->disks, disks) != 1)
        return disks;
    while (!e->disks[disk])
        disk++;
    return disk;
}

/* The equation says that no disk adds up to something. */
static int is_contradiction(const struct equation *e, size_t disks,
                            size_t block)
{
    size_t place = 0;

    if (count_erased(e->disks, disks) > 0)
        return 0;
    while (place < block && e->sum[place] == 0)
        place++;
    return place < block;
}

size_t find_lost(struct grid g, const uint8_t *map, uint8_t *is_lost)
{
    const struct places none = {0, 0};
    size_t disks = disks_of(g), disk, k;

    set_up(g, 0, NULL, none, map);
    solve(disks, 0);
    memcpy(is_lost, map, disks);
    for (k = 0; k < STRIPES; k++) {
        disk = determined_by(&equations[k], disks);
        if (disk < disks)
            is_lost[disk] = 0;
    }
    return count_erased(is_lost, disks);
}

/* ---- plan */

/* The lowest of these disks that can be repaired, and its stripe: the row if
   that is allowed, else the column. 0 if there is none. */
static int next_repair(struct grid g, const uint8_t *work,
                       const uint8_t *these, size_t *disk, size_t *stripe)
{
    size_t d;

    for (d = 0; d < disks_of(g); d++) {
        if (these[d] != 1)
            continue;
        *disk = d;
        *stripe = row_of(g, d);
        if (may_repair(g, work, d, *stripe))
            return 1;
        *stripe = column_of(g, d);
        if (may_repair(g, work, d, *stripe))
            return 1;
    }
    return 0;
}

/* A list of repairs without records. */
static void begin_list(uint8_t *sheet)
{
    memset(sheet, 0, SHEET_BYTES);
    sheet[0] = 1;
}

/* Its record k, behind those before it. */
static void add_record(uint8_t *sheet, size_t k, size_t disk, size_t stripe)
{
    if (k == 1)
        sheet[1] = 1;
    else
        sheet[record_at(k - 1) + 2] = (uint8_t)k;
    sheet[record_at(k)] = (uint8_t)disk;
    sheet[record_at(k) + 1] = (uint8_t)stripe;
}

/* Lists the repairs of these disks, as long as one of them is allowed. */
static size_t repair_these(struct grid g, uint8_t *work, const uint8_t *these,
                           uint8_t *sheet)
{
    size_t disk, stripe, count = 0;

    begin_list(sheet);
    while (next_repair(g, work, these, &disk, &stripe)) {
        work[disk] = 0;
        add_record(sheet, ++count, disk, stripe);
    }
    return count;
}

size_t plan_repairs(struct grid g, uint8_t *work, uint8_t *sheet)
{
    return repair_these(g, work, work, sheet);
}

/*
 * Marks all disks that have to be repaired before one can be by a stripe: each
 * other erased disk of the stripe, which then goes by its own other stripe, and
 * what has to go before that. 0 if a disk comes up again: some of them would
 * have to wait for each other.
 */
static int mark_before(struct grid g, const uint8_t *map, size_t disk,
                       size_t stripe, uint8_t *marked)
{
    struct stripe s = stripe_of(g, stripe);
    size_t i, other;

    for (i = 0; i < s.length; i++) {
        other = s.first + i * s.step;
        if (other == disk || map[other] != 1)
            continue;
        if (marked[other])
            return 0;
        marked[other] = 1;
        if (!mark_before(g, map, other,
                         row_of(g, other) + column_of(g, other) - stripe,
                         marked))
            return 0;
    }
    return 1;
}

/* The list that ends with the disk by this stripe. 0 if there is none. */
static size_t list_by(struct grid g, const uint8_t *map, size_t disk,
                      size_t stripe, uint8_t *sheet)
{
    uint8_t marked[DISKS_MAX] = {0}, work[DISKS_MAX];
    size_t count;

    marked[disk] = 1;
    if (!mark_before(g, map, disk, stripe, marked))
        return 0;
    marked[disk] = 0;
    memcpy(work, map, disks_of(g));
    count = repair_these(g, work, marked, sheet) + 1;
    add_record(sheet, count, disk, stripe);
    return may_repair(g, work, disk, stripe) ? count : 0;
}

size_t plan_for_disk(struct grid g, const uint8_t *map, size_t disk,
                     uint8_t *sheet)
{
    uint8_t by_column[SHEET_BYTES];
    size_t rows = list_by(g, map, disk, row_of(g, disk), sheet);
    size_t columns = list_by(g, map, disk, column_of(g, disk), by_column);

    if (columns == 0 || (rows > 0 && rows <= columns))
        return rows;
    memcpy(sheet, by_column, SHEET_BYTES);
    return columns;
}

void show_loop(struct grid g, const uint8_t *column, uint8_t *sheet)
{
    const struct loss_at loss = {g.rows, g.columns, column};
    struct loop loop = smallest_loop(&loss);

    list_loop(&loss, &loop, sheet);
}

/* A refusal: the status, and that nothing has changed. */
static const char *judge_refusal(const struct planned *p, uint32_t status)
{
    if (p->status != status)
        return "the refusal of plan or plan_disk is another one";
    if (p->count != p->count_before)
        return "plan or plan_disk refused and changed the count";
    if (p->position != p->position_before)
        return "plan or plan_disk refused and changed the position";
    if (memcmp(p->sheets, p->sheets_before, p->sheets_len) != 0)
        return "plan or plan_disk refused and changed the sheet";
    return NULL;
}

/* A success with so many repairs. */
static const char *judge_count(const struct planned *p, size_t repairs)
{
    if (p->status != DONE)
        return "a list of repairs is refused";
    if (p->count != repairs)
        return "the count of repairs is another one";
    if (p->position != p->position_before)
        return "plan or plan_disk names a position that is not fatal";
    return NULL;
}

static int is_zero(const uint8_t *bytes, size_t len)
{
    size_t i;

    for (i = 0; i < len; i++)
        if (bytes[i] != 0)
            return 0;
    return 1;
}

/* A fatal loss at a position, with these bytes of the map. */
static const char *judge_fatal(const struct planned *p, size_t position,
                               const uint8_t *column)
{
    const uint8_t *sheet = p->sheets + position * SHEET_BYTES;
    uint8_t is_lost[DISKS_MAX], loop[SHEET_BYTES];

    if (p->status != FATAL)
        return "a fatal loss is not refused";
    if (p->count != find_lost(p->grid, column, is_lost))
        return "the count of lost disks is another one";
    if (!is_zero(p->sheets, position * SHEET_BYTES) ||
        !is_zero(sheet + SHEET_BYTES,
                 (p->sheets_len / SHEET_BYTES - position - 1) * SHEET_BYTES))
        return "a sheet beside that of a fatal position is not zero";
    show_loop(p->grid, column, loop);
    if (memcmp(sheet, loop, SHEET_BYTES) != 0)
        return "the loop is another one";
    return NULL;
}

/* Plan's sheet for one position. Returns the number of repairs, or one more
   than any if the position is fatal. */
static size_t plan_position(struct grid g, const uint8_t *column,
                            uint8_t *sheet)
{
    uint8_t work[DISKS_MAX];
    size_t repairs;

    memcpy(work, column, disks_of(g));
    repairs = plan_repairs(g, work, sheet);
    return count_erased(work, disks_of(g)) > 0 ? RECORDS + 1 : repairs;
}

/* Each fatal position has lost disks, and no other has. */
static int lost_where_fatal(struct grid g, const uint8_t *column,
                            size_t repairs)
{
    uint8_t is_lost[DISKS_MAX];

    return (find_lost(g, column, is_lost) > 0) == (repairs > RECORDS);
}

/* Positions are planned from the first on, up to a fatal one. */
static const char *judge_outcome(const struct planned *p)
{
    uint8_t column[DISKS_MAX], sheet[SHEET_BYTES];
    const char *list = NULL;
    size_t position, repairs, all = 0;

    for (position = 0; position < p->sectors; position++) {
        read_column(p->grid, p->sectors, p->map, position, column);
        repairs = plan_position(p->grid, column, sheet);
        if (position < 4 && !lost_where_fatal(p->grid, column, repairs))
            return "the model contradicts itself";
        if (repairs > RECORDS && p->position != position)
            return "the position is not the first that is fatal";
        if (repairs > RECORDS)
            return judge_fatal(p, position, column);
        if (memcmp(p->sheets + position * SHEET_BYTES, sheet,
                   SHEET_BYTES) != 0)
            list = "the list of repairs is another one";
        all += repairs;
    }
    return list != NULL ? list : judge_count(p, all);
}

/* A disk that plan reaches has a list, and no other. */
static const char *judge_disk(const struct planned *p, size_t disk)
{
    uint8_t work[DISKS_MAX], sheet[SHEET_BYTES];
    size_t repairs;

    memcpy(work, p->map, p->map_len);
    plan_repairs(p->grid, work, sheet);
    repairs = plan_for_disk(p->grid, p->map, disk, sheet);
    if ((repairs == 0) != (work[disk] == 1))
        return "the model contradicts itself about a disk";
    if (repairs == 0)
        return judge_fatal(p, 0, p->map);
    if (memcmp(p->sheets, sheet, SHEET_BYTES) != 0)
        return "the list of repairs is another one";
    return judge_count(p, repairs);
}

/* The refusals with which both begin. */
static uint32_t plan_refusal(const struct planned *p)
{
    if (!grid_fits(p->grid))
        return WRONG_SIDE;
    if (p->sectors < 1 || p->sectors > SECTORS_MAX)
        return WRONG_SECTOR;
    if (!map_fits(p->grid, p->sectors, p->map, p->map_len))
        return WRONG_MAP;
    return p->sheets_len != SHEET_BYTES * p->sectors ? WRONG_SHEET : DONE;
}

const char *judge_plan(const struct planned *p)
{
    uint32_t refused = plan_refusal(p);

    return refused != DONE ? judge_refusal(p, refused) : judge_outcome(p);
}

const char *judge_plan_disk(const struct planned *p, size_t disk)
{
    uint32_t refused = plan_refusal(p);

    if (refused == DONE && (disk >= p->map_len || p->map[disk] != 1))
        refused = NOT_WANTED;
    return refused != DONE ? judge_refusal(p, refused) : judge_disk(p, disk);
}

/* ---- follow, rebuild, save, look and tidy */

/* The refusals with which all but tidy begin. */
static uint32_t refusal(struct grid g, size_t block, size_t array_len,
                        size_t sector, const uint8_t *map, size_t map_len)
{
    if (!grid_fits(g))
        return WRONG_SIDE;
    if (block < 1 || block > 4096)
        return WRONG_BLOCK;
    if (array_len != disks_of(g) * block)
        return WRONG_ARRAY;
    if (sector == 0 || block % sector != 0)
        return WRONG_SECTOR;
    if (!map_fits(g, block / sector, map, map_len))
        return WRONG_MAP;
    return DONE;
}

/* The same, and that of the sheets. */
static uint32_t sheet_refusal(struct grid g, size_t block, size_t array_len,
                              size_t sector, const uint8_t *map,
                              size_t map_len, size_t sheets_len)
{
    uint32_t status = refusal(g, block, array_len, sector, map, map_len);

    if (status == DONE && sheets_len != SHEET_BYTES * (block / sector))
        return WRONG_SHEET;
    return status;
}

int read_chain(const uint8_t *sheet, uint8_t order[RECORDS])
{
    uint8_t visited[RECORDS + 1] = {0};
    size_t number = sheet[1];
    int count = 0;

    if (sheet[0] != 1)
        return -BROKEN_CHAIN;
    while (number != 0) {
        if (number > RECORDS)
            return -BROKEN_CHAIN;
        if (visited[number])
            return -REACHED_TWICE;
        visited[number] = 1;
        order[count++] = (uint8_t)number;
        number = sheet[record_at(number) + 2];
    }
    return count;
}

/* A byte is not zero in a record that is not one of these. */
static int has_leftovers(const uint8_t *sheet, const uint8_t *order, int count)
{
    uint8_t rest[SHEET_BYTES];
    size_t at;
    int i;

    memcpy(rest, sheet, SHEET_BYTES);
    for (i = 0; i < count; i++)
        memset(rest + record_at(order[i]), 0, 3);
    for (at = record_at(1); at < SHEET_BYTES; at++)
        if (rest[at] != 0)
            return 1;
    return 0;
}

/* Each step is an allowed repair at its turn, and no disk remains erased. */
static int steps_allowed(struct grid g, const uint8_t *map,
                         const uint8_t *sheet, const uint8_t *order, int count)
{
    uint8_t work[DISKS_MAX];
    int i;

    memcpy(work, map, disks_of(g));
    for (i = 0; i < count; i++) {
        const uint8_t *record = sheet + record_at(order[i]);

        if (!may_repair(g, work, record[0], record[1]))
            return 0;
        work[record[0]] = 0;
    }
    return count_erased(work, disks_of(g)) == 0;
}

/* The sum of a stripe's disks at one byte place, but for one disk. */
static uint8_t sum_without(struct grid g, size_t block, const uint8_t *array,
                           size_t stripe, size_t place, size_t but)
{
    struct stripe s = stripe_of(g, stripe);
    uint8_t sum = 0;
    size_t i;

    for (i = 0; i < s.length; i++) {
        size_t disk = s.first + i * s.step;

        if (disk != but)
            sum ^= array[disk * block + place];
    }
    return sum;
}

int stripe_is_sealed(struct grid g, size_t block, const uint8_t *array,
                     size_t stripe)
{
    size_t place;

    for (place = 0; has_stripe(g, stripe) && place < block; place++)
        if (sum_without(g, block, array, stripe, place, SIZE_MAX) != 0)
            return 0;
    return 1;
}

static int is_sealed(struct grid g, size_t block, const uint8_t *array)
{
    size_t stripe;

    for (stripe = 0; stripe < STRIPES; stripe++)
        if (!stripe_is_sealed(g, block, array, stripe))
            return 0;
    return 1;
}

/* A repair at some places of the block. */
static void repair_places(struct grid g, size_t block, uint8_t *array,
                          struct places p, const uint8_t *record)
{
    size_t disk = record[0], place;

    for (place = p.first; place < p.first + p.length; place++)
        array[disk * block + place] =
            sum_without(g, block, array, record[1], place, disk);
}

void make_repair(struct grid g, size_t block, uint8_t *array,
                 const uint8_t *record)
{
    repair_places(g, block, array, places_of(block, 0), record);
}

/* The sectors stand in the order of the map. */
static void zero_erased(size_t sector, uint8_t *array,
                        const uint8_t *map, size_t map_len)
{
    size_t i;

    for (i = 0; i < map_len; i++)
        if (map[i] == 1)
            memset(array + i * sector, 0, sector);
}

/* What follow says of the sheets: each number is tested on all of them before
   the next number. */
static uint32_t judge_sheets(struct grid g, size_t sectors,
                             const uint8_t *map, const uint8_t *sheets)
{
    static const uint32_t numbers[] = {BROKEN_CHAIN, REACHED_TWICE, LEFTOVERS,
                                       NOT_ALLOWED};
    uint8_t order[RECORDS], column[DISKS_MAX];
    size_t i, position;

    for (i = 0; i < sizeof numbers / sizeof *numbers; i++)
        for (position = 0; position < sectors; position++) {
            const uint8_t *sheet = sheets + position * SHEET_BYTES;
            int steps = read_chain(sheet, order), wrong = 0;

            if (numbers[i] == BROKEN_CHAIN || numbers[i] == REACHED_TWICE)
                wrong = steps == -(int)numbers[i];
            else if (numbers[i] == LEFTOVERS)
                wrong = has_leftovers(sheet, order, steps);
            else {
                read_column(g, sectors, map, position, column);
                wrong = !steps_allowed(g, column, sheet, order, steps);
            }
            if (wrong)
                return numbers[i];
        }
    return DONE;
}

/* Makes the repairs of all sheets. Returns how many. */
static size_t follow_sheets(struct grid g, size_t block, uint8_t *array,
                            size_t sector, const uint8_t *sheets)
{
    uint8_t order[RECORDS];
    size_t position, made = 0;
    int steps, i;

    for (position = 0; position < block / sector; position++) {
        const uint8_t *sheet = sheets + position * SHEET_BYTES;

        steps = read_chain(sheet, order);
        for (i = 0; i < steps; i++)
            repair_places(g, block, array, places_of(sector, position),
                          sheet + record_at(order[i]));
        made += (size_t)steps;
    }
    return made;
}

uint32_t model_follow(struct grid g, size_t block,
                      uint8_t *array, size_t array_len, size_t sector,
                      const uint8_t *map, size_t map_len,
                      const uint8_t *sheets, size_t sheets_len,
                      size_t *count)
{
    uint32_t status = sheet_refusal(g, block, array_len, sector, map, map_len,
                                    sheets_len);
    size_t made;

    if (status == DONE)
        status = judge_sheets(g, block / sector, map, sheets);
    if (status != DONE)
        return status;
    made = follow_sheets(g, block, array, sector, sheets);
    if (!is_sealed(g, block, array)) {
        zero_erased(sector, array, map, map_len);
        return CONTRADICTION;
    }
    *count = made;
    return DONE;
}

uint32_t model_tidy(uint8_t *sheet, size_t sheet_len)
{
    uint8_t order[RECORDS], old[SHEET_BYTES];
    int records, i;

    if (sheet_len != SHEET_BYTES)
        return WRONG_SHEET;
    records = read_chain(sheet, order);
    if (records < 0)
        return (uint32_t)-records;
    memcpy(old, sheet, SHEET_BYTES);
    begin_list(sheet);
    for (i = 0; i < records; i++) {
        const uint8_t *record = old + record_at(order[i]);

        add_record(sheet, (size_t)i + 1, record[0], record[1]);
    }
    return DONE;
}

/* The sheet lists the first of planned repairs, so many of them. */
static void list_first(uint8_t *sheet, const uint8_t *planned, size_t made)
{
    size_t end = made == 0 ? 1 : record_at(made) + 2;

    memset(sheet, 0, SHEET_BYTES);
    memcpy(sheet, planned, end);
}

/* The first position that is fatal, as many as there are if none is. */
static size_t first_fatal(struct grid g, size_t sectors, const uint8_t *map,
                          uint8_t *column)
{
    uint8_t sheet[SHEET_BYTES];
    size_t position;

    for (position = 0; position < sectors; position++) {
        read_column(g, sectors, map, position, column);
        if (plan_position(g, column, sheet) > RECORDS)
            return position;
    }
    return sectors;
}

/* Makes the first repairs of one position, so many at most, and lists them. */
static size_t turn_at(struct grid g, size_t block, uint8_t *array,
                      size_t sector, uint8_t *map, size_t position,
                      uint8_t *sheet, size_t most)
{
    uint8_t column[DISKS_MAX], planned[SHEET_BYTES];
    size_t sectors = block / sector, made, k;

    read_column(g, sectors, map, position, column);
    made = plan_position(g, column, planned);
    if (made > most)
        made = most;
    for (k = 1; k <= made; k++) {
        const uint8_t *record = planned + record_at(k);

        repair_places(g, block, array, places_of(sector, position), record);
        map[record[0] * sectors + position] = 0;
    }
    list_first(sheet, planned, made);
    return made;
}

/* The repairs of position 0 come first, then those of position 1, and so on. */
static size_t turn_over(struct grid g, size_t block, uint8_t *array,
                        size_t sector, uint8_t *map, uint8_t *sheets,
                        size_t limit)
{
    size_t position, made = 0;

    for (position = 0; position < block / sector; position++)
        made += turn_at(g, block, array, sector, map, position,
                        sheets + position * SHEET_BYTES, limit - made);
    return made;
}

uint32_t model_rebuild(struct grid g, size_t block,
                       uint8_t *array, size_t array_len, size_t sector,
                       uint8_t *map, size_t map_len,
                       uint8_t *sheets, size_t sheets_len,
                       size_t limit, size_t *count, size_t *position)
{
    static uint8_t map_before[DISKS_MAX * SECTORS_MAX];
    uint8_t column[DISKS_MAX], is_lost[DISKS_MAX];
    uint32_t status = sheet_refusal(g, block, array_len, sector, map, map_len,
                                    sheets_len);
    size_t fatal, made;

    if (status != DONE)
        return status;
    if (limit == 0)
        return WRONG_LIMIT;
    fatal = first_fatal(g, block / sector, map, column);
    if (fatal < block / sector) {
        memset(sheets, 0, sheets_len);
        show_loop(g, column, sheets + fatal * SHEET_BYTES);
        *count = find_lost(g, column, is_lost);
        *position = fatal;
        return FATAL;
    }
    memcpy(map_before, map, map_len);
    made = turn_over(g, block, array, sector, map, sheets, limit);
    if (count_erased(map, map_len) == 0 && !is_sealed(g, block, array)) {
        memcpy(map, map_before, map_len);
        zero_erased(sector, array, map, map_len);
        memset(sheets, 0, sheets_len);
        return CONTRADICTION;
    }
    *count = made;
    return DONE;
}

/* What is known of one position. */
static void solve_at(struct grid g, size_t block, const uint8_t *array,
                     size_t sector, const uint8_t *map, size_t position)
{
    uint8_t column[DISKS_MAX];

    read_column(g, block / sector, map, position, column);
    set_up(g, block, array, places_of(sector, position), column);
    solve(disks_of(g), sector);
}

/* Writes what the equations of a position determine. Returns how many
   sectors. */
static size_t save_at(struct grid g, size_t block, uint8_t *array,
                      size_t sector, size_t position)
{
    size_t k, saved = 0;

    for (k = 0; k < STRIPES; k++) {
        size_t disk = determined_by(&equations[k], disks_of(g));

        if (disk < disks_of(g)) {
            memcpy(array + disk * block + position * sector,
                   equations[k].sum, sector);
            saved++;
        }
    }
    return saved;
}

uint32_t model_save(struct grid g, size_t block,
                    uint8_t *array, size_t array_len, size_t sector,
                    const uint8_t *map, size_t map_len, size_t *count)
{
    uint32_t status = refusal(g, block, array_len, sector, map, map_len);
    size_t position, k, saved = 0;

    if (status != DONE)
        return status;
    for (position = 0; position < block / sector; position++) {
        solve_at(g, block, array, sector, map, position);
        for (k = 0; k < STRIPES; k++)
            if (is_contradiction(&equations[k], disks_of(g), sector)) {
                zero_erased(sector, array, map, map_len);
                return CONTRADICTION;
            }
    }
    for (position = 0; position < block / sector; position++) {
        solve_at(g, block, array, sector, map, position);
        saved += save_at(g, block, array, sector, position);
    }
    *count = saved;
    return DONE;
}

size_t model_look(struct grid g, size_t block, size_t array_len,
                  size_t sector, const uint8_t *map, size_t map_len,
                  size_t disk, size_t *offset)
{
    size_t sectors, position;

    if (refusal(g, block, array_len, sector, map, map_len) != DONE ||
        disk >= disks_of(g))
        return 0;
    sectors = block / sector;
    for (position = 0; position < sectors; position++)
        if (map[disk * sectors + position] == 1)
            return 0;
    *offset = disk * block;
    return block;
}
