/*
 * The calls that take sectors before right ones, with the one fault that is
 * wanted, or none: a map in another order, positions that are judged one by one
 * or counted wrongly, turns that go over them in another way. tests/wrong and
 * tests/fuzz/wrong take the faults' names from the strings below that begin
 * with the name of a call.
 */
#include <stdlib.h>
#include <string.h>

#include "loop.h"
#include "raid2d.h"
#include "wrong_loop.h"
#include "wrong_sectors.h"

enum {
    SHEET = RAID2D_SHEET_BYTES,
    DISKS = RAID2D_DISKS(RAID2D_SIDE_MAX, RAID2D_SIDE_MAX),
    COLUMN = RAID2D_COLUMN_STRIPE
};

/* ---- The right calls, with the length of a sector or the number ----

   But for the loop that plan and rebuild show, where that is the fault. */

static size_t look(const struct cut *c)
{
    return right_look(c->rows, c->columns, c->block, c->array, c->array_len,
                      c->sector, c->map, c->map_len, c->disk, c->count);
}

static uint32_t plan(const struct cut *c)
{
    uint32_t status = right_plan(c->rows, c->columns, c->sectors, c->map,
                                 c->map_len, c->sheets, c->sheets_len,
                                 c->count, c->position);

    if (status == RAID2D_FATAL)
        spoil_loop(c->rows, c->columns, c->sectors, c->map, *c->position,
                   c->sheets);
    return status;
}

static uint32_t rebuild(const struct cut *c)
{
    uint32_t status = right_rebuild(c->rows, c->columns, c->block, c->array,
                                    c->array_len, c->sector, c->map,
                                    c->map_len, c->sheets, c->sheets_len,
                                    c->limit, c->count, c->position);

    if (status == RAID2D_FATAL)
        spoil_loop(c->rows, c->columns, c->block / c->sector, c->map,
                   *c->position, c->sheets);
    return status;
}

static uint32_t follow(const struct cut *c)
{
    return right_follow(c->rows, c->columns, c->block, c->array, c->array_len,
                        c->sector, c->map, c->map_len, c->sheets,
                        c->sheets_len, c->count);
}

static uint32_t save(const struct cut *c)
{
    return right_save(c->rows, c->columns, c->block, c->array, c->array_len,
                      c->sector, c->map, c->map_len, c->count);
}

/* ---- Positions ---- */

static size_t disks_of(const struct cut *c)
{
    return RAID2D_DISKS(c->rows, c->columns);
}

/* Where a sector begins in the array. */
static size_t sector_at(const struct cut *c, size_t position, size_t disk)
{
    return disk * c->block + position * c->sector;
}

static void *copy_of(const void *bytes, size_t len)
{
    void *copy = malloc(len + 1);

    if (copy == NULL)
        abort();
    if (len > 0)
        memcpy(copy, bytes, len);
    return copy;
}

/* One position as an array by itself: its part of what is lent, on memory that
   is to be freed, but for the sheet, the count and the position. */
static struct cut part_of(const struct cut *c, size_t position)
{
    struct cut part = *c;
    size_t disk;

    part.block = c->sector;
    part.sectors = 1;
    part.map_len = disks_of(c);
    part.array_len = part.map_len * c->sector;
    part.array = copy_of(c->array, c->array == NULL ? 0 : part.array_len);
    part.map = copy_of(c->map, part.map_len);
    part.sheets = c->sheets + position * SHEET;
    part.sheets_len = SHEET;
    for (disk = 0; disk < part.map_len; disk++) {
        part.map[disk] = c->map[disk * c->sectors + position];
        if (c->array != NULL)
            memcpy(part.array + disk * c->sector,
                   c->array + sector_at(c, position, disk), c->sector);
    }
    return part;
}

static void end_part(struct cut *part)
{
    free(part->array);
    free(part->map);
}

/* Plan for one position: its status, its count and its sheet. */
static uint32_t plan_at(const struct cut *c, size_t position, uint8_t *sheet,
                        size_t *count)
{
    struct cut part = part_of(c, position);
    size_t unused;
    uint32_t status;

    part.sheets = sheet;
    part.count = count;
    part.position = &unused;
    status = plan(&part);
    end_part(&part);
    return status;
}

/* The survivors of one position contradict each other. */
static int is_contradicted(const struct cut *c, size_t position)
{
    struct cut part = part_of(c, position);
    size_t unused;
    int contradicted;

    part.count = &unused;
    contradicted = save(&part) == RAID2D_ERR_SURVIVORS;
    end_part(&part);
    return contradicted;
}

/* How many sectors of a position are erased. */
static size_t erased_at(const struct cut *c, size_t position)
{
    size_t disk, count = 0;

    for (disk = 0; disk < disks_of(c); disk++)
        count += c->map[disk * c->sectors + position];
    return count;
}

/* ---- The map in another order ---- */

/* The bytes of a map with all disks of position 0 first, or back. */
static void transpose(uint8_t *to, const uint8_t *from, size_t high,
                      size_t wide)
{
    size_t i;

    for (i = 0; i < high * wide; i++)
        to[i % wide * high + i / wide] = from[i];
}

/* The call with the map in that order. What has changed is put back. */
static size_t transposed(const struct cut *c, size_t (*call)(struct cut other))
{
    struct cut other = *c;
    uint8_t *before;
    size_t result;

    other.map = copy_of(c->map, c->map_len);
    transpose(other.map, c->map, c->sectors, disks_of(c));
    before = copy_of(other.map, c->map_len);
    result = call(other);
    if (memcmp(other.map, before, c->map_len) != 0)
        transpose(c->map, other.map, disks_of(c), c->sectors);
    free(other.map);
    free(before);
    return result;
}

static size_t look_at_this(struct cut c)
{
    return look(&c);
}

static size_t plan_this(struct cut c)
{
    return plan(&c);
}

static size_t rebuild_this(struct cut c)
{
    return rebuild(&c);
}

static size_t follow_this(struct cut c)
{
    return follow(&c);
}

static size_t save_this(struct cut c)
{
    return save(&c);
}

/* ---- A turn that is made here ---- */

/* Sets a sector to the sum of the others of a stripe. */
static void repair(const struct cut *c, size_t position, size_t disk,
                   size_t stripe)
{
    uint8_t *sum = c->array + sector_at(c, position, disk);
    size_t other, place;

    memset(sum, 0, c->sector);
    for (other = 0; other < disks_of(c); other++) {
        const uint8_t *bytes = c->array + sector_at(c, position, other);
        int on = stripe < COLUMN
                     ? other / (c->columns + 1) == stripe
                     : other % (c->columns + 1) == stripe - COLUMN;

        for (place = 0; on && other != disk && place < c->sector; place++)
            sum[place] ^= bytes[place];
    }
    c->map[disk * c->sectors + position] = 0;
}

/* Makes the first repairs of a position and lists them. Returns how many. */
static size_t repair_at(const struct cut *c, size_t position, size_t most)
{
    uint8_t planned[SHEET], *sheet = c->sheets + position * SHEET;
    size_t count = 0, k;

    if (plan_at(c, position, planned, &count) != RAID2D_OK)
        return 0;
    if (count > most)
        count = most;
    memset(sheet, 0, SHEET);
    sheet[0] = RAID2D_SHEET_REPAIRS;
    for (k = 1; k <= count; k++) {
        sheet[3 * k - 2] = (uint8_t)k;
        memcpy(sheet + 3 * k - 1, planned + 3 * k - 1, 2);
        repair(c, position, sheet[3 * k - 1], sheet[3 * k]);
    }
    return count;
}

/* Makes the repairs of a turn without any check: over the positions from the
   first or from the last on, with a limit for all of them or for each. */
static void make_turn(const struct cut *c, int from_end, int for_each)
{
    size_t left = c->limit, made = 0, i;

    for (i = 0; i < c->sectors; i++) {
        size_t position = from_end ? c->sectors - 1 - i : i;
        size_t count = repair_at(c, position, left);

        made += count;
        if (!for_each)
            left -= count;
    }
    *c->count = made;
}

/* ---- Wrong numbers ---- */

static int has_sides(const struct cut *c)
{
    return c->rows >= RAID2D_SIDE_MIN && c->rows <= RAID2D_SIDE_MAX
           && c->columns >= RAID2D_SIDE_MIN && c->columns <= RAID2D_SIDE_MAX;
}

static int has_sector(const struct cut *c)
{
    return c->sector > 0 && c->block % c->sector == 0;
}

/* All numbers and lengths but that of the sheets are right. */
static int fits(const struct cut *c)
{
    return has_sides(c) && c->block >= 1 && c->block <= RAID2D_BLOCK_MAX
           && c->array_len == disks_of(c) * c->block && has_sector(c)
           && c->map_len == disks_of(c) * (c->block / c->sector);
}

/* A byte of the map is wrong, or its length is for no number of sectors. */
static int has_wrong_map(const struct cut *c)
{
    size_t i = 0;

    while (i < c->map_len && c->map[i] <= 1)
        i++;
    return i < c->map_len || c->map_len == 0
           || c->map_len % disks_of(c) != 0;
}

/* The names of faults in the refusals of one call: that by 16 comes too late or
   too early, or a wrong sector is taken for the whole block. */
struct late {
    const char *after_map, *before_array, *any, *zero;
};

/* What becomes of a refusal. The sector may become a right one: then the call
   is to be made with it, and 0 is returned. */
static uint32_t refuse(struct cut *c, const struct late *late, uint32_t status)
{
    int is_wrong = !has_sector(c);

    if (status == RAID2D_ERR_SECTOR && wrong(late->after_map)
        && has_wrong_map(c))
        return RAID2D_ERR_MAP;
    if (status == RAID2D_ERR_ARRAY_LENGTH && wrong(late->before_array)
        && is_wrong)
        return RAID2D_ERR_SECTOR;
    if ((wrong(late->any) && is_wrong && c->sector > 0)
        || (wrong(late->zero) && c->sector == 0)) {
        c->sector = c->block;
        return 0;
    }
    return status;
}

/* ---- Look ---- */

/* How many sectors of the disk are present. */
static size_t present_on(const struct cut *c)
{
    size_t present = 0, i;

    for (i = 0; i < c->sectors; i++)
        present += c->map[c->disk * c->sectors + i] == 0;
    return present;
}

/* A look as if all sectors of the disk were present. */
static size_t look_at_clear(const struct cut *c)
{
    struct cut clear = *c;
    size_t result;

    clear.map = copy_of(c->map, c->map_len);
    memset(clear.map + c->disk * c->sectors, 0, c->sectors);
    result = look(&clear);
    free(clear.map);
    return result;
}

size_t look_in_sectors(struct cut c)
{
    if ((wrong("look takes a sector that does not divide") && c.sector > 0
         && !has_sector(&c))
        || (wrong("look takes a sector of 0") && c.sector == 0))
        c.sector = c.block;
    if (!fits(&c) || c.disk >= disks_of(&c))
        return look(&c);
    c.sectors = c.block / c.sector;
    if (wrong("look swaps disks and positions"))
        return transposed(&c, look_at_this);
    if ((wrong("look wants one sector to be present") && present_on(&c) > 0)
        || (wrong("look looks at the first sector only")
            && c.map[c.disk * c.sectors] == 0))
        return look_at_clear(&c);
    return look(&c);
}

/* ---- Plan, and 6 of rebuild ---- */

/* The name of a fault that both calls can have. */
static int either(const struct cut *c, const char *of_plan,
                  const char *of_rebuild)
{
    return wrong(c->array == NULL ? of_plan : of_rebuild);
}

/* The lost disks of all fatal positions, or of the last. *last is the last. */
static size_t count_lost(const struct cut *c, int of_all, size_t *last)
{
    size_t lost = 0, position, count = 0;
    uint8_t sheet[SHEET];

    for (position = 0; position < c->sectors; position++)
        if (plan_at(c, position, sheet, &count) == RAID2D_FATAL) {
            lost = of_all ? lost + count : count;
            *last = position;
        }
    return lost;
}

/* The sheets of positions but the fatal one list their repairs, or are as
   before. */
static void fill_others(const struct cut *c, const uint8_t *before)
{
    size_t position, unused;

    for (position = 0; position < c->sectors; position++) {
        uint8_t *sheet = c->sheets + position * SHEET;

        if (position != *c->position && before != NULL)
            memcpy(sheet, before + position * SHEET, SHEET);
        else if (position != *c->position)
            plan_at(c, position, sheet, &unused);
    }
}

/* The last fatal position is named in place of the first. */
static void name_last(const struct cut *c)
{
    size_t last = 0;

    *c->count = count_lost(c, 0, &last);
    memset(c->sheets, 0, c->sheets_len);
    plan_at(c, last, c->sheets + last * SHEET, c->count);
    *c->position = last;
}

/* The smallest loop of any position, or that of the last fatal one, stands in
   the sheet of the first. */
static void show_other(const struct cut *c, int last)
{
    const struct loss_at grid = { c->rows, c->columns, NULL };
    struct loop best = { 0, { 0 } };
    size_t position;

    for (position = 0; position < c->sectors; position++) {
        struct cut part = part_of(c, position);
        const struct loss_at loss = { c->rows, c->columns, part.map };
        struct loop loop = smallest_loop(&loss);

        if (loop.length > 0
            && (last || best.length == 0 || loop.length < best.length
                || (loop.length == best.length && comes_first(&loop, &best))))
            best = loop;
        end_part(&part);
    }
    list_loop(&grid, &best, c->sheets + *c->position * SHEET);
}

/* A disk counts as erased if it is so at any position. */
static void show_together(const struct cut *c)
{
    uint8_t map[DISKS] = { 0 };
    const struct loss_at loss = { c->rows, c->columns, map };
    struct loop loop;
    size_t i;

    for (i = 0; i < c->map_len; i++)
        map[i / c->sectors] |= c->map[i];
    loop = smallest_loop(&loss);
    list_loop(&loss, &loop, c->sheets + *c->position * SHEET);
}

static void spoil_shown(const struct cut *c)
{
    if (either(c, "plan shows the smallest loop of all positions",
               "rebuild shows the smallest loop of all positions"))
        show_other(c, 0);
    if (either(c, "plan shows the loop of the last fatal position",
               "rebuild shows the loop of the last fatal position"))
        show_other(c, 1);
    if (either(c, "plan shows the loop of all positions together",
               "rebuild shows the loop of all positions together"))
        show_together(c);
}

static void spoil_fatal(const struct cut *c, const uint8_t *before)
{
    size_t last;

    spoil_shown(c);
    if (either(c, "plan names the last fatal position",
               "rebuild names the last fatal position"))
        name_last(c);
    if (either(c, "plan lists other positions with 6",
               "rebuild lists other positions with 6"))
        fill_others(c, NULL);
    if (either(c, "plan leaves other sheets with 6",
               "rebuild leaves other sheets with 6"))
        fill_others(c, before);
    if (either(c, "plan counts all fatal positions",
               "rebuild counts all fatal positions"))
        *c->count = count_lost(c, 1, &last);
    if (either(c, "plan counts the last fatal position",
               "rebuild counts the last fatal position"))
        *c->count = count_lost(c, 0, &last);
    if (either(c, "plan counts positions from 1",
               "rebuild counts positions from 1"))
        ++*c->position;
}

/* The sheet of a position without repairs is zero. */
static void clear_empty_lists(const struct cut *c)
{
    size_t position;

    for (position = 0; position < c->sectors; position++)
        if (c->sheets[position * SHEET + 1] == 0)
            c->sheets[position * SHEET] = 0;
}

/* What becomes of a success of either call. */
static void spoil_lists(const struct cut *c)
{
    if (either(c, "plan writes the position with 0",
               "rebuild writes the position with 0"))
        *c->position = 0;
    if (either(c, "plan leaves out the kind of an empty list",
               "rebuild leaves out the kind of an empty list"))
        clear_empty_lists(c);
}

/* A number of sectors that is out of range. */
static uint32_t refuse_sectors(struct cut *c)
{
    if (wrong("plan gives 16 after 4") && has_sides(c)
        && (has_wrong_map(c) || c->map_len != disks_of(c) * c->sectors))
        return RAID2D_ERR_MAP;
    if (wrong("plan takes 4097 sectors") && c->sectors == 4097 && has_sides(c))
        return RAID2D_OK;
    if (wrong("plan shortens sectors to 16 bits"))
        c->sectors = (uint16_t)c->sectors;
    if (wrong("plan shortens sectors to 32 bits"))
        c->sectors = (uint32_t)c->sectors;
    return plan(c);
}

uint32_t plan_in_sectors(struct cut c)
{
    uint8_t *before, sheet[SHEET];
    uint32_t status;

    c.array = NULL;
    if (c.sectors < 1 || c.sectors > RAID2D_SECTORS_MAX)
        return refuse_sectors(&c);
    if (wrong("plan refuses 4096 sectors") && c.sectors == 4096)
        return RAID2D_ERR_SECTOR;
    if (!has_sides(&c) || c.map_len != disks_of(&c) * c.sectors
        || c.sheets_len != SHEET * c.sectors)
        return plan(&c);
    if (wrong("plan swaps disks and positions"))
        return (uint32_t)transposed(&c, plan_this);
    before = copy_of(c.sheets, c.sheets_len);
    status = plan(&c);
    if (status == RAID2D_FATAL)
        spoil_fatal(&c, before);
    if (status == RAID2D_OK)
        spoil_lists(&c);
    if (status == RAID2D_OK && wrong("plan counts the last position's repairs"))
        plan_at(&c, c.sectors - 1, sheet, c.count);
    free(before);
    return status;
}

/* ---- 7 of rebuild, follow and save ---- */

/* Erased sectors are zero where the survivors contradict each other, at all
   such positions or at the first, and as before elsewhere. */
static void zero_some(const struct cut *c, const struct cut *before,
                      int first_only)
{
    size_t position, disk, done = 0;

    for (position = 0; position < c->sectors; position++) {
        int zero = is_contradicted(before, position)
                   && (!first_only || done++ == 0);

        for (disk = 0; disk < disks_of(c) && !zero; disk++)
            memcpy(c->array + sector_at(c, position, disk),
                   before->array + sector_at(c, position, disk), c->sector);
    }
}

/* ---- Rebuild ---- */

/* Survivors contradict each other at a position that a turn has cleared. */
static int shows_at_cleared(const struct cut *c, const struct cut *before)
{
    size_t position;

    for (position = 0; position < c->sectors; position++)
        if (erased_at(before, position) > 0 && erased_at(c, position) == 0
            && is_contradicted(c, position))
            return 1;
    return 0;
}

/* What becomes of a turn that has made its repairs. */
static uint32_t spoil_turn(const struct cut *c, const struct cut *before)
{
    size_t i;

    spoil_lists(c);
    if (wrong("rebuild checks each position that it clears")
        && shows_at_cleared(c, before)) {
        for (i = 0; i < c->map_len; i++)
            if (before->map[i] != c->map[i])
                memset(c->array + i * c->sector, 0, c->sector);
        memcpy(c->map, before->map, c->map_len);
        memset(c->sheets, 0, c->sheets_len);
        *c->count = *before->count;
        return RAID2D_ERR_SURVIVORS;
    }
    return RAID2D_OK;
}

/* What becomes of a turn that has found a contradiction. */
static uint32_t spoil_refusal(const struct cut *c, const struct cut *before)
{
    size_t position = 0;

    if (wrong("rebuild zeroes one position with 7"))
        zero_some(c, before, 1);
    if (wrong("rebuild zeroes contradicted positions only"))
        zero_some(c, before, 0);
    if (wrong("rebuild leaves the first sheet with 7"))
        memcpy(c->sheets, before->sheets, SHEET);
    while (position < c->sectors
           && (erased_at(before, position) == 0
               || !is_contradicted(before, position)))
        position++;
    if (wrong("rebuild checks only positions with repairs")
        && position == c->sectors) {
        make_turn(c, 0, 0);
        return RAID2D_OK;
    }
    return RAID2D_ERR_SURVIVORS;
}

/* Repairs are made at the positions that are not fatal. */
static void repair_others(const struct cut *c)
{
    struct cut others = *c;
    size_t unused;

    others.sheets = copy_of(c->sheets, c->sheets_len);
    others.count = &unused;
    make_turn(&others, 0, 0);
    free(others.sheets);
}

static int is_fatal(const struct cut *c)
{
    struct cut planned = *c;
    size_t unused;
    uint32_t status;

    planned.sheets = copy_of(c->sheets, c->sheets_len);
    planned.count = planned.position = &unused;
    status = plan(&planned);
    free(planned.sheets);
    return status != RAID2D_OK;
}

/* A turn that is not the last goes over the positions in another way. */
static int turn_otherwise(const struct cut *c)
{
    int from_end = wrong("rebuild takes positions from the end");
    int for_each = wrong("rebuild has the limit for each position");
    size_t position, erased = 0, most = 0;

    for (position = 0; position < c->sectors; position++) {
        size_t here = erased_at(c, position);

        erased += here;
        most = here > most ? here : most;
    }
    if ((!from_end && !for_each) || c->limit == 0 || c->limit >= erased
        || (for_each && c->limit >= most) || is_fatal(c))
        return 0;
    make_turn(c, from_end, for_each);
    return 1;
}

static uint32_t rebuild_with_fault(struct cut *c)
{
    struct cut before = *c;
    size_t count = *c->count;
    uint32_t status;

    before.array = copy_of(c->array, c->array_len);
    before.map = copy_of(c->map, c->map_len);
    before.sheets = copy_of(c->sheets, c->sheets_len);
    before.count = &count;
    status = rebuild(c);
    if (status == RAID2D_FATAL) {
        spoil_fatal(c, before.sheets);
        if (wrong("rebuild repairs beside a fatal position"))
            repair_others(c);
    }
    if (status == RAID2D_OK)
        status = spoil_turn(c, &before);
    else if (status == RAID2D_ERR_SURVIVORS)
        status = spoil_refusal(c, &before);
    free(before.array);
    free(before.map);
    free(before.sheets);
    return status;
}

uint32_t rebuild_in_sectors(struct cut c)
{
    static const struct late late = {
        "rebuild gives 16 after 4", "rebuild gives 16 before 3",
        "rebuild takes a sector that does not divide",
        "rebuild takes a sector of 0"
    };
    uint32_t status;

    if (!fits(&c) || c.sheets_len != SHEET * (c.block / c.sector)) {
        status = refuse(&c, &late, rebuild(&c));
        return status == 0 ? rebuild(&c) : status;
    }
    c.sectors = c.block / c.sector;
    if (wrong("rebuild swaps disks and positions"))
        return (uint32_t)transposed(&c, rebuild_this);
    if (turn_otherwise(&c))
        return RAID2D_OK;
    return rebuild_with_fault(&c);
}

/* ---- Follow ---- */

/* The sheets of all positions are the first one, or one further on. */
static uint32_t follow_other_sheets(const struct cut *c, int first)
{
    struct cut other = *c;
    size_t position;
    uint32_t status;

    other.sheets = copy_of(c->sheets, c->sheets_len);
    for (position = 0; position < c->sectors; position++)
        memcpy(other.sheets + position * SHEET,
               c->sheets
                   + (first ? 0 : (position + 1) % c->sectors) * SHEET,
               SHEET);
    status = follow(&other);
    free(other.sheets);
    return status;
}

/* Follow at one position, by itself. What it leaves is put into the array if
   that is wanted. */
static uint32_t follow_at(const struct cut *c, size_t position, int keep,
                          size_t *count)
{
    struct cut part = part_of(c, position);
    size_t disk;
    uint32_t status;

    part.count = count;
    status = follow(&part);
    for (disk = 0; disk < disks_of(c) && keep; disk++)
        memcpy(c->array + sector_at(c, position, disk),
               part.array + disk * c->sector, c->sector);
    end_part(&part);
    return status;
}

/* The refusal of the first position that has one. Positions before it are
   repaired, if they are not kept. */
static uint32_t follow_one_by_one(const struct cut *c, int keep)
{
    size_t position = 0, unused;
    uint32_t status = RAID2D_OK;

    while (position < c->sectors && status == RAID2D_OK)
        status = follow_at(c, position++, keep, &unused);
    return status;
}

static uint32_t follow_with_fault(struct cut *c)
{
    struct cut before = *c;
    uint32_t status;

    before.array = copy_of(c->array, c->array_len);
    status = follow(c);
    if (status == RAID2D_OK && wrong("follow counts the last position"))
        follow_at(&before, c->sectors - 1, 0, c->count);
    if (status == RAID2D_ERR_SURVIVORS
        && wrong("follow zeroes one position with 7"))
        zero_some(c, &before, 1);
    if (status == RAID2D_ERR_SURVIVORS
        && wrong("follow zeroes contradicted positions only"))
        zero_some(c, &before, 0);
    if (status >= RAID2D_ERR_CHAIN
        && wrong("follow judges position by position"))
        status = follow_one_by_one(&before, 0);
    if (status >= RAID2D_ERR_CHAIN
        && wrong("follow repairs what comes before a refusal"))
        follow_one_by_one(c, 1);
    free(before.array);
    return status;
}

uint32_t follow_in_sectors(struct cut c)
{
    static const struct late late = {
        "follow gives 16 after 4", "follow gives 16 before 3",
        "follow takes a sector that does not divide",
        "follow takes a sector of 0"
    };
    uint32_t status;

    if (!fits(&c) || c.sheets_len != SHEET * (c.block / c.sector)) {
        status = refuse(&c, &late, follow(&c));
        return status == 0 ? follow(&c) : status;
    }
    c.sectors = c.block / c.sector;
    if (wrong("follow swaps disks and positions"))
        return (uint32_t)transposed(&c, follow_this);
    if (wrong("follow reads the first sheet only"))
        return follow_other_sheets(&c, 1);
    if (wrong("follow reads the next position's sheet"))
        return follow_other_sheets(&c, 0);
    return follow_with_fault(&c);
}

/* ---- Save ---- */

/* Save at one position, by itself, or none of it. */
static uint32_t save_at(const struct cut *c, size_t position, int keep,
                        size_t *count)
{
    struct cut part = part_of(c, position);
    size_t disk;
    uint32_t status;

    part.count = count;
    status = save(&part);
    for (disk = 0; disk < disks_of(c) && keep; disk++)
        memcpy(c->array + sector_at(c, position, disk),
               part.array + disk * c->sector, c->sector);
    end_part(&part);
    return status;
}

/* Nothing is saved at positions that are fatal. */
static void forget_fatal(const struct cut *c, const struct cut *before)
{
    size_t position, count = 0, disk, saved = 0;
    uint8_t sheet[SHEET];

    for (position = 0; position < c->sectors; position++)
        if (plan_at(c, position, sheet, &count) == RAID2D_FATAL)
            for (disk = 0; disk < disks_of(c); disk++)
                memcpy(c->array + sector_at(c, position, disk),
                       before->array + sector_at(c, position, disk),
                       c->sector);
        else
            saved += count;
    *c->count = saved;
}

static uint32_t save_with_fault(struct cut *c)
{
    struct cut before = *c;
    size_t position, unused;
    uint32_t status;

    before.array = copy_of(c->array, c->array_len);
    status = save(c);
    if (status == RAID2D_OK && wrong("save counts the last position"))
        save_at(&before, c->sectors - 1, 0, c->count);
    if (status == RAID2D_OK && wrong("save leaves fatal positions"))
        forget_fatal(c, &before);
    if (status == RAID2D_ERR_SURVIVORS
        && wrong("save zeroes one position with 7"))
        zero_some(c, &before, 1);
    if (status == RAID2D_ERR_SURVIVORS
        && wrong("save saves beside a contradiction"))
        for (position = 0; position < c->sectors; position++)
            if (!is_contradicted(&before, position))
                save_at(c, position, 1, &unused);
    free(before.array);
    return status;
}

uint32_t save_in_sectors(struct cut c)
{
    static const struct late late = {
        "save gives 16 after 4", "save gives 16 before 3",
        "save takes a sector that does not divide",
        "save takes a sector of 0"
    };
    uint32_t status;

    if (!fits(&c)) {
        status = refuse(&c, &late, save(&c));
        return status == 0 ? save(&c) : status;
    }
    c.sectors = c.block / c.sector;
    if (wrong("save swaps disks and positions"))
        return (uint32_t)transposed(&c, save_this);
    return save_with_fault(&c);
}
