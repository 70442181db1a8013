/*
 * The stand-in's save: the model's, with the one fault that is wanted, or none.
 * These faults are in blocks as one sector.
 */
#include <string.h>

#include "../wrong_sectors.h"
#include "model.h"
#include "raid2d.h"
#include "wrong.h"

/* A call with arguments that are not refused, what the array held before it,
   and which of the erased disks are lost, or left when no repair is allowed. */
struct saving {
    struct grid grid;
    size_t block;
    uint8_t *array;
    size_t array_len;
    const uint8_t *map;
    size_t map_len;
    size_t *count;
    uint8_t is_lost[DISKS_MAX], is_left[DISKS_MAX], planned[SHEET_BYTES];
    size_t lost, repairs, count_before;
};

static uint8_t before[256 * 4096];

static void plan_saving(struct saving *s)
{
    memcpy(before, s->array, s->array_len);
    memcpy(s->is_left, s->map, s->map_len);
    s->repairs = plan_repairs(s->grid, s->is_left, s->planned);
    s->lost = find_lost(s->grid, s->map, s->is_lost);
    s->count_before = *s->count;
}

/* The blocks of these disks are as before the call. */
static void put_back(struct saving *s, const uint8_t *disks)
{
    size_t disk, at;

    for (disk = 0; disk < s->map_len; disk++) {
        at = disk * s->block;
        if (disks[disk] == 1)
            memcpy(s->array + at, before + at, s->block);
    }
}

/* The lost blocks become zero, or the sum of the others of their rows. */
static void write_lost(struct saving *s, int as_repairs)
{
    uint8_t record[2];
    size_t disk;

    for (disk = 0; disk < s->map_len; disk++) {
        record[0] = (uint8_t)disk;
        record[1] = (uint8_t)row_of(s->grid, disk);
        if (s->is_lost[disk] && as_repairs)
            make_repair(s->grid, s->block, s->array, record);
        else if (s->is_lost[disk])
            memset(s->array + disk * s->block, 0, s->block);
    }
}

/* What is wrong after a success. */
static uint32_t spoil_saved(struct saving *s)
{
    if (wrong("save gives 6") && s->lost > 0)
        return 6;
    if (wrong("save gives 6 where nothing is saved") && s->lost > 0 &&
        *s->count == 0)
        return 6;
    if (wrong("saves what repairs reach only")) {
        put_back(s, s->is_left);
        *s->count = s->repairs;
    }
    if (wrong("counts what repairs reach only"))
        *s->count = s->repairs;
    if (wrong("joins the stripes of a disk by the disk itself")) {
        put_back(s, s->map);
        *s->count = 0;
    }
    if (wrong("save zeroes lost blocks"))
        write_lost(s, 0);
    if (wrong("save repairs lost blocks by their rows"))
        write_lost(s, 1);
    if (wrong("save counts all erased disks"))
        *s->count = count_erased(s->map, s->map_len);
    if (wrong("save counts the lost disks"))
        *s->count = s->lost;
    if (wrong("save leaves the count where it is 0") && *s->count == 0)
        *s->count = s->count_before;
    return 0;
}

/* A stripe without erased disks is not sealed. */
static int free_stripe_contradicts(const struct saving *s)
{
    uint8_t on[STRIPES] = {0};
    size_t disk, stripe;

    for (disk = 0; disk < s->map_len; disk++) {
        on[row_of(s->grid, disk)] |= s->map[disk];
        on[column_of(s->grid, disk)] |= s->map[disk];
    }
    for (stripe = 0; stripe < STRIPES; stripe++)
        if (!on[stripe] &&
            !stripe_is_sealed(s->grid, s->block, before, stripe))
            return 1;
    return 0;
}

/* What is wrong after survivors that contradict each other. */
static uint32_t spoil_unsaved(struct saving *s)
{
    size_t k;

    if (wrong("save tests stripes without erased disks only") &&
        !free_stripe_contradicts(s))
        return 0;
    if (wrong("save tests nothing where all is present") &&
        count_erased(s->map, s->map_len) == 0)
        return 0;
    if (wrong("save tests nothing where a loss is fatal") && s->lost > 0)
        return 0;
    if (wrong("save leaves lost blocks with 7"))
        put_back(s, s->is_lost);
    if (wrong("save leaves all blocks with 7"))
        put_back(s, s->map);
    if (wrong("saves before it judges"))
        for (k = 1; k <= s->repairs; k++)
            make_repair(s->grid, s->block, s->array,
                        s->planned + record_at(k));
    if (wrong("save counts with 7"))
        *s->count = 0;
    if (wrong("save zeroes the array with 7"))
        memset(s->array, 0, s->array_len);
    return 7;
}

/* What is wrong with the bytes beside and in the map. */
static void touch_map(const struct saving *s)
{
    volatile uint8_t *own = (volatile uint8_t *)(size_t)s->map;

    if (wrong("save writes the map, the same bytes"))
        own[0] = s->map[0];
    if (wrong("save clears the map"))
        memset((uint8_t *)(size_t)s->map, 0, s->map_len);
    if (wrong("save reads a byte behind the map"))
        (void)own[s->map_len];
    if (wrong("save reads a byte before the map"))
        (void)own[-1];
}

/* The refusal of the arguments, 0 if there is none. With no disk erased the
   model tests them and writes nothing, and the map's bytes come after that. */
static uint32_t save_refusal(struct saving *s)
{
    static const uint8_t clear[DISKS_MAX];
    size_t disk, unused;
    uint32_t status = model_save(s->grid, s->block, s->array, s->array_len,
                                 s->block, clear, s->map_len, &unused);

    if (wrong("tests save's map before its array") && status == 3 &&
        s->map_len != disks_of(s->grid))
        return 4;
    for (disk = 0; (status == 0 || status == 7) && disk < s->map_len; disk++)
        if (s->map[disk] > (wrong("save takes a map byte of 2") ? 2 : 1))
            status = 4;
    if (wrong("save counts with 4") && status == 4)
        *s->count = 0;
    return status == 7 ? 0 : status;
}

/* Save on blocks as one sector. */
static uint32_t save_one(const struct cut *c)
{
    struct grid g = half_tested(c->rows, c->columns,
                                wrong("save tests the columns only"),
                                wrong("save tests the rows only"));
    struct saving s = {g, c->block, c->array, c->array_len, c->map,
                       c->map_len, c->count, {0}, {0}, {0}, 0, 0, 0};
    uint32_t status;

    if (wrong("save swaps rows and columns"))
        s.grid = swapped(g);
    if (wrong("save shortens block to 32 bits"))
        s.block = (uint32_t)c->block;
    status = save_refusal(&s);
    if (status != 0)
        return status;
    plan_saving(&s);
    status = model_save(s.grid, s.block, s.array, s.array_len, s.block, s.map,
                        s.map_len, s.count);
    touch_map(&s);
    if (status == 7)
        return spoil_unsaved(&s);
    return status == 0 ? spoil_saved(&s) : 0;
}

/* What ../wrong_sectors.c stands before. */
uint32_t right_save(size_t rows, size_t columns, size_t block,
                    uint8_t *array, size_t array_len, size_t sector,
                    const uint8_t *map, size_t map_len, size_t *count)
{
    struct grid g = {rows, columns};

    return model_save(g, block, array, array_len, sector, map, map_len, count);
}

uint32_t raid2d_save(size_t rows, size_t columns, size_t block,
                     uint8_t *array, size_t array_len, size_t sector,
                     const uint8_t *map, size_t map_len, size_t *count)
{
    const struct cut c = {rows, columns, block, array, array_len, sector, 1,
                          (uint8_t *)(size_t)map, map_len, NULL, 0, 0, 0,
                          count, NULL};

    return sector == block ? save_one(&c) : save_in_sectors(c);
}
