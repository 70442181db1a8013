#include "spots.h"
#include "raid2d.h"

#include <stdlib.h>
#include <string.h>

/* The buffers stand at fixed distances, as those of an input do, and for the same reason. */
enum {
    SHEETS_DISTANCE = DISKS_MAX * SECTORS_MAX + 2048 + 64,
    LENT_DISTANCE = SHEETS_DISTANCE + SHEET_BYTES * SECTORS_MAX + 64,
    SPACE = LENT_DISTANCE + DISKS_MAX * SECTORS_MAX
};

struct spots spots;

void spots_open(void)
{
    spots.map = take_space(SPACE);
    spots.sheets = spots.map + SHEETS_DISTANCE;
    spots.lent = spots.map + LENT_DISTANCE;
}

void spots_close(void)
{
    free(spots.map);
}

void cut_blocks(const struct input *input, size_t sector)
{
    spots.sector = sector;
    spots.sectors = input->size.block / sector;
    spots.map_bytes = input->disks * spots.sectors;
    spots.sheet_bytes = SHEET_BYTES * spots.sectors;
    memset(spots.map, 0, spots.map_bytes);
}

void put_position(const struct input *input, size_t position, const uint8_t *map)
{
    for (size_t d = 0; d < input->disks; d++)
        spots.map[d * spots.sectors + position] = map[d];
}

void erase_same(const struct input *input)
{
    for (size_t d = 0; d < input->disks; d++)
        memset(spots.map + d * spots.sectors, input->map[d], spots.sectors);
}

void erase_moved(const struct input *input)
{
    size_t down = input->size.rows + 1, across = input->size.columns + 1;
    uint8_t map[DISKS_MAX];
    for (size_t p = 0; p < spots.sectors; p++) {
        for (size_t d = 0; d < input->disks; d++)
            map[(d / across + p) % down * across + (d % across + p + p / down) % across] = input->map[d];
        put_position(input, p, map);
    }
}

size_t count_spots(void)
{
    size_t count = 0;
    for (size_t i = 0; i < spots.map_bytes; i++)
        count += spots.map[i];
    return count;
}

/* The sector of byte i of the map begins at i times its length. */
void spoil_spots(struct input *input)
{
    for (size_t i = 0; i < spots.map_bytes; i++)
        for (size_t k = 0; spots.map[i] != 0 && k < spots.sector; k++)
            input->array[i * spots.sector + k] ^= 165;
}

static void plan_by(plan_sectors_call *plan, struct input *input)
{
    input->status = plan(input->size.rows, input->size.columns, spots.sectors, spots.map, spots.map_bytes,
                         spots.sheets, spots.sheet_bytes, &input->count, &spots.position);
}

static void run_plan(const struct peer *peer, struct input *input)
{
    (void)peer;
    plan_by(raid2d_plan, input);
}

static void run_tuned_plan(const struct peer *peer, struct input *input)
{
    (void)peer;
    plan_by(tuned_plan_sectors, input);
}

/* Rebuild clears its map, so that every call is lent a copy. */
static void rebuild_by(rebuild_sectors_call *rebuild, struct input *input)
{
    memcpy(spots.lent, spots.map, spots.map_bytes);
    input->status = rebuild(input->size.rows, input->size.columns, input->size.block, input->array, input->bytes,
                            spots.sector, spots.lent, spots.map_bytes, spots.sheets, spots.sheet_bytes, input->limit,
                            &input->count, &spots.position);
}

static void run_rebuild(const struct peer *peer, struct input *input)
{
    (void)peer;
    rebuild_by(raid2d_rebuild, input);
}

static void run_tuned_rebuild(const struct peer *peer, struct input *input)
{
    (void)peer;
    rebuild_by(tuned_rebuild_sectors, input);
}

static void run_follow(const struct peer *peer, struct input *input)
{
    (void)peer;
    input->status = raid2d_follow(input->size.rows, input->size.columns, input->size.block, input->array, input->bytes,
                                  spots.sector, spots.map, spots.map_bytes, spots.sheets, spots.sheet_bytes,
                                  &input->count);
}

static void run_save(const struct peer *peer, struct input *input)
{
    (void)peer;
    input->status = raid2d_save(input->size.rows, input->size.columns, input->size.block, input->array, input->bytes,
                                spots.sector, spots.map, spots.map_bytes, &input->count);
}

static void run_look(const struct peer *peer, struct input *input)
{
    (void)peer;
    input->status = (uint32_t)raid2d_look(input->size.rows, input->size.columns, input->size.block, input->array,
                                          input->bytes, spots.sector, spots.map, spots.map_bytes, input->disk,
                                          &input->count);
}

const struct call spot_calls[SPOT_CALLS] = {
    [SPOT_PLAN] = {.name = "plan", .by_map = 1, .run = run_plan},
    [SPOT_REBUILD] = {.name = "rebuild", .by_map = 1, .run = run_rebuild},
    [SPOT_FOLLOW] = {.name = "follow", .by_map = 1, .run = run_follow},
    [SPOT_SAVE] = {.name = "save", .by_map = 1, .run = run_save},
    [SPOT_LOOK] = {.name = "look", .by_map = 1, .run = run_look},
    [TUNED_PLAN] = {.name = "plan", .by_map = 1, .run = run_tuned_plan},
    [TUNED_REBUILD] = {.name = "rebuild", .by_map = 1, .run = run_tuned_rebuild},
};
