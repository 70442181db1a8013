#include "saved.h"
#include "guards.h"
#include "maps.h"
#include "raid2d.h"
#include "timing.h"

#include <stdio.h>
#include <stdlib.h>
#include <string.h>

/* What save is timed on, and how many disks it has to save there. */
struct loss {
    struct size size;
    size_t saved;
};

/* Losses that rebuild restores too. */
static const struct loss restorable[] = {
    {{2, 2, 16, ROW_AND_COLUMN}, 5},       {{15, 15, 16, ROW_AND_COLUMN}, 31},  {{8, 8, 512, ROW_AND_COLUMN}, 17},
    {{15, 15, 512, ROW_AND_COLUMN}, 31},   {{15, 15, 4096, ROW_AND_COLUMN}, 31}, {{2, 15, 4096, ROW_AND_COLUMN}, 18},
    {{15, 15, 512, STAIRCASE}, 31},        {{15, 15, 4096, STAIRCASE}, 31},     {{15, 15, 512, ONE_DISK}, 1},
    {{15, 15, 4096, ONE_DISK}, 1},
};

/* Fatal ones. Rectangles are nine disks at 3x3, of which one is saved. */
static const struct loss fatal[] = {
    {{3, 3, 16, RECTANGLES}, 1},     {{3, 3, 512, RECTANGLES}, 1},       {{3, 3, 4096, RECTANGLES}, 1},
    {{15, 15, 512, RECTANGLES}, 7},  {{15, 15, 4096, RECTANGLES}, 7},    {{15, 15, 512, CYCLE_AND_TREE}, 28},
    {{15, 15, 4096, CYCLE_AND_TREE}, 28}, {{15, 15, 4096, ALL_DISKS}, 0},
};

#define COUNT(table) (sizeof(table) / sizeof *(table))

/* Save may take so many times the time of rebuild for blocks of GUARDED_BLOCK bytes and more. */
static const double MOST = 1.5;

/* The block is its only sector. */
static void run_save(const struct peer *peer, struct input *input)
{
    (void)peer;
    input->status = raid2d_save(input->size.rows, input->size.columns, input->size.block, input->array, input->bytes,
                                input->size.block, input->map, input->disks, &input->count);
}

static void prepare(struct input *input, struct size size)
{
    input_resize(input, size);
    calls[REBUILD].prepare(input, 0);
}

/* How many erased disks hold the same in both arrays. */
static size_t count_same(const struct input *input, const uint8_t *array)
{
    size_t same = 0;
    for (size_t d = 0; d < input->disks; d++) {
        size_t at = d * input->size.block;
        same += input->map[d] != 0 && memcmp(input->array + at, array + at, input->size.block) == 0;
    }
    return same;
}

/* Seals an array, spoils the erased blocks and saves. Blocks have 16 bytes and more, so that what is spoiled by random
   bytes is not right again by chance. */
static int saves(struct input *input, const struct loss *loss, uint8_t *sealed)
{
    input_resize(input, loss->size);
    calls[SEAL].prepare(input, 0);
    calls[SEAL].run(&peers[PLAIN], input);
    memcpy(sealed, input->array, input->bytes);
    input_spoil(input);
    run_save(&peers[LIBRARY], input);
    return input->status == 0 && input->count == loss->saved && count_same(input, sealed) == loss->saved;
}

int save_agrees(void)
{
    int agrees = 1;
    struct input input;
    uint8_t *sealed = largest_array();
    input_open(&input);
    for (size_t i = 0; i < COUNT(restorable); i++)
        agrees = agrees && saves(&input, &restorable[i], sealed);
    for (size_t i = 0; i < COUNT(fatal); i++)
        agrees = agrees && saves(&input, &fatal[i], sealed);
    input_close(&input);
    free(sealed);
    if (!agrees)
        puts("DIFFERENT: save does not restore the disks that it should.");
    return agrees;
}

/* The time of save over that of another call on the same array. */
static double save_over(const struct call *other, struct input *input)
{
    static const struct call save = {.name = "save", .run = run_save};
    const struct call *both[] = {&save, other};
    double medians[2];
    time_calls(both, 2, input, medians);
    return medians[0] / medians[1];
}

static int compare_with_rebuild(struct input *input, struct size size)
{
    char what[TITLE_MAX];
    double ratio;
    prepare(input, size);
    ratio = save_over(&calls[REBUILD], input);
    snprintf(what, sizeof what, "save/rebuild %s", map_names[size.map]);
    if (size.block >= GUARDED_BLOCK)
        return judge(size, what, ratio, MOST);
    print_ratio(size, what, ratio);
    return 0;
}

/* The array is sealed and save leaves it so, since a check ends at the first stripe that is not. Check reads each block
   twice, as save reads each survivor at the most to judge them. */
static void compare_with_check(struct input *input, struct size size)
{
    char what[TITLE_MAX];
    input_resize(input, size);
    calls[CHECK].prepare(input, 0);
    snprintf(what, sizeof what, "save/check %s", map_names[size.map]);
    print_ratio(size, what, save_over(&calls[CHECK], input));
}

int compare_save(struct input *input)
{
    int warnings = 0;
    puts("Save: over rebuild on losses that are not fatal; on fatal ones over a check of the same array, which is sealed.");
    for (size_t i = 0; i < COUNT(restorable); i++)
        warnings += compare_with_rebuild(input, restorable[i].size);
    for (size_t i = 0; i < COUNT(fatal); i++)
        compare_with_check(input, fatal[i].size);
    return warnings;
}
