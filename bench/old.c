#include "old.h"
#include "compare.h"
#include "guards.h"
#include "maps.h"
#include "raid2d.h"
#include "timing.h"

#include <math.h>
#include <stdio.h>
#include <string.h>

#define COUNT(table) (sizeof(table) / sizeof *(table))

static const struct size sizes[] = {{2, 2, 16, ROW_AND_COLUMN},
                                    {15, 15, 512, ROW_AND_COLUMN},
                                    {15, 15, 4096, ROW_AND_COLUMN}};
static const size_t kinds[] = {ONE_DISK, ROW_AND_COLUMN};

/* A call may take so many times the time of the one before, where both do the same work. Where blocks are small, the
   ratio also depends on where the code of both stands. */
static const double MOST = 1.03;

/* The calls of version 0.10.0, under the names that they are given here. */
typedef uint32_t follow_call(size_t rows, size_t columns, size_t block, uint8_t *array, size_t array_len, size_t sector,
                             const uint8_t *map, size_t map_len, const uint8_t *sheets, size_t sheets_len,
                             size_t *count);
typedef uint32_t save_call(size_t rows, size_t columns, size_t block, uint8_t *array, size_t array_len, size_t sector,
                           const uint8_t *map, size_t map_len, size_t *count);
plan_sectors_call old_raid2d_plan;
rebuild_sectors_call old_raid2d_rebuild;
follow_call old_raid2d_follow;
save_call old_raid2d_save;

/* The sheet that is followed, and a position that no result depends on. */
static uint8_t listed[SHEET_BYTES];
static size_t position;

/* Each call with blocks of one sector. */
static void plan_by(plan_sectors_call *plan, struct input *input)
{
    input->status = plan(input->size.rows, input->size.columns, 1, input->map, input->disks, input->sheet, SHEET_BYTES,
                         &input->count, &position);
}

static void rebuild_by(rebuild_sectors_call *rebuild, struct input *input)
{
    memcpy(input->lent, input->map, input->disks);
    input->status = rebuild(input->size.rows, input->size.columns, input->size.block, input->array, input->bytes,
                            input->size.block, input->lent, input->disks, input->sheet, SHEET_BYTES, input->limit,
                            &input->count, &position);
}

static void follow_by(follow_call *follow, struct input *input)
{
    input->status = follow(input->size.rows, input->size.columns, input->size.block, input->array, input->bytes,
                           input->size.block, input->map, input->disks, listed, SHEET_BYTES, &input->count);
}

static void save_by(save_call *save, struct input *input)
{
    input->status = save(input->size.rows, input->size.columns, input->size.block, input->array, input->bytes,
                         input->size.block, input->map, input->disks, &input->count);
}

#define RUN(call)                                                                                                     \
    static void run_##call(const struct peer *peer, struct input *input)                                              \
    {                                                                                                                 \
        (void)peer;                                                                                                   \
        call##_by(raid2d_##call, input);                                                                              \
    }                                                                                                                 \
    static void run_old_##call(const struct peer *peer, struct input *input)                                          \
    {                                                                                                                 \
        (void)peer;                                                                                                   \
        call##_by(old_raid2d_##call, input);                                                                          \
    }

RUN(plan)
RUN(rebuild)
RUN(follow)
RUN(save)

/* The calls of both, and at how many sizes they are timed: plan takes no block, so that its last would be one again. */
#define PAIR(call, sizes) {{.name = #call, .run = run_##call}, {.name = #call, .run = run_old_##call}, sizes}
static const struct pair {
    struct call now, before;
    size_t sizes;
} pairs[] = {
    PAIR(plan, COUNT(sizes) - 1),
    PAIR(rebuild, COUNT(sizes)),
    PAIR(follow, COUNT(sizes)),
    PAIR(save, COUNT(sizes)),
};

/* An array and its map as for rebuild, and plan's sheet to follow. */
static void prepare(struct input *input, size_t variant)
{
    calls[REBUILD].prepare(input, variant);
    run_old_plan(&peers[LIBRARY], input);
    memcpy(listed, input->sheet, SHEET_BYTES);
}

static int variant_agrees(struct input *input, size_t variant, struct expected *expected)
{
    int agrees = 1;
    prepare(input, variant);
    for (size_t i = 0; i < COUNT(pairs); i++)
        agrees = agrees && calls_agree(&pairs[i].now, &pairs[i].before, input, expected);
    return agrees;
}

/* Compares at one size, on the maps that are timed and on two variants for each disk. */
static int size_agrees(struct input *input, struct size size, struct expected *expected)
{
    int agrees = 1;
    for (size_t k = 0; k < COUNT(kinds); k++) {
        size.map = kinds[k];
        input_resize(input, size);
        agrees = agrees && variant_agrees(input, 0, expected);
    }
    for (size_t v = 1; v <= 2 * input->disks; v++)
        agrees = agrees && variant_agrees(input, v, expected);
    return agrees;
}

int old_agrees(void)
{
    int agrees = 1;
    struct input input;
    struct expected expected;
    input_open(&input);
    expected_open(&expected);
    for (size_t s = 0; s < COUNT(sizes); s++)
        agrees = agrees && size_agrees(&input, sizes[s], &expected);
    expected_close(&expected);
    input_close(&input);
    if (!agrees)
        puts("DIFFERENT: the library from version 0.10.0.");
    return agrees;
}

/* Times a call of both at one size with one map. */
static int compare_pair(struct input *input, const struct pair *pair, struct size size, double most)
{
    const struct call *both[] = {&pair->now, &pair->before};
    char title[TITLE_MAX], what[TITLE_MAX];
    double medians[2];
    input_resize(input, size);
    prepare(input, 0);
    time_calls(both, 2, input, medians);
    put_title(title, &pair->now, size);
    snprintf(what, sizeof what, "%s / 0.10.0", map_names[size.map]);
    return judge_titled(title, what, medians[0] / medians[1], most);
}

int compare_old(struct input *input)
{
    int warnings = 0;
    puts("Old: over version 0.10.0, which showed any loop of a fatal loss.");
    for (size_t i = 0; i < COUNT(pairs); i++) {
        for (size_t s = 0; s < pairs[i].sizes; s++) {
            for (size_t k = 0; k < COUNT(kinds); k++) {
                struct size size = sizes[s];
                size.map = kinds[k];
                warnings += compare_pair(input, &pairs[i], size, MOST);
            }
        }
    }
    for (size_t map = 0; map < MAPS; map++) {
        struct size size = {15, 15, 1, map};
        if (is_fatal(map))
            compare_pair(input, &pairs[0], size, HUGE_VAL);
    }
    return warnings;
}
