#include "wanted.h"
#include "guards.h"
#include "maps.h"
#include "raid2d.h"
#include "timing.h"

#include <stdio.h>
#include <stdlib.h>
#include <string.h>

/* The arrays, each with every map that has an erased disk. A plan takes no array, so the block is the smallest. */
static const struct size sizes[] = {{3, 3, 1, 0}, {4, 4, 1, 0}, {15, 15, 1, 0}, {2, 15, 1, 0}, {15, 2, 1, 0}};

enum { SIZES = sizeof sizes / sizeof *sizes };

/* The plan for one disk may take so many times the time of the plan for all, which it also gives where no list reaches
   the disk. */
static const double MOST = 3.0;

static void run_by(plan_disk_call *plan_disk, struct input *input)
{
    input->status = plan_disk(input->size.rows, input->size.columns, input->map, input->disks, input->sheet,
                              SHEET_BYTES, input->disk, &input->count);
}

static void run_wanted(const struct peer *peer, struct input *input)
{
    (void)peer;
    run_by(raid2d_plan_disk, input);
}

static void run_plain(const struct peer *peer, struct input *input)
{
    (void)peer;
    run_by(plain_plan_disk, input);
}

static const struct call wanted = {.name = "wanted", .by_map = 1, .run = run_wanted};
static const struct call plain = {.name = "plain", .run = run_plain};

static size_t list_erased(const struct input *input, size_t disks[DISKS_MAX])
{
    size_t count = 0;
    for (size_t d = 0; d < input->disks; d++)
        if (input->map[d] != 0)
            disks[count++] = d;
    return count;
}

struct answer {
    uint32_t status;
    size_t count;
    uint8_t sheet[SHEET_BYTES];
};

/* What a call gives, in place of a count and a sheet that no call gives. */
static struct answer answer_of(const struct call *call, struct input *input)
{
    struct answer answer;
    input->count = SIZE_MAX;
    memset(input->sheet, UINT8_MAX, SHEET_BYTES);
    call->run(&peers[LIBRARY], input);
    answer.status = input->status;
    answer.count = input->count;
    memcpy(answer.sheet, input->sheet, SHEET_BYTES);
    return answer;
}

static int same(const struct answer *a, const struct answer *b)
{
    return a->status == b->status && a->count == b->count && memcmp(a->sheet, b->sheet, SHEET_BYTES) == 0;
}

/* Compares the answers for the disk of the input. Where no list reaches it, plan gives the same. */
static int disk_agrees(struct input *input)
{
    struct answer given = answer_of(&wanted, input), other = answer_of(&plain, input), planned;
    if (given.status != FATAL)
        return same(&given, &other);
    planned = answer_of(&calls[PLAN], input);
    return same(&given, &other) && same(&given, &planned);
}

static int map_agrees(struct input *input)
{
    size_t disks[DISKS_MAX], count = list_erased(input, disks);
    for (size_t k = 0; k < count; k++) {
        input->disk = disks[k];
        if (!disk_agrees(input))
            return 0;
    }
    return 1;
}

static void take_map(struct input *input, struct size size, size_t map)
{
    size.map = map;
    input_resize(input, size);
}

/* Compares on every map of an array, and on 20 for each of its disks, which have erased disks at random. */
static int size_agrees(struct input *input, struct size size)
{
    int agrees = 1;
    for (size_t map = 0; map < MAPS; map++) {
        take_map(input, size, map);
        agrees = agrees && map_agrees(input);
    }
    for (size_t v = 1; v <= 20 * input->disks; v++) {
        calls[PLAN].prepare(input, v);
        agrees = agrees && map_agrees(input);
    }
    return agrees;
}

int wanted_agrees(void)
{
    int agrees = 1;
    struct input input;
    input_open(&input);
    for (size_t s = 0; s < SIZES; s++)
        agrees = agrees && size_agrees(&input, sizes[s]);
    input_close(&input);
    if (!agrees)
        puts("DIFFERENT: a plan for one disk from the program in C, or from plan where no list reaches the disk.");
    return agrees;
}

struct timed {
    double time;
    size_t disk;
};

static int by_time(const void *a, const void *b)
{
    double x = ((const struct timed *)a)->time, y = ((const struct timed *)b)->time;
    return (x > y) - (x < y);
}

/* The erased disks in the order of the time that a plan for each of them takes, and how many they are. */
static size_t sort_erased(struct input *input, struct timed sorted[DISKS_MAX])
{
    size_t disks[DISKS_MAX] = {0}, count = list_erased(input, disks);
    double medians[DISKS_MAX];
    time_disks(&wanted, input, disks, count, medians);
    for (size_t k = 0; k < count; k++)
        sorted[k] = (struct timed){medians[k], disks[k]};
    qsort(sorted, count, sizeof *sorted, by_time);
    return count;
}

/* Times the plan for one disk, which the output calls by a word, beside plan and beside the program in C. */
static int compare_disk(struct input *input, size_t disk, const char *word)
{
    enum { WANTED, PLANNED, IN_C, TIMED };
    const struct call *list[TIMED] = {[WANTED] = &wanted, [PLANNED] = &calls[PLAN], [IN_C] = &plain};
    char title[TITLE_MAX], what[TITLE_MAX];
    double medians[TIMED];
    int warnings;
    input->disk = disk;
    time_calls(list, TIMED, input, medians);
    put_title(title, &wanted, input->size);
    snprintf(what, sizeof what, "%s disk, %zu / plan", word, disk);
    warnings = judge_titled(title, what, medians[WANTED] / medians[PLANNED], MOST);
    snprintf(what, sizeof what, "%s disk, %zu / in C", word, disk);
    print_titled(title, what, medians[WANTED] / medians[IN_C]);
    return warnings;
}

static int compare_map(struct input *input)
{
    struct timed sorted[DISKS_MAX];
    size_t count = sort_erased(input, sorted);
    int warnings = compare_disk(input, sorted[count - 1].disk, "slowest");
    return warnings + compare_disk(input, sorted[count / 2].disk, "median");
}

int compare_wanted(struct input *input)
{
    int warnings = 0;
    puts("Wanted: the plan for one disk over the plan for all, and over a program in C by the same rule. All erased");
    puts("disks of a map are timed in turn first; then the slowest of them and the median one are compared.");
    for (size_t s = 0; s < SIZES; s++) {
        for (size_t map = 0; map < MAPS; map++) {
            take_map(input, sizes[s], map);
            if (map != NO_DISK)
                warnings += compare_map(input);
        }
    }
    return warnings;
}
