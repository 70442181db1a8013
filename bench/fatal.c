#include "fatal.h"
#include "compare.h"
#include "guards.h"
#include "maps.h"
#include "measure.h"
#include "random.h"
#include "timing.h"

#include <stdio.h>

#define COUNT(table) (sizeof(table) / sizeof *(table))

/* Plan takes no array, so its block is the smallest. */
#define THREE_MAPS(rows, columns)                                                                                     \
    {rows, columns, 1, ALL_DISKS}, {rows, columns, 1, CYCLE_AND_TREE}, {rows, columns, 1, HALF_OF_ALL}
static const struct size sizes[] = {
    THREE_MAPS(4, 4),           THREE_MAPS(2, 15),          THREE_MAPS(15, 2),       THREE_MAPS(15, 15),
    {15, 15, 1, RECTANGLES},    {15, 15, 1, LONG_CYCLE},    {15, 15, 1, TREE_AND_CYCLE},
    {15, 15, 1, NO_FOUR},       {15, 15, 1, HARDEST},
};

/* At 15x15 a plan may take so many times the time of the tuned loops, and with all disks erased so many nanoseconds. */
static const double MOST = 2.0;
static const double MOST_TIME = 20e3;

/* The map of the size. Other variants have disks at random: any number of them, or only such as close no loop that is
   shorter than a length from 6 to 16, so that there are many of one length or few and long ones. */
static void prepare(struct input *input, size_t variant)
{
    static uint64_t state = 88172645463325252u;
    size_t rows = input->size.rows, columns = input->size.columns, shortest = 6 + variant % 12;
    if (variant == 0)
        draw_map(input->size.map, rows, columns, input->map);
    else if (variant % 2 == 0)
        draw_wide_map(rows, columns, shortest, next_random(&state) % (4 * input->disks), &state, input->map);
    else
        draw_random_map(rows, columns, next_random(&state) % (input->disks + 1), &state, input->map);
}

static int has_plan(const struct peer *peer)
{
    return peer->plan != NULL;
}

/* Plan with other sizes and variants, and with the peer by rows. */
static struct call fatal_plan(void)
{
    struct call plan = calls[PLAN];
    plan.has = has_plan;
    plan.sizes = sizes;
    plan.size_count = COUNT(sizes);
    plan.prepare = prepare;
    return plan;
}

int fatal_agrees(void)
{
    struct call plan = fatal_plan();
    return call_agrees(&plan);
}

static int is_largest(struct size size)
{
    return size.rows == 15 && size.columns == 15;
}

/* What the library takes for one plan, printed in microseconds. */
static double print_time(struct input *input, struct size size)
{
    char title[TITLE_MAX];
    double time;
    input_resize(input, size);
    put_title(title, &calls[PLAN], size);
    time = time_call(&calls[PLAN], input);
    printf("%-28s %6.2f us\n", title, time / 1e3);
    return time;
}

/* From 9 to 256 disks, all of them erased. */
static int print_growth(struct input *input)
{
    double time = 0;
    for (size_t side = 2; side <= 15; side++) {
        struct size size = {side, side, 1, ALL_DISKS};
        time = print_time(input, size);
    }
    if (time <= MOST_TIME)
        return 0;
    printf("WARNING: a plan with all %zu disks erased takes %.2f us; the limit is %.0f\n", input->disks, time / 1e3,
           MOST_TIME / 1e3);
    return 1;
}

int compare_fatal(struct input *input)
{
    struct call plan = fatal_plan();
    int warnings = 0;
    puts("Fatal: plans of fatal losses, which count the lost disks and show the smallest loop. All search from the");
    puts("row of each disk to its column, but the peer by rows from each row until two ways meet; it has no limit.");
    for (size_t s = 0; s < COUNT(sizes); s++) {
        double ratios[PEERS];
        measure(&plan, sizes[s], input, ratios);
        if (is_largest(sizes[s]))
            warnings += warn_above(&plan, sizes[s], TUNED, ratios[TUNED], MOST);
    }
    puts("The library by the clock, and with all disks erased from 2x2 to 15x15:");
    for (size_t s = 0; s < COUNT(sizes); s++)
        if (is_largest(sizes[s]) && sizes[s].map != ALL_DISKS)
            print_time(input, sizes[s]);
    return warnings + print_growth(input);
}
