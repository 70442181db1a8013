#include "turns.h"
#include "guards.h"
#include "maps.h"
#include "timing.h"

#include <stdio.h>
#include <string.h>

static const struct size sizes[] = {{15, 15, 16, ROW_AND_COLUMN},
                                    {15, 15, 512, ROW_AND_COLUMN},
                                    {15, 15, 4096, ROW_AND_COLUMN}};

/* The disks of row 0 and column 0 at these sizes: as many as can be restored. */
enum { ERASED = 31 };

/* Each turn plans anew. The map gets smaller from turn to turn, so no plan should take longer than the first. */
static const double MOST = 1.0;

/* One repair in each turn, on the map that the turn before left. */
static void run_turns(const struct peer *peer, struct input *input)
{
    memcpy(input->lent, input->map, input->disks);
    for (size_t turn = 0; turn < ERASED; turn++)
        run_turn(peer, input, 1);
}

/* All disks but the last one: a plan and its repairs, and no check. */
static void run_unchecked(const struct peer *peer, struct input *input)
{
    memcpy(input->lent, input->map, input->disks);
    run_turn(peer, input, ERASED - 1);
}

/* Whether the turns clear the map and leave a sealed array, which is the only one with the survivors. */
static int restores_all(struct input *input)
{
    run_turns(&peers[LIBRARY], input);
    if (input->status != 0 || memchr(input->lent, 1, input->disks) != NULL)
        return 0;
    calls[CHECK].run(&peers[PLAIN], input);
    return input->status == SEALED;
}

int turns_agree(void)
{
    int agrees = 1;
    struct input input;
    input_open(&input);
    for (size_t s = 0; s < sizeof sizes / sizeof *sizes; s++) {
        input_resize(&input, sizes[s]);
        calls[REBUILD].prepare(&input, 0);
        agrees = agrees && restores_all(&input);
    }
    input_close(&input);
    if (!agrees)
        puts("DIFFERENT: turns do not restore what rebuild does.");
    return agrees;
}

enum { TURNS, ALL, PLANNED, UNCHECKED, CHECKED, TIMED };

static void time_parts(struct input *input, double medians[TIMED])
{
    static const struct call turns = {.name = "turns", .run = run_turns};
    static const struct call unchecked = {.name = "repairs", .run = run_unchecked};
    const struct call *list[TIMED] = {
        [TURNS] = &turns,
        [ALL] = &calls[REBUILD],
        [PLANNED] = &calls[PLAN],
        [UNCHECKED] = &unchecked,
        [CHECKED] = &calls[CHECK],
    };
    time_calls(list, TIMED, input, medians);
}

/* A plan for each turn, the repairs, and one check. A turn of all disks but one is a plan and as many repairs. */
static double bound_of(const double medians[TIMED])
{
    double repairs = (medians[UNCHECKED] - medians[PLANNED]) * ERASED / (ERASED - 1);
    return ERASED * medians[PLANNED] + repairs + medians[CHECKED];
}

int compare_turns(struct input *input)
{
    int warnings = 0;
    puts("Turns: row 0 and column 0 erased, one repair in each of 31 turns, over one rebuild of all; and over their");
    puts("bound: 31 plans for all disks, the repairs (a turn of 30 less its plan, times 31 / 30) and one check.");
    for (size_t s = 0; s < sizeof sizes / sizeof *sizes; s++) {
        double medians[TIMED];
        input_resize(input, sizes[s]);
        calls[REBUILD].prepare(input, 0);
        time_parts(input, medians);
        print_ratio(sizes[s], "turns of 1 / one rebuild", medians[TURNS] / medians[ALL]);
        warnings += judge(sizes[s], "turns of 1 / their bound", medians[TURNS] / bound_of(medians), MOST);
    }
    return warnings;
}
