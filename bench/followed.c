#include "followed.h"
#include "guards.h"
#include "maps.h"
#include "raid2d.h"
#include "timing.h"

#include <stdio.h>

static const struct size sizes[] = {{2, 2, 16, ROW_AND_COLUMN},
                                    {15, 15, 16, ROW_AND_COLUMN},
                                    {15, 15, 512, ROW_AND_COLUMN},
                                    {15, 15, 4096, ROW_AND_COLUMN},
                                    {2, 15, 4096, ROW_AND_COLUMN}};

/* Follow may take so many times the time of rebuild: it judges a list instead of making one, and repairs as rebuild
   does. */
static const double MOST = 1.2;

/* Follows the sheet in the input; the block is its only sector. Only the library has this call. */
static void run_follow(const struct peer *peer, struct input *input)
{
    (void)peer;
    input->status = raid2d_follow(input->size.rows, input->size.columns, input->size.block, input->array, input->bytes,
                                  input->size.block, input->map, input->disks, input->sheet, SHEET_BYTES,
                                  &input->count);
}

/* Takes a size, and has the library rebuild an array for it. Its sheet is the one to follow. */
static void rebuild_first(struct input *input, struct size size)
{
    input_resize(input, size);
    calls[REBUILD].prepare(input, 0);
    calls[REBUILD].run(&peers[LIBRARY], input);
}

/* Whether follow restores the rebuilt array, which is the only sealed one with its survivors. */
static int restores_again(struct input *input)
{
    input_spoil(input);
    run_follow(&peers[LIBRARY], input);
    if (input->status != 0)
        return 0;
    calls[CHECK].run(&peers[PLAIN], input);
    return input->status == SEALED;
}

int follow_agrees(void)
{
    int agrees = 1;
    struct input input;
    input_open(&input);
    for (size_t s = 0; s < sizeof sizes / sizeof *sizes; s++) {
        rebuild_first(&input, sizes[s]);
        agrees = agrees && restores_again(&input);
    }
    input_close(&input);
    if (!agrees)
        puts("DIFFERENT: follow does not restore what rebuild does.");
    return agrees;
}

/* The time of follow over that of rebuild, whose sheet it follows. */
static double follow_over_rebuild(struct input *input)
{
    static const struct call follow = {.name = "follow", .run = run_follow};
    const struct call *both[] = {&follow, &calls[REBUILD]};
    double medians[2];
    time_calls(both, 2, input, medians);
    return medians[0] / medians[1];
}

int compare_follow(struct input *input)
{
    int warnings = 0;
    puts("Follow: on plan's own sheet, over rebuild on the same array.");
    for (size_t s = 0; s < sizeof sizes / sizeof *sizes; s++) {
        rebuild_first(input, sizes[s]);
        warnings += judge(sizes[s], "follow / rebuild", follow_over_rebuild(input), MOST);
    }
    return warnings;
}
