#include "repairs.h"
#include "guards.h"
#include "maps.h"
#include "timing.h"

#include <stdio.h>

static const struct size sizes[] = {{15, 15, 512, MIDDLE_COLUMN}, {15, 15, 4096, MIDDLE_COLUMN}};

/* A middle disk may take so many times the time of an end disk. */
static const double MOST = 1.5;

/* The time of repairs in a middle column over those in the last one. A column's disks are repaired by their rows; what
   rebuild takes with no disk erased, which is mostly its check, is taken off both. */
static double middle_over_end(struct input *input)
{
    enum { NONE, MIDDLE, LAST, KINDS };
    static const size_t kinds[KINDS] = {NO_DISK, MIDDLE_COLUMN, LAST_COLUMN};
    double medians[KINDS];
    calls[REBUILD].prepare(input, 0);
    time_maps(&calls[REBUILD], input, kinds, KINDS, medians);
    return (medians[MIDDLE] - medians[NONE]) / (medians[LAST] - medians[NONE]);
}

int compare_places(struct input *input)
{
    int warnings = 0;
    puts("Repairs: rebuild with the middle column erased over rebuild with the last column erased, both less rebuild");
    puts("with no disk erased. So each row has one repair, of its middle disk or of its last one.");
    for (size_t s = 0; s < sizeof sizes / sizeof *sizes; s++) {
        input_resize(input, sizes[s]);
        warnings += judge(sizes[s], "repairs, middle / last disk", middle_over_end(input), MOST);
    }
    return warnings;
}
