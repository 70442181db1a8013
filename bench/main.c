/* Compares, times and prints: one line for each call, size and peer. */
#include "calls.h"
#include "compare.h"
#include "fatal.h"
#include "followed.h"
#include "guards.h"
#include "measure.h"
#include "old.h"
#include "repairs.h"
#include "saved.h"
#include "sectors.h"
#include "speed.h"
#include "tidied.h"
#include "timing.h"
#include "turns.h"
#include "wanted.h"

#include <stdio.h>
#include <string.h>

/* What is timed besides the table of calls. The name of a part as the program's argument has it timed by itself. */
static const struct part {
    const char *name;
    int (*agrees)(void);
    int (*compare)(struct input *input);
} parts[] = {
    {"repairs", peers_agree, compare_places},
    {"fatal", fatal_agrees, compare_fatal},
    {"follow", follow_agrees, compare_follow},
    {"tidy", tidy_agrees, compare_tidy},
    {"turns", turns_agree, compare_turns},
    {"save", save_agrees, compare_save},
    {"wanted", wanted_agrees, compare_wanted},
    {"sectors", sectors_agree, compare_sectors},
#ifdef OLD_ARCHIVE
    {"old", old_agrees, compare_old},
#endif
};

enum { PARTS = sizeof parts / sizeof *parts };

static void print_head(void)
{
    puts("time(library) / time(peer): above 1 the peer is faster.");
    printf("Medians of %d samples, peers in turn in one process. Buffers are warm and not cleared.\n", SAMPLES);
    puts("Sizes are data rows x data columns, and B, the bytes in a block.");
    puts("Peers test no argument. Check is timed on a sealed array, rebuild with row 0 and column 0 erased.");
    puts("Rebuild makes all repairs in one turn, and clears its map: so a copy of the map is timed with each call.");
    puts("Plan: the plain loops look at all disks again for each repair, the other peers keep counters for stripes.");
    if (calls[SEAL].has(&peers[ISAL]))
        puts("ISA-L: xor_gen and xor_check as it chooses them for this machine, where B is a multiple of 32.");
    else
        puts("ISA-L is not installed here: its rows are left out.");
    puts("");
}

static void measure_all(struct input *input, ratio_table ratios)
{
    for (size_t c = 0; c < CALLS; c++)
        for (size_t s = 0; s < calls[c].size_count; s++)
            measure(&calls[c], calls[c].sizes[s], input, ratios[c][s]);
}

/* All calls and all parts; how many limits were passed. */
static int compare_all(struct input *input)
{
    static ratio_table ratios;
    int warnings = 0;
    puts("All peers give the library's results.");
    print_head();
    measure_all(input, ratios);
    for (size_t p = 0; p < PARTS; p++) {
        puts("");
        warnings += parts[p].compare(input);
    }
    puts("");
    print_speeds(input);
    puts("");
    return warnings + warn(ratios);
}

/* The number of a part, or how many there are. */
static size_t find_part(const char *name)
{
    size_t p = 0;
    while (p < PARTS && strcmp(parts[p].name, name) != 0)
        p++;
    return p;
}

/* Whether the results of these parts are right. The first part sees to the whole table, which has its call. */
static int parts_agree(size_t first, size_t last)
{
    for (size_t p = first; p <= last; p++) {
        if (!parts[p].agrees()) {
            puts("Nothing is timed.");
            return 0;
        }
    }
    return 1;
}

int main(int argc, char **argv)
{
    struct input input;
    size_t part = argc > 1 ? find_part(argv[1]) : 0;
    int warnings;
    if (part == PARTS) {
        fprintf(stderr, "bench: there is no part %s\n", argv[1]);
        return 1;
    }
    if (!parts_agree(part, argc > 1 ? part : PARTS - 1))
        return 1;
    input_open(&input);
    warnings = argc > 1 ? parts[part].compare(&input) : compare_all(&input);
    input_close(&input);
    if (warnings == 0)
        puts("All guarded ratios are within their limits.");
    return 0;
}
