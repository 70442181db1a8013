#include "sectors.h"
#include "guards.h"
#include "maps.h"
#include "random.h"
#include "spots.h"
#include "timing.h"

#include <math.h>
#include <stdio.h>
#include <stdlib.h>
#include <string.h>

#define COUNT(table) (sizeof(table) / sizeof *(table))

/* What is timed at each position. */
static const size_t kinds[] = {ONE_DISK, ROW_AND_COLUMN};

/* The sectors with which rebuild is compared with the tuned loops, in the largest array. */
static const struct cut {
    size_t block, sector;
} cuts[] = {{4096, 1}, {4096, 16}, {4000, 100}, {4096, 512}};

/* Where blocks have so many sectors, calls take long. */
enum { MANY_SECTORS = 1000 };

/* Rebuild with 8 sectors in a block and one disk lost at each position may take so many times the time of rebuild with
   one whole disk lost. */
static const double MOST_OVER_DISKS = 1.3;

/* How many positions there are where the cost of each is compared with that of each of 8, the first; and how many times
   that it may be. Calls on arrays are not compared at the last, one position, which is not gathered from the map. */
static const size_t numbers[] = {8, 64, 512, 4096, 1};
static const double MOST_EACH = 1.5;

/* A sealed array of the largest grid, and the map of a loss. */
static void take_array(struct input *input, size_t block, size_t kind)
{
    struct size size = {15, 15, block, kind};
    input_resize(input, size);
    calls[SEAL].run(&peers[PLAIN], input);
}

/* The same disks are lost at each of so many positions. */
static void take_number(struct input *input, size_t number)
{
    cut_blocks(input, input->size.block / numbers[number]);
    erase_same(input);
}

/* The same, and the sheets have plan's lists. */
static void take_and_list(struct input *input, size_t number)
{
    take_number(input, number);
    spot_calls[SPOT_PLAN].run(&peers[LIBRARY], input);
}

/* What an out-parameter, and each byte of the sheets, holds before a call. */
static const size_t UNTOUCHED = 424242;
static const uint8_t UNTOUCHED_BYTE = 42;

/* The array before the calls, and what the library leaves and gives. */
struct kept {
    uint8_t *before, *array, *map, *sheets;
    uint32_t status;
    size_t count, position;
};

static void open_kept(struct kept *kept)
{
    kept->before = largest_array();
    kept->array = largest_array();
    kept->map = largest_array();
    kept->sheets = largest_array();
}

static void close_kept(struct kept *kept)
{
    free(kept->before);
    free(kept->array);
    free(kept->map);
    free(kept->sheets);
}

static void run_from(const struct call *call, struct input *input, const uint8_t *before)
{
    memcpy(input->array, before, input->bytes);
    memset(spots.sheets, UNTOUCHED_BYTE, spots.sheet_bytes);
    memset(spots.lent, UNTOUCHED_BYTE, spots.map_bytes);
    input->count = spots.position = UNTOUCHED;
    call->run(&peers[LIBRARY], input);
}

static void keep(struct kept *kept, const struct input *input)
{
    memcpy(kept->array, input->array, input->bytes);
    memcpy(kept->map, spots.lent, spots.map_bytes);
    memcpy(kept->sheets, spots.sheets, spots.sheet_bytes);
    kept->status = input->status;
    kept->count = input->count;
    kept->position = spots.position;
}

/* Whether the tuned loops give and leave what the library does, on a prepared input. */
static int both_give(size_t library, size_t tuned, struct input *input, struct kept *kept)
{
    memcpy(kept->before, input->array, input->bytes);
    run_from(&spot_calls[library], input, kept->before);
    keep(kept, input);
    run_from(&spot_calls[tuned], input, kept->before);
    return input->status == kept->status && input->count == kept->count && spots.position == kept->position
        && memcmp(input->array, kept->array, input->bytes) == 0
        && memcmp(spots.lent, kept->map, spots.map_bytes) == 0
        && memcmp(spots.sheets, kept->sheets, spots.sheet_bytes) == 0;
}

/* Up to three disks at random at each position, which is never fatal. In two variants of three one position has up to
   rows + columns + 2 disks, which may be. */
static void draw_variant(const struct input *input, size_t variant, uint64_t *state)
{
    size_t rows = input->size.rows, columns = input->size.columns, chosen = next_random(state) % spots.sectors;
    for (size_t p = 0; p < spots.sectors; p++) {
        size_t most = variant % 3 != 0 && p == chosen ? rows + columns + 2 : 3;
        uint8_t map[DISKS_MAX];
        draw_random_map(rows, columns, next_random(state) % (most + 1), state, map);
        put_position(input, p, map);
    }
}

/* A sealed array with other bytes in the erased sectors. In one variant of four a byte anywhere is damaged, and in two
   of five there is a limit. */
static void prepare_variant(struct input *input, struct size size, size_t sector, size_t variant)
{
    static uint64_t state = 88172645463325252u;
    input_resize(input, size);
    calls[SEAL].run(&peers[PLAIN], input);
    cut_blocks(input, sector);
    draw_variant(input, variant, &state);
    spoil_spots(input);
    if (variant % 4 == 0)
        input->array[next_random(&state) % input->bytes] ^= 128;
    if (variant % 5 < 2)
        input->limit = 1 + next_random(&state) % (2 * spots.sectors);
}

/* Compares the tuned loops with the library on many variants; fewer where an array is large. */
static int variants_agree(struct input *input, struct kept *kept, struct size size, size_t sector)
{
    size_t variants = size.block < 100 ? 1200 : 24;
    for (size_t v = 0; v < variants; v++) {
        prepare_variant(input, size, sector, v);
        if (!both_give(SPOT_PLAN, TUNED_PLAN, input, kept) || !both_give(SPOT_REBUILD, TUNED_REBUILD, input, kept)) {
            printf("DIFFERENT: %zux%zu, sectors of %zu in %zu: the library and the tuned loops\n", size.rows,
                   size.columns, sector, size.block);
            return 0;
        }
    }
    return 1;
}

/* Whether a call restores the sealed array after its erased sectors were changed. */
static int restores(size_t call, struct input *input, const uint8_t *sealed)
{
    spoil_spots(input);
    spot_calls[call].run(&peers[LIBRARY], input);
    return input->status == 0 && input->count == count_spots() && memcmp(input->array, sealed, input->bytes) == 0;
}

/* Whether look hands out the block of disk 0 exactly if no sector of it is erased. */
static int looks(struct input *input)
{
    size_t length = memchr(spots.map, 1, spots.sectors) == NULL ? input->size.block : 0;
    input->disk = 0;
    input->count = 0;
    spot_calls[SPOT_LOOK].run(&peers[LIBRARY], input);
    return input->status == length && input->count == 0;
}

/* Whether all calls do their work on what is timed: a refusal would be quick and time nothing. Follow has the sheets
   that the tuned loops left. */
static int all_restore(struct input *input, uint8_t *sealed)
{
    memcpy(sealed, input->array, input->bytes);
    if (restores(SPOT_REBUILD, input, sealed) && restores(TUNED_REBUILD, input, sealed)
        && restores(SPOT_FOLLOW, input, sealed) && restores(SPOT_SAVE, input, sealed) && looks(input))
        return 1;
    printf("DIFFERENT: sectors of %zu in %zu: a call does not restore what it should\n", spots.sector,
           input->size.block);
    return 0;
}

/* Every input that is timed, with one loss. */
static int timed_agree(struct input *input, struct kept *kept, size_t kind)
{
    int agree = 1;
    for (size_t c = 0; c < COUNT(cuts); c++) {
        take_array(input, cuts[c].block, kind);
        cut_blocks(input, cuts[c].sector);
        erase_moved(input);
        agree = agree && all_restore(input, kept->before);
    }
    take_array(input, BLOCK_MAX, kind);
    for (size_t n = 0; n < COUNT(numbers); n++) {
        take_number(input, n);
        agree = agree && all_restore(input, kept->before);
    }
    return agree;
}

int sectors_agree(void)
{
    static const struct cut small[] = {{2, 1}, {4, 2}, {12, 4}, {7, 7}};
    int agree = 1;
    struct input input;
    struct kept kept;
    input_open(&input);
    spots_open();
    open_kept(&kept);
    for (size_t i = 0; i < COUNT(small); i++)
        agree = agree && variants_agree(&input, &kept, (struct size){2, 2, small[i].block, 0}, small[i].sector)
             && variants_agree(&input, &kept, (struct size){3, 5, small[i].block, 0}, small[i].sector);
    for (size_t i = 0; i < COUNT(cuts); i++)
        agree = agree && variants_agree(&input, &kept, (struct size){15, 15, cuts[i].block, 0}, cuts[i].sector);
    for (size_t k = 0; k < COUNT(kinds); k++)
        agree = agree && timed_agree(&input, &kept, kinds[k]);
    close_kept(&kept);
    spots_close();
    input_close(&input);
    return agree;
}

/* Rebuild with 8 sectors and another disk lost at each position over rebuild with one whole disk lost. */
static int compare_with_disks(struct input *input)
{
    const struct call *both[] = {&spot_calls[SPOT_REBUILD], &calls[REBUILD]};
    double medians[2];
    take_array(input, BLOCK_MAX, ONE_DISK);
    cut_blocks(input, BLOCK_MAX / 8);
    erase_moved(input);
    time_calls(both, 2, input, medians);
    return judge_titled("rebuild 15x15 sectors of 512", "one disk at each / one disk", medians[0] / medians[1],
                        MOST_OVER_DISKS);
}

static int compare_with_tuned(struct input *input, const struct cut *cut, size_t kind)
{
    const struct call *both[] = {&spot_calls[SPOT_REBUILD], &spot_calls[TUNED_REBUILD]};
    char title[TITLE_MAX], what[TITLE_MAX];
    double medians[2];
    take_array(input, cut->block, kind);
    cut_blocks(input, cut->sector);
    erase_moved(input);
    if (spots.sectors < MANY_SECTORS)
        time_calls(both, 2, input, medians);
    else
        time_long_calls(both, 2, input, medians);
    snprintf(title, sizeof title, "rebuild 15x15 sectors of %zu", cut->sector);
    snprintf(what, sizeof what, "%s / tuned loops", map_names[kind]);
    if (cut->sector >= GUARDED_BLOCK)
        return judge_titled(title, what, medians[0] / medians[1], limit_of(REBUILD, TUNED));
    print_titled(title, what, medians[0] / medians[1]);
    return 0;
}

/* The calls whose time for each position is compared, with how many of the numbers of positions, and whose they are. */
static const struct timed {
    size_t call;
    prepare_case *prepare;
    size_t count;
    const char *whose;
} timed[] = {
    {SPOT_PLAN, take_number, COUNT(numbers), ""},
    {TUNED_PLAN, take_number, COUNT(numbers), "C: "},
    {SPOT_REBUILD, take_number, COUNT(numbers) - 1, ""},
    {SPOT_FOLLOW, take_and_list, COUNT(numbers) - 1, ""},
    {SPOT_SAVE, take_number, COUNT(numbers) - 1, ""},
    {SPOT_LOOK, take_number, COUNT(numbers) - 1, ""},
};

/* The tuned loops have no limit: they show what the machine does. */
static int compare_numbers(struct input *input, const struct timed *timed)
{
    char title[TITLE_MAX], what[TITLE_MAX];
    double medians[COUNT(numbers)], each, most = timed->whose[0] == 0 ? MOST_EACH : HUGE_VAL;
    int warnings = 0;
    time_cases(&spot_calls[timed->call], input, timed->prepare, timed->count, medians);
    put_title(title, &spot_calls[timed->call], input->size);
    each = medians[0] / (double)numbers[0];
    snprintf(what, sizeof what, "%seach of 8 positions", timed->whose);
    printf("%-28s %-28s %6.0f ns\n", title, what, each);
    for (size_t n = 1; n < timed->count; n++) {
        snprintf(what, sizeof what, "%seach of %zu / each of 8", timed->whose, numbers[n]);
        warnings += judge_titled(title, what, medians[n] / (double)numbers[n] / each, most);
    }
    fflush(stdout);
    return warnings;
}

/* Look is timed where its disk is present. */
static int compare_positions(struct input *input, size_t kind)
{
    int warnings = 0;
    take_array(input, BLOCK_MAX, kind);
    for (size_t i = 0; i < COUNT(timed); i++)
        if (timed[i].call != SPOT_LOOK || kind == ONE_DISK)
            warnings += compare_numbers(input, &timed[i]);
    return warnings;
}

int compare_sectors(struct input *input)
{
    int warnings;
    spots_open();
    puts("Sectors: rebuild with other disks erased at each position, over rebuild of one whole disk, and over tuned");
    puts("loops in C that plan and sum position by position. Blocks have 4096 bytes, and 4000 with sectors of 100.");
    warnings = compare_with_disks(input);
    for (size_t c = 0; c < COUNT(cuts); c++)
        for (size_t k = 0; k < COUNT(kinds); k++)
            warnings += compare_with_tuned(input, &cuts[c], kinds[k]);
    puts("What each position takes, by the number of positions in blocks of 4096 bytes, with the same disks erased at");
    puts("each: the time of a call over that number, also of what it does for the whole array. C is the tuned loops.");
    for (size_t k = 0; k < COUNT(kinds); k++)
        warnings += compare_positions(input, kinds[k]);
    spots_close();
    return warnings;
}
