#include "guards.h"

#include <math.h>
#include <stdio.h>

/* Maps of small arrays are ruled by the cost of a call too. */
enum { GUARDED_SIDE = 15 };

struct guard {
    size_t call, peer;
    double most;
};

/* docs/PERFORMANCE.md says how near the ratios come to these limits, and which of them they pass. */
static const struct guard guards[] = {
    {SEAL, READ, 2.4},
    {CHECK, READ, 2.6},
    {SEAL, TUNED, 1.1},
    {CHECK, ISAL, 1.15},
    {WRITE, TUNED, 1.15},
    {REBUILD, READ, 6.0},
    {REBUILD, TUNED, 1.1},
    {REBUILD, ISAL, 1.5},
    {PLAN, TUNED, 3.0},
};

enum { GUARDS = sizeof guards / sizeof *guards };

double limit_of(size_t call, size_t peer)
{
    double most = HUGE_VAL;
    for (size_t g = 0; g < GUARDS; g++)
        if (guards[g].call == call && guards[g].peer == peer)
            most = guards[g].most;
    return most;
}

static int is_guarded(const struct call *call, struct size size)
{
    return call->by_map ? size.rows >= GUARDED_SIDE || size.columns >= GUARDED_SIDE : size.block >= GUARDED_BLOCK;
}

int warn_above(const struct call *call, struct size size, size_t peer, double ratio, double most)
{
    char title[TITLE_MAX];
    if (ratio <= most)
        return 0;
    put_title(title, call, size);
    printf("WARNING: %s takes %.3f x the time of %s; the limit is %.2f\n", title, ratio, peers[peer].name, most);
    return 1;
}

int warn(ratio_table ratios)
{
    int warnings = 0;
    for (size_t g = 0; g < GUARDS; g++) {
        const struct guard *guard = &guards[g];
        const struct call *call = &calls[guard->call];
        for (size_t s = 0; s < call->size_count; s++)
            if (is_guarded(call, call->sizes[s]))
                warnings += warn_above(call, call->sizes[s], guard->peer, ratios[guard->call][s][guard->peer],
                                       guard->most);
    }
    return warnings;
}

void print_titled(const char *title, const char *what, double ratio)
{
    printf("%-28s %-28s %6.2f\n", title, what, ratio);
}

void print_ratio(struct size size, const char *what, double ratio)
{
    char title[TITLE_MAX];
    put_title(title, &calls[REBUILD], size);
    print_titled(title, what, ratio);
}

int judge_titled(const char *title, const char *what, double ratio, double most)
{
    print_titled(title, what, ratio);
    if (ratio <= most)
        return 0;
    printf("WARNING: %s: %s is %.3f; the limit is %.2f\n", title, what, ratio, most);
    return 1;
}

int judge(struct size size, const char *what, double ratio, double most)
{
    char title[TITLE_MAX];
    put_title(title, &calls[REBUILD], size);
    return judge_titled(title, what, ratio, most);
}
