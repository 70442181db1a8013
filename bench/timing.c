#define _POSIX_C_SOURCE 200112L

#include "timing.h"
#include "maps.h"

#include <stdlib.h>
#include <time.h>

/* A sample lasts at least so many nanoseconds: short calls are repeated inside it. */
static const double SAMPLE_TIME = 50e3;

static double now(void)
{
    struct timespec time;
    clock_gettime(CLOCK_MONOTONIC, &time);
    return 1e9 * (double)time.tv_sec + (double)time.tv_nsec;
}

/* One sample. The first call is not timed: it brings back what other peers have driven out of the cache. */
static double sample(const struct call *call, const struct peer *peer, struct input *input, size_t repeats)
{
    double start;
    call->run(peer, input);
    start = now();
    for (size_t i = 0; i < repeats; i++)
        call->run(peer, input);
    return now() - start;
}

static size_t repeats_for(const struct call *call, const struct peer *peer, struct input *input)
{
    size_t repeats = 1;
    while (sample(call, peer, input, repeats) < SAMPLE_TIME)
        repeats *= 2;
    return repeats;
}

static int by_value(const void *a, const void *b)
{
    double x = *(const double *)a, y = *(const double *)b;
    return (x > y) - (x < y);
}

static double median_of(double *samples, size_t count)
{
    qsort(samples, count, sizeof samples[0], by_value);
    return samples[count / 2];
}

static double samples[PEERS][SAMPLES];

/* Peers can differ much in their times, so that each has repeats of its own. */
void time_peers(const struct call *call, struct input *input, double medians[PEERS])
{
    size_t repeats[PEERS];
    for (size_t p = 0; p < PEERS; p++)
        if (takes_part(&peers[p], call, input->size))
            repeats[p] = repeats_for(call, &peers[p], input);
    for (size_t i = 0; i < SAMPLES; i++)
        for (size_t p = 0; p < PEERS; p++)
            if (takes_part(&peers[p], call, input->size))
                samples[p][i] = sample(call, &peers[p], input, repeats[p]) / (double)repeats[p];
    for (size_t p = 0; p < PEERS; p++)
        medians[p] = takes_part(&peers[p], call, input->size) ? median_of(samples[p], SAMPLES) : 0;
}

void time_maps(const struct call *call, struct input *input, const size_t *kinds, size_t count, double *medians)
{
    size_t repeats = repeats_for(call, &peers[LIBRARY], input);
    for (size_t i = 0; i < SAMPLES; i++) {
        for (size_t k = 0; k < count; k++) {
            draw_map(kinds[k], input->size.rows, input->size.columns, input->map);
            samples[k][i] = sample(call, &peers[LIBRARY], input, repeats);
        }
    }
    for (size_t k = 0; k < count; k++)
        medians[k] = median_of(samples[k], SAMPLES);
}

void time_disks(const struct call *call, struct input *input, const size_t *disks, size_t count, double *medians)
{
    static double rounds[DISKS_MAX][FEW_SAMPLES];
    size_t repeats;
    input->disk = disks[0];
    repeats = repeats_for(call, &peers[LIBRARY], input);
    for (size_t i = 0; i < FEW_SAMPLES; i++) {
        for (size_t k = 0; k < count; k++) {
            input->disk = disks[k];
            rounds[k][i] = sample(call, &peers[LIBRARY], input, repeats);
        }
    }
    for (size_t k = 0; k < count; k++)
        medians[k] = median_of(rounds[k], FEW_SAMPLES);
}

static void time_list(const struct call *const *list, size_t count, struct input *input, size_t rounds, double *medians)
{
    size_t repeats = repeats_for(list[0], &peers[LIBRARY], input);
    for (size_t i = 0; i < rounds; i++)
        for (size_t k = 0; k < count; k++)
            samples[k][i] = sample(list[k], &peers[LIBRARY], input, repeats);
    for (size_t k = 0; k < count; k++)
        medians[k] = median_of(samples[k], rounds);
}

void time_calls(const struct call *const *list, size_t count, struct input *input, double *medians)
{
    time_list(list, count, input, SAMPLES, medians);
}

void time_long_calls(const struct call *const *list, size_t count, struct input *input, double *medians)
{
    time_list(list, count, input, FEW_SAMPLES, medians);
}

/* Each case has repeats of its own, as peers have. */
void time_cases(const struct call *call, struct input *input, prepare_case *prepare, size_t count, double *medians)
{
    size_t repeats[PEERS];
    for (size_t k = 0; k < count; k++) {
        prepare(input, k);
        repeats[k] = repeats_for(call, &peers[LIBRARY], input);
    }
    for (size_t i = 0; i < FEW_SAMPLES; i++) {
        for (size_t k = 0; k < count; k++) {
            prepare(input, k);
            samples[k][i] = sample(call, &peers[LIBRARY], input, repeats[k]) / (double)repeats[k];
        }
    }
    for (size_t k = 0; k < count; k++)
        medians[k] = median_of(samples[k], FEW_SAMPLES);
}

double time_call(const struct call *call, struct input *input)
{
    size_t repeats = repeats_for(call, &peers[LIBRARY], input);
    for (size_t i = 0; i < SAMPLES; i++)
        samples[LIBRARY][i] = sample(call, &peers[LIBRARY], input, repeats);
    return median_of(samples[LIBRARY], SAMPLES) / (double)repeats;
}
