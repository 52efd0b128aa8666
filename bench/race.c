#define _POSIX_C_SOURCE 199309L
#include "bench.h"

#include <stdio.h>
#include <stdlib.h>
#include <time.h>

int repeats = 9;

/* By how much the median of the repeats was over their least, for each racer of each race. */
static double spreads[4096];
static size_t spread_count;

/* Processor time, so that a process that has the core meanwhile is not counted. */
static double now(void)
{
    struct timespec t;
    clock_gettime(CLOCK_PROCESS_CPUTIME_ID, &t);
    return (double)t.tv_sec + 1e-9 * (double)t.tv_nsec;
}

static double timed(const racer *r)
{
    double start = now();
    r->run(r->with);
    return now() - start;
}

static int by_size(const void *a, const void *b)
{
    double x = *(const double *)a, y = *(const double *)b;
    return (x > y) - (x < y);
}

static void settle(racer *r, double *times)
{
    qsort(times, (size_t)repeats, sizeof *times, by_size);
    r->best = times[0];
    if (spread_count < sizeof spreads / sizeof *spreads)
        spreads[spread_count++] = times[repeats / 2] / times[0] - 1;
}

/* All take turns, so that a slow moment of the machine meets all of them; the least time of each counts. */
void race(racer *all, int n)
{
    double times[MOST_RACERS][MOST_REPEATS];
    for (int k = 0; k < repeats; k++)
        for (int i = 0; i < n; i++)
            if (all[i].run)
                times[i][k] = timed(&all[i]);
    for (int i = 0; i < n; i++)
        if (all[i].run)
            settle(&all[i], times[i]);
}

void print_noise(void)
{
    qsort(spreads, spread_count, sizeof *spreads, by_size);
    printf("\nNoise: the median of the repeats was over their least by %.0f %% in half of the measurements, by %.0f %% at most in nine of ten.\n",
           100 * spreads[spread_count / 2], 100 * spreads[spread_count * 9 / 10]);
}
