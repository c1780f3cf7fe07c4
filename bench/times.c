#define _POSIX_C_SOURCE 200809L /* clock_gettime */

#include "times.h"

#include <stdio.h>
#include <stdlib.h>
#include <time.h>

static const double BATCH_NS = 20000;
static const double HIGH = 1.10;

_Noreturn void give_up(const char *what, const char *name)
{
    fprintf(stderr, "bench: %s: %s\n", what, name);
    exit(EXIT_FAILURE);
}

double now_ns(void)
{
    struct timespec t;
    clock_gettime(CLOCK_MONOTONIC, &t);
    return (double)t.tv_sec * 1e9 + (double)t.tv_nsec;
}

static unsigned runs_for(batch_function *batch, void *scene)
{
    unsigned runs = 1;
    while (batch(OPTIMISED_SIDE, scene, runs) * runs < BATCH_NS) {
        runs *= 2;
    }
    return runs;
}

static int by_size(const void *a, const void *b)
{
    double x = *(const double *)a;
    double y = *(const double *)b;
    return (x > y) - (x < y);
}

void measure(batch_function *batch, void *scene, unsigned samples, timing out[SIDES])
{
    static double times[SIDES][SAMPLES_MOST];
    unsigned runs = runs_for(batch, scene);

    for (unsigned i = 0; i < samples; i++) {
        for (unsigned turn = 0; turn < SIDES; turn++) {
            unsigned side = (i + turn) % SIDES;
            times[side][i] = batch(side, scene, runs);
        }
    }
    for (unsigned side = 0; side < SIDES; side++) {
        qsort(times[side], samples, sizeof times[side][0], by_size);
        out[side] = (timing){times[side][0], times[side][samples / 2]};
    }
}

/* ---- The table ---- */

static void raise(peak *p, double ratio, const char *table, const char *kind, const char *call)
{
    if (ratio > p->ratio) {
        p->ratio = ratio;
        snprintf(p->where, sizeof p->where, "%s, %s, %s", table, kind, call);
    }
}

void print_heading(unsigned samples)
{
    printf("Times in nanoseconds; `library` / `C`, minimum and median of %u samples.\n\n", samples);
    printf("| table | configurations | call | library min | C min | ratio | library median | "
           "C median | ratio |\n|---|---|---|---|---|---|---|---|---|\n");
}

void print_row(const char *table, const char *kind, const char *call, const timing t[SIDES],
               summary *sum)
{
    const timing *library = &t[LIBRARY_SIDE];
    const timing *c = &t[OPTIMISED_SIDE];
    double minima = library->minimum / c->minimum;
    double medians = library->median / c->median;

    printf("| %s | %s | %s | %.1f | %.1f | %.2f | %.1f | %.1f | %.2f |\n", table, kind, call,
           library->minimum, c->minimum, minima, library->median, c->median, medians);
    fflush(stdout);
    raise(&sum->minimum, minima, table, kind, call);
    raise(&sum->median, medians, table, kind, call);
    sum->rows++;
    sum->high += minima > HIGH;
}

void print_summary(const summary *sum)
{
    printf("\nHighest ratio of minima: %.2f (%s).\n", sum->minimum.ratio, sum->minimum.where);
    printf("Highest ratio of medians: %.2f (%s).\n", sum->median.ratio, sum->median.where);
    printf("Rows with a ratio of minima above %.2f: %u of %u.\n", HIGH, sum->high, sum->rows);
}
