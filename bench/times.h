/*
 * Times of the library beside the optimised C, in one run and batch by batch in
 * turn, and the rows of the Markdown table that they are printed as.
 */
#ifndef TIMES_H
#define TIMES_H

#include <stdint.h>

enum { SAMPLES_MOST = 10001 };

/* The two that are timed. */
enum { LIBRARY_SIDE, OPTIMISED_SIDE, SIDES };

/* What both sides run is inlined, so that each has calls of its own. From a
 * call through a pointer that both share, the processor foretells the target
 * that it met first sooner than the other: some 0.8 ns a call. */
#define FOR_EACH_SIDE static inline __attribute__((always_inline))

typedef struct {
    double minimum;
    double median;
} timing;

/* Runs one side so many times on the scene; gives the mean time of a run. */
typedef double batch_function(unsigned side, void *scene, unsigned runs);

/* The highest ratio so far and where it was. */
typedef struct {
    double ratio;
    char where[100];
} peak;

typedef struct {
    peak minimum;
    peak median;
    unsigned rows;
    unsigned high; /* rows with a ratio of minima above the goal */
} summary;

_Noreturn void give_up(const char *what, const char *name);

double now_ns(void);

/* One run of a side on input so-and-so of the scene; gives 0 if its number is the
 * one that is expected. */
typedef uint64_t run_on_input(unsigned side, const void *scene, unsigned input);

/* A batch of runs, each on the next of many inputs: with few of them the processor
 * learns every branch. Gives the mean time of a run. */
FOR_EACH_SIDE double runs_in_turn(unsigned side, run_on_input *run, const void *scene,
                                  unsigned *next, unsigned runs, const char *name)
{
    unsigned input = *next;
    uint64_t wrong = 0;
    double start = now_ns();

    for (*next += runs; input != *next; input++) {
        wrong |= run(side, scene, input);
    }
    double time = now_ns() - start;
    if (wrong != 0) {
        give_up("gives another number", name);
    }
    return time / runs;
}

/* Times both sides in turn, so many batches each. */
void measure(batch_function *batch, void *scene, unsigned samples, timing out[SIDES]);

void print_heading(unsigned samples);
void print_row(const char *table, const char *kind, const char *call, const timing t[SIDES],
               summary *sum);
void print_summary(const summary *sum);

#endif
