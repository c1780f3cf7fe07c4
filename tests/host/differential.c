/*
 * The differential test: an implementation against the reference and the book
 * of one copy (trial.h), over lists of one form:
 *
 *   differential --form random     [--calls N] [--seed S]
 *   differential --form directed   [--seed S]
 *   differential --form season     [--calls N] [--seed S]
 *   differential ... --from K      list K and those behind it
 *   differential ... --list K      list K alone
 *   differential --replay FILE     the list in the file
 *   differential ... --of library|optimised
 *
 * A list depends on the form, the seed and its own number alone. The exit
 * status is 1 if a list fails, and 2 if a run has not met what its form should
 * meet. One list by itself, or the rest of a run, need not meet anything.
 */
#define _POSIX_C_SOURCE 200809L /* clock_gettime */

#include "directed.h"
#include "generate.h"
#include "optimised.h"
#include "options.h"
#include "reference.h"
#include "season.h"
#include "trial.h"

#include <inttypes.h>
#include <stdio.h>
#include <stdlib.h>
#include <string.h>
#include <time.h>

static const implementation LIBRARY = IMPLEMENTATION("library", ospreyscreen_);
static const implementation OPTIMISED = IMPLEMENTATION("optimised", opt_);
static const implementation REFERENCE = IMPLEMENTATION("reference", ref_);

static const char USAGE[] =
    "differential [--form random|directed|season] [--calls N] [--seed S] [--from K] [--list K]\n"
    "                    [--replay FILE] [--of library|optimised]";

enum {
    LIST_STEPS = 1 << 17,
    LIST_BYTES = 1 << 25,
    LIST_SECONDS = 10,
    PROGRESS_SECONDS = 60,
    NOT_MET = 2
};

/* Where the lists of a form come from. */
typedef struct {
    const char *name;
    void (*record)(generator *g, uint64_t seed, uint64_t number);
    uint64_t (*count)(void); /* of lists; a null pointer if there is no end */
} source;

enum { LIST_FORMS = FORM_FRAMES }; /* the forms before it */

static const source SOURCES[LIST_FORMS] = {
    [FORM_RANDOM] = {"random", generate_list, NULL},
    [FORM_DIRECTED] = {"directed", directed_list, directed_count},
    [FORM_SEASON] = {"season", season_list, NULL},
};

typedef struct {
    const char *program;
    form form;
    const implementation *tested;
    uint64_t calls;
    uint64_t seed;
    uint64_t from; /* the first list */
    uint64_t list; /* the only one; UINT64_MAX: no such */
    const char *replay;
} options;

static form form_named(const char *name)
{
    for (int f = 0; f < LIST_FORMS; f++) {
        if (strcmp(SOURCES[f].name, name) == 0) {
            return (form)f;
        }
    }
    options_give_up(USAGE);
}

static const implementation *implementation_named(const char *name)
{
    if (strcmp(name, LIBRARY.name) == 0) {
        return &LIBRARY;
    }
    if (strcmp(name, OPTIMISED.name) == 0) {
        return &OPTIMISED;
    }
    options_give_up(USAGE);
}

static options read_options(int argc, char **argv)
{
    options o = {.program = argv[0], .calls = 200000, .seed = 1, .list = UINT64_MAX};
    const char *form_name = SOURCES[FORM_RANDOM].name;
    const char *of = LIBRARY.name;
    const option all[] = {
        {.name = "--form", .text = &form_name},
        {.name = "--of", .text = &of},
        {.name = "--calls", .number = &o.calls, .most = UINT64_MAX},
        {.name = "--seed", .number = &o.seed, .most = UINT64_MAX},
        {.name = "--from", .number = &o.from, .most = UINT64_MAX - 1},
        {.name = "--list", .number = &o.list, .most = UINT64_MAX - 1},
        {.name = "--replay", .text = &o.replay},
    };
    options_read(argc, argv, USAGE, all, sizeof all / sizeof all[0]);
    o.form = form_named(form_name);
    o.tested = implementation_named(of);
    return o;
}

/* Shrinks the list that failed, prints it and says how to run it again. */
static void tell_failure(trial *t, list *l, const options *o, uint64_t number)
{
    trial_shrink(t, l);
    trial_tell(t, l);
    printf("FAILED: %s\n", t->why);
    if (o->replay == NULL) {
        printf("repeat it:       %s --form %s --seed %" PRIu64 " --list %" PRIu64 " --of %s\n"
               "or only these steps, from '# table' on, in a file: %s --replay FILE --of %s\n",
               o->program, SOURCES[o->form].name, o->seed, number, o->tested->name, o->program,
               o->tested->name);
    }
}

static int replay(trial *t, list *l, const options *o)
{
    FILE *file = fopen(o->replay, "r");
    if (file == NULL) {
        perror(o->replay);
        return EXIT_FAILURE;
    }
    list_read(file, l);
    fclose(file);
    if (!trial_passes(t, l, NULL, LIST_SECONDS)) {
        tell_failure(t, l, o, 0);
        return EXIT_FAILURE;
    }
    printf("PASSED: no difference\n");
    return EXIT_SUCCESS;
}

static double seconds_now(void)
{
    struct timespec t;
    clock_gettime(CLOCK_MONOTONIC, &t);
    return (double)t.tv_sec + (double)t.tv_nsec * 1e-9;
}

/* Says how fast the run is, and where another can go on. */
static void tell_progress(const tally *counts, double seconds, const options *o, uint64_t next)
{
    printf("%" PRIu64 " calls, %.0f a second; go on with --seed %" PRIu64 " --from %" PRIu64 "\n",
           counts->calls, (double)counts->calls / seconds, o->seed, next);
}

/* Runs lists until there are no more or enough calls; gives whether all pass. */
static bool run_lists(trial *t, list *l, const options *o, tally *counts)
{
    const source *from = &SOURCES[o->form];
    uint64_t end = from->count == NULL ? UINT64_MAX : from->count();
    generator g = generator_make(l);
    double start = seconds_now();
    double told = start;
    uint64_t number = o->from;

    for (; number < end && (from->count != NULL || counts->calls < o->calls); number++) {
        from->record(&g, o->seed, number);
        if (!trial_passes(t, l, counts, LIST_SECONDS)) {
            tell_failure(t, l, o, number);
            return false;
        }
        if (seconds_now() - told >= PROGRESS_SECONDS) {
            told = seconds_now();
            tell_progress(counts, told - start, o, number + 1);
        }
    }
    tell_progress(counts, seconds_now() - start, o, number);
    return true;
}

static int run_one(trial *t, list *l, const options *o)
{
    generator g = generator_make(l);

    SOURCES[o->form].record(&g, o->seed, o->list);
    if (!trial_passes(t, l, NULL, LIST_SECONDS)) {
        tell_failure(t, l, o, o->list);
        return EXIT_FAILURE;
    }
    printf("PASSED: no difference\n");
    return EXIT_SUCCESS;
}

static int run_all(trial *t, list *l, const options *o)
{
    tally counts = {0};

    if (!run_lists(t, l, o, &counts)) {
        return EXIT_FAILURE;
    }
    tally_print(stdout, &counts, o->form);
    if (o->from == 0 && !tally_met_all(stdout, &counts, o->form)) {
        printf("NOT MET: no difference, but the run has not met all that it should\n");
        return NOT_MET;
    }
    printf("PASSED: no difference\n");
    return EXIT_SUCCESS;
}

int main(int argc, char **argv)
{
    options o = read_options(argc, argv);
    list l = list_make(LIST_STEPS, LIST_BYTES);
    trial t = trial_make(o.tested, &REFERENCE);
    int status;

    setvbuf(stdout, NULL, _IOLBF, 0);
    printf("%s against %s: ", o.tested->name, REFERENCE.name);
    if (o.replay != NULL) {
        printf("the list in %s\n", o.replay);
        status = replay(&t, &l, &o);
    } else {
        printf("%s lists, seed %" PRIu64 "\n", SOURCES[o.form].name, o.seed);
        status = o.list != UINT64_MAX ? run_one(&t, &l, &o) : run_all(&t, &l, &o);
    }
    list_free(&l);
    return status;
}
