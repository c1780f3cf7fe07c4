#include "writers.h"

#include "watch.h"

#include <inttypes.h>
#include <stdlib.h>
#include <string.h>

enum { SECONDS = 10, REPEATS = 100, NOT_MET = 2, REPLY_SIZE = sizeof(ospreyscreen_reply) };

/* ---- One call ---- */

static party party_make(const writer *of, const char *name, any_function *function)
{
    return (party){
        .name = name,
        .function = function,
        .in = guard_make(of->in_room, GUARD_READ_ONLY),
        .out = guard_make(OUT_ROOM, GUARD_WRITABLE),
        .reply = guard_make(REPLY_SIZE, GUARD_WRITABLE),
    };
}

writer_trial writer_trial_make(const writer *of, const implementation *calls, any_function *tested,
                               any_function *reference, void *counts, const writer_options *o)
{
    return (writer_trial){
        .of = of,
        .program = o->program,
        .calls = calls,
        .tested = party_make(of, calls->name, tested),
        .reference = party_make(of, "reference", reference),
        .source = {o->seed},
        .counts = counts,
    };
}

/* Makes the call on lent buffers; false if the reply is not where it is to be. */
static bool make_call(const writer_trial *t, party *p, guard_place place)
{
    const lending *l = &t->lent;
    uint8_t *in = guard_lend(&p->in, l->in_len, place);
    uint8_t *out = guard_lend(&p->out, l->out_len, place);
    uint8_t *reply = guard_lend(&p->reply, REPLY_SIZE, GUARD_AFTER);

    memcpy(guard_inside(&p->in), l->in, l->in_len);
    memcpy(guard_inside(&p->out), t->before, l->out_len);
    memset(guard_inside(&p->reply), 0xC3, REPLY_SIZE);
    return t->of->make(p->function, t->given, reply, l->null && l->in_len == 0 ? NULL : in,
                       l->null && l->out_len == 0 ? NULL : out) == reply;
}

static ospreyscreen_reply reply_of(const party *p)
{
    ospreyscreen_reply reply;
    memcpy(&reply, guard_inside(&p->reply), sizeof reply);
    return reply;
}

static bool intact(const party *p)
{
    return guard_intact(&p->in) && guard_intact(&p->out) && guard_intact(&p->reply);
}

static bool same(const guarded *a, const guarded *b)
{
    return memcmp(guard_inside(a), guard_inside(b), a->len) == 0;
}

/* ---- One case ---- */

/* Makes the call with both; gives what is wrong, or a null pointer. */
static const char *compare(writer_trial *t)
{
    party *tested = &t->tested;
    party *reference = &t->reference;
    guard_place place = (guard_place)rng_below(&t->source, GUARD_PLACES);
    bool placed = make_call(t, reference, place);

    placed &= make_call(t, tested, place);
    if (!placed) {
        return "a reply is not where the caller wants it";
    }
    if (!same(&tested->reply, &reference->reply)) {
        return "the replies differ";
    }
    if (!same(&tested->out, &reference->out)) {
        return "the outputs differ";
    }
    if (memcmp(guard_inside(&tested->in), t->lent.in, t->lent.in_len) != 0) {
        return "the input has changed";
    }
    if (!intact(tested) || !intact(reference)) {
        return "a byte outside the lent ones has changed";
    }
    return NULL;
}

static void try_case(void *with)
{
    writer_trial *t = with;

    t->lent = t->of->lends(t->given);
    for (size_t i = 0; i < t->lent.out_len; i++) {
        t->before[i] = (uint8_t)rng_next(&t->source);
    }
    t->why = compare(t);
    if (t->why != NULL) {
        return;
    }
    const uint8_t *out = guard_inside(&t->tested.out);
    uint64_t number = reply_of(&t->tested).number;
    if (number == OSPREYSCREEN_DONE) {
        t->why = t->of->wrong(t->calls, t->given, out, &t->source, t->counts);
    } else if (memcmp(out, t->before, t->lent.out_len) != 0) {
        t->why = "a refusal changed the output";
    }
    t->of->count(t->counts, t->given, number, out);
}

/* ---- A failure ---- */

static void print_party(const party *p)
{
    ospreyscreen_reply reply = reply_of(p);
    printf("%s: number %" PRIu64 ", figures %" PRIu64 " %" PRIu64 " %" PRIu64 ", output ", p->name,
           reply.number, reply.first, reply.second, reply.third);
    for (size_t i = 0; i < p->out.len; i++) {
        printf("%02X", guard_inside(&p->out)[i]);
    }
    printf("\n");
}

static void tell_failure(const writer_trial *t)
{
    print_party(&t->tested);
    print_party(&t->reference);
    printf("FAILED: %s\nrepeat it: %s ", t->why, t->program);
    t->of->print_case(t->given);
    printf(" --out %zu%s --of %s\n", t->lent.out_len, t->lent.null ? " --null" : "",
           t->tested.name);
}

/* Tries the case; tells if it fails. */
static bool passes(void *with, const void *given)
{
    writer_trial *t = with;

    t->given = given;
    const char *stopped = watch(try_case, t, SECONDS);
    if (stopped != NULL) {
        t->why = stopped;
    }
    if (t->why != NULL) {
        tell_failure(t);
    }
    return t->why == NULL;
}

/* ---- The runs ---- */

static bool run_random(writer_trial *t, uint64_t calls, uint64_t seed)
{
    rng r = {seed};
    for (uint64_t i = 0; i < calls; i++) {
        if (!passes(t, t->of->random(&r))) {
            return false;
        }
    }
    return true;
}

int writer_run(writer_trial *t, const writer_options *o)
{
    printf("%s against %s: %s %s, seed %" PRIu64 "\n", t->tested.name, t->reference.name,
           o->directed ? "directed" : "random", t->of->cases, o->seed);
    if (!(o->directed ? t->of->directed(passes, t) : run_random(t, o->calls, o->seed))) {
        return EXIT_FAILURE;
    }
    meters counted = t->of->counted(t->counts);
    meters_print(stdout, &counted);
    if (!meters_met_all(stdout, &counted)) {
        printf("NOT MET: no difference, but the run has not met all that it should\n");
        return NOT_MET;
    }
    printf("PASSED: no difference\n");
    return EXIT_SUCCESS;
}

int writer_run_one(writer_trial *t, const void *given)
{
    for (int i = 0; i < REPEATS; i++) {
        if (!passes(t, given)) {
            return EXIT_FAILURE;
        }
    }
    print_party(&t->tested);
    printf("PASSED: no difference\n");
    return EXIT_SUCCESS;
}

/* ---- The command line ---- */

enum { OWN_MOST = 8 };

writer_options writer_read_options(int argc, char **argv, const char *usage, const option *own,
                                   size_t count)
{
    writer_options o = {.program = argv[0], .of = "library", .calls = 200000, .seed = 1,
                        .out_len = OSPREYSCREEN_CONFIGURATION_LENGTH};
    const char *form = "random";
    option all[6 + OWN_MOST] = {
        {.name = "--form", .text = &form},
        {.name = "--of", .text = &o.of},
        {.name = "--calls", .number = &o.calls, .most = UINT64_MAX},
        {.name = "--seed", .number = &o.seed, .most = UINT64_MAX},
        {.name = "--out", .number = &o.out_len, .most = OUT_ROOM},
        {.name = "--null", .flag = &o.null},
    };

    memcpy(all + 6, own, count * sizeof *own);
    options_read(argc, argv, usage, all, 6 + count);
    o.directed = strcmp(form, "directed") == 0;
    if (!o.directed && strcmp(form, "random") != 0) {
        options_give_up(usage);
    }
    setvbuf(stdout, NULL, _IOLBF, 0);
    return o;
}
