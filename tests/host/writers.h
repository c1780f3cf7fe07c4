/*
 * The trial of an entry that looks at no table and writes an output from an
 * input, such as votes: an implementation against a reference, case by case.
 * Replies, outputs and guards are compared, what is lent for reading must not
 * change, nor may the output of a refusal; an output that is done is held to an
 * opinion of its own.
 */
#ifndef WRITERS_H
#define WRITERS_H

#include "calls.h"
#include "guard.h"
#include "meters.h"
#include "options.h"
#include "rng.h"

/* The longest output that is lent. */
enum { OUT_ROOM = 300 };

/* What a case lends. A length of 0 goes with a null pointer or not. */
typedef struct {
    const uint8_t *in;
    size_t in_len;
    size_t out_len; /* up to OUT_ROOM */
    bool null;
} lending;

/* A function of any type; it is called through its own. */
typedef void any_function(void);

/* Does something with a case; gives whether there are to be more. */
typedef bool case_user(void *with, const void *given);

/* What an entry is and what its cases are: most functions are given a case, and
 * counts of the entry's own. */
typedef struct {
    const char *cases; /* what they are called */
    size_t in_room;    /* the longest input */
    lending (*lends)(const void *given);
    /* Calls the function with where the reply goes in front (calls.h says why);
     * gives where the reply is. */
    const void *(*make)(any_function *function, const void *given, uint8_t *reply,
                        const uint8_t *in, uint8_t *out);
    /* What is wrong with an output that is done, or a null pointer. */
    const char *(*wrong)(const implementation *with, const void *given, const uint8_t *out, rng *r,
                         void *counts);
    /* Counts a call that gave the number. */
    void (*count)(void *counts, const void *given, uint64_t number, const uint8_t *out);
    meters (*counted)(const void *counts);
    /* Prints the options that run the case again, but for those of all programs. */
    void (*print_case)(const void *given);
    /* Takes all directed cases to the user, until it wants no more; and draws a
     * random one, which stays until the next. */
    bool (*directed)(case_user *use, void *with);
    const void *(*random)(rng *r);
} writer;

/* One of the two that are compared, and what it is lent. */
typedef struct {
    const char *name;
    any_function *function;
    guarded in;
    guarded out;
    guarded reply;
} party;

typedef struct {
    const writer *of;
    const char *program;
    const implementation *calls; /* of the library that is tested */
    party tested;
    party reference;
    rng source; /* of what is lent, and how */
    void *counts;
    const void *given;
    lending lent;              /* by the case */
    uint8_t before[OUT_ROOM];  /* what stands in the output */
    const char *why;           /* the case fails */
} writer_trial;

/* What the command lines of all these programs say. */
typedef struct {
    const char *program;
    bool directed; /* the form of the cases */
    const char *of;
    uint64_t calls;
    uint64_t seed;
    uint64_t out_len; /* of one case, */
    bool null;        /* and whether it has null pointers */
} writer_options;

/* Reads the options, those of the program too; ends it with the usage if they are
 * none. */
writer_options writer_read_options(int argc, char **argv, const char *usage, const option *own,
                                   size_t count);

writer_trial writer_trial_make(const writer *of, const implementation *calls, any_function *tested,
                               any_function *reference, void *counts, const writer_options *o);

/* Runs all cases of the form; or one case several times, lent in other ways and
 * with other bytes in the output. Give the exit status: 1 if a case fails, 2 if a
 * run has not met what it should. */
int writer_run(writer_trial *t, const writer_options *o);
int writer_run_one(writer_trial *t, const void *given);

#endif
