/*
 * A run: one implementation with its own guarded buffers, taken through the
 * steps of a list. Runs of two implementations, or of two lists, can be taken
 * through side by side and compared.
 */
#ifndef RUNS_H
#define RUNS_H

#include "lists.h"

/* Room for a table of any n and m that a head can name. */
enum { TABLE_ROOM = OSPREYSCREEN_TABLE_LENGTH(255, 255) };

/* How a buffer is lent and compared. */
typedef struct {
    const char *name;
    guard_access access;
    size_t room;
    /* How many of its bytes, from the first on, the paper determines. */
    size_t (*binding)(const loan lent[LENT_KINDS]);
} lent_rule;

extern const lent_rule LENT[LENT_KINDS];

typedef struct {
    const implementation *with;
    guarded buffers[LENT_KINDS];
    loan lent[LENT_KINDS];
} run;

run run_make(const implementation *with);

/* Lends a table for the list, with the same bytes in every run. */
void run_begin(run *r, const list *l);

/* Lends what the call of the step takes beside the table. */
void run_lend(run *r, const step *s);

/* Makes the call with what is lent; false if its reply is not where it is to
 * be. Bytes of the reply that the call does not write are not zero. */
bool run_call(const run *r, const call *c);

/* The reply of the last call. */
ospreyscreen_reply run_reply(const run *r);

/* Does to the table what a step that is no call says. Gives false, and does
 * nothing, where it does not fit the table. */
bool run_change(run *r, const step *s);

/* Whether no byte outside the lent ones has changed. */
bool run_intact(const run *r);

/* The first byte of a lent buffer that binds and differs; false if none. */
bool runs_differ(const run *a, const run *b, lent_kind *kind, size_t *at);

#endif
