/*
 * A trial: a list run on an implementation and on the reference side by side.
 * After every call the replies and every lent byte that binds are compared,
 * the guards are looked at, a finished round is held to the book of one copy,
 * a reach, a diagnose and a plan to the rounds that they speak of (reach.h,
 * diagnose.h, plan.h), and some calls to the same in other spellings
 * (spelling.h). A list that fails is shrunk.
 *
 * The book covers a list from a lay that replies 0 on, until bytes are set by
 * hand. Raised counters do not end the cover: one number is added to the
 * version (or the generation) of all copies of one item. The rules only
 * compare such counters of one item with each other and add one, so the
 * rounds go as before with that number on top, until a counter is spent. The
 * number is taken off a commit's figure before it is compared with the book.
 */
#ifndef TRIAL_H
#define TRIAL_H

#include "book.h"
#include "runs.h"
#include "tally.h"

typedef struct {
    run tested;
    run reference;
    book one_copy;
    bool covered; /* by the book */
    uint64_t raised_version[OSPREYSCREEN_ITEMS_MAX];
    uint64_t raised_generation[OSPREYSCREEN_ITEMS_MAX];
    /* What the last trial came to: the step under way, and why it failed. */
    volatile size_t index;
    const char *why;
    ospreyscreen_reply got;
    ospreyscreen_reply want;
} trial;

trial trial_make(const implementation *tested, const implementation *reference);

/* Runs the list; counts what it meets if there is a tally. A call that faults
 * or takes so many seconds fails it. */
bool trial_passes(trial *t, const list *l, tally *counts, unsigned seconds);

/* Leaves steps out of a list that fails, as long as it fails and for some
 * seconds; says so if it does not fail again. */
void trial_shrink(trial *t, list *l);

/* Tells what the last trial came to. */
void trial_tell(const trial *t, const list *l);

#endif
