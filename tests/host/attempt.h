/*
 * An attempt: rounds on an item, made on a copy of the table, that are to get
 * what a call on the table has said of them.
 */
#ifndef ATTEMPT_H
#define ATTEMPT_H

#include "outlook.h"
#include "rng.h"

typedef struct {
    const implementation *with;
    const loan *table;
    uint64_t item;
    outlook seen; /* of the table */
    rng source;
    bool as_said; /* all replies so far are those that are expected */
    uint8_t copy[OSPREYSCREEN_TABLE_LENGTH_MAX];
} attempt;

/* On a sound table. What is drawn depends on the table and the item alone. */
void attempt_make(attempt *a, const implementation *with, const loan *table, uint64_t item);

/* Makes the copy anew, with no round open. */
void attempt_begin(attempt *a);

/* Opens a round, which is done; a write has any value. */
void attempt_open_read(attempt *a);
void attempt_open_write(attempt *a);
void attempt_open_change(attempt *a, const uint8_t *target);

/* A poll, which is done; gives its first figure. */
uint64_t attempt_poll(attempt *a, unsigned station);

/* A put or a commit that gets the number. */
void attempt_put(attempt *a, unsigned station, uint64_t sort, uint64_t number);
ospreyscreen_reply attempt_commit(attempt *a, uint64_t number);

void attempt_abandon(attempt *a);

/* Whether a commit that is done shows what the book has; so it does where there
 * is no book. */
bool attempt_in_book(const ospreyscreen_reply *end, const ospreyscreen_reply *book);

#endif
