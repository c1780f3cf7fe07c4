/*
 * Recorded lists: calls, and what is done to the table between them. A list
 * is recorded before it runs, so that it can be run again, on another
 * implementation, or with steps left out.
 */
#ifndef LISTS_H
#define LISTS_H

#include "calls.h"
#include "fields.h"
#include "guard.h"

#include <stdio.h>

typedef enum {
    STEP_CALL,
    STEP_BYTES, /* bytes of the table are set by hand */
    STEP_RAISE  /* one number is added to a counter of all copies of an item */
} step_kind;

/* A counter of a copy, by its offset. */
typedef enum { COUNTER_VERSION = VERSION_IN, COUNTER_GENERATION = GENERATION_IN } counter;

typedef struct {
    step_kind kind;
    call made;            /* its configuration is kept by the list */
    guard_place place;    /* where the configuration is lent */
    const uint8_t *bytes; /* kept by the list */
    size_t at;
    size_t count;
    counter raised;
    uint64_t item;
    uint64_t by;
} step;

typedef struct {
    /* The table's length and place; one of no bytes may be a null pointer. */
    size_t len;
    guard_place place;
    bool null_table;
    step *steps;
    size_t count;
    size_t room;
    /* What the steps' pointers point into. */
    uint8_t *pool;
    size_t pool_used;
    size_t pool_room;
} list;

/* A list with room for so many steps and bytes; ends the program if there is
 * none. */
list list_make(size_t steps, size_t bytes);
void list_free(list *l);

/* Empties the list. */
void list_clear(list *l, size_t table_len, guard_place place, bool null_table);

/* Whether there is room for one more step that keeps so many bytes. */
bool list_has_room(const list *l, size_t bytes);

/* Adds a step. Each gives the step as it is recorded. */
const step *list_call(list *l, const call *c, guard_place place);
const step *list_bytes(list *l, size_t at, const uint8_t *bytes, size_t count);
const step *list_raise(list *l, counter raised, uint64_t item, uint64_t by);

/* Writes the list, a step a line: a call as its frame where it has one, which
 * tools/frames reads; any other step behind a #, in words. */
void list_write(FILE *to, const list *l);

/* Reads what list_write wrote; ends the program at a line that it did not. */
void list_read(FILE *from, list *l);

#endif
