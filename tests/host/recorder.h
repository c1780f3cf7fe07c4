/*
 * Records lists. A recorder makes each step on a table of its own with the
 * reference, so that what comes next can be chosen by the table.
 */
#ifndef RECORDER_H
#define RECORDER_H

#include "runs.h"

typedef struct {
    list *into;
    run steering;
} recorder;

recorder recorder_make(list *into);

/* Starts a list on a table of so many bytes. */
void record_table(recorder *to, size_t len, guard_place place, bool null_table);

/* The table as the steps so far have left it. */
const loan *recorded_table(const recorder *of);

/* Whether there is room for a step more, of any kind. */
bool recorder_has_room(const recorder *of);

/* Records a step; a call's reply is the reference's. */
ospreyscreen_reply record_call(recorder *to, const call *c, guard_place place);
void record_bytes(recorder *to, size_t at, const uint8_t *bytes, size_t count);
void record_raise(recorder *to, counter raised, uint64_t item, uint64_t by);

#endif
