/*
 * Traces: one JSON object a line, for each call its words, its reply and the
 * table after it. docs/FORMAT.md has the keys.
 */
#ifndef TRACE_H
#define TRACE_H

#include "calls.h"

/* Makes the call on the table, and prints the line of that number. */
void trace_call(FILE *out, uint64_t at, table *t, const call *c);

/* Prints the line of one that is no frame; the table stays as it is. */
void trace_false_frame(FILE *out, uint64_t at, const table *t);

/* How a trace begins. */
#define TRACE_BEGINNING "{\"at\":"

#endif
