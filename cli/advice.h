/*
 * What to do next, in words. It is found by asking the library: by diagnose and
 * plan, and by calls on a copy of the table, so that what is advised is what the
 * store will take.
 */
#ifndef ADVICE_H
#define ADVICE_H

#include "calls.h"

/* Whether there is anything to say: after a refusal, and after a diagnose that
 * tells of one. */
bool has_advice(const call *c, ospreyscreen_reply reply);

/* Prints what to do after such a reply. The table is as the call left it. */
void print_advice(FILE *out, const table *t, const call *c, ospreyscreen_reply reply);

#endif
