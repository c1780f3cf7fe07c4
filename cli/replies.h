/*
 * Replies in the words of tools/frames.
 */
#ifndef REPLIES_H
#define REPLIES_H

#include "calls.h"

/* The word of a number: "done", "unsound" and so on. */
const char *number_word(uint64_t number);

/* A reply to the call: "done, heard, read place 0 held" or "refused, 11 short". */
void print_reply(FILE *out, const call *c, ospreyscreen_reply reply);

/* "heard after 2 polls, write set held by 3 puts". */
void print_plan_figures(FILE *out, uint64_t polls, uint64_t puts);

/* "nothing", "read" or "read and write". */
const char *reach_word(uint64_t reach);

#endif
