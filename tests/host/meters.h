/* What a run has met: things under their names, and numbered ones. */
#ifndef METERS_H
#define METERS_H

#include <stdbool.h>
#include <stdint.h>
#include <stdio.h>

/* Counts of things that are numbered, from 1 to the last. */
typedef struct {
    const char *name; /* in front of the number */
    const uint64_t *met;
    int last;
} numbered;

enum { NUMBERED_MOST = 5 };

typedef struct {
    uint64_t calls;
    const char *const *names;
    const uint64_t *met;
    int count;
    numbered rows[NUMBERED_MOST]; /* those behind the last have no name */
} meters;

void meters_print(FILE *to, const meters *m);

/* Prints what was not met; gives whether all was. */
bool meters_met_all(FILE *to, const meters *m);

#endif
