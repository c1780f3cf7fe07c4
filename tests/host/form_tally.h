/* What a run of spellings has met; a run that has not met all of it fails. */
#ifndef FORM_TALLY_H
#define FORM_TALLY_H

#include "form_cases.h"

/* Names stand in form_tally.c. */
typedef enum {
    /* Number 2, by what. */
    FORM_N_ZERO,
    FORM_N_HIGH,
    FORM_N_CUT_FITS,
    FORM_OUT,
    FORM_N_AND_OUT,
    FORM_2_AND_3,
    /* Number 3, by one clause alone. */
    FORM_LENGTH,
    FORM_READ_EMPTY,
    FORM_WRITE_EMPTY,
    FORM_READ_GAP,
    FORM_WRITE_GAP,
    FORM_READ_STATION,
    FORM_WRITE_STATION,
    FORM_DISJOINT,
    /* Number 3, by sets alone that the form would not have. */
    FORM_SPARE_STATION,
    FORM_SPARE_GAP,
    /* Done: what the form did to the spelling. */
    FORM_NOTHING,
    FORM_ORDER,
    FORM_EQUAL,
    FORM_CONTAINING,
    FORM_ALL_OF_THESE,
    FORM_READ_ALONE,
    FORM_WRITE_ALONE,
    FORM_BOTH,
    FORM_EIGHT_TO_ONE,
    FORM_DROPPED_FIRST,
    /* Done: what the form has. */
    FORM_ALL_16,
    FORM_STATION_15,
    FORM_SIZES,
    /* What the opinion has looked at. */
    FORM_EVERY_SET,
    FORM_SAME,
    FORM_OTHER,
    FORM_TABLES,
    FORM_PLACES,
    FORM_METERS
} form_meter;

enum { FORM_SIDES = 2 };

typedef struct {
    uint64_t calls;
    uint64_t met[FORM_METERS];
    uint64_t done[1 + OSPREYSCREEN_STATIONS_MAX]; /* by n */
    uint64_t given[FORM_SIDES][1 + PLACES];       /* done, by how many sets on a side */
    uint64_t kept[FORM_SIDES][1 + PLACES];        /* and how many the form has */
} form_tally;

/* Counts the call with a spelling, which gave the number and wrote the output if
 * it is 0, in a form_tally; and what stands there. */
void form_tally_call(void *counts, const void *given, uint64_t number, const uint8_t *out);
meters form_tally_counted(const void *counts);

#endif
