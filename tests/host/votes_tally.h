/* What a run of sheets has met; a run that has not met all of it fails. */
#ifndef VOTES_TALLY_H
#define VOTES_TALLY_H

#include "configurations.h"
#include "votes_cases.h"

/* Names stand in votes_tally.c. */
typedef enum {
    VOTES_NO_SUCH_THING,
    VOTES_FALSE,
    VOTES_TOO_MANY,
    /* More than one refusal applies. */
    VOTES_LENGTH_AND_FALSE,
    VOTES_LENGTH_AND_TOO_MANY,
    VOTES_FALSE_AND_TOO_MANY,
    /* False votes by one clause alone. */
    VOTES_NO_STATION,
    VOTES_MANY_STATIONS,
    VOTES_READ_ZERO,
    VOTES_WRITE_ZERO,
    VOTES_READ_HIGH,
    VOTES_WRITE_HIGH,
    VOTES_TOGETHER,
    VOTES_TOGETHER_EQUAL,
    /* False votes that fit if something is cut. */
    VOTES_SUM_WRAPS,
    VOTES_CUT_FITS,
    /* Too many sets. */
    VOTES_MANY_READS,
    VOTES_MANY_WRITES,
    VOTES_MANY_BOTH,
    VOTES_NINE,
    VOTES_TEN,
    /* Done. */
    VOTES_TIGHT,
    VOTES_TIE,
    VOTES_STATION_OF_NONE,
    VOTES_MOST_VOTES,
    VOTES_ALL_16,
    VOTES_READ_15,
    VOTES_WRITE_15,
    VOTES_ONE_STATION,
    VOTES_SIZES,
    VOTES_OVER,
    VOTES_ROUND,
    VOTES_EVERY_SET,
    VOTES_METERS
} votes_meter;

enum { VOTES_SIDES = 2 };

typedef struct {
    uint64_t calls;
    uint64_t met[VOTES_METERS];
    uint64_t done[1 + OSPREYSCREEN_STATIONS_MAX]; /* by n */
    uint64_t sets[VOTES_SIDES][1 + PLACES];       /* done, by how many sets on a side */
} votes_tally;

/* Counts the call with a sheet, which gave the number and wrote the output if it
 * is 0, in a votes_tally; and what stands there. */
void votes_tally_call(void *counts, const void *given, uint64_t number, const uint8_t *out);
meters votes_tally_counted(const void *counts);

/* The votes of a set of the sheet's stations, and of all of them. */
uint64_t votes_of_set(const sheet *s, unsigned set);
uint64_t votes_of_all(const sheet *s);

#endif
