/*
 * What a run of lists has met. A run that has not met what its form should
 * meet fails: it would have shown nothing.
 */
#ifndef TALLY_H
#define TALLY_H

#include "lists.h"
#include "reference.h"

/* Where lists come from. */
typedef enum { FORM_RANDOM, FORM_DIRECTED, FORM_SEASON, FORM_FRAMES, FORMS } form;

enum {
    ROUND_KINDS = 4,
    STATION_COUNTS = 1 + OSPREYSCREEN_STATIONS_MAX,
    PLACE_COUNTS = 1 + OSPREYSCREEN_SETS_PER_SIDE
};

/* Things that happen, counted one by one; names and forms stand in tally.c. */
typedef enum {
    MET_REACH_NOTHING,
    MET_REACH_READ,
    MET_REACH_READ_AND_WRITE,
    MET_VERSION_TIE,
    MET_GENERATION_TIE,
    MET_REACH_TIE,
    MET_REACH_LEFT,
    MET_REACH_LEFT_BY_HAND,
    MET_REACH_HELD,
    MET_REACH_PARTS,
    MET_REACH_SPENT,
    MET_DIAGNOSE_DONE,
    MET_DIAGNOSE_UNHEARD,
    MET_DIAGNOSE_SPENT,
    MET_DIAGNOSE_SHORT,
    MET_DIAGNOSE_APART,
    MET_DIAGNOSE_TIE,
    MET_DIAGNOSE_GONE,
    MET_DIAGNOSE_LATER_SET,
    MET_DIAGNOSE_HELD,
    MET_DIAGNOSE_BOOK,
    MET_PLAN_FEWER_PUTS,
    MET_PLAN_MORE_PUTS,
    MET_PLAN_CHANGES,
    MET_PLAN_PASSES_OFF,
    MET_PLAN_IN_ROUND,
    MET_PLAN_OF_POLLED,
    MET_PLAN_NOBODY,
    MET_PLAN_UNHEARD,
    MET_PLAN_TIE,
    MET_PLAN_LEFT,
    MET_PLAN_LOST,
    MET_PLAN_AGAIN,
    MET_PLAN_OTHER_PUTS,
    MET_PLAN_OUT,
    MET_PLAN_WRITE,
    MET_PLAN_CHANGE,
    MET_PLAN_BOOK,
    MET_PLAN_SPENT_VERSION,
    MET_PLAN_SPENT_GENERATION,
    MET_LAY_RESPELLED,
    MET_OPENING_RESPELLED,
    MET_STANDARD_GIVEN,
    MET_OLD_FOUND,
    MET_OLD_STORED,
    MET_OLD_PLACE,
    MET_RESPELLED_CALL,
    MET_RESPELLED_TABLE,
    MET_RESPELLED_PLACE,
    MET_DISJOINT_MOVE,
    MET_MISSING_MOVE,
    MET_STALE_POLL,
    MET_DROP,
    MET_DROP_OF_A_PUT,
    MET_RETURN,
    MET_FIRST_LINK,
    MET_UNLINKED_REACH,
    MET_UNLINKED_POLL,
    MET_UNLINKED_PUT,
    MET_UNLINKED_COMMIT,
    MET_LATE_POLL,
    MET_SHORT_WRITE,
    MET_SHORT_DATA,
    MET_SHORT_CONFIGURATION,
    MET_SPENT_VERSION,
    MET_SPENT_GENERATION,
    MET_BOOK,
    MET_BYTES,
    MET_RAISE,
    MET_ODD_CONFIGURATION,
    MET_FALSE_FRAME,
    MET_COUNT
} meter;

typedef struct {
    uint64_t lists;
    uint64_t calls;
    uint64_t replies[CALL_CODES][REPLY_NUMBERS];
    uint64_t commits[ROUND_KINDS][STATION_COUNTS]; /* that finished, by kind and n */
    /* Done polls by their figure, and done diagnoses by their second and third. */
    uint64_t polls[PLACE_COUNTS];
    uint64_t stations[STATION_COUNTS];
    uint64_t places[PLACE_COUNTS];
    /* Plans by polls, 0 for out of hearing, and done ones by puts. */
    uint64_t plan_polls[STATION_COUNTS];
    uint64_t plan_puts[STATION_COUNTS];
    uint64_t alone[BROKEN_CLAUSES]; /* calls on a table that breaks this clause and no other */
    uint64_t met[MET_COUNT];
    /* Followed from call to call while the book covers the list. */
    unsigned unlinked; /* the stations not linked since the lay */
    unsigned late;     /* those first linked since the last opening */
} tally;

/* What there is to see in a call before it is made, by the table. */
typedef struct {
    unsigned n;
    unsigned round;
    uint64_t broken;
    bool met[MET_COUNT]; /* if the call replies 0 */
    bool lacks_data;
    bool lacks_configuration;
    bool unlinked; /* its station is not linked since the lay */
    bool nobody;   /* is on the bus */
    bool covered;
} sight;

/* Looks at the call and the table that it is about to be made on. One that
 * the book covers is sound and has no ties. */
sight tally_look(const tally *t, const call *c, const loan *table, bool covered);

/* Counts the call, with what was seen before it. */
void tally_call(tally *t, const sight *s, const call *c, const ospreyscreen_reply *reply);

/* Prints what the form should meet, and how often it met it. */
void tally_print(FILE *to, const tally *t, form f);

/* Prints what the form should have met and has not; gives whether it met all. */
bool tally_met_all(FILE *to, const tally *t, form f);

#endif
