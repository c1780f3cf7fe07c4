/* Sheets of votes for the test of ospreyscreen_votes. */
#ifndef VOTES_CASES_H
#define VOTES_CASES_H

#include "writers.h"

/* More than 2^16 votes, so that their number is cut by 16 bits too. */
enum { VOTES_ROOM = (1 << 16) + 300 };

/* What one call is given. A length of 0 goes with a null pointer or not. */
typedef struct {
    const uint8_t *votes;
    size_t votes_len;
    uint64_t read;
    uint64_t write;
    size_t out_len;
    bool null;
} sheet;

/* All small sheets, and what random ones meet seldom. */
bool votes_directed(case_user *use, void *with);

/* A sheet of any shape; it stays until the next one. */
const void *votes_random(rng *r);

#endif
