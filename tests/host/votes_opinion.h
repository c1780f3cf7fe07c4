/*
 * What the configuration of a sheet has to do, asked without the reference:
 * sets of stations are held to their votes, it is its own standard form, and a
 * house is run with it.
 */
#ifndef VOTES_OPINION_H
#define VOTES_OPINION_H

#include "calls.h"
#include "votes_tally.h"

/* Gives what is wrong with a configuration that the sheet given was turned into,
 * or a null pointer; counts what it looked at in a votes_tally. */
const char *votes_wrong(const implementation *with, const void *given, const uint8_t *config,
                        rng *r, void *counts);

#endif
