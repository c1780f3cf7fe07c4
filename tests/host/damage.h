/* What is done to a table by hand between calls. Every function works on a
 * copy of the table's bytes; the recorder then sets them. */
#ifndef DAMAGE_H
#define DAMAGE_H

#include "reference.h"
#include "rng.h"

#include <stdbool.h>

/* Damages a table that has a whole head, from one bit up to all of it. */
void damage_anything(rng *r, uint8_t *table, size_t len);

/* Changes a sound table so that it breaks this clause and no other. False,
 * and no promise of the bytes, where this table cannot: a length or a number
 * of stations or items, or a station that is none of 16. */
bool damage_clause(rng *r, uint8_t *table, broken_clause clause);

/* Makes a valid configuration for n stations false by this clause alone;
 * false where it cannot. */
bool damage_configuration(rng *r, uint8_t *config, unsigned n, unsigned clause);

/* Gives stations of the item of a sound table equal highest versions with
 * different values, and equal highest generations with different
 * configurations. The table stays sound. */
void damage_tie(rng *r, uint8_t *table, unsigned item);

/* Gives every copy of the item of a sound table a low generation and a
 * configuration of its own, so that what polls find changes from station to
 * station. The table stays sound. */
void damage_order(rng *r, uint8_t *table, unsigned item);

/* Gives every configuration of a sound table another spelling, the head's target
 * too. The table stays sound. */
void damage_spelling(rng *r, uint8_t *table, size_t len);

/* Sets counters at both ends of their range, in one copy in four. The table
 * stays as sound as it was. */
void damage_counters(rng *r, uint8_t *table, size_t len);

/* A whole sound table of n stations and m items, 1 to 255 each: copies all
 * different, every station on the bus, no round. */
void damage_fresh(rng *r, uint8_t *table, unsigned n, unsigned m);

/* Opens a sound round of the kind by hand: any item, polls and puts. */
void damage_round(rng *r, uint8_t *table, unsigned kind);

#endif
