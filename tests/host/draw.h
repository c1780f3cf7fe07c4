/* Random arguments of calls, for the generators of lists. */
#ifndef DRAW_H
#define DRAW_H

#include "calls.h"
#include "guard.h"
#include "rng.h"

/* A number at or around the ends of what a call takes, of the widths that a
 * conversion could cut it down to, or of any width. */
uint64_t draw_odd(rng *r, uint64_t limit);

/* A number below the limit in three of four cases, else an odd one. */
uint64_t draw_below(rng *r, uint64_t limit);

uint64_t draw_value(rng *r);

/* Any number of stations, and the larger of two in half the cases: a round on
 * more stations takes more calls. Mostly few items, which makes calls fast. */
void draw_size(rng *r, unsigned *n, unsigned *m);

/* A part of the stations that is not empty. */
unsigned draw_some(rng *r, unsigned stations);

/* A valid configuration for n stations, or among these stations, in any
 * spelling. */
void draw_configuration(rng *r, unsigned n, uint8_t *config);
void draw_among(rng *r, unsigned stations, uint8_t *config);

/* Makes the configuration of a call, which stands in this room, one that is
 * most likely not valid: by its bytes or by its length. */
void draw_false(rng *r, unsigned n, uint8_t *config, call *c);

/* Where a buffer is lent. */
guard_place draw_place(rng *r);

#endif
