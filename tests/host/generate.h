/*
 * Random lists for the differential test. After a lay most stations are
 * linked at once, the others when a station returns or a round needs them.
 * Most calls take the open round a step towards its commit; drops, returns,
 * abandoned rounds, changes that move the quorums away, stations that leave
 * with what they alone know and calls with arguments out of range come
 * between. Some lists have their tables damaged, tied, respelled or raised by
 * hand on the way.
 */
#ifndef GENERATE_H
#define GENERATE_H

#include "recorder.h"
#include "rng.h"

typedef struct {
    recorder to;
    rng source;
    /* The write sets that the puts of the round aim at. */
    unsigned data_choice;
    unsigned configuration_choice;
    /* How often stations drop: once in so many calls. */
    unsigned drops;
    unsigned to_link; /* the stations that are linked first after the lay */
    /* The stations that go off together, and the item that is asked of then. */
    unsigned leaving;
    unsigned left_item;
    uint64_t last; /* the number of the last reply */
    /* The bytes of the last call's configuration. */
    uint8_t config[CONFIGURATION_ROOM];
} generator;

generator generator_make(list *into);

/* Records list so-and-so of the run with this seed. */
void generate_list(generator *g, uint64_t seed, uint64_t number);

/* A lay of a table of n stations and m items that replies 0, where the
 * length fits; or of any size. */
call generate_lay(generator *g, unsigned n, unsigned m);
call generate_any_lay(generator *g);

/* The next call, chosen by the table. */
call generate_call(generator *g);

/* Any call with any arguments, on a table of n stations and m items. */
call generate_any_call(generator *g, unsigned n, unsigned m);

/* Records a call; it is lent its configuration at any place. After a lay that
 * replies 0 the next calls are links, most likely. */
void generate_step(generator *g, const call *c);

/* The random numbers of a list of a run. */
rng generate_source(uint64_t seed, uint64_t number);

#endif
