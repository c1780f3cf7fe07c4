/*
 * What a table shows to the generators and the tallies. It only steers and
 * counts: a slip here makes poorer lists, and no false result.
 */
#ifndef OUTLOOK_H
#define OUTLOOK_H

#include "lists.h"

typedef struct {
    const uint8_t *table;
    unsigned n;
    unsigned m;
    unsigned round;
    unsigned item;
    unsigned off;
    unsigned on;
    unsigned polled;
    unsigned data_puts;
    unsigned configuration_puts;
    const uint8_t *target;
} outlook;

/* False if the table is too far from sound to be read. */
bool outlook_read(outlook *o, const uint8_t *table, size_t len);

/* The copy of the item at the station. */
const uint8_t *outlook_copy(const outlook *o, unsigned item, unsigned station);

/* The copy of the highest counter among the stations, the lowest station on
 * equal ones; a null pointer if there are no stations. */
const uint8_t *outlook_newest(const outlook *o, unsigned item, unsigned among, counter by);

/* Whether copies among the stations share the highest counter and differ in
 * what comes with it. */
bool outlook_tie(const outlook *o, unsigned item, unsigned among, counter by);

/* Whether the highest counter among the stations is at the end of its range. */
bool outlook_spent(const outlook *o, unsigned item, unsigned among, counter by);

/* The configuration of the newest copy, or a null pointer. */
const uint8_t *outlook_configuration(const outlook *o, unsigned item, unsigned among);

/* What the stations on the bus can do by that configuration: a figure of reach. */
uint64_t outlook_reach(const outlook *o, unsigned item, unsigned among);

/* Whether the stations are heard by what their copies give. */
bool outlook_heard(const outlook *o, unsigned item, unsigned among);

/* The first start of the rising order of the stations on the bus that is heard;
 * none if there is no such. */
unsigned outlook_heard_start(const outlook *o, unsigned item);

#endif
