/*
 * The table in hand, and what its bytes hold. The offsets are those of
 * docs/FORMAT.md, and stand here alone. Every table here is empty or sound.
 */
#ifndef TABLE_H
#define TABLE_H

#include "sets.h"

/* Length 0 is a table that has not been laid. */
typedef struct {
    uint8_t bytes[OSPREYSCREEN_TABLE_LENGTH_MAX];
    size_t length;
} table;

/* The head: the stations, and the open round. */
typedef struct {
    unsigned n;
    unsigned m;
    unsigned on;  /* stations on the bus */
    unsigned off; /* stations off it */
    int round;    /* enum ospreyscreen_round */
    unsigned item;
    unsigned polled;
    unsigned data_puts;
    unsigned configuration_puts;
    uint64_t value;
    configuration target;
} head;

/* One copy of an item. */
typedef struct {
    uint64_t version;
    uint64_t value;
    uint64_t generation;
    configuration config;
} copy;

/* What the open round has found at the polled stations, of which there is one at
 * least. */
typedef struct {
    unsigned version_station; /* it gave version and value */
    copy data;
    unsigned generation_station; /* it gave generation and configuration */
    copy config;
} findings;

/* Whether the library takes the bytes for a table. */
bool table_is_sound(const table *t);

head table_head(const table *t);

copy table_copy(const table *t, unsigned item, unsigned station);

/* The highest counters of all copies of the item. */
void table_newest(const table *t, unsigned item, uint64_t *version, uint64_t *generation);

findings table_findings(const table *t, const head *h);

/* "read", "write" and "change", by the kind of the round. */
extern const char *const ROUND_NAMES[OSPREYSCREEN_ROUND_CHANGE + 1];

#endif
