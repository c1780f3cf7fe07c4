/* Where the fields of a table are, for the generators and the tallies. */
#ifndef FIELDS_H
#define FIELDS_H

#include "ospreyscreen.h"

enum {
    HEAD = OSPREYSCREEN_HEAD_LENGTH,
    COPY = OSPREYSCREEN_COPY_LENGTH,
    CONFIGURATION = OSPREYSCREEN_CONFIGURATION_LENGTH,
    /* In the head. */
    N_AT = 0,
    M_AT = 1,
    OFF_AT = 2,
    ROUND_AT = 4,
    ITEM_AT = 5,
    POLLED_AT = 6,
    DATA_AT = 8,
    PUTS_AT = 10, /* of configurations */
    ZEROS_AT = 12,
    VALUE_AT = 16,
    TARGET_AT = 24,
    /* In a copy. */
    VERSION_IN = 0,
    VALUE_IN = 8,
    GENERATION_IN = 16,
    CONFIGURATION_IN = 24
};

/* The place of the copy of the item at the station, with n stations. */
static inline size_t copy_at(size_t n, size_t item, size_t station)
{
    return HEAD + COPY * (item * n + station);
}

#endif
