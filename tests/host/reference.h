/*
 * An independent implementation of document 01 with the requests of document
 * 02 that change its calls, written from the papers for reading and not for
 * speed. It is what the library is compared with. From the library it has the
 * header alone, whose numbers are thereby tested too.
 */
#ifndef REFERENCE_H
#define REFERENCE_H

#include "ospreyscreen.h"

ospreyscreen_reply ref_lay(uint8_t *table, size_t len, uint64_t n, uint64_t m, uint64_t value,
                           const uint8_t *config, size_t config_len);
ospreyscreen_reply ref_open_read(uint8_t *table, size_t len, uint64_t item);
ospreyscreen_reply ref_open_write(uint8_t *table, size_t len, uint64_t item, uint64_t value);
ospreyscreen_reply ref_open_change(uint8_t *table, size_t len, uint64_t item,
                                   const uint8_t *target, size_t target_len);
ospreyscreen_reply ref_poll(uint8_t *table, size_t len, uint64_t station);
ospreyscreen_reply ref_put(uint8_t *table, size_t len, uint64_t station, uint64_t sort);
ospreyscreen_reply ref_commit(uint8_t *table, size_t len);
ospreyscreen_reply ref_abandon(uint8_t *table, size_t len);
ospreyscreen_reply ref_link(uint8_t *table, size_t len, uint64_t station, uint64_t state);
ospreyscreen_reply ref_reach(const uint8_t *table, size_t len, uint64_t item);
ospreyscreen_reply ref_diagnose(const uint8_t *table, size_t len);
ospreyscreen_reply ref_plan(const uint8_t *table, size_t len, uint64_t item);
ospreyscreen_reply ref_standard_form(uint64_t n, const uint8_t *config, size_t config_len,
                                     uint8_t *out, size_t out_len);

/* What makes a configuration false: document 01's clauses, by side. */
enum {
    FALSE_READ_EMPTY,
    FALSE_WRITE_EMPTY,
    FALSE_READ_GAP,
    FALSE_WRITE_GAP,
    FALSE_READ_STATION,
    FALSE_WRITE_STATION,
    FALSE_DISJOINT,
    FALSE_CLAUSES
};

/* The clauses that make 32 bytes a false configuration of n stations, one bit
 * each. */
uint64_t ref_false(const uint8_t *config, uint64_t n);

/* What makes a table unsound: document 01's clauses, in its order. */
typedef enum {
    BROKEN_SHORT, /* shorter than a head */
    BROKEN_LENGTH,
    BROKEN_N_ZERO,
    BROKEN_N_HIGH,
    BROKEN_M_ZERO,
    BROKEN_M_HIGH,
    BROKEN_ROUND,
    BROKEN_ITEM,
    BROKEN_OFF_STATION,
    BROKEN_POLLED_STATION,
    BROKEN_DATA_STATION,
    BROKEN_CONFIGURATION_STATION,
    BROKEN_DATA_OFF,
    BROKEN_CONFIGURATION_OFF,
    BROKEN_NONE_ITEM,
    BROKEN_NONE_POLLED,
    BROKEN_NONE_DATA,
    BROKEN_NONE_CONFIGURATION,
    BROKEN_NONE_VALUE,
    BROKEN_NONE_TARGET,
    BROKEN_READ_DATA,
    BROKEN_READ_CONFIGURATION,
    BROKEN_READ_VALUE,
    BROKEN_READ_TARGET,
    BROKEN_WRITE_CONFIGURATION,
    BROKEN_WRITE_TARGET,
    BROKEN_CHANGE_VALUE,
    BROKEN_TARGET, /* the first of a target's */
    BROKEN_ZEROS = BROKEN_TARGET + FALSE_CLAUSES,
    BROKEN_COPY, /* the first of a copy's */
    BROKEN_CLAUSES = BROKEN_COPY + FALSE_CLAUSES
} broken_clause;

/* The clauses that the bytes break, one bit each. A table is sound if there
 * are none. Without a whole head nothing more is looked at; copies that the
 * length cuts off are not looked at. */
uint64_t ref_broken(const uint8_t *table, size_t len);

#endif
