/*
 * Documents 01 and 02 by hand for speed: what the library's times are compared with.
 * Every call makes every check, as the library does.
 */
#ifndef OPTIMISED_H
#define OPTIMISED_H

#include "ospreyscreen.h"

ospreyscreen_reply opt_lay(uint8_t *table, size_t len, uint64_t n, uint64_t m, uint64_t value,
                           const uint8_t *config, size_t config_len);
ospreyscreen_reply opt_open_read(uint8_t *table, size_t len, uint64_t item);
ospreyscreen_reply opt_open_write(uint8_t *table, size_t len, uint64_t item, uint64_t value);
ospreyscreen_reply opt_open_change(uint8_t *table, size_t len, uint64_t item,
                                   const uint8_t *target, size_t target_len);
ospreyscreen_reply opt_poll(uint8_t *table, size_t len, uint64_t station);
ospreyscreen_reply opt_put(uint8_t *table, size_t len, uint64_t station, uint64_t sort);
ospreyscreen_reply opt_commit(uint8_t *table, size_t len);
ospreyscreen_reply opt_abandon(uint8_t *table, size_t len);
ospreyscreen_reply opt_link(uint8_t *table, size_t len, uint64_t station, uint64_t state);
ospreyscreen_reply opt_reach(const uint8_t *table, size_t len, uint64_t item);
ospreyscreen_reply opt_diagnose(const uint8_t *table, size_t len);
ospreyscreen_reply opt_plan(const uint8_t *table, size_t len, uint64_t item);
ospreyscreen_reply opt_votes(const uint8_t *votes, size_t votes_len, uint64_t read, uint64_t write,
                             uint8_t *out, size_t out_len);
/* The same by a search, one number at a time, as the library does it. */
ospreyscreen_reply opt_votes_searched(const uint8_t *votes, size_t votes_len, uint64_t read,
                                      uint64_t write, uint8_t *out, size_t out_len);
ospreyscreen_reply opt_standard_form(uint64_t n, const uint8_t *config, size_t config_len,
                                     uint8_t *out, size_t out_len);
/* The same one set at a time, each to its place among those found. */
ospreyscreen_reply opt_standard_form_listed(uint64_t n, const uint8_t *config, size_t config_len,
                                            uint8_t *out, size_t out_len);

#endif
