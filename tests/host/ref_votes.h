/*
 * An independent implementation of document 02's votes, written from the paper
 * for reading and not for speed. It tries the stations from the highest number
 * down, each in the set and then out of it, and so meets the sets in falling
 * order; it looks at no order of the votes.
 */
#ifndef REF_VOTES_H
#define REF_VOTES_H

#include "ospreyscreen.h"

ospreyscreen_reply ref_votes(const uint8_t *votes, size_t votes_len, uint64_t read, uint64_t write,
                             uint8_t *out, size_t out_len);

/* The smallest sets of n stations that reach the threshold, which is 1 or
 * more: the highest ones as numbers, falling, up to most of them. Gives how
 * many. */
unsigned ref_smallest(const uint8_t *votes, size_t n, uint64_t threshold, unsigned most,
                      unsigned *sets);

#endif
