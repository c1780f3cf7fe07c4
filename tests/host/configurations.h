/* Configurations in document 01's 32 bytes: random ones, and what they hold. */
#ifndef CONFIGURATIONS_H
#define CONFIGURATIONS_H

#include "ospreyscreen.h"
#include "rng.h"

enum { PLACES = OSPREYSCREEN_SETS_PER_SIDE, READ_SIDE = 0, WRITE_SIDE = PLACES };

/* The set of all n stations, 16 at most. */
static inline unsigned all_stations(unsigned n)
{
    return (1u << n) - 1;
}

/* The set in a place, 0 to 15: the read sets, then the write sets. */
unsigned configuration_set(const uint8_t *config, unsigned place);
void configuration_set_to(uint8_t *config, unsigned place, unsigned set);

/* A valid configuration whose sets are majorities of the n stations. The
 * first set of each side is the majority of the lowest stations. */
void configuration_majorities(rng *r, unsigned n, uint8_t out[OSPREYSCREEN_CONFIGURATION_LENGTH]);

/* A valid configuration of one to eight sets a side, of any shape, that names
 * stations of the set alone. */
void configuration_among(rng *r, unsigned stations, uint8_t out[OSPREYSCREEN_CONFIGURATION_LENGTH]);

/* Spoils a valid configuration; most results are not valid any more. */
void configuration_spoil(rng *r, unsigned n, uint8_t config[OSPREYSCREEN_CONFIGURATION_LENGTH]);

/* Gives a configuration another spelling: on each side sets that contain another
 * come and go, sets are repeated, up to eight places are used, in any order. The
 * same station sets pass. What is added to a set is of the stations. */
void configuration_respell(rng *r, unsigned stations,
                           uint8_t config[OSPREYSCREEN_CONFIGURATION_LENGTH]);

/* The used sets of a side, and whether the stations hold one of them. */
typedef struct {
    unsigned count;
    unsigned sets[PLACES];
} side_sets;

side_sets configuration_sets(const uint8_t *config, unsigned side);
bool sets_hold(const side_sets *s, unsigned stations);

/* Whether the stations hold a used set of the side. */
bool configuration_holds(const uint8_t *config, unsigned side, unsigned stations);

/* One plus the first read place that the stations hold, or 0. */
unsigned configuration_read_figure(const uint8_t *config, unsigned stations);

/* The used write set of the configuration that the choice falls on. */
unsigned configuration_write_set(const uint8_t *config, unsigned choice);

/* All stations that a set of the side names, or of the configuration. */
unsigned configuration_side(const uint8_t *config, unsigned side);
unsigned configuration_stations(const uint8_t *config);

/* Whether every write set of the one misses every read set of the other. */
bool configuration_misses(const uint8_t *writes, const uint8_t *reads);

/* How many stations the set has. */
unsigned set_size(unsigned set);

/* So many stations of the set, the lowest ones; all if there are no more. */
unsigned lowest_stations(unsigned set, unsigned count);

/* A random station of a set that is not empty. */
unsigned station_of(rng *r, unsigned set);

/* A random part of the set. */
unsigned part_of(rng *r, unsigned set);

#endif
