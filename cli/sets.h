/*
 * Station sets and configurations, as the header's words on lay have them: a
 * set is 16 bits, bit i for station i; a configuration is eight read sets and
 * eight write sets of two bytes each, zeros in unused places.
 */
#ifndef SETS_H
#define SETS_H

#include "ospreyscreen.h"

#include <stdbool.h>
#include <stdio.h>

enum { READ_SIDE, WRITE_SIDE, SIDES };
enum { PLACES = OSPREYSCREEN_SETS_PER_SIDE, STATIONS_MAX = OSPREYSCREEN_STATIONS_MAX };

typedef struct {
    uint8_t bytes[OSPREYSCREEN_CONFIGURATION_LENGTH];
} configuration;

/* "read" and "write". */
extern const char *const SIDE_NAMES[SIDES];

/* ---- Sets ---- */

/* The stations below n; bytes that are no table may have any n. */
unsigned all_below(unsigned n);

bool has_station(unsigned set, unsigned station);

int count_stations(unsigned set);

/* "0, 2, 3". */
void print_stations(FILE *out, unsigned set);

/* "0, 2 and 3". */
void print_stations_and(FILE *out, unsigned set);

/* ---- Configurations ---- */

/* The set in a place of a side; zero if the place is not used. */
unsigned set_in(const configuration *c, int side, int place);

/* How many places there are up to the last used one: a gap before it counts. */
int places_of(const configuration *c, int side);

/* Whether the stations hold a set of the side. */
bool holds_set(const configuration *c, int side, unsigned stations);

bool same_configuration(const configuration *a, const configuration *b);

/* "read 0003 0005". */
void print_side(FILE *out, const configuration *c, int side);

/* "read 0003 0005 write 0006". */
void print_configuration(FILE *out, const configuration *c);

/* The 64 digits of the bytes. */
void print_digits(FILE *out, const configuration *c);

/* Reads "read 0003 0005 write 0006", or 64 digits; if the words are neither,
 * why says so. */
bool configuration_from_words(configuration *c, char **words, int count, char *why);

/* Prints what makes a configuration false for n stations; nothing if it is not. */
void print_falsehood(FILE *out, const configuration *c, unsigned n);

#endif
