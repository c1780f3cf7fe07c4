/*
 * Seasons of one house: its stations are linked one by one, drop and return
 * with old copies, installers change its groups, firmware gives rounds up and
 * makes mistakes. No byte is set by hand, so every finished round is held to
 * the book.
 */
#ifndef SEASON_H
#define SEASON_H

#include "generate.h"

/* Records season so-and-so of the run with this seed. */
void season_list(generator *g, uint64_t seed, uint64_t number);

#endif
