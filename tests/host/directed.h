/*
 * Directed lists: what random lists meet seldom or never, one after another.
 * Every list depends on its number, and a little on the seed.
 */
#ifndef DIRECTED_H
#define DIRECTED_H

#include "generate.h"

uint64_t directed_count(void);
void directed_list(generator *g, uint64_t seed, uint64_t number);

#endif
