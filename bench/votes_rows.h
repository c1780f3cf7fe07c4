/* The benchmark's rows of votes into a configuration. */
#ifndef VOTES_ROWS_H
#define VOTES_ROWS_H

#include "times.h"

void print_votes_rows(unsigned samples, summary *sum);

#endif
