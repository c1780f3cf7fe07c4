/* The benchmark's rows of configurations into their standard form. */
#ifndef FORM_ROWS_H
#define FORM_ROWS_H

#include "times.h"

void print_form_rows(unsigned samples, summary *sum);

#endif
