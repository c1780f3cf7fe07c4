/*
 * What a standard form has to be, asked without the reference: its sets are the
 * smallest station sets that pass, two configurations have one form exactly if
 * the same sets pass, and it is what lay and open change store.
 */
#ifndef FORM_OPINION_H
#define FORM_OPINION_H

#include "form_tally.h"

/* Gives what is wrong with the form that the spelling given was taken to, or a
 * null pointer; counts what it looked at in a form_tally. */
const char *form_wrong(const implementation *with, const void *given, const uint8_t *form, rng *r,
                       void *counts);

#endif
