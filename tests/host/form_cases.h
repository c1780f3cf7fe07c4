/* Spellings of configurations for the test of ospreyscreen_standard_form. */
#ifndef FORM_CASES_H
#define FORM_CASES_H

#include "configurations.h"
#include "writers.h"

/* What one call is given. A length of 0 goes with a null pointer or not. */
typedef struct {
    uint64_t n;
    const uint8_t *config; /* CONFIGURATION_ROOM bytes */
    size_t config_len;
    size_t out_len;
    bool null;
} spelling;

/* All small configurations, and what random ones meet seldom. */
bool form_directed(case_user *use, void *with);

/* A spelling of any shape; it stays until the next one. */
const void *form_random(rng *r);

#endif
