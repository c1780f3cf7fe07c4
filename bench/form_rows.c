#include "form_rows.h"

#include "configurations.h"
#include "optimised.h"

#include <string.h>

enum { LENGTH = OSPREYSCREEN_CONFIGURATION_LENGTH, SPELLINGS = 4096 };

typedef ospreyscreen_reply form_function(uint64_t, const uint8_t *, size_t, uint8_t *, size_t);

/* What the library is compared with, and the name of such a row. */
static const struct {
    form_function *form;
    const char *name;
} RIVALS[] = {
    {opt_standard_form, "standard form"},
    {opt_standard_form_listed, "standard form, C set by set"},
};

/* ---- Spellings ---- */

typedef void spell_function(rng *r, unsigned n, uint8_t *config);

/* Exchanges two places of both sides if the first has the higher set. */
static void exchange(uint8_t *config, unsigned low, unsigned high)
{
    for (unsigned side = READ_SIDE; side <= WRITE_SIDE; side += PLACES) {
        unsigned a = configuration_set(config, side + low);
        unsigned b = configuration_set(config, side + high);
        configuration_set_to(config, side + low, a < b ? a : b);
        configuration_set_to(config, side + high, a < b ? b : a);
    }
}

/* Majorities of the stations: eight a side, in any order, and rising, and falling. */
static void any_order(rng *r, unsigned n, uint8_t *config)
{
    configuration_majorities(r, n, config);
}

static void rising(rng *r, unsigned n, uint8_t *config)
{
    any_order(r, n, config);
    for (unsigned high = 1; high < PLACES; high++) {
        for (unsigned low = 0; low < high; low++) {
            exchange(config, low, high);
        }
    }
}

static void falling(rng *r, unsigned n, uint8_t *config)
{
    any_order(r, n, config);
    for (unsigned high = 1; high < PLACES; high++) {
        for (unsigned low = 0; low < high; low++) {
            exchange(config, high, low);
        }
    }
}

/* All majorities of three stations. */
static void three_pairs(rng *r, unsigned n, uint8_t *config)
{
    static const uint8_t pairs[LENGTH] = {3, 0, 5, 0, 6, [LENGTH / 2] = 3, 0, 5, 0, 6};

    (void)r;
    (void)n;
    memcpy(config, pairs, sizeof pairs);
}

/* One to eight sets of any shape, some of them repeated or in others. */
static void any_spelling(rng *r, unsigned n, uint8_t *config)
{
    configuration_among(r, all_stations(n), config);
    configuration_respell(r, all_stations(n), config);
}

/* The same with a read set that misses a write set. */
static void apart(rng *r, unsigned n, uint8_t *config)
{
    any_spelling(r, n, config);
    configuration_set_to(config, READ_SIDE, 1);
    configuration_set_to(config, WRITE_SIDE, 2);
}

/* ---- Times ---- */

typedef struct {
    const char *stations;
    const char *name;
    unsigned n;
    spell_function *spell;
    uint64_t number;
} form_row;

static const form_row ROWS[] = {
    {"3 stations", "three sets, rising", 3, three_pairs, OSPREYSCREEN_DONE},
    {"16 stations", "eight sets, rising", 16, rising, OSPREYSCREEN_DONE},
    {"16 stations", "eight sets, falling", 16, falling, OSPREYSCREEN_DONE},
    {"16 stations", "eight sets, any order", 16, any_order, OSPREYSCREEN_DONE},
    {"16 stations", "any spelling", 16, any_spelling, OSPREYSCREEN_DONE},
    {"5 stations", "any spelling", 5, any_spelling, OSPREYSCREEN_DONE},
    {"16 stations", "sets apart", 16, apart, OSPREYSCREEN_FALSE_CONFIGURATION},
};

/* A row, with many spellings of its shape. */
typedef struct {
    const form_row *row;
    form_function *sides[SIDES];
    unsigned next[SIDES];
    uint8_t spellings[SPELLINGS][LENGTH];
} scene;

FOR_EACH_SIDE uint64_t run(unsigned side, const void *at, unsigned input)
{
    const scene *s = at;
    const uint8_t *config = s->spellings[input % SPELLINGS];
    uint8_t out[LENGTH];
    return s->row->number ^ s->sides[side](s->row->n, config, LENGTH, out, LENGTH).number;
}

static double batch(unsigned side, void *at, unsigned runs)
{
    scene *s = at;
    return side == LIBRARY_SIDE
               ? runs_in_turn(LIBRARY_SIDE, run, s, &s->next[side], runs, s->row->name)
               : runs_in_turn(OPTIMISED_SIDE, run, s, &s->next[side], runs, s->row->name);
}

void print_form_rows(unsigned samples, summary *sum)
{
    static scene s = {.sides = {[LIBRARY_SIDE] = ospreyscreen_standard_form}};
    timing t[SIDES];

    for (unsigned rival = 0; rival < sizeof RIVALS / sizeof RIVALS[0]; rival++) {
        s.sides[OPTIMISED_SIDE] = RIVALS[rival].form;
        for (s.row = ROWS; s.row < ROWS + sizeof ROWS / sizeof ROWS[0]; s.row++) {
            rng r = {1};
            for (unsigned i = 0; i < SPELLINGS; i++) {
                s.row->spell(&r, s.row->n, s.spellings[i]);
            }
            measure(batch, &s, samples, t);
            print_row(s.row->stations, s.row->name, RIVALS[rival].name, t, sum);
        }
    }
}
