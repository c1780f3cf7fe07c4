#include "votes_rows.h"

#include "optimised.h"
#include "rng.h"

#include <string.h>

enum { STATIONS = OSPREYSCREEN_STATIONS_MAX, ORDERS = 4096 };

typedef ospreyscreen_reply votes_function(const uint8_t *, size_t, uint64_t, uint64_t, uint8_t *,
                                          size_t);

/* What the library is compared with, and the name of such a row. */
static const struct {
    votes_function *votes;
    const char *name;
} RIVALS[] = {
    {opt_votes, "votes"},
    {opt_votes_searched, "votes, C that searches"},
};

typedef struct {
    const char *name; /* the sets on each side */
    uint8_t votes[STATIONS];
    uint64_t read;
    uint64_t write;
    uint64_t number;
} votes_row;

static const votes_row ROWS[] = {
    {"one set", {5, 7, 2, 9, 1, 3, 8, 4, 6, 2, 7, 5, 3, 9, 1, 6}, 78, 78, OSPREYSCREEN_DONE},
    {"eight sets", {3, 2, 9, 5, 9, 8, 8, 2, 4, 6, 7, 7, 9, 1, 7, 2}, 85, 85, OSPREYSCREEN_DONE},
    {"more than eight sets", {5, 7, 2, 9, 1, 3, 8, 4, 6, 2, 7, 5, 3, 9, 1, 6}, 40, 40,
     OSPREYSCREEN_TOO_MANY_SETS},
    {"three sets, three heavy stations", {40, 1, 1, 1, 1, 40, 1, 1, 1, 1, 40, 1, 1, 1, 1, 1}, 80,
     54, OSPREYSCREEN_DONE},
};

/* A row, with its votes given out to the stations in many ways. */
typedef struct {
    const votes_row *row;
    votes_function *sides[SIDES];
    unsigned next[SIDES];
    uint8_t orders[ORDERS][STATIONS];
} scene;

static void shuffle(rng *r, uint8_t votes[STATIONS])
{
    for (unsigned i = STATIONS - 1; i > 0; i--) {
        unsigned other = (unsigned)rng_below(r, i + 1);
        uint8_t kept = votes[i];
        votes[i] = votes[other];
        votes[other] = kept;
    }
}

static void set_scene(scene *s, const votes_row *row)
{
    rng r = {1};

    s->row = row;
    for (unsigned i = 0; i < ORDERS; i++) {
        memcpy(s->orders[i], row->votes, STATIONS);
        shuffle(&r, s->orders[i]);
    }
}

FOR_EACH_SIDE uint64_t run(unsigned side, const void *at, unsigned input)
{
    const scene *s = at;
    const votes_row *row = s->row;
    uint8_t out[OSPREYSCREEN_CONFIGURATION_LENGTH];
    return row->number ^ s->sides[side](s->orders[input % ORDERS], STATIONS, row->read, row->write,
                                        out, sizeof out).number;
}

static double batch(unsigned side, void *at, unsigned runs)
{
    scene *s = at;
    return side == LIBRARY_SIDE
               ? runs_in_turn(LIBRARY_SIDE, run, s, &s->next[side], runs, s->row->name)
               : runs_in_turn(OPTIMISED_SIDE, run, s, &s->next[side], runs, s->row->name);
}

void print_votes_rows(unsigned samples, summary *sum)
{
    static scene s = {.sides = {[LIBRARY_SIDE] = ospreyscreen_votes}};
    timing t[SIDES];

    for (unsigned rival = 0; rival < sizeof RIVALS / sizeof RIVALS[0]; rival++) {
        s.sides[OPTIMISED_SIDE] = RIVALS[rival].votes;
        for (unsigned i = 0; i < sizeof ROWS / sizeof ROWS[0]; i++) {
            set_scene(&s, &ROWS[i]);
            measure(batch, &s, samples, t);
            print_row("16 stations", ROWS[i].name, RIVALS[rival].name, t, sum);
        }
    }
}
