#include "votes_opinion.h"

#include <string.h>

/* Up to so many stations every set is asked for, above it seldom. */
enum { EVERY_SET = 6, SELDOM = 16, SAMPLES = 32 };

enum { START = 500, VALUE = 510 };

static unsigned any_of(const side_sets *side, rng *r)
{
    return side->sets[rng_below(r, side->count)];
}

/* ---- Sets and their votes ---- */

/* "A station set must hold a listed set exactly when its votes reach that
 * threshold". */
static bool agree(const sheet *s, const side_sets *reads, const side_sets *writes, unsigned set)
{
    uint64_t votes = votes_of_set(s, set);
    return sets_hold(reads, set) == (votes >= s->read) && sets_hold(writes, set) == (votes >= s->write);
}

static bool all_agree(const sheet *s, const side_sets *reads, const side_sets *writes)
{
    for (unsigned set = 0; set <= all_stations((unsigned)s->votes_len); set++) {
        if (!agree(s, reads, writes, set)) {
            return false;
        }
    }
    return true;
}

/* Each listed set, the same without one station, and some of any kind. */
static bool some_agree(const sheet *s, const side_sets *reads, const side_sets *writes, rng *r)
{
    unsigned all = all_stations((unsigned)s->votes_len);
    for (unsigned i = 0; i < SAMPLES; i++) {
        unsigned listed = any_of(rng_one_in(r, 2) ? reads : writes, r);
        unsigned less = listed & ~(1u << station_of(r, listed));
        if (!agree(s, reads, writes, listed) || !agree(s, reads, writes, less) ||
            !agree(s, reads, writes, less | part_of(r, all)) ||
            !agree(s, reads, writes, part_of(r, all))) {
            return false;
        }
    }
    return true;
}

/* ---- A house with the configuration ---- */

typedef struct {
    const implementation *with;
    size_t len;
    uint8_t table[OSPREYSCREEN_TABLE_LENGTH(OSPREYSCREEN_STATIONS_MAX, 1)];
} house;

static bool reaches(const house *h, uint64_t figure)
{
    ospreyscreen_reply reply = h->with->reach(h->table, h->len, 0);
    return reply.number == OSPREYSCREEN_DONE && reply.first == figure;
}

/* Whether a table as it is laid has every station off: nothing can be reached,
 * and no station answers a poll. */
static bool starts_off(house *h, unsigned n)
{
    bool off = reaches(h, OSPREYSCREEN_REACH_NOTHING) &&
               h->with->open_read(h->table, h->len, 0).number == OSPREYSCREEN_DONE;
    for (unsigned station = 0; station < n; station++) {
        off &= h->with->poll(h->table, h->len, station).number == OSPREYSCREEN_OFF_THE_BUS;
    }
    return off && h->with->abandon(h->table, h->len).number == OSPREYSCREEN_DONE;
}

/* Links the set's stations, which can read and write then. */
static bool links(house *h, unsigned set)
{
    for (; set != 0; set &= set - 1) {
        unsigned station = (unsigned)__builtin_ctz(set);
        uint64_t linked = h->with->link(h->table, h->len, station, OSPREYSCREEN_LINK_ON).number;
        if (linked != OSPREYSCREEN_DONE) {
            return false;
        }
    }
    return reaches(h, OSPREYSCREEN_REACH_READ_AND_WRITE);
}

/* The place of a listed read set. */
static unsigned read_place(const uint8_t *config, unsigned set)
{
    unsigned place = 0;
    while (configuration_set(config, READ_SIDE + place) != set) {
        place++;
    }
    return place;
}

/* Polls the stations of a listed read set. The last one makes the round heard,
 * by this very set, since no other listed one lies within it; none before it
 * does. */
static bool polls(house *h, const uint8_t *config, unsigned set)
{
    uint64_t heard = 1 + read_place(config, set);
    for (; set != 0; set &= set - 1) {
        unsigned station = (unsigned)__builtin_ctz(set);
        ospreyscreen_reply reply = h->with->poll(h->table, h->len, station);
        bool last = (set & (set - 1)) == 0;
        if (reply.number != OSPREYSCREEN_DONE || reply.first != (last ? heard : 0)) {
            return false;
        }
    }
    return true;
}

/* Puts at the set's stations; before the last one the commit is short. */
static bool puts_at(house *h, unsigned set)
{
    for (; set != 0; set &= set - 1) {
        unsigned station = (unsigned)__builtin_ctz(set);
        uint64_t early = h->with->commit(h->table, h->len).number;
        uint64_t put = h->with->put(h->table, h->len, station, OSPREYSCREEN_PUT_DATA).number;
        if (early != OSPREYSCREEN_SHORT || put != OSPREYSCREEN_DONE) {
            return false;
        }
    }
    return true;
}

static bool commits(house *h)
{
    ospreyscreen_reply reply = h->with->commit(h->table, h->len);
    return reply.number == OSPREYSCREEN_DONE && reply.first == VALUE && reply.second == 1 &&
           reply.third == 0;
}

/* Lays a table, links the stations of the three sets, writes by one read set
 * and one write set, and reads by another read set; gives what is wrong. */
static const char *house_wrong(const implementation *with, const sheet *s, const uint8_t *config,
                               unsigned polled, unsigned put, unsigned polled_later)
{
    house h = {.with = with, .len = OSPREYSCREEN_TABLE_LENGTH(s->votes_len, 1)};
    uint64_t laid = with->lay(h.table, h.len, s->votes_len, 1, START, config,
                              OSPREYSCREEN_CONFIGURATION_LENGTH).number;

    if (laid != OSPREYSCREEN_DONE) {
        return "lay refuses the configuration";
    }
    if (!starts_off(&h, (unsigned)s->votes_len)) {
        return "a station of a new table is on the bus";
    }
    if (!links(&h, polled | put | polled_later)) {
        return "linked stations do not reach what they should";
    }
    if (with->open_write(h.table, h.len, 0, VALUE).number != OSPREYSCREEN_DONE ||
        !polls(&h, config, polled) || !puts_at(&h, put) || !commits(&h)) {
        return "a write with the configuration goes wrong";
    }
    if (with->open_read(h.table, h.len, 0).number != OSPREYSCREEN_DONE ||
        !polls(&h, config, polled_later) || !commits(&h)) {
        return "a read with the configuration goes wrong";
    }
    return NULL;
}

/* Whether the configuration is its own standard form. */
static bool is_standard(const implementation *with, const sheet *s, const uint8_t *config)
{
    uint8_t form[OSPREYSCREEN_CONFIGURATION_LENGTH];
    ospreyscreen_reply reply =
        with->standard_form(s->votes_len, config, sizeof form, form, sizeof form);
    return reply.number == OSPREYSCREEN_DONE && memcmp(form, config, sizeof form) == 0;
}

const char *votes_wrong(const implementation *with, const void *given, const uint8_t *config,
                        rng *r, void *counts)
{
    const sheet *s = given;
    votes_tally *t = counts;
    side_sets reads = configuration_sets(config, READ_SIDE);
    side_sets writes = configuration_sets(config, WRITE_SIDE);
    bool every = s->votes_len <= EVERY_SET || rng_one_in(r, SELDOM);

    if (reads.count == 0 || writes.count == 0) {
        return "a side of the configuration is empty";
    }
    if (!(every ? all_agree(s, &reads, &writes) : some_agree(s, &reads, &writes, r))) {
        return "a set of stations does not hold a listed set exactly if its votes reach";
    }
    if (!is_standard(with, s, config)) {
        return "the configuration is not its own standard form";
    }
    const char *wrong = house_wrong(with, s, config, any_of(&reads, r), any_of(&writes, r),
                                    any_of(&reads, r));
    t->met[VOTES_ROUND] += wrong == NULL;
    t->met[VOTES_EVERY_SET] += every && s->votes_len == OSPREYSCREEN_STATIONS_MAX;
    return wrong;
}
