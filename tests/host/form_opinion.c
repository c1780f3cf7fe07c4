#include "form_opinion.h"

#include "fields.h"

#include <string.h>

/* Up to so many stations every set is asked for, above it as much more seldom as
 * there are more sets. */
enum { EVERY_SET = 6 };

/* A house is set up once in so many times. */
enum { HOUSES = 8 };

/* ---- Sets that pass ---- */

/* Whether the set passes, and no longer does with any one station left out. */
static bool smallest(const side_sets *given, unsigned set)
{
    for (unsigned left = set; left != 0; left &= left - 1) {
        if (sets_hold(given, set & ~(left & -left))) {
            return false;
        }
    }
    return sets_hold(given, set);
}

static bool lists(const side_sets *form, unsigned set)
{
    bool listed = false;
    for (unsigned i = 0; i < form->count; i++) {
        listed |= form->sets[i] == set;
    }
    return listed;
}

/* Whether the form lists the set exactly if it is a smallest one that passes, and
 * it passes by the form exactly if it does by the spelling. */
static bool agree(const side_sets *given, const side_sets *form, unsigned set)
{
    return lists(form, set) == smallest(given, set) && sets_hold(form, set) == sets_hold(given, set);
}

static bool all_agree(const side_sets *given, const side_sets *form, unsigned all)
{
    for (unsigned set = 0; set <= all; set++) {
        if (!agree(given, form, set)) {
            return false;
        }
    }
    return true;
}

/* Each set, the same without one station, and with some others. */
static bool near_agree(const side_sets *given, const side_sets *form, const side_sets *sets,
                       unsigned all, rng *r)
{
    for (unsigned i = 0; i < sets->count; i++) {
        unsigned set = sets->sets[i];
        unsigned less = set & ~(1u << station_of(r, set));
        if (!agree(given, form, set) || !agree(given, form, less) ||
            !agree(given, form, less | part_of(r, all))) {
            return false;
        }
    }
    return true;
}

/* Whether the sets rise, and there are zeros behind them. */
static bool is_rising(const uint8_t *form, unsigned side)
{
    for (unsigned place = 1; place < PLACES; place++) {
        unsigned set = configuration_set(form, side + place);
        unsigned before = configuration_set(form, side + place - 1);
        if (set != 0 && (before == 0 || set <= before)) {
            return false;
        }
    }
    return configuration_set(form, side) != 0;
}

static bool is_side_right(const spelling *s, const uint8_t *form, unsigned side, bool every, rng *r)
{
    side_sets given = configuration_sets(s->config, side);
    side_sets kept = configuration_sets(form, side);
    unsigned all = all_stations((unsigned)s->n);

    if (!is_rising(form, side)) {
        return false;
    }
    return every ? all_agree(&given, &kept, all)
                 : near_agree(&given, &kept, &given, all, r) &&
                       near_agree(&given, &kept, &kept, all, r);
}

/* ---- Other configurations ---- */

/* Whether a set passes for the side of the one exactly if it does for that of the
 * other: so do all, if those listed in either do in both. */
static bool same_pass(const uint8_t *one, const uint8_t *other, unsigned side)
{
    side_sets a = configuration_sets(one, side);
    side_sets b = configuration_sets(other, side);
    bool same = true;

    for (unsigned i = 0; i < a.count; i++) {
        same &= sets_hold(&b, a.sets[i]);
    }
    for (unsigned i = 0; i < b.count; i++) {
        same &= sets_hold(&a, b.sets[i]);
    }
    return same;
}

/* The configuration with one station more or less in one set, or without a last
 * set; it may be false then. */
static void vary(rng *r, unsigned n, uint8_t *config)
{
    unsigned side = rng_one_in(r, 2) ? READ_SIDE : WRITE_SIDE;
    side_sets s = configuration_sets(config, side);
    unsigned place = side + (unsigned)rng_below(r, s.count);

    if (s.count > 1 && rng_one_in(r, 3)) {
        configuration_set_to(config, side + s.count - 1, 0);
    } else {
        configuration_set_to(config, place, configuration_set(config, place) ^ 1u << rng_below(r, n));
    }
}

/* Whether the other configuration has the same form exactly if the same sets
 * pass. One that may be false may also be refused. */
static bool compares(const implementation *with, const spelling *s, const uint8_t *form,
                     const uint8_t *other, bool may_be_false, form_tally *counts)
{
    uint8_t form_of_other[CONFIGURATION];
    ospreyscreen_reply reply = with->standard_form(s->n, other, CONFIGURATION, form_of_other,
                                                   sizeof form_of_other);
    bool same = same_pass(s->config, other, READ_SIDE) && same_pass(s->config, other, WRITE_SIDE);

    if (reply.number != OSPREYSCREEN_DONE) {
        return may_be_false && reply.number == OSPREYSCREEN_FALSE_CONFIGURATION;
    }
    counts->met[same ? FORM_SAME : FORM_OTHER]++;
    return same == (memcmp(form, form_of_other, CONFIGURATION) == 0);
}

/* ---- Tables ---- */

/* A house of one item, laid and then about to be changed. */
typedef struct {
    size_t len;
    uint8_t table[OSPREYSCREEN_TABLE_LENGTH(OSPREYSCREEN_STATIONS_MAX, 1)];
} house;

/* Lays the house with the configuration. */
static bool lays(const implementation *with, house *h, uint64_t n, const uint8_t *config)
{
    h->len = OSPREYSCREEN_TABLE_LENGTH(n, 1);
    return with->lay(h->table, h->len, n, 1, 500, config, CONFIGURATION).number ==
           OSPREYSCREEN_DONE;
}

static bool opens(const implementation *with, house *h, const uint8_t *target)
{
    return with->open_change(h->table, h->len, 0, target, CONFIGURATION).number ==
           OSPREYSCREEN_DONE;
}

/* Whether every copy has the form, and the head, if it has a target. */
static bool stores(const house *h, const uint8_t *form, bool target)
{
    size_t from = target ? 0 : HEAD;
    for (size_t at = from; at < h->len; at += COPY) { /* a target stands like a copy's */
        if (memcmp(h->table + at + CONFIGURATION_IN, form, CONFIGURATION) != 0) {
            return false;
        }
    }
    return true;
}

/* Links and polls the stations in any order: each poll shows the place that the
 * form has, and a diagnose too. */
static bool polls(const implementation *with, house *h, const spelling *s, const uint8_t *form,
                  rng *r, form_tally *counts)
{
    unsigned polled = 0;
    for (unsigned left = all_stations((unsigned)s->n); left != 0; left &= ~polled) {
        unsigned station = station_of(r, left);
        polled |= 1u << station;
        uint64_t linked = with->link(h->table, h->len, station, OSPREYSCREEN_LINK_ON).number;
        ospreyscreen_reply poll = with->poll(h->table, h->len, station);
        ospreyscreen_reply diagnose = with->diagnose(h->table, h->len);
        uint64_t figure = configuration_read_figure(form, polled);
        if (linked != OSPREYSCREEN_DONE || poll.number != OSPREYSCREEN_DONE ||
            poll.first != figure || diagnose.third != figure) {
            return false;
        }
        counts->met[FORM_PLACES] += figure != configuration_read_figure(s->config, polled);
    }
    return true;
}

static const char *house_wrong(const implementation *with, const spelling *s, const uint8_t *form,
                               const uint8_t *other, rng *r, form_tally *counts)
{
    house a = {0};
    house b = {0};

    if (!lays(with, &a, s->n, s->config) || !lays(with, &b, s->n, other)) {
        return "lay refuses a spelling";
    }
    if (!stores(&a, form, false) || memcmp(a.table, b.table, a.len) != 0) {
        return "lay does not store the standard form";
    }
    if (!opens(with, &a, other) || !opens(with, &b, s->config)) {
        return "open change refuses a spelling";
    }
    if (!stores(&a, form, true) || memcmp(a.table, b.table, a.len) != 0) {
        return "open change does not store the standard form";
    }
    if (!polls(with, &a, s, form, r, counts)) {
        return "read places are not those of the standard form";
    }
    counts->met[FORM_TABLES]++;
    return NULL;
}

/* ---- One form ---- */

const char *form_wrong(const implementation *with, const void *given, const uint8_t *form, rng *r,
                       void *counts)
{
    const spelling *s = given;
    form_tally *t = counts;
    unsigned n = (unsigned)s->n;
    bool every = n <= EVERY_SET || rng_one_in(r, UINT64_C(1) << (n - EVERY_SET));
    uint8_t other[CONFIGURATION];

    t->met[FORM_EVERY_SET] += every && n == OSPREYSCREEN_STATIONS_MAX;
    if (!is_side_right(s, form, READ_SIDE, every, r) ||
        !is_side_right(s, form, WRITE_SIDE, every, r)) {
        return "the sets are not the smallest that pass, rising";
    }
    if (!compares(with, s, form, form, false, t)) {
        return "the form is not its own form";
    }
    memcpy(other, s->config, sizeof other);
    configuration_respell(r, all_stations(n), other);
    if (!compares(with, s, form, other, false, t)) {
        return "another spelling has another form";
    }
    const char *wrong = rng_one_in(r, HOUSES) ? house_wrong(with, s, form, other, r, t) : NULL;
    vary(r, n, other);
    if (wrong == NULL && !compares(with, s, form, other, true, t)) {
        return "two configurations have one form, and not the same sets pass, or the other way round";
    }
    return wrong;
}
