#include "form_tally.h"

#include "reference.h"

#include <string.h>

enum { STATIONS = OSPREYSCREEN_STATIONS_MAX, CONFIGURATION = OSPREYSCREEN_CONFIGURATION_LENGTH };

static const char *const METERS[FORM_METERS] = {
    [FORM_N_ZERO] = "number 2: n is 0 alone",
    [FORM_N_HIGH] = "number 2: n is above 16 alone",
    [FORM_N_CUT_FITS] = "number 2: an n that would fit, cut to 8, 16 or 32 bits",
    [FORM_OUT] = "number 2: the length of the output alone",
    [FORM_N_AND_OUT] = "number 2: n and the length of the output",
    [FORM_2_AND_3] = "number 2, and 3 applies too",
    [FORM_LENGTH] = "number 3: the length alone",
    [FORM_READ_EMPTY] = "number 3: the read side is empty alone",
    [FORM_WRITE_EMPTY] = "number 3: the write side is empty alone",
    [FORM_READ_GAP] = "number 3: a gap on the read side alone",
    [FORM_WRITE_GAP] = "number 3: a gap on the write side alone",
    [FORM_READ_STATION] = "number 3: no such station to read alone",
    [FORM_WRITE_STATION] = "number 3: no such station to write alone",
    [FORM_DISJOINT] = "number 3: disjoint sets alone",
    [FORM_SPARE_STATION] = "number 3: no such station, in sets alone that contain another",
    [FORM_SPARE_GAP] = "number 3: gaps, with sets alone behind them that contain another",
    [FORM_NOTHING] = "done: the spelling is its own form",
    [FORM_ORDER] = "done: the order alone is another",
    [FORM_EQUAL] = "done: equal sets alone are dropped",
    [FORM_CONTAINING] = "done: sets alone that contain another are dropped",
    [FORM_ALL_OF_THESE] = "done: both are, and the order is another",
    [FORM_READ_ALONE] = "done: the read side alone is another",
    [FORM_WRITE_ALONE] = "done: the write side alone is another",
    [FORM_BOTH] = "done: both sides are others",
    [FORM_EIGHT_TO_ONE] = "done: of eight sets one is left",
    [FORM_DROPPED_FIRST] = "done: the set of a first place is dropped",
    [FORM_ALL_16] = "done: all 16 stations in one set",
    [FORM_STATION_15] = "done: station 15 in a set behind one without it",
    [FORM_SIZES] = "done: sets of different sizes on a side",
    [FORM_EVERY_SET] = "forms of 16 stations asked for every set",
    [FORM_SAME] = "other configurations for which the same sets pass, with the same form",
    [FORM_OTHER] = "other configurations for which other sets pass, with another form",
    [FORM_TABLES] = "tables laid with two spellings, and changes opened",
    [FORM_PLACES] = "polls that show another read place than the spelling has",
};

/* ---- Refusals ---- */

static bool listed(uint64_t n)
{
    return n >= 1 && n <= STATIONS;
}

/* The clauses that the spelling breaks; one of another length breaks none. */
static uint64_t broken(const spelling *s)
{
    return s->config_len == CONFIGURATION ? ref_false(s->config, s->n) : 0;
}

static void look_at_2(form_tally *t, const spelling *s)
{
    bool out = s->out_len != CONFIGURATION;
    bool n = !listed(s->n);

    t->met[FORM_N_ZERO] += !out && s->n == 0;
    t->met[FORM_N_HIGH] += !out && s->n > STATIONS;
    t->met[FORM_N_CUT_FITS] +=
        n && (listed((uint8_t)s->n) || listed((uint16_t)s->n) || listed((uint32_t)s->n));
    t->met[FORM_OUT] += out && !n;
    t->met[FORM_N_AND_OUT] += out && n;
    t->met[FORM_2_AND_3] += s->config_len != CONFIGURATION || (!n && broken(s) != 0);
}

/* The bytes without the sets of a side that contain another in front of them,
 * and those that are left without a gap. */
static void leave_spare_out(uint8_t *config, unsigned side)
{
    side_sets kept = {.count = 0};

    for (unsigned place = 0; place < PLACES; place++) {
        unsigned set = configuration_set(config, side + place);
        if (set != 0 && !sets_hold(&kept, set)) {
            kept.sets[kept.count++] = set;
        }
    }
    for (unsigned place = 0; place < PLACES; place++) {
        configuration_set_to(config, side + place, place < kept.count ? kept.sets[place] : 0);
    }
}

/* Whether the spelling is valid without sets that contain another. */
static bool false_by_spare(const spelling *s)
{
    uint8_t config[CONFIGURATION];

    memcpy(config, s->config, sizeof config);
    leave_spare_out(config, READ_SIDE);
    leave_spare_out(config, WRITE_SIDE);
    return ref_false(config, s->n) == 0;
}

static void look_at_3(form_tally *t, const spelling *s)
{
    static const form_meter alone[FALSE_CLAUSES] = {
        [FALSE_READ_EMPTY] = FORM_READ_EMPTY,       [FALSE_WRITE_EMPTY] = FORM_WRITE_EMPTY,
        [FALSE_READ_GAP] = FORM_READ_GAP,           [FALSE_WRITE_GAP] = FORM_WRITE_GAP,
        [FALSE_READ_STATION] = FORM_READ_STATION,   [FALSE_WRITE_STATION] = FORM_WRITE_STATION,
        [FALSE_DISJOINT] = FORM_DISJOINT,
    };
    uint64_t clauses = broken(s);

    if (s->config_len != CONFIGURATION) {
        t->met[FORM_LENGTH] += s->config_len > CONFIGURATION && ref_false(s->config, s->n) == 0;
        return;
    }
    for (unsigned clause = 0; clause < FALSE_CLAUSES; clause++) {
        t->met[alone[clause]] += clauses == UINT64_C(1) << clause;
    }
    bool gap = (clauses & (1u << FALSE_READ_GAP | 1u << FALSE_WRITE_GAP)) != 0;
    bool spare = false_by_spare(s);
    t->met[FORM_SPARE_STATION] += spare && !gap;
    t->met[FORM_SPARE_GAP] += spare && gap;
}

/* ---- Done ---- */

/* What was done to a side. */
typedef struct {
    bool dropped_equal;
    bool dropped_containing;
    bool moved; /* what is kept has another order */
    bool first; /* the first place's set is not kept */
} changes;

static bool is_among(const side_sets *s, unsigned count, unsigned set)
{
    for (unsigned i = 0; i < count; i++) {
        if (s->sets[i] == set) {
            return true;
        }
    }
    return false;
}

static changes changes_of(const side_sets *given, const side_sets *form)
{
    changes c = {.first = !is_among(form, form->count, given->sets[0])};
    unsigned highest = 0;

    for (unsigned place = 0; place < given->count; place++) {
        unsigned set = given->sets[place];
        if (!is_among(form, form->count, set)) {
            c.dropped_containing = true;
        } else if (is_among(given, place, set)) {
            c.dropped_equal = true;
        } else {
            c.moved |= set < highest;
            highest = set > highest ? set : highest;
        }
    }
    return c;
}

/* Whether the sets have different sizes. */
static bool sizes_differ(const side_sets *form)
{
    for (unsigned i = 1; i < form->count; i++) {
        if (set_size(form->sets[i]) != set_size(form->sets[0])) {
            return true;
        }
    }
    return false;
}

static changes look_at_side(form_tally *t, const spelling *s, const uint8_t *out, unsigned side)
{
    side_sets given = configuration_sets(s->config, side * PLACES);
    side_sets form = configuration_sets(out, side * PLACES);
    changes c = changes_of(&given, &form);

    t->given[side][given.count]++;
    t->kept[side][form.count]++;
    t->met[FORM_EIGHT_TO_ONE] += given.count == PLACES && form.count == 1;
    t->met[FORM_DROPPED_FIRST] += c.first;
    t->met[FORM_ALL_16] += form.sets[0] == 0xFFFF;
    t->met[FORM_STATION_15] += form.sets[0] >> 15 == 0 && form.sets[form.count - 1] >> 15 != 0;
    t->met[FORM_SIZES] += sizes_differ(&form);
    return c;
}

static void look_at_done(form_tally *t, const spelling *s, const uint8_t *out)
{
    changes read = look_at_side(t, s, out, 0);
    changes write = look_at_side(t, s, out, 1);
    bool equal = read.dropped_equal || write.dropped_equal;
    bool containing = read.dropped_containing || write.dropped_containing;
    bool moved = read.moved || write.moved;
    bool read_other = memcmp(s->config, out, CONFIGURATION / 2) != 0;
    bool write_other = memcmp(s->config + CONFIGURATION / 2, out + CONFIGURATION / 2,
                              CONFIGURATION / 2) != 0;

    t->done[s->n]++;
    t->met[FORM_NOTHING] += !read_other && !write_other;
    t->met[FORM_READ_ALONE] += read_other && !write_other;
    t->met[FORM_WRITE_ALONE] += !read_other && write_other;
    t->met[FORM_BOTH] += read_other && write_other;
    t->met[FORM_ORDER] += moved && !equal && !containing;
    t->met[FORM_EQUAL] += equal && !moved && !containing;
    t->met[FORM_CONTAINING] += containing && !moved && !equal;
    t->met[FORM_ALL_OF_THESE] += equal && containing && moved;
}

/* ---- The tally ---- */

void form_tally_call(void *counts, const void *given, uint64_t number, const uint8_t *out)
{
    form_tally *t = counts;

    t->calls++;
    if (number == OSPREYSCREEN_DONE) {
        look_at_done(t, given, out);
    } else if (number == OSPREYSCREEN_NO_SUCH_THING) {
        look_at_2(t, given);
    } else {
        look_at_3(t, given);
    }
}

meters form_tally_counted(const void *counts)
{
    const form_tally *t = counts;
    return (meters){t->calls, METERS, t->met, FORM_METERS,
                    {{"done, stations", t->done, STATIONS},
                     {"done, read sets given", t->given[0], PLACES},
                     {"done, read sets kept", t->kept[0], PLACES},
                     {"done, write sets given", t->given[1], PLACES},
                     {"done, write sets kept", t->kept[1], PLACES}}};
}
