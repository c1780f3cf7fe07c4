#include "votes_tally.h"

#include "ref_votes.h"

static const char *const METERS[VOTES_METERS] = {
    [VOTES_NO_SUCH_THING] = "number 2",
    [VOTES_FALSE] = "number 13",
    [VOTES_TOO_MANY] = "number 14",
    [VOTES_LENGTH_AND_FALSE] = "number 2, and 13 applies too",
    [VOTES_LENGTH_AND_TOO_MANY] = "number 2, and 14 applies too",
    [VOTES_FALSE_AND_TOO_MANY] = "number 13, and more than eight sets on a side",
    [VOTES_NO_STATION] = "13: no station",
    [VOTES_MANY_STATIONS] = "13: more than 16 stations",
    [VOTES_READ_ZERO] = "13: the read threshold alone is zero",
    [VOTES_WRITE_ZERO] = "13: the write threshold alone is zero",
    [VOTES_READ_HIGH] = "13: the read threshold alone is above the total",
    [VOTES_WRITE_HIGH] = "13: the write threshold alone is above the total",
    [VOTES_TOGETHER] = "13: the thresholds together are below the total",
    [VOTES_TOGETHER_EQUAL] = "13: the thresholds together are the total",
    [VOTES_SUM_WRAPS] = "13: the sum of the thresholds does not fit 64 bits",
    [VOTES_CUT_FITS] = "13: thresholds that would fit, cut to 16 bits",
    [VOTES_MANY_READS] = "14: too many read sets alone",
    [VOTES_MANY_WRITES] = "14: too many write sets alone",
    [VOTES_MANY_BOTH] = "14: too many sets on both sides",
    [VOTES_NINE] = "14: nine sets on a side",
    [VOTES_TEN] = "14: ten sets or more on a side",
    [VOTES_TIGHT] = "done: the thresholds together are one above the total",
    [VOTES_TIE] = "done: equal votes in a set and outside of it",
    [VOTES_STATION_OF_NONE] = "done: a station of no votes",
    [VOTES_MOST_VOTES] = "done: a station of 255 votes",
    [VOTES_ALL_16] = "done: all 16 stations in one set",
    [VOTES_READ_15] = "done: station 15 in a read set",
    [VOTES_WRITE_15] = "done: station 15 in a write set",
    [VOTES_ONE_STATION] = "done: a set of one station, of several",
    [VOTES_SIZES] = "done: sets of different sizes on a side",
    [VOTES_OVER] = "done: a set with votes above the threshold",
    [VOTES_ROUND] = "rounds finished with the configuration",
    [VOTES_EVERY_SET] = "configurations of 16 stations asked for every set",
};

uint64_t votes_of_set(const sheet *s, unsigned set)
{
    uint64_t votes = 0;
    for (; set != 0; set &= set - 1) {
        votes += s->votes[__builtin_ctz(set)];
    }
    return votes;
}

uint64_t votes_of_all(const sheet *s)
{
    return votes_of_set(s, all_stations((unsigned)s->votes_len));
}

/* ---- Refusals ---- */

static bool fits(uint64_t threshold, uint64_t total)
{
    return threshold != 0 && threshold <= total;
}

static bool fit(uint64_t read, uint64_t write, uint64_t total)
{
    return fits(read, total) && fits(write, total) && read + write > total;
}

/* How many smallest sets reach the threshold, up to ten. */
static unsigned sets_up_to_ten(const sheet *s, uint64_t threshold)
{
    unsigned sets[PLACES + 2];
    return ref_smallest(s->votes, s->votes_len, threshold, PLACES + 2, sets);
}

/* Counts the clauses that make the thresholds false; gives whether they are. */
static bool look_at_thresholds(votes_tally *t, const sheet *s)
{
    uint64_t total = votes_of_all(s);
    bool read_fits = fits(s->read, total);
    bool write_fits = fits(s->write, total);

    if (fit(s->read, s->write, total)) {
        return false;
    }
    t->met[VOTES_READ_ZERO] += s->read == 0 && write_fits;
    t->met[VOTES_WRITE_ZERO] += s->write == 0 && read_fits;
    t->met[VOTES_READ_HIGH] += s->read > total && write_fits;
    t->met[VOTES_WRITE_HIGH] += s->write > total && read_fits;
    t->met[VOTES_TOGETHER] += read_fits && write_fits && s->read + s->write < total;
    t->met[VOTES_TOGETHER_EQUAL] += read_fits && write_fits && s->read + s->write == total;
    t->met[VOTES_SUM_WRAPS] += s->read > UINT64_MAX - s->write;
    t->met[VOTES_CUT_FITS] += fit((uint16_t)s->read, (uint16_t)s->write, total);
    return true;
}

/* Counts what makes the sheet false; gives whether it is. */
static bool look_at_sheet(votes_tally *t, const sheet *s)
{
    t->met[VOTES_NO_STATION] += s->votes_len == 0;
    t->met[VOTES_MANY_STATIONS] += s->votes_len > OSPREYSCREEN_STATIONS_MAX;
    if (s->votes_len == 0 || s->votes_len > OSPREYSCREEN_STATIONS_MAX) {
        return true;
    }
    return look_at_thresholds(t, s);
}

static bool many(const sheet *s)
{
    uint64_t total = votes_of_all(s);
    return (fits(s->read, total) && sets_up_to_ten(s, s->read) > PLACES) ||
           (fits(s->write, total) && sets_up_to_ten(s, s->write) > PLACES);
}

static void look_at_sides(votes_tally *t, const sheet *s)
{
    unsigned reads = sets_up_to_ten(s, s->read);
    unsigned writes = sets_up_to_ten(s, s->write);

    t->met[VOTES_MANY_READS] += reads > PLACES && writes <= PLACES;
    t->met[VOTES_MANY_WRITES] += writes > PLACES && reads <= PLACES;
    t->met[VOTES_MANY_BOTH] += reads > PLACES && writes > PLACES;
    t->met[VOTES_NINE] += reads == PLACES + 1 || writes == PLACES + 1;
    t->met[VOTES_TEN] += reads > PLACES + 1 || writes > PLACES + 1;
}

/* Of an output of another length only what else applies is counted. */
static void look_at_length(votes_tally *t, const sheet *s)
{
    votes_tally unused = {0};
    bool is_false = look_at_sheet(&unused, s);
    t->met[VOTES_LENGTH_AND_FALSE] += is_false;
    t->met[VOTES_LENGTH_AND_TOO_MANY] += !is_false && many(s);
}

static void look_at_false(votes_tally *t, const sheet *s)
{
    look_at_sheet(t, s);
    bool stations = s->votes_len >= 1 && s->votes_len <= OSPREYSCREEN_STATIONS_MAX;
    t->met[VOTES_FALSE_AND_TOO_MANY] += stations && many(s);
}

/* ---- Done ---- */

/* Whether a station outside the set has the votes of one inside. */
static bool has_tie(const sheet *s, unsigned set)
{
    for (unsigned in = 0; in < s->votes_len; in++) {
        for (unsigned other = 0; other < s->votes_len; other++) {
            bool apart = (set >> in & 1) != 0 && (set >> other & 1) == 0;
            if (apart && s->votes[in] == s->votes[other]) {
                return true;
            }
        }
    }
    return false;
}

static unsigned look_at_set(votes_tally *t, const sheet *s, uint64_t threshold, unsigned set)
{
    unsigned size = (unsigned)__builtin_popcount(set);

    t->met[VOTES_TIE] += has_tie(s, set);
    t->met[VOTES_ALL_16] += size == OSPREYSCREEN_STATIONS_MAX;
    t->met[VOTES_ONE_STATION] += size == 1 && s->votes_len > 1;
    t->met[VOTES_OVER] += votes_of_set(s, set) > threshold;
    return size;
}

static void look_at_side(votes_tally *t, const sheet *s, const uint8_t *out, unsigned side)
{
    unsigned first = side * PLACES;
    unsigned used = 0;
    unsigned sizes = 0;

    for (; used < PLACES && configuration_set(out, first + used) != 0; used++) {
        uint64_t threshold = side == 0 ? s->read : s->write;
        sizes |= 1u << look_at_set(t, s, threshold, configuration_set(out, first + used));
    }
    t->sets[side][used]++;
    t->met[VOTES_SIZES] += (sizes & (sizes - 1)) != 0;
    t->met[side == 0 ? VOTES_READ_15 : VOTES_WRITE_15] += configuration_side(out, first) >> 15 != 0;
}

static void look_at_done(votes_tally *t, const sheet *s, const uint8_t *out)
{
    t->done[s->votes_len]++;
    t->met[VOTES_TIGHT] += s->read + s->write == votes_of_all(s) + 1;
    for (unsigned i = 0; i < s->votes_len; i++) {
        t->met[VOTES_STATION_OF_NONE] += s->votes[i] == 0;
        t->met[VOTES_MOST_VOTES] += s->votes[i] == UINT8_MAX;
    }
    for (unsigned side = 0; side < VOTES_SIDES; side++) {
        look_at_side(t, s, out, side);
    }
}

/* ---- The tally ---- */

void votes_tally_call(void *counts, const void *given, uint64_t number, const uint8_t *out)
{
    votes_tally *t = counts;
    const sheet *s = given;

    t->calls++;
    switch (number) {
    case OSPREYSCREEN_DONE:
        look_at_done(t, s, out);
        break;
    case OSPREYSCREEN_NO_SUCH_THING:
        t->met[VOTES_NO_SUCH_THING]++;
        look_at_length(t, s);
        break;
    case OSPREYSCREEN_FALSE_VOTES:
        t->met[VOTES_FALSE]++;
        look_at_false(t, s);
        break;
    default:
        t->met[VOTES_TOO_MANY]++;
        look_at_sides(t, s);
        break;
    }
}

meters votes_tally_counted(const void *counts)
{
    const votes_tally *t = counts;
    return (meters){t->calls, METERS, t->met, VOTES_METERS,
                    {{"done, stations", t->done, OSPREYSCREEN_STATIONS_MAX},
                     {"done, read sets", t->sets[0], PLACES},
                     {"done, write sets", t->sets[1], PLACES}}};
}
