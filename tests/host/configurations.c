#include "configurations.h"

#include "bytes.h"

#include <string.h>

unsigned configuration_set(const uint8_t *config, unsigned place)
{
    return get_set(config + 2 * place);
}

void configuration_set_to(uint8_t *config, unsigned place, unsigned set)
{
    set_set(config + 2 * place, set);
}

/* The number of used places of the side that starts at the place. */
static unsigned used_places(const uint8_t *config, unsigned side)
{
    unsigned used = 0;
    while (used < PLACES && configuration_set(config, side + used) != 0) {
        used++;
    }
    return used;
}

unsigned set_size(unsigned set)
{
    unsigned size = 0;
    for (; set != 0; set &= set - 1) {
        size++;
    }
    return size;
}

unsigned lowest_stations(unsigned set, unsigned count)
{
    unsigned left = set;
    for (; left != 0 && count > 0; count--) {
        left &= left - 1;
    }
    return set & ~left;
}

unsigned station_of(rng *r, unsigned set)
{
    for (uint64_t skip = rng_below(r, set_size(set)); skip > 0; skip--) {
        set &= set - 1;
    }
    return set_size((set & -set) - 1);
}

unsigned part_of(rng *r, unsigned set)
{
    return set & (unsigned)rng_next(r);
}

static unsigned random_majority(rng *r, unsigned n)
{
    unsigned set = 0;
    while (set_size(set) < n / 2 + 1) {
        set |= 1u << rng_below(r, n);
    }
    return set;
}

void configuration_majorities(rng *r, unsigned n, uint8_t out[OSPREYSCREEN_CONFIGURATION_LENGTH])
{
    unsigned lowest = all_stations(n / 2 + 1);
    for (unsigned place = 0; place < 2 * PLACES; place++) {
        bool first = place == READ_SIDE || place == WRITE_SIDE;
        configuration_set_to(out, place, first ? lowest : random_majority(r, n));
    }
}

/* A set that is not empty; about a third of the stations. */
static unsigned random_set(rng *r, unsigned stations)
{
    unsigned one = 1u << station_of(r, stations);
    unsigned part = part_of(r, stations);
    return one | part_of(r, part);
}

void configuration_among(rng *r, unsigned stations, uint8_t out[OSPREYSCREEN_CONFIGURATION_LENGTH])
{
    unsigned reads = 1 + (unsigned)rng_below(r, PLACES);
    unsigned writes = 1 + (unsigned)rng_below(r, PLACES);

    memset(out, 0, OSPREYSCREEN_CONFIGURATION_LENGTH);
    for (unsigned w = 0; w < writes; w++) {
        configuration_set_to(out, WRITE_SIDE + w, random_set(r, stations));
    }
    for (unsigned place = 0; place < reads; place++) {
        unsigned set = random_set(r, stations);
        for (unsigned w = 0; w < writes; w++) {
            unsigned other = configuration_set(out, WRITE_SIDE + w);
            if ((set & other) == 0) {
                set |= 1u << station_of(r, other);
            }
        }
        configuration_set_to(out, READ_SIDE + place, set);
    }
}

void configuration_spoil(rng *r, unsigned n, uint8_t config[OSPREYSCREEN_CONFIGURATION_LENGTH])
{
    unsigned all = all_stations(n);
    unsigned side = rng_one_in(r, 2) ? READ_SIDE : WRITE_SIDE;
    unsigned place = side + (unsigned)rng_below(r, PLACES);
    unsigned used = side + (unsigned)rng_below(r, used_places(config, side));
    unsigned set = configuration_set(config, place);

    switch (rng_below(r, 7)) {
    case 0: /* a gap, or an empty side */
        configuration_set_to(config, used, 0);
        break;
    case 1: /* a station that is none of the n */
        configuration_set_to(config, place, set | 0x10000u >> (1 + rng_below(r, 16)));
        break;
    case 2: /* a read set that misses a write set */
        configuration_set_to(config, READ_SIDE, all & ~configuration_set(config, WRITE_SIDE));
        break;
    case 3: /* a used place behind unused ones */
        configuration_set_to(config, side + PLACES - 1, all);
        break;
    case 4:
        memset(config, 0, OSPREYSCREEN_CONFIGURATION_LENGTH);
        break;
    case 5:
        for (unsigned i = 0; i < OSPREYSCREEN_CONFIGURATION_LENGTH; i++) {
            config[i] = (uint8_t)rng_next(r);
        }
        break;
    default: /* one bit */
        configuration_set_to(config, place, set ^ 1u << rng_below(r, n));
        break;
    }
}

side_sets configuration_sets(const uint8_t *config, unsigned side)
{
    side_sets s = {.count = used_places(config, side)};
    for (unsigned place = 0; place < s.count; place++) {
        s.sets[place] = configuration_set(config, side + place);
    }
    return s;
}

bool sets_hold(const side_sets *s, unsigned stations)
{
    for (unsigned i = 0; i < s->count; i++) {
        if ((s->sets[i] & ~stations) == 0) {
            return true;
        }
    }
    return false;
}

static void put_sets(uint8_t *config, unsigned side, const side_sets *s)
{
    for (unsigned place = 0; place < PLACES; place++) {
        configuration_set_to(config, side + place, place < s->count ? s->sets[place] : 0);
    }
}

/* Whether the set contains another of them, or is repeated. */
static bool spare(const side_sets *s, unsigned which)
{
    for (unsigned other = 0; other < s->count; other++) {
        if (other != which && (s->sets[other] & ~s->sets[which]) == 0) {
            return true;
        }
    }
    return false;
}

/* Sets that are spare go, each once in so many times. */
static void leave_spare_out(rng *r, side_sets *s, uint64_t times)
{
    for (unsigned which = s->count; which-- > 0;) {
        if (spare(s, which) && rng_one_in(r, times)) {
            s->sets[which] = s->sets[--s->count];
        }
    }
}

/* Sets come that are repeated or contain one, up to so many in all. */
static void add_spare(rng *r, side_sets *s, unsigned stations, unsigned most)
{
    while (s->count > 0 && s->count < most) {
        unsigned set = s->sets[rng_below(r, s->count)];
        unsigned more = rng_one_in(r, 3) ? 0 : part_of(r, part_of(r, stations));
        s->sets[s->count++] = set | more;
    }
}

static void shuffle(rng *r, side_sets *s)
{
    for (unsigned left = s->count; left > 1; left--) {
        unsigned drawn = (unsigned)rng_below(r, left);
        unsigned set = s->sets[drawn];
        s->sets[drawn] = s->sets[left - 1];
        s->sets[left - 1] = set;
    }
}

void configuration_respell(rng *r, unsigned stations,
                           uint8_t config[OSPREYSCREEN_CONFIGURATION_LENGTH])
{
    for (unsigned side = READ_SIDE; side <= WRITE_SIDE; side += WRITE_SIDE - READ_SIDE) {
        side_sets s = configuration_sets(config, side);
        leave_spare_out(r, &s, 1 + rng_below(r, 3));
        add_spare(r, &s, stations, rng_one_in(r, 3) ? PLACES : (unsigned)rng_below(r, PLACES + 1));
        shuffle(r, &s);
        put_sets(config, side, &s);
    }
}

bool configuration_holds(const uint8_t *config, unsigned side, unsigned stations)
{
    side_sets s = configuration_sets(config, side);
    return sets_hold(&s, stations);
}

unsigned configuration_read_figure(const uint8_t *config, unsigned stations)
{
    side_sets reads = configuration_sets(config, READ_SIDE);
    for (unsigned place = 0; place < reads.count; place++) {
        if ((reads.sets[place] & ~stations) == 0) {
            return place + 1;
        }
    }
    return 0;
}

unsigned configuration_write_set(const uint8_t *config, unsigned choice)
{
    unsigned used = used_places(config, WRITE_SIDE);
    return used == 0 ? 0 : configuration_set(config, WRITE_SIDE + choice % used);
}

unsigned configuration_side(const uint8_t *config, unsigned side)
{
    unsigned stations = 0;
    for (unsigned place = 0; place < PLACES; place++) {
        stations |= configuration_set(config, side + place);
    }
    return stations;
}

unsigned configuration_stations(const uint8_t *config)
{
    return configuration_side(config, READ_SIDE) | configuration_side(config, WRITE_SIDE);
}

bool configuration_misses(const uint8_t *writes, const uint8_t *reads)
{
    return (configuration_side(writes, WRITE_SIDE) & configuration_side(reads, READ_SIDE)) == 0;
}
