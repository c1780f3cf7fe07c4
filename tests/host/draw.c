#include "draw.h"

#include "configurations.h"
#include "reference.h"

#include <string.h>

uint64_t draw_odd(rng *r, uint64_t limit)
{
    static const unsigned widths[] = {8, 16, 32, 63};
    uint64_t power = UINT64_C(1) << widths[rng_below(r, 4)];

    switch (rng_below(r, 7)) {
    case 0:
        return limit;
    case 1:
        return limit - 1;
    case 2:
        return UINT64_MAX;
    case 3:
        return power;
    case 4:
        return power - 1;
    case 5: /* in range if it is cut */
        return power + rng_below(r, limit);
    default:
        return rng_any_width(r);
    }
}

uint64_t draw_below(rng *r, uint64_t limit)
{
    return rng_one_in(r, 4) ? draw_odd(r, limit) : rng_below(r, limit);
}

uint64_t draw_value(rng *r)
{
    return rng_one_in(r, 4) ? draw_odd(r, 1) : rng_next(r);
}

void draw_size(rng *r, unsigned *n, unsigned *m)
{
    uint64_t stations = rng_below(r, OSPREYSCREEN_STATIONS_MAX);
    uint64_t others = rng_below(r, OSPREYSCREEN_STATIONS_MAX);
    bool larger = rng_one_in(r, 2) && others > stations;

    *n = 1 + (unsigned)(larger ? others : stations);
    *m = 1 + (unsigned)rng_below(r, rng_one_in(r, 20) ? OSPREYSCREEN_ITEMS_MAX : 3);
}

unsigned draw_some(rng *r, unsigned stations)
{
    unsigned one = 1u << station_of(r, stations);
    return one | part_of(r, stations);
}

/* The read sets become the write sets and the other way round, now and then:
 * read sets are the larger ones otherwise. */
static void swap_sides(rng *r, uint8_t *config)
{
    uint8_t read[OSPREYSCREEN_CONFIGURATION_LENGTH / 2];
    if (rng_one_in(r, 2)) {
        memcpy(read, config, sizeof read);
        memmove(config, config + sizeof read, sizeof read);
        memcpy(config + sizeof read, read, sizeof read);
    }
}

/* As it is in some cases, else another spelling that names these stations too, or
 * the standard form. */
static void draw_spelling(rng *r, unsigned stations, uint8_t *config)
{
    uint8_t given[OSPREYSCREEN_CONFIGURATION_LENGTH];

    switch (rng_below(r, 5)) {
    case 0:
        memcpy(given, config, sizeof given);
        ref_standard_form(OSPREYSCREEN_STATIONS_MAX, given, sizeof given, config, sizeof given);
        break;
    case 1:
    case 2:
        configuration_respell(r, stations, config);
        break;
    default:
        break;
    }
}

void draw_among(rng *r, unsigned stations, uint8_t *config)
{
    configuration_among(r, stations, config);
    swap_sides(r, config);
    draw_spelling(r, stations, config);
}

void draw_configuration(rng *r, unsigned n, uint8_t *config)
{
    unsigned all = all_stations(n);

    switch (rng_below(r, 3)) {
    case 0:
        configuration_majorities(r, n, config);
        swap_sides(r, config);
        draw_spelling(r, all, config);
        break;
    case 1:
        draw_among(r, all, config);
        break;
    default:
        draw_among(r, draw_some(r, all), config);
        break;
    }
}

void draw_false(rng *r, unsigned n, uint8_t *config, call *c)
{
    static const size_t lengths[] = {0, 1, 31, 33, 64, 256 + 32, CONFIGURATION_ROOM};

    if (rng_one_in(r, 3)) {
        c->config_len = lengths[rng_below(r, sizeof lengths / sizeof lengths[0])];
    } else {
        configuration_spoil(r, n, config);
    }
    if (c->config_len == 0 && rng_one_in(r, 2)) {
        c->config = NULL;
    }
}

guard_place draw_place(rng *r)
{
    return (guard_place)rng_below(r, GUARD_PLACES);
}
