#include "damage.h"

#include "bytes.h"
#include "configurations.h"
#include "fields.h"

#include <string.h>

static unsigned stations_in(const uint8_t *table)
{
    return table[0] < OSPREYSCREEN_STATIONS_MAX ? table[0] : OSPREYSCREEN_STATIONS_MAX;
}

static uint8_t *copy_in(uint8_t *table, unsigned item, unsigned station)
{
    return table + copy_at(table[N_AT], item, station);
}

/* A random copy of the table. */
static uint8_t *any_copy(rng *r, uint8_t *table)
{
    unsigned item = (unsigned)rng_below(r, table[1]);
    return copy_in(table, item, (unsigned)rng_below(r, table[0]));
}

/* ---- Sound tables ---- */

static void fill_configuration(rng *r, uint8_t *config, unsigned n)
{
    if (rng_one_in(r, 3)) {
        configuration_majorities(r, n, config);
    } else {
        configuration_among(r, all_stations(n), config);
    }
}

void damage_fresh(rng *r, uint8_t *table, unsigned n, unsigned m)
{
    memset(table, 0, HEAD);
    table[0] = (uint8_t)n;
    table[1] = (uint8_t)m;
    for (unsigned item = 0; item < m; item++) {
        for (unsigned station = 0; station < n; station++) {
            uint8_t *copy = copy_in(table, item, station);
            set_number(copy + VERSION_IN, 8, rng_any_width(r));
            set_number(copy + VALUE_IN, 8, rng_next(r));
            set_number(copy + GENERATION_IN, 8, rng_any_width(r));
            fill_configuration(r, copy + CONFIGURATION_IN, stations_in(table));
        }
    }
}

void damage_round(rng *r, uint8_t *table, unsigned kind)
{
    unsigned n = stations_in(table);
    unsigned on = all_stations(n) & ~(unsigned)get_set(table + OFF_AT);

    memset(table + ROUND_AT, 0, HEAD - ROUND_AT);
    table[ROUND_AT] = (uint8_t)kind;
    if (kind == OSPREYSCREEN_ROUND_NONE) {
        return;
    }
    table[ITEM_AT] = (uint8_t)rng_below(r, table[1]);
    set_set(table + POLLED_AT, part_of(r, all_stations(n)));
    if (kind == OSPREYSCREEN_ROUND_WRITE) {
        set_set(table + DATA_AT, part_of(r, on));
        set_number(table + VALUE_AT, 8, rng_next(r));
    }
    if (kind == OSPREYSCREEN_ROUND_CHANGE) {
        set_set(table + DATA_AT, part_of(r, on));
        set_set(table + PUTS_AT, part_of(r, on));
        fill_configuration(r, table + TARGET_AT, n);
    }
}

static uint64_t highest_of(uint8_t *table, unsigned item, unsigned in)
{
    uint64_t highest = 0;
    for (unsigned station = 0; station < table[0]; station++) {
        uint64_t number = get_number(copy_in(table, item, station) + in, 8);
        highest = number > highest ? number : highest;
    }
    return highest;
}

void damage_tie(rng *r, uint8_t *table, unsigned item)
{
    unsigned n = stations_in(table);
    unsigned which = 1 + (unsigned)rng_below(r, 3); /* bit 0 versions, bit 1 generations */
    uint64_t version = highest_of(table, item, VERSION_IN);
    uint64_t generation = highest_of(table, item, GENERATION_IN);

    for (unsigned station = 0; station < n; station++) {
        uint8_t *copy = copy_in(table, item, station);
        if (rng_one_in(r, 3)) {
            continue;
        }
        if ((which & 1) != 0) {
            set_number(copy + VERSION_IN, 8, version);
            set_number(copy + VALUE_IN, 8, rng_next(r));
        }
        if ((which & 2) != 0) {
            set_number(copy + GENERATION_IN, 8, generation);
            fill_configuration(r, copy + CONFIGURATION_IN, n);
        }
    }
}

void damage_order(rng *r, uint8_t *table, unsigned item)
{
    unsigned n = stations_in(table);

    for (unsigned station = 0; station < n; station++) {
        uint8_t *copy = copy_in(table, item, station);
        unsigned some = part_of(r, all_stations(n)) | 1u << rng_below(r, n);
        set_number(copy + GENERATION_IN, 8, rng_below(r, 4));
        configuration_among(r, some, copy + CONFIGURATION_IN);
    }
}

void damage_spelling(rng *r, uint8_t *table, size_t len)
{
    bool change = table[ROUND_AT] == OSPREYSCREEN_ROUND_CHANGE;

    for (size_t at = change ? 0 : HEAD; at < len; at += COPY) { /* a target stands like a copy's */
        configuration_respell(r, all_stations(stations_in(table)), table + at + CONFIGURATION_IN);
    }
}

void damage_counters(rng *r, uint8_t *table, size_t len)
{
    for (size_t at = HEAD; at + COPY <= len; at += COPY) {
        if (rng_one_in(r, 4)) {
            set_number(table + at + VERSION_IN, 8, rng_below(r, 6) - 3);
            set_number(table + at + GENERATION_IN, 8, rng_below(r, 6) - 3);
        }
    }
}

/* ---- One clause ---- */

/* A set with a station that is none of the n; they are not all 16. */
static unsigned foreign_station(rng *r, unsigned n)
{
    return 1u << station_of(r, 0xFFFFu & ~all_stations(n));
}

/* The place of a side behind its used ones; PLACES if all are used. */
static unsigned first_unused(const uint8_t *config, unsigned side)
{
    unsigned place = 0;
    while (place < PLACES && configuration_set(config, side + place) != 0) {
        place++;
    }
    return place;
}

/* A used place behind one that is not: a used one is emptied, or the first
 * set stands again behind an unused place. */
static void make_gap(rng *r, uint8_t *config, unsigned side)
{
    unsigned used = first_unused(config, side);
    if (used > PLACES - 2 || (used > 1 && rng_one_in(r, 2))) {
        configuration_set_to(config, side + (unsigned)rng_below(r, used - 1), 0);
    } else {
        unsigned behind = used + 1 + (unsigned)rng_below(r, PLACES - used - 1);
        configuration_set_to(config, side + behind, configuration_set(config, side));
    }
}

/* A read set and a write set without a station in common; n is 2 or more. */
static void make_disjoint(rng *r, uint8_t *config, unsigned n)
{
    unsigned part = 1u << rng_below(r, n);
    unsigned read = (unsigned)rng_below(r, first_unused(config, READ_SIDE));
    unsigned write = (unsigned)rng_below(r, first_unused(config, WRITE_SIDE));

    part |= part_of(r, part_of(r, all_stations(n)));
    part = part == all_stations(n) ? 1 : part;
    configuration_set_to(config, READ_SIDE + read, part);
    configuration_set_to(config, WRITE_SIDE + write, all_stations(n) & ~part);
}

bool damage_configuration(rng *r, uint8_t *config, unsigned n, unsigned clause)
{
    unsigned side = clause == FALSE_READ_EMPTY || clause == FALSE_READ_GAP ||
                            clause == FALSE_READ_STATION
                        ? READ_SIDE
                        : WRITE_SIDE;
    unsigned place;

    switch (clause) {
    case FALSE_READ_EMPTY:
    case FALSE_WRITE_EMPTY:
        memset(config + 2 * side, 0, CONFIGURATION / 2);
        return true;
    case FALSE_READ_GAP:
    case FALSE_WRITE_GAP:
        make_gap(r, config, side);
        return true;
    case FALSE_DISJOINT:
        if (n >= 2) {
            make_disjoint(r, config, n);
        }
        return n >= 2;
    default: /* a station that is none */
        if (n == OSPREYSCREEN_STATIONS_MAX) {
            return false;
        }
        place = side + (unsigned)rng_below(r, first_unused(config, side));
        configuration_set_to(config, place, configuration_set(config, place) | foreign_station(r, n));
        return true;
    }
}

/* Sets that are to name a station that is none of the n. */
static bool add_foreign(rng *r, uint8_t *table, unsigned at)
{
    unsigned n = stations_in(table);
    if (n == OSPREYSCREEN_STATIONS_MAX) {
        return false;
    }
    set_set(table + at, get_set(table + at) | foreign_station(r, n));
    return true;
}

/* One put at a station that is off the bus; no other such put stands. */
static bool put_off(rng *r, uint8_t *table, unsigned at)
{
    unsigned station = 1u << rng_below(r, stations_in(table));
    unsigned off = get_set(table + OFF_AT) | station;

    set_set(table + OFF_AT, off);
    set_set(table + DATA_AT, get_set(table + DATA_AT) & ~off);
    set_set(table + PUTS_AT, get_set(table + PUTS_AT) & ~off);
    set_set(table + at, get_set(table + at) | station);
    return true;
}

/* A put at a station that is on the bus, or comes back to it. */
static bool put_on(rng *r, uint8_t *table, unsigned at)
{
    unsigned station = (unsigned)rng_below(r, stations_in(table));
    set_set(table + OFF_AT, get_set(table + OFF_AT) & ~(1u << station));
    set_set(table + at, 1u << station);
    return true;
}

/* One bit of so many bytes. */
static void set_a_bit(rng *r, uint8_t *bytes, size_t count)
{
    size_t at = rng_below(r, count);
    bytes[at] = (uint8_t)(1u << rng_below(r, 8));
}

/* A target where there is to be none: one bit, or a whole one. */
static bool set_target(rng *r, uint8_t *table)
{
    if (rng_one_in(r, 2)) {
        set_a_bit(r, table + TARGET_AT, CONFIGURATION);
    } else {
        fill_configuration(r, table + TARGET_AT, stations_in(table));
    }
    return true;
}

/* The kind of round that the clause speaks of. */
static unsigned kind_for(rng *r, broken_clause clause)
{
    if (clause >= BROKEN_NONE_ITEM && clause <= BROKEN_NONE_TARGET) {
        return OSPREYSCREEN_ROUND_NONE;
    }
    if (clause >= BROKEN_READ_DATA && clause <= BROKEN_READ_TARGET) {
        return OSPREYSCREEN_ROUND_READ;
    }
    if (clause == BROKEN_WRITE_CONFIGURATION || clause == BROKEN_WRITE_TARGET) {
        return OSPREYSCREEN_ROUND_WRITE;
    }
    if ((clause >= BROKEN_CHANGE_VALUE && clause < BROKEN_ZEROS) ||
        clause == BROKEN_CONFIGURATION_STATION || clause == BROKEN_CONFIGURATION_OFF) {
        return OSPREYSCREEN_ROUND_CHANGE;
    }
    if (clause == BROKEN_DATA_STATION || clause == BROKEN_DATA_OFF) {
        return OSPREYSCREEN_ROUND_WRITE + (unsigned)rng_below(r, 2);
    }
    /* An item or polls are of a round; a clause of others may have none. */
    bool needs_one = clause == BROKEN_ITEM || clause == BROKEN_POLLED_STATION;
    return (unsigned)rng_below(r, 4) | needs_one;
}

/* The first number that is too high for a byte's field, or any higher one. */
static uint64_t first_or_more(rng *r, unsigned first)
{
    return rng_one_in(r, 2) ? first : first + rng_below(r, 256 - first);
}

/* Breaks a clause on a table with the kind of round that it speaks of. */
static bool break_head(rng *r, uint8_t *table, broken_clause clause)
{
    unsigned n = stations_in(table);

    switch (clause) {
    case BROKEN_ROUND:
        table[ROUND_AT] = (uint8_t)first_or_more(r, 4);
        return true;
    case BROKEN_ITEM:
        table[ITEM_AT] = (uint8_t)first_or_more(r, table[1]);
        return true;
    case BROKEN_OFF_STATION:
        return add_foreign(r, table, OFF_AT);
    case BROKEN_POLLED_STATION:
        return add_foreign(r, table, POLLED_AT);
    case BROKEN_DATA_STATION:
        return add_foreign(r, table, DATA_AT);
    case BROKEN_CONFIGURATION_STATION:
        return add_foreign(r, table, PUTS_AT);
    case BROKEN_DATA_OFF:
        return put_off(r, table, DATA_AT);
    case BROKEN_CONFIGURATION_OFF:
        return put_off(r, table, PUTS_AT);
    case BROKEN_NONE_ITEM:
        table[ITEM_AT] = (uint8_t)(table[1] - 1u);
        return table[1] > 1;
    case BROKEN_NONE_POLLED:
        set_set(table + POLLED_AT, 1u << rng_below(r, n));
        return true;
    case BROKEN_NONE_DATA:
    case BROKEN_READ_DATA:
        return put_on(r, table, DATA_AT);
    case BROKEN_NONE_CONFIGURATION:
    case BROKEN_READ_CONFIGURATION:
    case BROKEN_WRITE_CONFIGURATION:
        return put_on(r, table, PUTS_AT);
    case BROKEN_NONE_VALUE:
    case BROKEN_READ_VALUE:
    case BROKEN_CHANGE_VALUE:
        set_a_bit(r, table + VALUE_AT, 8);
        return true;
    case BROKEN_NONE_TARGET:
    case BROKEN_READ_TARGET:
    case BROKEN_WRITE_TARGET:
        return set_target(r, table);
    case BROKEN_ZEROS:
        set_a_bit(r, table + ZEROS_AT, 4);
        return true;
    default: /* the length, n and m are not bytes to break alone */
        return false;
    }
}

bool damage_clause(rng *r, uint8_t *table, broken_clause clause)
{
    unsigned n = stations_in(table);

    damage_round(r, table, kind_for(r, clause));
    if (clause >= BROKEN_COPY) {
        return damage_configuration(r, any_copy(r, table) + CONFIGURATION_IN, n, clause - BROKEN_COPY);
    }
    if (clause >= BROKEN_TARGET && clause < BROKEN_ZEROS) {
        return damage_configuration(r, table + TARGET_AT, n, clause - BROKEN_TARGET);
    }
    return break_head(r, table, clause);
}

/* ---- Anything ---- */

static void flip_bit(rng *r, uint8_t *bytes, size_t len)
{
    size_t at = rng_below(r, len);
    bytes[at] ^= (uint8_t)(1u << rng_below(r, 8));
}

/* Random bytes over one to so many bytes in a row. */
static void scribble(rng *r, uint8_t *table, size_t len, size_t most)
{
    size_t at = rng_below(r, len);
    size_t count = 1 + rng_below(r, most);
    for (size_t i = at; i < len && i < at + count; i++) {
        table[i] = (uint8_t)rng_next(r);
    }
}

void damage_anything(rng *r, uint8_t *table, size_t len)
{
    size_t at;

    switch (rng_below(r, 8)) {
    case 0:
    case 1:
        flip_bit(r, table, len);
        break;
    case 2:
        flip_bit(r, table, HEAD);
        break;
    case 3: /* the next n or m */
        at = rng_below(r, 2);
        table[at] = (uint8_t)(table[at] + (rng_one_in(r, 2) ? 1 : 255));
        break;
    case 4:
        scribble(r, table, len, 1);
        break;
    case 5:
        scribble(r, table, len, 8);
        scribble(r, table, len, 8);
        break;
    case 6:
        scribble(r, table, len, COPY);
        break;
    default:
        memset(table, (int)rng_below(r, 2) * 0xFF, len);
        break;
    }
}
