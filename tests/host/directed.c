#include "directed.h"

#include "bytes.h"
#include "configurations.h"
#include "damage.h"
#include "draw.h"
#include "fields.h"

#include <string.h>

enum { STATIONS = OSPREYSCREEN_STATIONS_MAX, ITEMS = OSPREYSCREEN_ITEMS_MAX };

/* The table that the calls of a list are made on, each time anew. */
static uint8_t scene[TABLE_ROOM];

static size_t scene_length(void)
{
    return OSPREYSCREEN_TABLE_LENGTH(scene[0], scene[1]);
}

static uint8_t *scene_copy(unsigned item, unsigned station)
{
    return scene + copy_at(scene[N_AT], item, station);
}

/* Starts a list with a sound table of n stations and m items, no round. */
static void begin(generator *g, unsigned n, unsigned m)
{
    damage_fresh(&g->source, scene, n, m);
    record_table(&g->to, scene_length(), draw_place(&g->source), false);
}

/* Sets the table to the scene. */
static void set_scene(generator *g)
{
    record_bytes(&g->to, 0, scene, scene_length());
}

/* ---- Calls ---- */

/* A number in range for an argument, on a table of n and m. */
static uint64_t fitting_number(rng *r, argument kind, unsigned n, unsigned m)
{
    switch (kind) {
    case ARGUMENT_N:
        return n;
    case ARGUMENT_M:
        return m;
    case ARGUMENT_ITEM:
        return rng_below(r, m);
    case ARGUMENT_STATION:
        return rng_below(r, n);
    case ARGUMENT_SORT:
        return 1 + rng_below(r, 2);
    case ARGUMENT_STATE:
        return rng_below(r, 2);
    case ARGUMENT_VALUE:
    case ARGUMENT_CONFIGURATION: /* no number */
    case ARGUMENT_KINDS:
        break;
    }
    return rng_next(r);
}

/* A call whose arguments are all in range for a table of n and m. */
static call fitting_call(generator *g, const call_shape *shape, unsigned n, unsigned m)
{
    rng *r = &g->source;
    call c = {.code = shape->code};

    for (int i = 0; i < shape->argument_count; i++) {
        argument kind = shape->arguments[i];
        if (kind == ARGUMENT_CONFIGURATION) {
            draw_configuration(r, n, g->config);
            c.config = g->config;
            c.config_len = CONFIGURATION;
        } else {
            c.numbers[kind] = fitting_number(r, kind, n, m);
        }
    }
    return c;
}

/* Sets the scene and makes the call on it. */
static void call_on_scene(generator *g, call c)
{
    set_scene(g);
    generate_step(g, &c);
}

/* Every call on the scene, which need not be sound. */
static void every_call(generator *g)
{
    unsigned n = scene[0] >= 1 && scene[0] <= STATIONS ? scene[0] : STATIONS;
    unsigned m = scene[1] >= 1 ? scene[1] : 1;
    for (int i = 0; i < CALL_COUNT; i++) {
        call_on_scene(g, fitting_call(g, &CALLS[i], n, m));
    }
}

/* Calls with arguments in range or not, on the scene. */
static void any_calls(generator *g)
{
    enum { TIMES = 5 };
    for (int time = 0; time < TIMES; time++) {
        call_on_scene(g, generate_any_call(g, scene[0], scene[1]));
    }
}

static void make(generator *g, call c)
{
    generate_step(g, &c);
}

static void poll_all(generator *g, unsigned n)
{
    for (unsigned station = 0; station < n; station++) {
        make(g, call_poll(station));
    }
}

static void put_all(generator *g, unsigned n, uint64_t sort)
{
    for (unsigned station = 0; station < n; station++) {
        make(g, call_put(station, sort));
    }
}

/* Both puts at every station. */
static void put_both(generator *g, unsigned n)
{
    put_all(g, n, OSPREYSCREEN_PUT_DATA);
    put_all(g, n, OSPREYSCREEN_PUT_CONFIGURATION);
}

static void put_at(generator *g, unsigned set, uint64_t sort)
{
    for (unsigned station = 0; set >> station != 0; station++) {
        if ((set >> station & 1) != 0) {
            make(g, call_put(station, sort));
        }
    }
}

/* Links a station of the set, on or off, and takes it out of the set. */
static void link_one_to(generator *g, unsigned *set, uint64_t state)
{
    unsigned station = station_of(&g->source, *set);
    make(g, call_link(station, state));
    *set &= ~(1u << station);
}

static void link_one(generator *g, unsigned *set)
{
    link_one_to(g, set, OSPREYSCREEN_LINK_ON);
}

/* Links the stations of the set, in any order. */
static void link_all(generator *g, unsigned set)
{
    while (set != 0) {
        link_one(g, &set);
    }
}

static void reach_all(generator *g, unsigned m)
{
    for (unsigned item = 0; item < m; item++) {
        make(g, call_reach(item));
    }
}

/* An opening and a lay whose configurations may have any length. */
static void open_change(generator *g, uint64_t item, const uint8_t *target, size_t len)
{
    call c = call_open_change(item, target);
    c.config_len = len;
    make(g, c);
}

static void lay(generator *g, uint64_t n, uint64_t m, const uint8_t *config, size_t len)
{
    call c = call_lay(n, m, rng_next(&g->source), config);
    c.config_len = len;
    make(g, c);
}

/* A diagnose, and the commit that it tells of. */
static void ask_and_commit(generator *g)
{
    make(g, call_diagnose());
    make(g, call_commit());
}

/* ---- Sizes ---- */

static void write_round(generator *g, unsigned n, unsigned item)
{
    make(g, call_open_write(item, rng_next(&g->source)));
    poll_all(g, n);
    put_all(g, n, OSPREYSCREEN_PUT_DATA);
    ask_and_commit(g);
}

static void read_round(generator *g, unsigned n, unsigned item)
{
    make(g, call_open_read(item));
    poll_all(g, n);
    ask_and_commit(g);
}

/* A change to the target with both puts at every station. */
static void change_round(generator *g, unsigned n, unsigned item, const uint8_t *target)
{
    open_change(g, item, target, CONFIGURATION);
    poll_all(g, n);
    put_both(g, n);
    ask_and_commit(g);
}

/* Every n and m: laid, linked, and a round of each kind on the last item. */
static void every_size(generator *g, uint64_t index)
{
    unsigned n = 1 + (unsigned)index % STATIONS;
    unsigned m = 1 + (unsigned)index / STATIONS;
    uint8_t config[CONFIGURATION];

    record_table(&g->to, OSPREYSCREEN_TABLE_LENGTH(n, m), GUARD_AFTER, false);
    make(g, generate_lay(g, n, m));
    link_all(g, all_stations(n));
    write_round(g, n, m - 1);
    draw_configuration(&g->source, n, config);
    change_round(g, n, m - 1, config);
    make(g, call_reach(m - 1));
    make(g, call_plan(m - 1));
    read_round(g, n, m - 1);
    read_round(g, n, 0);
}

/* An n or an m that no table has, with a table of the length that would fit. */
static const unsigned FALSE_SIZES[][2] = {
    {0, 1},   {0, 32},   {17, 1},  {17, 32}, {18, 2},  {32, 1},  {33, 3},   {64, 1},    {128, 1},
    {255, 1}, {1, 0},    {16, 0},  {1, 33},  {16, 33}, {3, 34},  {1, 64},   {2, 128},   {1, 255},
    {0, 0},   {17, 33},  {0, 33},  {17, 0},  {255, 3}, {3, 255}, {48, 11},  {255, 255},
};
enum { FALSE_SIZE_COUNT = sizeof FALSE_SIZES / sizeof FALSE_SIZES[0] };

static void false_size(generator *g, uint64_t index)
{
    begin(g, FALSE_SIZES[index][0], FALSE_SIZES[index][1]);
    set_scene(g);
    for (int i = 0; i < CALL_COUNT; i++) {
        call c = fitting_call(g, &CALLS[i], STATIONS, ITEMS);
        generate_step(g, &c);
    }
    draw_configuration(&g->source, STATIONS, g->config);
    lay(g, scene[0], scene[1], g->config, CONFIGURATION);
}

/* A sound table under every length from none to some bytes more than fit, at
 * every place. */
enum { LENGTH_N = 2, LENGTH_M = 2, LENGTHS = OSPREYSCREEN_TABLE_LENGTH(LENGTH_N, LENGTH_M) + 60 };

static void every_length(generator *g, uint64_t index)
{
    size_t len = index / GUARD_PLACES;

    memset(scene, 0, LENGTHS);
    damage_fresh(&g->source, scene, LENGTH_N, LENGTH_M);
    record_table(&g->to, len, (guard_place)(index % GUARD_PLACES), index % 2 == 0);
    for (int i = 0; i < CALL_COUNT; i++) {
        record_bytes(&g->to, 0, scene, len);
        make(g, fitting_call(g, &CALLS[i], LENGTH_N, LENGTH_M));
    }
}

/* A table longer by so much that the length fits if it is cut. */
static const size_t MORE_BYTES[] = {256, 512, 56 * 256, 65536, 2 * 65536, 1 << 20, 1 << 21};
enum { MORE_BYTES_COUNT = sizeof MORE_BYTES / sizeof MORE_BYTES[0] };

static void longer_table(generator *g, uint64_t index)
{
    size_t fit = OSPREYSCREEN_TABLE_LENGTH(LENGTH_N, LENGTH_M);

    record_table(&g->to, fit + MORE_BYTES[index], GUARD_AFTER, false);
    damage_fresh(&g->source, scene, LENGTH_N, LENGTH_M);
    for (int i = 0; i < CALL_COUNT; i++) {
        record_bytes(&g->to, 0, scene, fit);
        make(g, fitting_call(g, &CALLS[i], LENGTH_N, LENGTH_M));
    }
}

/* ---- Soundness ---- */

static const unsigned SIZES[][2] = {{1, 1}, {1, 2}, {2, 1},  {3, 2}, {7, 3},
                                    {8, 2}, {9, 1}, {15, 2}, {16, 3}};
enum { SIZE_COUNT = sizeof SIZES / sizeof SIZES[0] };

/* Each clause broken alone, many times, and every call on it. */
static void one_clause(generator *g, uint64_t index)
{
    enum { TIMES = 12 };
    rng *r = &g->source;
    const unsigned *size = SIZES[index / BROKEN_CLAUSES];

    begin(g, size[0], size[1]);
    set_scene(g);
    for (int time = 0; time < TIMES; time++) {
        damage_fresh(r, scene, size[0], size[1]);
        set_set(scene + OFF_AT, part_of(r, part_of(r, all_stations(size[0]))));
        if (damage_clause(r, scene, (broken_clause)(index % BROKEN_CLAUSES))) {
            every_call(g);
            any_calls(g);
        }
    }
}

/* Every bit of one byte of a table turned over, in each kind of round. */
static void one_byte(generator *g, unsigned n, unsigned m, uint64_t index)
{
    begin(g, n, m);
    damage_round(&g->source, scene, (unsigned)index % 4);
    for (unsigned bit = 0; bit < 8; bit++) {
        scene[index / 4] ^= (uint8_t)(1u << bit);
        /* The length stays what the table's n and m were. */
        for (int i = 0; i < CALL_COUNT; i++) {
            call c = fitting_call(g, &CALLS[i], n, m);
            record_bytes(&g->to, 0, scene, OSPREYSCREEN_TABLE_LENGTH(n, m));
            generate_step(g, &c);
        }
        scene[index / 4] ^= (uint8_t)(1u << bit);
    }
}

static void byte_of_small(generator *g, uint64_t index)
{
    one_byte(g, 3, 2, index);
}

static void byte_of_large(generator *g, uint64_t index)
{
    one_byte(g, 16, 1, index);
}

/* Configurations for copies that are all alike: any; and such as have a side
 * whose bytes are all the same, so that one that differs in a bit at either
 * end of the side, and is false by it, looks alike if it is read one byte off. */
enum { ALIKE_SHAPES = 4, ALIKE_N = 9, ALIKE_M = 4, ALIKE_COPIES = ALIKE_N * ALIKE_M };

static void alike_configuration(rng *r, unsigned shape, uint8_t *config)
{
    unsigned side = shape == 1 ? READ_SIDE : WRITE_SIDE;

    if (shape == 0) {
        draw_configuration(r, ALIKE_N, config);
        return;
    }
    for (unsigned place = 0; place < PLACES; place++) {
        configuration_set_to(config, side + place, 0x0101);
        configuration_set_to(config, PLACES - side + place, 0x0003);
    }
}

/* Copies that all have one configuration, and the target too; then every bit
 * of one copy's configuration, or of the target's, turned over. */
static void one_unlike(generator *g, uint64_t index)
{
    size_t changed = index / ALIKE_SHAPES;
    unsigned shape = (unsigned)index % ALIKE_SHAPES;
    uint8_t config[CONFIGURATION];

    begin(g, ALIKE_N, ALIKE_M);
    damage_round(&g->source, scene, OSPREYSCREEN_ROUND_CHANGE);
    alike_configuration(&g->source, shape, config);
    for (size_t copy = 0; copy <= ALIKE_COPIES; copy++) { /* the target stands like a copy's */
        memcpy(scene + COPY * copy + CONFIGURATION_IN, config, CONFIGURATION);
        if (copy > 0) { /* what stands behind a configuration */
            scene[COPY * copy + VERSION_IN] = shape == 3 ? 0x03 : config[CONFIGURATION - 1];
        }
    }
    set_scene(g);
    for (unsigned bit = 0; bit < 8 * CONFIGURATION; bit++) {
        size_t at = COPY * changed + CONFIGURATION_IN + bit / 8;
        uint8_t turned = scene[at] ^ (uint8_t)(1u << bit % 8);
        record_bytes(&g->to, at, &turned, 1);
        make(g, call_reach(bit % ALIKE_M));
        record_bytes(&g->to, at, scene + at, 1);
    }
}

/* ---- Configurations ---- */

/* The configuration where a call or the table can have it: at lay, as a
 * target, as the target of an open change, in a copy. */
static void configuration_everywhere(generator *g, const uint8_t *config)
{
    rng *r = &g->source;
    unsigned n = scene[0];
    unsigned m = scene[1];

    set_scene(g);
    open_change(g, 0, config, CONFIGURATION);
    lay(g, n, m, config, CONFIGURATION);
    damage_fresh(r, scene, n, m);
    unsigned item = (unsigned)rng_below(r, m);
    unsigned station = (unsigned)rng_below(r, n);
    memcpy(scene_copy(item, station) + CONFIGURATION_IN, config, CONFIGURATION);
    set_scene(g);
    make(g, call_reach(0));
    damage_fresh(r, scene, n, m);
    damage_round(r, scene, OSPREYSCREEN_ROUND_CHANGE);
    memcpy(scene + TARGET_AT, config, CONFIGURATION);
    set_scene(g);
    make(g, call_abandon());
    damage_fresh(r, scene, n, m);
}

/* Only this read place and this write place have no station in common; so
 * many more places are used on each side. */
static void disjoint_pair(rng *r, uint8_t *config, unsigned n, unsigned read, unsigned write)
{
    unsigned read_used = read + 1 + (unsigned)rng_below(r, PLACES - read);
    unsigned write_used = write + 1 + (unsigned)rng_below(r, PLACES - write);
    unsigned all = all_stations(n);
    unsigned part = draw_some(r, all);

    part = part == all ? 1u << rng_below(r, n) : part;
    memset(config, 0, CONFIGURATION);
    for (unsigned place = 0; place < read_used; place++) {
        configuration_set_to(config, READ_SIDE + place, all);
    }
    for (unsigned place = 0; place < write_used; place++) {
        configuration_set_to(config, WRITE_SIDE + place, all);
    }
    configuration_set_to(config, READ_SIDE + read, part);
    configuration_set_to(config, WRITE_SIDE + write, all & ~part);
}

/* Every pair of places of the eight by eight, for every n. */
static void one_pair(generator *g, uint64_t index)
{
    uint8_t config[CONFIGURATION];
    unsigned n = 2 + (unsigned)index / (PLACES * PLACES);

    begin(g, n, 1);
    for (int time = 0; time < 4; time++) {
        disjoint_pair(&g->source, config, n, (unsigned)index / PLACES % PLACES, (unsigned)index % PLACES);
        configuration_everywhere(g, config);
    }
}

/* Every station that is none of the n, in every place that is used. */
static void foreign_stations(generator *g, uint64_t index)
{
    unsigned n = 1 + (unsigned)index / (2 * PLACES);
    unsigned place = (unsigned)index % (2 * PLACES);
    uint8_t config[CONFIGURATION];

    begin(g, n, 1);
    for (unsigned station = n; station < STATIONS; station++) {
        configuration_majorities(&g->source, n, config);
        configuration_set_to(config, place, configuration_set(config, place) | 1u << station);
        configuration_everywhere(g, config);
    }
}

/* Every pattern of used and unused places on one side, the other side good. */
static void used_places(generator *g, uint64_t index)
{
    unsigned n = 1 + (unsigned)index / 512;
    unsigned side = index / 256 % 2 == 0 ? READ_SIDE : WRITE_SIDE;
    uint8_t config[CONFIGURATION];

    begin(g, n, 1);
    configuration_majorities(&g->source, n, config);
    for (unsigned place = 0; place < PLACES; place++) {
        if ((index >> place & 1) == 0) {
            configuration_set_to(config, side + place, 0);
        }
    }
    configuration_everywhere(g, config);
}

/* A configuration of every length, whose first 32 bytes are valid. */
static void configuration_length(generator *g, uint64_t index)
{
    unsigned n = 1 + (unsigned)index % STATIONS;

    begin(g, n, 1);
    set_scene(g);
    for (int fill = 0; fill < 3; fill++) {
        memset(g->config, fill * 0x7F, sizeof g->config);
        draw_configuration(&g->source, n, g->config);
        open_change(g, 0, g->config, index);
        lay(g, n, 1, g->config, index);
    }
    if (index == 0) {
        open_change(g, 0, NULL, 0);
        lay(g, n, 1, NULL, 0);
    }
}

/* ---- Arguments ---- */

enum { SMALL = 301, WIDTHS = 6, NEAR = 40, ARGUMENT_NUMBERS = SMALL + WIDTHS * NEAR };

/* The numbers that each argument is tried with: small ones, and those around
 * the widths that a conversion could cut to. */
static uint64_t argument_number(uint64_t index)
{
    static const unsigned widths[WIDTHS] = {8, 16, 31, 32, 63, 64};
    if (index < SMALL) {
        return index;
    }
    unsigned width = widths[(index - SMALL) / NEAR];
    uint64_t power = width == 64 ? 0 : UINT64_C(1) << width;
    return power + (index - SMALL) % NEAR - 2;
}

/* One number for each argument of each call in turn, the others in range, in
 * each kind of round. */
static void one_argument(generator *g, uint64_t index)
{
    static const unsigned sizes[][2] = {{1, 1}, {3, 2}, {16, 2}, {2, 32}};
    const unsigned *size = sizes[index % 4];
    uint64_t number = argument_number(index / 4);

    begin(g, size[0], size[1]);
    for (unsigned kind = 0; kind < 4; kind++) {
        damage_round(&g->source, scene, kind);
        for (int i = 0; i < CALL_COUNT; i++) {
            for (int k = 0; k < CALLS[i].argument_count; k++) {
                call c = fitting_call(g, &CALLS[i], size[0], size[1]);
                if (CALLS[i].arguments[k] != ARGUMENT_CONFIGURATION) {
                    c.numbers[CALLS[i].arguments[k]] = number;
                    call_on_scene(g, c);
                }
            }
        }
    }
}

/* ---- Refusals ---- */

/* Every station that a poll, put or link can be refused for, and every sort
 * and state beside the listed ones. */
static void calls_at_stations(generator *g, unsigned n)
{
    unsigned off = get_set(scene + OFF_AT);
    unsigned on = all_stations(n) & ~off;
    const uint64_t stations[] = {station_of(&g->source, on), station_of(&g->source, off), n, 256};

    for (int i = 0; i < 4; i++) {
        call_on_scene(g, call_poll(stations[i]));
        for (uint64_t choice = 0; choice < 4; choice++) {
            call_on_scene(g, call_put(stations[i], choice));
            call_on_scene(g, call_link(stations[i], choice));
        }
    }
}

/* Openings, reach and plan of an item that is there and of one that is not, with
 * a target that is valid and ones that are not. */
static void calls_at_items(generator *g, unsigned n, unsigned m)
{
    uint8_t target[CONFIGURATION];
    uint8_t false_target[CONFIGURATION] = {0};

    draw_configuration(&g->source, n, target);
    for (uint64_t item = 0; item <= m; item += m) {
        call short_change = call_open_change(item, target);
        short_change.config_len--;
        call_on_scene(g, call_open_read(item));
        call_on_scene(g, call_open_write(item, rng_next(&g->source)));
        call_on_scene(g, call_open_change(item, target));
        call_on_scene(g, call_open_change(item, false_target));
        call_on_scene(g, short_change);
        call_on_scene(g, call_reach(item));
        call_on_scene(g, call_plan(item));
    }
}

/* Calls that more than one refusal applies to: in each kind of round, with
 * and without polls, puts, counters left, and a sound table. */
static void many_refusals(generator *g, uint64_t index)
{
    rng *r = &g->source;
    unsigned n = 2 + (unsigned)index / 64 % 7;
    unsigned kind = (unsigned)index % 4;
    unsigned off = 1u << rng_below(r, n);
    unsigned puts = kind < OSPREYSCREEN_ROUND_WRITE || (index & 4) != 0 ? 0 : all_stations(n) & ~off;

    begin(g, n, 2);
    set_set(scene + OFF_AT, off);
    damage_round(r, scene, kind);
    set_set(scene + DATA_AT, puts);
    set_set(scene + PUTS_AT, kind == OSPREYSCREEN_ROUND_CHANGE ? puts : 0);
    set_set(scene + POLLED_AT, kind == 0 || (index & 8) != 0 ? 0 : all_stations(n));
    for (unsigned station = 0; station < n && (index & 16) != 0; station++) {
        set_number(scene_copy(scene[ITEM_AT], station) + COUNTER_VERSION, 8, UINT64_MAX);
        set_number(scene_copy(scene[ITEM_AT], station) + COUNTER_GENERATION, 8, UINT64_MAX);
    }
    scene[ZEROS_AT] = (index & 32) != 0;
    calls_at_stations(g, n);
    calls_at_items(g, n, 2);
    call_on_scene(g, call_commit());
    call_on_scene(g, call_abandon());
    call_on_scene(g, call_diagnose());
}

/* ---- Copies ---- */

/* Makes the item's copies old ones of majorities, all polled in a read. */
static void begin_copies(generator *g, unsigned n)
{
    begin(g, n, 1);
    for (unsigned station = 0; station < n; station++) {
        uint8_t *copy = scene_copy(0, station);
        set_number(copy + COUNTER_VERSION, 8, 0);
        set_number(copy + COUNTER_GENERATION, 8, 0);
        configuration_majorities(&g->source, n, copy + CONFIGURATION_IN);
    }
}

/* A read, a write and a change of the scene's item with every station polled,
 * its plan, and its reach with each station off in turn. */
static void look_at_copies(generator *g)
{
    unsigned n = scene[0];

    for (unsigned kind = OSPREYSCREEN_ROUND_READ; kind <= OSPREYSCREEN_ROUND_CHANGE; kind++) {
        damage_round(&g->source, scene, kind);
        scene[ITEM_AT] = 0;
        set_set(scene + POLLED_AT, all_stations(n));
        if (kind != OSPREYSCREEN_ROUND_READ) {
            set_set(scene + DATA_AT, all_stations(n));
        }
        if (kind == OSPREYSCREEN_ROUND_CHANGE) {
            set_set(scene + PUTS_AT, all_stations(n));
        }
        set_scene(g);
        ask_and_commit(g);
    }
    damage_round(&g->source, scene, OSPREYSCREEN_ROUND_NONE);
    set_scene(g);
    make(g, call_plan(0));
    for (unsigned station = 0; station < n; station++) {
        make(g, call_link(station, OSPREYSCREEN_LINK_OFF));
        make(g, call_reach(0));
        make(g, call_link(station, OSPREYSCREEN_LINK_ON));
    }
}

/* The two stations that the number chooses among n, the lower one first. */
static void two_stations(uint64_t number, unsigned n, unsigned *a, unsigned *b)
{
    *a = (unsigned)number % n;
    *b = (unsigned)number / n % n;
}

/* Two copies share the highest version, or the highest generation, or both,
 * and hold different things: for every n and every two stations. */
static void one_tie(generator *g, uint64_t index)
{
    unsigned n = 2 + (unsigned)index / (STATIONS * STATIONS);
    unsigned a;
    unsigned b;

    two_stations(index % (STATIONS * STATIONS), n, &a, &b);
    begin_copies(g, n);
    for (unsigned which = 1; which < 4; which++) {
        for (unsigned station = 0; station < n; station++) {
            bool tied = station == a || station == b;
            set_number(scene_copy(0, station) + COUNTER_VERSION, 8, tied && (which & 1) != 0);
            set_number(scene_copy(0, station) + COUNTER_GENERATION, 8, tied && (which & 2) != 0);
        }
        draw_configuration(&g->source, n, scene_copy(0, a) + CONFIGURATION_IN);
        look_at_copies(g);
    }
}

/* Both counters of the copy at the station. */
static void set_counters(unsigned station, uint64_t number)
{
    set_number(scene_copy(0, station) + COUNTER_VERSION, 8, number);
    set_number(scene_copy(0, station) + COUNTER_GENERATION, 8, number);
}

/* Counters that differ in one byte, while the bytes below say the opposite;
 * then the lower one alone, whose raise goes over that byte's end. Every byte,
 * and the sign, at every two of some stations. */
static void one_counter(generator *g, uint64_t index)
{
    unsigned n = 2 + (unsigned)index % 3;
    unsigned byte = (unsigned)index / 3 % 9;
    uint64_t high = byte == 8 ? UINT64_C(1) << 63 : UINT64_C(1) << 8 * byte;
    unsigned a;
    unsigned b;

    two_stations(index / 27, n, &a, &b);
    begin_copies(g, n);
    set_counters(a, high - 1);
    set_counters(b, high);
    look_at_copies(g);
    set_counters(b, 0);
    set_counters(a, high - 1);
    look_at_copies(g);
}

/* Counters at the end of their range, on each kind of round, for each put. */
static void spent_counters(generator *g, uint64_t index)
{
    rng *r = &g->source;
    unsigned n = 1 + (unsigned)index % STATIONS;
    unsigned version_left = (unsigned)index / STATIONS % 3;
    unsigned generation_left = (unsigned)index / (3 * STATIONS) % 3;
    unsigned station = (unsigned)rng_below(r, n);

    begin_copies(g, n);
    set_number(scene_copy(0, station) + COUNTER_VERSION, 8, UINT64_MAX - version_left);
    set_number(scene_copy(0, station) + COUNTER_GENERATION, 8, UINT64_MAX - generation_left);
    for (unsigned kind = OSPREYSCREEN_ROUND_READ; kind <= OSPREYSCREEN_ROUND_CHANGE; kind++) {
        damage_round(r, scene, kind);
        set_set(scene + POLLED_AT, all_stations(n));
        set_scene(g);
        make(g, call_put(rng_below(r, n), OSPREYSCREEN_PUT_DATA));
        make(g, call_put(rng_below(r, n), OSPREYSCREEN_PUT_CONFIGURATION));
        ask_and_commit(g);
    }
    look_at_copies(g);
}

/* ---- Read places ---- */

/* Majorities of n stations, this one at its place and in some behind it; those
 * in front have another station each. */
static void one_place_held(rng *r, unsigned n, unsigned place, uint8_t *config)
{
    unsigned set;

    configuration_majorities(r, n, config);
    set = configuration_set(config, READ_SIDE + place);
    for (unsigned other = 0; other < PLACES; other++) {
        unsigned old = configuration_set(config, READ_SIDE + other);
        if (other < place && (old & ~set) == 0) {
            configuration_set_to(config, READ_SIDE + other, old | 1u << station_of(r, all_stations(n) & ~set));
        }
        if (other > place && rng_one_in(r, 2)) {
            configuration_set_to(config, READ_SIDE + other, set);
        }
    }
}

/* Every place as the first that is held, in each kind of round: by all stations
 * of its set, by all but one, and by more. */
static void one_place(generator *g, uint64_t index)
{
    rng *r = &g->source;
    unsigned n = 3 + (unsigned)index / PLACES;
    unsigned place = (unsigned)index % PLACES;
    uint8_t config[CONFIGURATION];

    begin(g, n, 1);
    one_place_held(r, n, place, config);
    for (unsigned station = 0; station < n; station++) {
        memcpy(scene_copy(0, station) + CONFIGURATION_IN, config, CONFIGURATION);
    }
    unsigned set = configuration_set(config, READ_SIDE + place);
    for (unsigned kind = OSPREYSCREEN_ROUND_READ; kind <= OSPREYSCREEN_ROUND_CHANGE; kind++) {
        damage_round(r, scene, kind);
        set_set(scene + DATA_AT, 0);
        set_set(scene + PUTS_AT, 0);
        set_set(scene + POLLED_AT, set & (set - 1));
        call_on_scene(g, call_diagnose());
        make(g, call_poll((unsigned)__builtin_ctz(set)));
        make(g, call_diagnose());
        make(g, call_poll(rng_below(r, n)));
        make(g, call_diagnose());
    }
}

/* ---- Rounds ---- */

/* Every set of stations off the bus, the reach of every item and a plan. */
static void every_off_set(generator *g, uint64_t index)
{
    enum { MOST = 8 };
    unsigned n = 1 + (unsigned)index % MOST;

    begin(g, n, 2);
    set_scene(g);
    for (unsigned off = 0; off <= all_stations(n); off++) {
        uint8_t set[2];
        set_set(set, off);
        record_bytes(&g->to, OFF_AT, set, sizeof set);
        make(g, call_reach(0));
        make(g, call_reach(1));
        make(g, call_plan(0));
    }
}

/* Every set of data puts and of configuration puts, and a commit. */
static void every_put_set(generator *g, uint64_t index)
{
    enum { N = 4, M = 3 };

    begin(g, N, M);
    unsigned kind = OSPREYSCREEN_ROUND_WRITE + (unsigned)index % 2;
    damage_round(&g->source, scene, kind);
    set_set(scene + POLLED_AT, index % 4 < 2 ? all_stations(N) : part_of(&g->source, all_stations(N)));
    for (unsigned data = 0; data <= all_stations(N); data++) {
        for (unsigned config = 0; config <= all_stations(N); config++) {
            set_set(scene + DATA_AT, data);
            set_set(scene + PUTS_AT, kind == OSPREYSCREEN_ROUND_CHANGE ? config : 0);
            set_scene(g);
            ask_and_commit(g);
        }
    }
}

/* Any sound table in any sound round, and every call on it. */
static void any_sound_table(generator *g, uint64_t index)
{
    rng *r = &g->source;
    unsigned n = 1 + (unsigned)index % STATIONS;
    unsigned m = 1 + (unsigned)index / STATIONS % 3;

    begin(g, n, m);
    for (unsigned kind = 0; kind < 4; kind++) {
        damage_fresh(r, scene, n, m);
        set_set(scene + OFF_AT, part_of(r, part_of(r, all_stations(n))));
        damage_round(r, scene, kind);
        if (rng_one_in(r, 2)) {
            damage_tie(r, scene, scene[ITEM_AT]);
        }
        if (rng_one_in(r, 4)) {
            damage_counters(r, scene, scene_length());
        }
        if (rng_one_in(r, 2)) {
            set_set(scene + DATA_AT, 0);
            set_set(scene + PUTS_AT, 0);
        }
        if (kind != 0 && rng_one_in(r, 2)) {
            set_set(scene + POLLED_AT, all_stations(n));
        }
        every_call(g);
        any_calls(g);
    }
}

/* The quorums move to stations that no old set names and that are linked only
 * then, and back, and rounds go on; the book covers these. */
static void moves(generator *g, uint64_t index)
{
    rng *r = &g->source;
    unsigned n = 2 + (unsigned)index % (STATIONS - 1);
    unsigned low = draw_some(r, all_stations(n));
    uint8_t here[CONFIGURATION];
    uint8_t there[CONFIGURATION];

    low = low == all_stations(n) ? 1 : low;
    configuration_among(r, low, here);
    configuration_among(r, all_stations(n) & ~low, there);
    record_table(&g->to, OSPREYSCREEN_TABLE_LENGTH(n, 1u), GUARD_ODD, false);
    lay(g, n, 1, here, CONFIGURATION);
    link_all(g, low);
    write_round(g, n, 0);
    link_all(g, all_stations(n) & ~low);
    for (int turn = 0; turn < 3; turn++) {
        write_round(g, n, 0);
        change_round(g, n, 0, turn % 2 == 0 ? there : here);
        make(g, call_reach(0));
        make(g, call_plan(0));
        read_round(g, n, 0);
    }
}

/* The stations go off or return one by one, and item 0's reach and plan are
 * asked. */
static void link_and_ask(generator *g, unsigned set, uint64_t state)
{
    while (set != 0) {
        link_one_to(g, &set, state);
        make(g, call_reach(0));
        make(g, call_plan(0));
    }
}

static void leave_and_return(generator *g, unsigned set)
{
    link_and_ask(g, set, OSPREYSCREEN_LINK_OFF);
    link_and_ask(g, set, OSPREYSCREEN_LINK_ON);
}

/* A change from here to there, of which one write set of the old configuration
 * is told and no more. Those who know go off and return, with no round open and
 * in one that has polled them. */
static void tell_few(generator *g, unsigned n, const uint8_t *here, const uint8_t *there)
{
    rng *r = &g->source;
    unsigned told = configuration_write_set(here, (unsigned)rng_below(r, PLACES));
    unsigned moved = configuration_write_set(there, (unsigned)rng_below(r, PLACES));

    record_table(&g->to, OSPREYSCREEN_TABLE_LENGTH(n, 1u), draw_place(r), false);
    lay(g, n, 1, here, CONFIGURATION);
    link_all(g, all_stations(n));
    open_change(g, 0, there, CONFIGURATION);
    poll_all(g, n);
    put_at(g, moved, OSPREYSCREEN_PUT_DATA);
    put_at(g, told, OSPREYSCREEN_PUT_CONFIGURATION);
    make(g, call_commit());
    make(g, call_reach(0));
    make(g, call_plan(0));
    leave_and_return(g, told);
    make(g, call_open_write(0, rng_next(r)));
    poll_all(g, n);
    leave_and_return(g, told);
    put_all(g, n, OSPREYSCREEN_PUT_DATA);
    make(g, call_commit());
}

/* The house of request 2026-03; then any, with the new quorums at stations that
 * no old set names, or at any stations. The book covers these. */
static void left_behind(generator *g, uint64_t index)
{
    rng *r = &g->source;
    unsigned n = 2 + (unsigned)index % (STATIONS - 1);
    unsigned all = all_stations(n);
    unsigned low = draw_some(r, all);
    uint8_t here[CONFIGURATION] = {[2 * READ_SIDE] = 0x3, [2 * WRITE_SIDE] = 0x3};
    uint8_t there[CONFIGURATION] = {[2 * READ_SIDE] = 0x4, [2 * WRITE_SIDE] = 0xC};

    if (index == 0) {
        tell_few(g, 4, here, there);
        return;
    }
    low = low == all ? 1 : low;
    configuration_among(r, low, here);
    configuration_among(r, index % 2 == 0 ? all : all & ~low, there);
    tell_few(g, n, here, there);
}

/* ---- Plans ---- */

/* A set of the stations that has the lowest of them and, as its highest, the
 * last of so many. */
static unsigned set_up_to(rng *r, unsigned stations, unsigned count)
{
    unsigned start = lowest_stations(stations, count);
    unsigned below = lowest_stations(stations, count - 1);
    return part_of(r, start) | (start & ~below) | lowest_stations(stations, 1);
}

/* Sets of the side, one of which the start of so many stations holds first; none
 * is held if that is 0. The other sets take longer, or name a station that is
 * off, where there is one. All have the lowest station on the bus. */
static void fill_side(rng *r, uint8_t *config, unsigned side, unsigned on, unsigned off,
                      unsigned count)
{
    unsigned least = count == 0 ? 1 : count;
    unsigned used = 1 + (unsigned)rng_below(r, PLACES);
    unsigned first = (unsigned)rng_below(r, used);

    for (unsigned place = 0; place < used; place++) {
        bool other = place != first;
        unsigned more = other ? (unsigned)rng_below(r, set_size(on) - least + 1) : 0;
        unsigned set = set_up_to(r, on, least + more);
        if (count == 0 || (other && off != 0 && rng_one_in(r, 3))) {
            set |= 1u << station_of(r, off);
        }
        configuration_set_to(config, side + place, set);
    }
}

/* Item 0's copies all get the configuration, at any generation. */
static void set_all_copies(rng *r, const uint8_t *config)
{
    for (unsigned station = 0; station < scene[N_AT]; station++) {
        set_number(scene_copy(0, station) + GENERATION_IN, 8, rng_below(r, 3));
        memcpy(scene_copy(0, station) + CONFIGURATION_IN, config, CONFIGURATION);
    }
}

/* Every number of polls with every number of puts, with all stations on the bus
 * and with some, in any round. */
static void every_figure(generator *g, uint64_t index)
{
    rng *r = &g->source;
    unsigned n = 1 + (unsigned)index % STATIONS;
    unsigned on = index < STATIONS ? all_stations(n) : draw_some(r, all_stations(n));
    unsigned off = all_stations(n) & ~on;
    unsigned size = set_size(on);

    begin(g, n, 2);
    set_set(scene + OFF_AT, off);
    for (unsigned polls = 1; polls <= size; polls++) {
        for (unsigned puts = off == 0; puts <= size; puts++) {
            uint8_t config[CONFIGURATION] = {0};
            fill_side(r, config, READ_SIDE, on, off, polls);
            fill_side(r, config, WRITE_SIDE, on, off, puts);
            set_all_copies(r, config);
            damage_round(r, scene, (unsigned)rng_below(r, 4));
            call_on_scene(g, call_plan(0));
        }
    }
}

/* Copies that differ from station to station, any stations off, in any round;
 * the plans of both items. */
static void any_order(generator *g, uint64_t index)
{
    enum { TIMES = 12 };
    rng *r = &g->source;
    unsigned n = 1 + (unsigned)index % STATIONS;

    begin(g, n, 2);
    for (int time = 0; time < TIMES; time++) {
        damage_order(r, scene, 0);
        damage_order(r, scene, 1);
        set_set(scene + OFF_AT, part_of(r, part_of(r, all_stations(n))));
        damage_round(r, scene, (unsigned)rng_below(r, 4));
        call_on_scene(g, call_plan(0));
        make(g, call_plan(1));
    }
}

/* The copy of item 0 at the station: its sets have the lowest of the stations on
 * the bus, and the last of so many. */
static void set_copy_up_to(rng *r, unsigned station, uint64_t generation, unsigned on,
                           unsigned count)
{
    unsigned puts = 1 + (unsigned)rng_below(r, set_size(on));
    uint8_t config[CONFIGURATION] = {0};

    configuration_set_to(config, READ_SIDE, set_up_to(r, on, count));
    configuration_set_to(config, WRITE_SIDE, set_up_to(r, on, puts));
    set_number(scene_copy(0, station) + GENERATION_IN, 8, generation);
    memcpy(scene_copy(0, station) + CONFIGURATION_IN, config, CONFIGURATION);
}

/* Starts that are heard, longer ones that are not, since a newer copy comes, and
 * still longer ones that are again; then the station of that copy is off, then
 * the one that it waits for. */
static void heard_and_lost(generator *g, uint64_t index)
{
    rng *r = &g->source;
    unsigned n = 3 + (unsigned)index % (STATIONS - 2);
    unsigned on = all_stations(n);
    unsigned newer = 1 + (unsigned)rng_below(r, n - 2);
    unsigned awaited = newer + 1 + (unsigned)rng_below(r, n - newer - 1);

    begin(g, n, 2);
    for (unsigned station = 0; station < n; station++) {
        set_copy_up_to(r, station, 0, on, 1 + (unsigned)rng_below(r, newer));
    }
    set_copy_up_to(r, newer, 1, on, awaited + 1);
    call_on_scene(g, call_plan(0));
    set_set(scene + OFF_AT, 1u << newer);
    call_on_scene(g, call_plan(0));
    set_set(scene + OFF_AT, 1u << awaited);
    call_on_scene(g, call_plan(0));
    call_on_scene(g, call_reach(0));
}

/* ---- Spellings ---- */

/* What a sheet does to the standard form; the last is anything. */
typedef enum { AS_IT_IS, FALLING, REPEATED, CONTAINING, CONTAINING_FIRST, ANY_SPELLING, SPELLINGS } sheet;

/* The used sets of the side in falling order: they rise. */
static void turn_round(uint8_t *config, unsigned side)
{
    side_sets s = configuration_sets(config, side);
    for (unsigned place = 0; place < s.count; place++) {
        configuration_set_to(config, side + place, s.sets[s.count - 1 - place]);
    }
}

/* The places that are left on the side get used sets again, with some of these
 * stations in them too. */
static void fill_up(rng *r, uint8_t *config, unsigned side, unsigned more)
{
    side_sets s = configuration_sets(config, side);
    for (unsigned place = s.count; place < PLACES; place++) {
        unsigned set = s.sets[rng_below(r, s.count)];
        configuration_set_to(config, side + place, set | part_of(r, more));
    }
}

static void respell_side(rng *r, uint8_t *config, unsigned side, unsigned all, sheet how)
{
    switch (how) {
    case FALLING:
        turn_round(config, side);
        break;
    case REPEATED:
        fill_up(r, config, side, 0);
        break;
    case CONTAINING:
        fill_up(r, config, side, all);
        break;
    case CONTAINING_FIRST:
        fill_up(r, config, side, all);
        turn_round(config, side);
        break;
    default:
        break;
    }
}

/* A sheet for the house that this standard form of n stations is for. */
static void spell(rng *r, unsigned n, const uint8_t *standard, sheet how, uint8_t *config)
{
    memcpy(config, standard, CONFIGURATION);
    respell_side(r, config, READ_SIDE, all_stations(n), how);
    respell_side(r, config, WRITE_SIDE, all_stations(n), how);
    if (how == ANY_SPELLING) {
        configuration_respell(r, all_stations(n), config);
    }
}

/* The standard form of some configuration of n stations; every other time of
 * majorities, so that many sets are left. */
static void draw_standard(rng *r, unsigned n, uint8_t *standard)
{
    uint8_t config[CONFIGURATION];

    if (rng_one_in(r, 2)) {
        configuration_majorities(r, n, config);
    } else {
        draw_configuration(r, n, config);
    }
    ref_standard_form(n, config, CONFIGURATION, standard, CONFIGURATION);
}

/* A read of item 0 for each of its read sets as station 0 has it, which polls
 * that set alone: the last poll and a diagnose show its place, or an earlier one. */
static void poll_each_place(generator *g, unsigned n)
{
    uint8_t config[CONFIGURATION];

    memcpy(config, recorded_table(&g->to)->bytes + copy_at(n, 0, 0) + CONFIGURATION_IN, CONFIGURATION);
    side_sets reads = configuration_sets(config, READ_SIDE);
    for (unsigned place = 0; place < reads.count; place++) {
        make(g, call_open_read(0));
        for (unsigned set = reads.sets[place]; set != 0; set &= set - 1) {
            make(g, call_poll((unsigned)__builtin_ctz(set)));
        }
        ask_and_commit(g);
    }
}

/* Two sheets of one house are laid one after the other; rounds go on with the
 * second, and change to another house by a sheet of the same sort. The book
 * covers these. */
static void two_sheets(generator *g, uint64_t index)
{
    rng *r = &g->source;
    unsigned n = 1 + (unsigned)index % STATIONS;
    sheet how = (sheet)(index / STATIONS % SPELLINGS);
    uint8_t here[CONFIGURATION];
    uint8_t there[CONFIGURATION];
    uint8_t config[CONFIGURATION];

    draw_standard(r, n, here);
    draw_standard(r, n, there);
    record_table(&g->to, OSPREYSCREEN_TABLE_LENGTH(n, 2u), draw_place(r), false);
    lay(g, n, 2, here, CONFIGURATION);
    spell(r, n, here, how, config);
    lay(g, n, 2, config, CONFIGURATION);
    link_all(g, all_stations(n));
    poll_each_place(g, n);
    write_round(g, n, 0);
    spell(r, n, there, how, config);
    change_round(g, n, 0, config);
    poll_each_place(g, n);
    make(g, call_reach(0));
    make(g, call_plan(0));
    spell(r, n, there, ANY_SPELLING, config);
    change_round(g, n, 0, config);
    read_round(g, n, 0);
}

/* A sheet that is false by a set alone that the standard form would not have: it
 * contains another and names a station that is none, or stands behind a gap. */
static void false_sheets(generator *g, uint64_t index)
{
    rng *r = &g->source;
    unsigned n = 1 + (unsigned)index % (STATIONS - 1);
    unsigned side = index / (STATIONS - 1) % 2 == 0 ? READ_SIDE : WRITE_SIDE;
    uint8_t config[CONFIGURATION];

    begin(g, n, 1);
    for (unsigned place = 1; place < PLACES; place++) {
        memset(config, 0, sizeof config);
        configuration_set_to(config, READ_SIDE, 1);
        configuration_set_to(config, WRITE_SIDE, 1);
        for (unsigned other = 1; other <= place; other++) {
            configuration_set_to(config, side + other, 1);
        }
        configuration_set_to(config, side + place, 1u << (n + rng_below(r, STATIONS - n)) | 1);
        configuration_everywhere(g, config);
        configuration_set_to(config, side + place, 1);
        configuration_set_to(config, side + place - 1, 0);
        configuration_everywhere(g, config);
    }
}

/* Tables of an older library: every copy has another spelling of one
 * configuration, and so has a target. Rounds of each kind by them, and all that
 * can be asked; then a change, from which on copies have a standard form. */
static void older_spellings(generator *g, uint64_t index)
{
    rng *r = &g->source;
    unsigned n = 1 + (unsigned)index % STATIONS;
    sheet how = (sheet)(index / STATIONS % SPELLINGS);
    uint8_t standard[CONFIGURATION];

    begin_copies(g, n);
    draw_standard(r, n, standard);
    for (unsigned station = 0; station < n; station++) {
        spell(r, n, standard, how, scene_copy(0, station) + CONFIGURATION_IN);
    }
    look_at_copies(g);
    set_scene(g);
    poll_each_place(g, n);
    spell(r, n, standard, ANY_SPELLING, g->config);
    change_round(g, n, 0, g->config);
    poll_each_place(g, n);
    read_round(g, n, 0);
}

/* ---- Stations not linked since the lay ---- */

/* Lists on a table of every n and some m, with rounds of one kind. */
enum { LAID_KINDS = OSPREYSCREEN_ROUND_CHANGE, LAID_ITEMS = 3,
       LAID_LISTS = STATIONS * LAID_KINDS * LAID_ITEMS };

typedef struct {
    unsigned n;
    unsigned m;
    unsigned kind;
} laid_house;

/* Starts a list with a lay. */
static laid_house begin_laid(generator *g, uint64_t index)
{
    laid_house h = {.n = 1 + (unsigned)index % STATIONS,
                    .m = 1 + (unsigned)index / STATIONS % LAID_ITEMS,
                    .kind = 1 + (unsigned)index / (STATIONS * LAID_ITEMS)};

    record_table(&g->to, OSPREYSCREEN_TABLE_LENGTH(h.n, h.m), draw_place(&g->source), false);
    make(g, generate_lay(g, h.n, h.m));
    return h;
}

/* Opens a round on the last item. */
static void open_laid(generator *g, const laid_house *h)
{
    switch (h->kind) {
    case OSPREYSCREEN_ROUND_READ:
        make(g, call_open_read(h->m - 1));
        break;
    case OSPREYSCREEN_ROUND_WRITE:
        make(g, call_open_write(h->m - 1, rng_next(&g->source)));
        break;
    default:
        draw_configuration(&g->source, h->n, g->config);
        open_change(g, h->m - 1, g->config, CONFIGURATION);
        break;
    }
}

/* What shows who is off: the reach of every item, a plan, and a round that turns
 * to every station, has a plan too and is given up. */
static void look_at_stations(generator *g, const laid_house *h)
{
    reach_all(g, h->m);
    make(g, call_plan(0));
    open_laid(g, h);
    poll_all(g, h->n);
    make(g, call_plan(h->m - 1));
    put_both(g, h->n);
    make(g, call_abandon());
}

/* A table as it is laid, and after the first link of each station in turn. */
static void first_links(generator *g, uint64_t index)
{
    laid_house h = begin_laid(g, index);

    look_at_stations(g, &h);
    for (unsigned unlinked = all_stations(h.n); unlinked != 0;) {
        link_one(g, &unlinked);
        look_at_stations(g, &h);
    }
}

/* The same inside one round: the stations are polled as they come. */
static void late_links(generator *g, uint64_t index)
{
    laid_house h = begin_laid(g, index);

    open_laid(g, &h);
    poll_all(g, h.n);
    for (unsigned unlinked = all_stations(h.n); unlinked != 0;) {
        link_one(g, &unlinked);
        poll_all(g, h.n);
        make(g, call_reach(h.m - 1));
        make(g, call_plan(h.m - 1));
    }
    put_both(g, h.n);
    make(g, call_commit());
}

/* Each lay that is refused, and a look at the stations after it. */
static void refused_lays(generator *g, const laid_house *h)
{
    uint8_t config[CONFIGURATION];
    uint8_t false_config[CONFIGURATION] = {0};
    call refused[] = {
        call_lay(h->n, h->m, 0, config),     call_lay(h->n, h->m, 0, false_config),
        call_lay(0, h->m, 0, config),        call_lay(STATIONS + 1, h->m, 0, config),
        call_lay(h->n, 0, 0, config),        call_lay(h->n, ITEMS + 1, 0, config),
        call_lay(h->n, h->m + 1, 0, config),
    };

    refused[0].config_len--;
    draw_configuration(&g->source, h->n, config);
    for (size_t i = 0; i < sizeof refused / sizeof refused[0]; i++) {
        make(g, refused[i]);
        look_at_stations(g, h);
    }
}

/* A lay that is refused leaves the stations as they are; one that is not takes
 * them all off again, over an open round too, with the same n and with each
 * other that makes as many copies. */
static void laid_again(generator *g, uint64_t index)
{
    laid_house h = begin_laid(g, index);
    unsigned copies = h.n * h.m;

    link_all(g, draw_some(&g->source, all_stations(h.n)));
    refused_lays(g, &h);
    for (h.n = 1; h.n <= STATIONS; h.n++) {
        h.m = copies / h.n;
        if (copies % h.n == 0 && h.m <= ITEMS) {
            make(g, generate_lay(g, h.n, h.m));
            look_at_stations(g, &h);
            link_all(g, draw_some(&g->source, all_stations(h.n)));
            open_laid(g, &h);
            poll_all(g, h.n);
            put_both(g, h.n);
        }
    }
}

/* ---- The lists in a row ---- */

typedef struct {
    void (*record)(generator *g, uint64_t index);
    uint64_t count;
} group;

/* What finds most comes first. */
static const group GROUPS[] = {
    {many_refusals, (uint64_t)64 * 7 * 3},
    {moves, (uint64_t)20 * (STATIONS - 1)},
    {left_behind, (uint64_t)40 * (STATIONS - 1)},
    {every_figure, (uint64_t)3 * STATIONS},
    {any_order, (uint64_t)20 * STATIONS},
    {heard_and_lost, (uint64_t)20 * (STATIONS - 2)},
    {two_sheets, (uint64_t)8 * SPELLINGS * STATIONS},
    {false_sheets, (uint64_t)4 * (STATIONS - 1)},
    {older_spellings, (uint64_t)4 * SPELLINGS * STATIONS},
    {first_links, LAID_LISTS},
    {late_links, LAID_LISTS},
    {laid_again, LAID_LISTS},
    {any_sound_table, 4800},
    {one_clause, (uint64_t)SIZE_COUNT * BROKEN_CLAUSES},
    {every_length, (uint64_t)GUARD_PLACES * LENGTHS},
    {longer_table, MORE_BYTES_COUNT},
    {false_size, FALSE_SIZE_COUNT},
    {every_size, (uint64_t)STATIONS * ITEMS},
    {one_argument, (uint64_t)4 * ARGUMENT_NUMBERS},
    {configuration_length, 1 + CONFIGURATION_ROOM},
    {spent_counters, (uint64_t)9 * STATIONS},
    {one_counter, (uint64_t)27 * 16},
    {one_tie, (uint64_t)STATIONS * STATIONS * (STATIONS - 1)},
    {one_place, (uint64_t)PLACES * (STATIONS - 2)},
    {every_off_set, 80},
    {every_put_set, 40},
    {one_pair, (uint64_t)PLACES * PLACES * (STATIONS - 1)},
    {foreign_stations, (uint64_t)2 * PLACES * (STATIONS - 1)},
    {used_places, (uint64_t)512 * STATIONS},
    {one_unlike, (uint64_t)ALIKE_SHAPES * (1 + ALIKE_COPIES)},
    {byte_of_small, 4 * OSPREYSCREEN_TABLE_LENGTH(3, 2)},
    {byte_of_large, 4 * OSPREYSCREEN_TABLE_LENGTH(16, 1)},
};
enum { GROUP_COUNT = sizeof GROUPS / sizeof GROUPS[0] };

uint64_t directed_count(void)
{
    uint64_t count = 0;
    for (int i = 0; i < GROUP_COUNT; i++) {
        count += GROUPS[i].count;
    }
    return count;
}

void directed_list(generator *g, uint64_t seed, uint64_t number)
{
    const group *at = GROUPS;

    g->source = generate_source(seed, number);
    for (; number >= at->count; at++) {
        number -= at->count;
    }
    at->record(g, number);
}
