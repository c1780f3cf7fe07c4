#include "generate.h"

#include "bytes.h"
#include "configurations.h"
#include "damage.h"
#include "draw.h"
#include "outlook.h"

#include <string.h>

/* ---- Arguments ---- */

/* A valid target for the item. Half of them stay away from all old stations,
 * or from those of the old write sets, where some are left. */
static void draw_target(rng *r, const outlook *o, unsigned item, uint8_t *config)
{
    const uint8_t *old = outlook_configuration(o, item, all_stations(o->n));
    unsigned avoided = rng_one_in(r, 2) ? configuration_stations(old)
                                        : configuration_side(old, WRITE_SIDE);
    unsigned left = all_stations(o->n) & ~avoided;

    if (left == 0 || rng_one_in(r, 2)) {
        draw_configuration(r, o->n, config);
        return;
    }
    draw_among(r, left, config);
}

/* A number of stations in range for a configuration to be made with. */
static unsigned stations_for(uint64_t n)
{
    return n >= 1 && n <= OSPREYSCREEN_STATIONS_MAX ? (unsigned)n : 3;
}

/* In three of four cases an n and an m with as many copies as the table. */
static void draw_lay_size(rng *r, call *c, size_t len)
{
    size_t copies = len / OSPREYSCREEN_COPY_LENGTH - (len >= OSPREYSCREEN_COPY_LENGTH);
    c->numbers[ARGUMENT_N] = draw_below(r, OSPREYSCREEN_STATIONS_MAX + 1);
    c->numbers[ARGUMENT_M] = draw_below(r, OSPREYSCREEN_ITEMS_MAX + 1);
    if (rng_one_in(r, 4) || copies == 0) {
        return;
    }
    uint64_t n;
    do {
        n = 1 + rng_below(r, OSPREYSCREEN_STATIONS_MAX);
    } while (copies % n != 0);
    c->numbers[ARGUMENT_N] = n;
    c->numbers[ARGUMENT_M] = copies / n;
}

/* Any argument of the kind, on a table of n stations and m items. */
static void draw_argument(generator *g, call *c, argument kind, unsigned n, unsigned m, size_t len)
{
    rng *r = &g->source;

    switch (kind) {
    case ARGUMENT_N: /* and m */
        draw_lay_size(r, c, len);
        break;
    case ARGUMENT_M:
        break;
    case ARGUMENT_ITEM:
        c->numbers[kind] = draw_below(r, m);
        break;
    case ARGUMENT_STATION:
        c->numbers[kind] = draw_below(r, n);
        break;
    case ARGUMENT_SORT:
        c->numbers[kind] = draw_below(r, 3);
        break;
    case ARGUMENT_STATE:
        c->numbers[kind] = draw_below(r, 2);
        break;
    case ARGUMENT_VALUE:
        c->numbers[kind] = draw_value(r);
        break;
    case ARGUMENT_CONFIGURATION:
        n = c->code == OSPREYSCREEN_LAY ? stations_for(c->numbers[ARGUMENT_N]) : n;
        c->config = g->config;
        c->config_len = OSPREYSCREEN_CONFIGURATION_LENGTH;
        draw_configuration(r, n, g->config);
        if (rng_one_in(r, 2)) {
            draw_false(r, n, g->config, c);
        }
        break;
    case ARGUMENT_KINDS:
        break;
    }
}

call generate_any_call(generator *g, unsigned n, unsigned m)
{
    const call_shape *shape = &CALLS[rng_below(&g->source, CALL_COUNT)];
    call c = {.code = shape->code};

    for (int i = 0; i < shape->argument_count; i++) {
        draw_argument(g, &c, shape->arguments[i], n, m, recorded_table(&g->to)->len);
    }
    return c;
}

/* ---- Calls that fit where the round stands ---- */

/* What can be done with the item: its reach, or a plan. */
static call ask_of(rng *r, unsigned item)
{
    return rng_one_in(r, 3) ? call_plan(item) : call_reach(item);
}

/* A station returns; with none off, and now and then with none on, a reach or a
 * plan is asked. */
static call return_station(generator *g, const outlook *o)
{
    rng *r = &g->source;
    bool asks = o->off == 0 || (o->on == 0 && rng_one_in(r, 5));
    return asks ? ask_of(r, (unsigned)rng_below(r, o->m))
                : call_link(station_of(r, o->off), OSPREYSCREEN_LINK_ON);
}

static void choose_write_sets(generator *g)
{
    g->data_choice = (unsigned)rng_below(&g->source, OSPREYSCREEN_SETS_PER_SIDE);
    g->configuration_choice = (unsigned)rng_below(&g->source, OSPREYSCREEN_SETS_PER_SIDE);
}

static call next_opening(generator *g, const outlook *o)
{
    rng *r = &g->source;
    uint64_t kind = rng_below(r, 8);
    /* The first two items get most rounds, so that their counters grow. */
    unsigned item = (unsigned)rng_below(r, rng_one_in(r, 3) || o->m < 2 ? o->m : 2);

    choose_write_sets(g);
    if (kind < 3) {
        return call_open_read(item);
    }
    if (kind < 5) {
        return call_open_write(item, draw_value(r));
    }
    call c = call_open_change(item, g->config);
    draw_target(r, o, item, g->config);
    if (rng_one_in(r, 10)) {
        draw_false(r, o->n, g->config, &c);
    }
    return c;
}

/* A poll that brings the round nearer to being heard, more often than not. */
static call next_poll(generator *g, const outlook *o)
{
    rng *r = &g->source;
    unsigned missing = o->on & ~o->polled;
    const uint8_t *newest = outlook_configuration(o, o->item, all_stations(o->n));
    unsigned aim = missing & configuration_stations(newest);

    if (o->off != 0 && rng_one_in(r, 20)) { /* refused */
        return call_poll(station_of(r, o->off));
    }
    if (missing != 0) {
        return call_poll(station_of(r, aim != 0 && !rng_one_in(r, 3) ? aim : missing));
    }
    return o->off != 0 ? return_station(g, o) : call_abandon();
}

/* A put at a station of the missing set. If that station is off it returns,
 * or the round turns to other write sets, or the put is refused. */
static call next_put(generator *g, const outlook *o, unsigned missing, int sort)
{
    rng *r = &g->source;
    unsigned station = station_of(r, missing);
    bool off = (o->off >> station & 1) != 0;

    if (off && rng_one_in(r, 2)) {
        return call_link(station, OSPREYSCREEN_LINK_ON);
    }
    if (off && o->on != 0 && !rng_one_in(r, 3)) {
        choose_write_sets(g);
        station = station_of(r, o->on);
    }
    return call_put(station, (uint64_t)sort);
}

/* The stations of the write set aimed at where the put is missing. */
static unsigned missing_puts(const outlook *o, const uint8_t *config, unsigned choice, unsigned puts)
{
    return configuration_write_set(config, choice) & ~puts & (o->on | o->off);
}

/* The next put that the round lacks, or its commit. */
static call next_put_or_commit(generator *g, const outlook *o, const uint8_t *found)
{
    rng *r = &g->source;
    bool change = o->round == OSPREYSCREEN_ROUND_CHANGE;
    unsigned data = missing_puts(o, change ? o->target : found, g->data_choice, o->data_puts);
    unsigned config =
        change ? missing_puts(o, found, g->configuration_choice, o->configuration_puts) : 0;
    /* Now and then a change has enough puts of one sort only. */
    bool short_change = change && (data == 0) != (config == 0) && rng_one_in(r, 12);

    if ((data | config) == 0 || short_change) {
        return call_commit();
    }
    if (config == 0 || (data != 0 && rng_one_in(r, 2))) {
        return next_put(g, o, data, OSPREYSCREEN_PUT_DATA);
    }
    return next_put(g, o, config, OSPREYSCREEN_PUT_CONFIGURATION);
}

static call next_step(generator *g, const outlook *o)
{
    rng *r = &g->source;
    const uint8_t *found = outlook_configuration(o, o->item, o->polled);

    if (o->round == OSPREYSCREEN_ROUND_NONE) {
        return next_opening(g, o);
    }
    if (rng_one_in(r, g->last == OSPREYSCREEN_SPENT ? 3 : 50)) {
        return call_abandon();
    }
    if (rng_one_in(r, 40)) { /* a put of either sort, in a read too */
        int sort = rng_one_in(r, 2) ? OSPREYSCREEN_PUT_DATA : OSPREYSCREEN_PUT_CONFIGURATION;
        return next_put(g, o, all_stations(o->n), sort);
    }
    if (found == NULL || !configuration_holds(found, READ_SIDE, o->polled) || rng_one_in(r, 12)) {
        return next_poll(g, o);
    }
    return o->round == OSPREYSCREEN_ROUND_READ ? call_commit()
                                               : next_put_or_commit(g, o, found);
}

/* Links one of the stations, which are off since the lay. */
static call first_link(generator *g, unsigned stations)
{
    unsigned station = station_of(&g->source, stations);
    g->to_link &= ~(1u << station);
    return call_link(station, OSPREYSCREEN_LINK_ON);
}

/* The stations on the bus that have the item's newest generation, where that
 * configuration would give reach another figure once they are off; else none. */
static unsigned last_to_know(const outlook *o, unsigned item)
{
    unsigned all = all_stations(o->n);
    const uint8_t *newest = outlook_newest(o, item, all, COUNTER_GENERATION) + COUNTER_GENERATION;
    outlook left = *o;

    for (unsigned station = 0; station < o->n; station++) {
        if (memcmp(outlook_copy(o, item, station) + COUNTER_GENERATION, newest, 8) == 0) {
            left.on &= ~(1u << station);
        }
    }
    bool differs = outlook_reach(&left, item, left.on) != outlook_reach(&left, item, all);
    return differs ? o->on & ~left.on : 0;
}

/* The next of the stations that go off together, and behind the last the reach
 * of the item, or its plan. */
static call next_leaving(generator *g, const outlook *o)
{
    g->leaving &= o->on;
    return g->leaving != 0 ? call_link(station_of(&g->source, g->leaving), OSPREYSCREEN_LINK_OFF)
                           : ask_of(&g->source, g->left_item);
}

/* The reach or the plan of an item; those that are the last to know of its last
 * change leave first. */
static call leave(generator *g, const outlook *o)
{
    g->left_item = (unsigned)rng_below(&g->source, o->m);
    g->leaving = last_to_know(o, g->left_item);
    return next_leaving(g, o);
}

static call drop_station(rng *r, const outlook *o)
{
    bool any = o->on == 0 || rng_one_in(r, 10);
    return call_link(any ? rng_below(r, o->n) : station_of(r, o->on), OSPREYSCREEN_LINK_OFF);
}

call generate_call(generator *g)
{
    rng *r = &g->source;
    const loan *table = recorded_table(&g->to);
    outlook o;

    if (!outlook_read(&o, table->bytes, table->len)) {
        return generate_any_call(g, OSPREYSCREEN_STATIONS_MAX, OSPREYSCREEN_ITEMS_MAX);
    }
    if ((g->to_link & o.off) != 0 && !rng_one_in(r, 12)) {
        return first_link(g, g->to_link & o.off);
    }
    if (g->leaving != 0) {
        return next_leaving(g, &o);
    }
    if (rng_one_in(r, g->drops)) {
        return drop_station(r, &o);
    }
    switch (rng_below(r, 60)) {
    case 0:
    case 1:
    case 2:
    case 3:
        return generate_any_call(g, o.n, o.m);
    case 4:
    case 5:
    case 6:
        return return_station(g, &o);
    case 7:
        return call_reach(rng_below(r, o.m));
    case 8:
        return leave(g, &o);
    case 9: /* a commit before its time */
        return call_commit();
    case 10:
    case 11:
    case 12:
        return call_diagnose();
    case 13:
    case 14:
        return call_plan(rng_below(r, o.m));
    default:
        return next_step(g, &o);
    }
}

/* The stations that are linked first after a lay: all in most cases, else some
 * or none. The others are linked late, as stations return. */
static unsigned choose_links(rng *r, uint64_t n)
{
    unsigned all = all_stations((unsigned)n);

    switch (rng_below(r, 8)) {
    case 0:
        return 0;
    case 1:
        return part_of(r, all);
    case 2:
        return all & ~(1u << rng_below(r, n));
    default:
        return all;
    }
}

void generate_step(generator *g, const call *c)
{
    g->last = record_call(&g->to, c, draw_place(&g->source)).number;
    if (c->code == OSPREYSCREEN_LAY && g->last == OSPREYSCREEN_DONE) {
        g->to_link = choose_links(&g->source, c->numbers[ARGUMENT_N]);
    }
    if (c->code == OSPREYSCREEN_LAY || g->last != OSPREYSCREEN_DONE) {
        g->leaving = 0;
    }
}

call generate_lay(generator *g, unsigned n, unsigned m)
{
    draw_configuration(&g->source, n, g->config);
    return call_lay(n, m, draw_value(&g->source), g->config);
}

call generate_any_lay(generator *g)
{
    unsigned n;
    unsigned m;

    draw_size(&g->source, &n, &m);
    return generate_lay(g, n, m);
}

/* Records a lay that replies 0, or the next call. */
static void step_lay(generator *g, unsigned n, unsigned m)
{
    call c = generate_lay(g, n, m);
    generate_step(g, &c);
}

static void step_call(generator *g)
{
    call c = generate_call(g);
    generate_step(g, &c);
}

/* ---- What is done to the table between calls ---- */

/* A table changed by hand: the steps set all of it. */
typedef struct {
    uint8_t bytes[OSPREYSCREEN_TABLE_LENGTH_MAX];
    size_t len;
} by_hand;

static void take_table(const generator *g, by_hand *b)
{
    const loan *table = recorded_table(&g->to);
    b->len = table->len;
    memcpy(b->bytes, table->bytes, table->len);
}

static void set_table(generator *g, const by_hand *b)
{
    record_bytes(&g->to, 0, b->bytes, b->len);
}

/* Breaks one clause of soundness, makes some calls, and mends the table. */
static void break_a_clause(generator *g)
{
    rng *r = &g->source;
    by_hand before;
    by_hand broken;

    take_table(g, &before);
    broken = before;
    if (ref_broken(before.bytes, before.len) != 0 ||
        !damage_clause(r, broken.bytes, (broken_clause)rng_below(r, BROKEN_CLAUSES))) {
        return;
    }
    set_table(g, &broken);
    for (uint64_t calls = 1 + rng_below(r, 3); calls > 0; calls--) {
        call c = generate_any_call(g, before.bytes[0], before.bytes[1]);
        generate_step(g, &c);
    }
    set_table(g, &before);
}

/* Damage of any sort; a table beyond use is laid again before long. */
static void damage(generator *g, unsigned n, unsigned m)
{
    rng *r = &g->source;
    by_hand b;

    take_table(g, &b);
    bool sound = ref_broken(b.bytes, b.len) == 0;
    if (!sound && rng_one_in(r, 10)) {
        step_lay(g, n, m);
    } else if (sound && rng_one_in(r, 6)) {
        break_a_clause(g);
    } else if (rng_one_in(r, 60)) {
        damage_anything(r, b.bytes, b.len);
        set_table(g, &b);
    }
}

/* An item whose copies differ from station to station, and its plan. */
static void mix_copies(generator *g, by_hand *b)
{
    unsigned item = (unsigned)rng_below(&g->source, b->bytes[M_AT]);

    damage_order(&g->source, b->bytes, item);
    set_table(g, b);
    call c = call_plan(item);
    generate_step(g, &c);
}

/* Ties, copies that differ, and counters at the ends of their range; the table
 * stays sound. */
static void tie(generator *g)
{
    rng *r = &g->source;
    by_hand b;

    take_table(g, &b);
    if (ref_broken(b.bytes, b.len) != 0 || !rng_one_in(r, 20)) {
        return;
    }
    if (rng_one_in(r, 4)) {
        mix_copies(g, &b);
        return;
    }
    if (rng_one_in(r, 4)) {
        damage_counters(r, b.bytes, b.len);
    } else {
        damage_tie(r, b.bytes, b.bytes[5]);
    }
    set_table(g, &b);
}

/* Every configuration in another spelling; the table stays sound. */
static void respell(generator *g)
{
    by_hand b;

    take_table(g, &b);
    if (ref_broken(b.bytes, b.len) == 0 && rng_one_in(&g->source, 8)) {
        damage_spelling(&g->source, b.bytes, b.len);
        set_table(g, &b);
    }
}

/* A number that the next one or two raises take over the end of one to eight
 * bytes, or to the end of all. */
static uint64_t near_an_end(rng *r)
{
    static const unsigned widths[] = {8, 16, 32, 63, 64, 64};
    unsigned width = widths[rng_below(r, 6)];
    uint64_t ones = width == 64 ? UINT64_MAX : (UINT64_C(1) << width) - 1;
    uint64_t above = width == 64 || rng_one_in(r, 2) ? 0 : rng_any_width(r) & ~ones;
    return (above | ones) - rng_below(r, 4);
}

/* Raises a counter of an item such that the highest comes near an end. */
static void raise_a_counter(generator *g)
{
    rng *r = &g->source;
    const loan *table = recorded_table(&g->to);
    counter which = rng_one_in(r, 2) ? COUNTER_VERSION : COUNTER_GENERATION;
    uint64_t goal = near_an_end(r);
    outlook o;

    if (!rng_one_in(r, 40) || !outlook_read(&o, table->bytes, table->len)) {
        return;
    }
    unsigned item = (unsigned)rng_below(r, o.m);
    uint64_t highest = get_number(outlook_newest(&o, item, all_stations(o.n), which) + which, 8);
    if (highest < goal) {
        record_raise(&g->to, which, item, goal - highest);
    }
}

/* ---- Lists ---- */

typedef enum {
    UNDISTURBED,
    RAISED,
    DAMAGED,
    TIED,
    RESPELLED,
    WRONG_LENGTH,
    WRONG_SIZE
} disturbance;

static disturbance choose_disturbance(rng *r)
{
    static const disturbance one_of[20] = {
        UNDISTURBED, UNDISTURBED, UNDISTURBED, UNDISTURBED,  UNDISTURBED,  UNDISTURBED, RESPELLED,
        RAISED,      RAISED,      RAISED,      DAMAGED,      DAMAGED,      DAMAGED,     DAMAGED,
        TIED,        TIED,        TIED,        WRONG_LENGTH, WRONG_LENGTH, WRONG_SIZE};
    return one_of[rng_below(r, 20)];
}

static void disturb(generator *g, disturbance how, unsigned n, unsigned m)
{
    switch (how) {
    case RAISED:
        raise_a_counter(g);
        break;
    case DAMAGED:
        damage(g, n, m);
        break;
    case TIED:
        tie(g);
        break;
    case RESPELLED:
        respell(g);
        break;
    default:
        break;
    }
}

/* Lists of one call to some hundred, and now and then of some thousand; the
 * longer, the more stations a round has to go to. */
static uint64_t choose_calls(rng *r, unsigned n, unsigned m)
{
    uint64_t most = rng_one_in(r, 20) && n * m < 100 ? 300 : rng_one_in(r, 3) ? 3 : 50;
    return 1 + rng_below(r, most * (3 + n));
}

/* The table's bytes before the first call, of any content. */
static void fill_table(generator *g, size_t len)
{
    uint8_t bytes[OSPREYSCREEN_TABLE_LENGTH_MAX];
    for (size_t i = 0; i < len; i++) {
        bytes[i] = (uint8_t)rng_next(&g->source);
    }
    record_bytes(&g->to, 0, bytes, len);
}

static void generate_rounds(generator *g, disturbance how, unsigned n, unsigned m)
{
    rng *r = &g->source;
    size_t len = OSPREYSCREEN_TABLE_LENGTH(n, m);

    record_table(&g->to, len, draw_place(r), false);
    fill_table(g, len);
    step_lay(g, n, m);
    for (uint64_t calls = choose_calls(r, n, m); calls > 1; calls--) {
        if (!recorder_has_room(&g->to)) {
            return;
        }
        disturb(g, how, n, m);
        step_call(g);
    }
}

/* A sound table under a length that does not fit it, and calls on it. */
static void generate_wrong_length(generator *g, unsigned n, unsigned m)
{
    rng *r = &g->source;
    size_t fit = OSPREYSCREEN_TABLE_LENGTH(n, m);
    size_t lengths[] = {0,       1,       55,       56,          57,
                        111,     fit - 56, fit - 1, fit + 1,     fit + 56,
                        fit + 256, fit + 65536, rng_below(r, fit)};
    size_t len = lengths[rng_below(r, sizeof lengths / sizeof lengths[0])];
    uint8_t bytes[OSPREYSCREEN_TABLE_LENGTH_MAX];

    record_table(&g->to, len, draw_place(r), rng_one_in(r, 2));
    damage_fresh(r, bytes, n, m);
    record_bytes(&g->to, 0, bytes, len < fit ? len : fit);
    for (int calls = 0; calls < 20; calls++) {
        call c = generate_any_call(g, n, m);
        generate_step(g, &c);
    }
}

/* A table whose n or m no table has, of the length that would fit. */
static void generate_wrong_size(generator *g)
{
    enum { FEW = 3, SIZE_MOST = 255 };
    rng *r = &g->source;
    unsigned n = 1 + (unsigned)rng_below(r, FEW);
    unsigned m = 1 + (unsigned)rng_below(r, FEW);
    uint8_t bytes[OSPREYSCREEN_TABLE_LENGTH(SIZE_MOST, FEW)];

    switch (rng_below(r, 6)) {
    case 0:
        n = 0;
        break;
    case 1:
        m = 0;
        break;
    case 2:
        n = OSPREYSCREEN_STATIONS_MAX + 1;
        break;
    case 3:
        m = OSPREYSCREEN_ITEMS_MAX + 1;
        break;
    case 4:
        n = SIZE_MOST - (unsigned)rng_below(r, SIZE_MOST - OSPREYSCREEN_STATIONS_MAX);
        break;
    default:
        m = SIZE_MOST - (unsigned)rng_below(r, SIZE_MOST - OSPREYSCREEN_ITEMS_MAX);
        break;
    }
    size_t len = OSPREYSCREEN_TABLE_LENGTH(n, m);
    record_table(&g->to, len, draw_place(r), false);
    damage_fresh(r, bytes, n, m);
    record_bytes(&g->to, 0, bytes, len);
    for (int calls = 0; calls < 10; calls++) {
        call c = generate_any_call(g, stations_for(n), m == 0 ? 1 : m);
        generate_step(g, &c);
    }
}

rng generate_source(uint64_t seed, uint64_t number)
{
    rng of_run = {seed};
    return (rng){rng_next(&of_run) + number};
}

generator generator_make(list *into)
{
    return (generator){.to = recorder_make(into)};
}

void generate_list(generator *g, uint64_t seed, uint64_t number)
{
    static const unsigned drops[] = {5, 15, 30, 100};
    rng *r = &g->source;
    unsigned n;
    unsigned m;

    *r = generate_source(seed, number);
    draw_size(r, &n, &m);
    g->drops = drops[rng_below(r, 4)];
    disturbance how = choose_disturbance(r);
    if (how == WRONG_LENGTH) {
        generate_wrong_length(g, n, m);
    } else if (how == WRONG_SIZE) {
        generate_wrong_size(g);
    } else {
        generate_rounds(g, how, n, m);
    }
}
