#include "season.h"

#include "configurations.h"
#include "draw.h"
#include "outlook.h"

#include <string.h>

/* ---- The house ---- */

/* How often things go wrong, each once in so many. */
typedef struct {
    unsigned drops;    /* steps: a station goes off the bus */
    unsigned outages;  /* drops: it stays off for long */
    unsigned sections; /* steps: a section of the bus goes */
    unsigned surges;   /* puts: the station goes right after it */
    unsigned slips;    /* steps: the firmware does something out of turn */
} weather;

static const weather WEATHERS[] = {
    {300, 10, 5000, 150, 50},
    {100, 4, 1500, 40, 25},
    {30, 2, 800, 15, 12},
};

/* A station's line to the bus. */
typedef struct {
    uint64_t up;      /* steps between its drops, on average */
    uint64_t outages; /* once in so many drops it stays off for long, */
    uint64_t outage;  /* up to so many steps */
    uint64_t turns;   /* the step at which it is linked, goes or returns */
} line;

/* The order in which a task takes stations. */
typedef enum { RISING, FALLING, ANY_ORDER, ORDERS } order;

/* A task of the firmware. */
typedef struct {
    order takes;
    bool watches;      /* the bus, and keeps off stations that are off */
    bool plans;        /* its rounds, and goes by the plan as far as that goes */
    unsigned patience; /* tries before it gives up */
    unsigned learns;   /* once in so many rounds it notes the read set it heard */
    unsigned known[OSPREYSCREEN_ITEMS_MAX]; /* the read set last noted, by item */
} task;

enum { DASHBOARD, VENTS, MISTING, INSTALLER, TASKS };

typedef struct {
    generator *g;
    rng *r;
    unsigned n;
    unsigned m;
    const weather *weather;
    line lines[OSPREYSCREEN_STATIONS_MAX];
    task tasks[TASKS];
    unsigned visits;  /* installers come once in so many rounds */
    unsigned set_ups; /* the table is laid anew once in so many steps */
    /* What the installers found at an item when they came last. */
    uint8_t sheets[OSPREYSCREEN_ITEMS_MAX][OSPREYSCREEN_CONFIGURATION_LENGTH];
} season;

static uint64_t now(const season *s)
{
    return s->g->to.into->count;
}

/* The table as it is; it is sound from the first lay on. */
static outlook look(const season *s)
{
    const loan *table = recorded_table(&s->g->to);
    outlook o;
    outlook_read(&o, table->bytes, table->len);
    return o;
}

/* The stations of a new table are linked when their time comes: all at once or
 * one by one, and some late, when tasks have long begun. */
static void time_first_links(season *s)
{
    uint64_t span = rng_one_in(s->r, 2) ? 1 : 4 * look(s).n;

    for (unsigned station = 0; station < OSPREYSCREEN_STATIONS_MAX; station++) {
        line *l = &s->lines[station];
        l->turns = now(s) + rng_below(s->r, rng_one_in(s->r, 10) ? l->outage : span);
    }
}

static ospreyscreen_reply record(season *s, call c)
{
    ospreyscreen_reply reply = record_call(&s->g->to, &c, draw_place(s->r));
    if (c.code == OSPREYSCREEN_LAY && reply.number == OSPREYSCREEN_DONE) {
        time_first_links(s);
    }
    return reply;
}

/* The first item is used most, so that its counters grow. */
static unsigned choose_item(const season *s)
{
    return rng_one_in(s->r, 2) ? 0 : (unsigned)rng_below(s->r, look(s).m);
}

/* ---- The bus ---- */

static uint64_t span_on(rng *r, const line *l)
{
    return 1 + rng_below(r, 2 * l->up);
}

static uint64_t span_off(rng *r, const line *l)
{
    enum { FLICKER = 12 };
    return 1 + rng_below(r, rng_one_in(r, l->outages) ? l->outage : FLICKER);
}

/* Stations go and return when their time has come. */
static void move_stations(season *s)
{
    outlook o = look(s);
    for (unsigned station = 0; station < o.n; station++) {
        line *l = &s->lines[station];
        if (l->turns > now(s)) {
            continue;
        }
        if ((o.off >> station & 1) != 0) {
            record(s, call_link(station, OSPREYSCREEN_LINK_ON));
            l->turns = now(s) + span_on(s->r, l);
        } else {
            record(s, call_link(station, OSPREYSCREEN_LINK_OFF));
            l->turns = now(s) + span_off(s->r, l);
            if (rng_one_in(s->r, 2)) {
                record(s, call_reach(choose_item(s)));
                record(s, call_plan(choose_item(s)));
            }
        }
    }
}

/* Neighbours drop together, in a power cut all stations; they return at about
 * the same time. */
static void drop_section(season *s)
{
    rng *r = s->r;
    unsigned n = look(s).n;
    bool cut = rng_one_in(r, 4);
    unsigned first = cut ? 0 : (unsigned)rng_below(r, n);
    unsigned end = cut ? n : first + 1 + (unsigned)rng_below(r, n - first);
    uint64_t span = 5 + rng_below(r, rng_one_in(r, 4) ? 400 : 40);

    for (unsigned station = first; station < end; station++) {
        record(s, call_link(station, OSPREYSCREEN_LINK_OFF));
        s->lines[station].turns = now(s) + span + rng_below(r, 8);
    }
    record(s, call_reach(choose_item(s)));
    record(s, call_plan(choose_item(s)));
}

/* ---- What comes between the steps of a round ---- */

/* The house is set up anew, now and then with other stations and items that
 * make as many copies. */
static void set_up(season *s)
{
    unsigned copies = s->n * s->m;
    unsigned n = s->n;

    if (rng_one_in(s->r, 4)) {
        do {
            n = 1 + (unsigned)rng_below(s->r, OSPREYSCREEN_STATIONS_MAX);
        } while (copies % n != 0 || copies / n > OSPREYSCREEN_ITEMS_MAX);
    }
    record(s, generate_lay(s->g, n, copies / n));
}

/* A lay that is refused, most likely: it has no such n or m, does not fit the
 * table or has a false configuration. */
static call false_lay(season *s, const outlook *o)
{
    rng *r = s->r;
    call c = call_lay(o->n, o->m, draw_value(r), s->g->config);

    draw_configuration(r, o->n, s->g->config);
    switch (rng_below(r, 4)) {
    case 0:
        c.numbers[ARGUMENT_N] = draw_odd(r, OSPREYSCREEN_STATIONS_MAX + 1);
        break;
    case 1:
        c.numbers[ARGUMENT_M] = draw_odd(r, OSPREYSCREEN_ITEMS_MAX + 1);
        break;
    case 2:
        c.numbers[ARGUMENT_M] = 1 + rng_below(r, OSPREYSCREEN_ITEMS_MAX);
        break;
    default:
        draw_false(r, o->n, s->g->config, &c);
        break;
    }
    return c;
}

/* An opening of a change whose sheet is most likely false. */
static call false_change(season *s, const outlook *o, uint64_t item)
{
    call c = call_open_change(item, s->g->config);
    draw_configuration(s->r, o->n, s->g->config);
    draw_false(s->r, o->n, s->g->config, &c);
    return c;
}

/* A call with an argument that most likely does not exist. */
static call mistake(season *s, const outlook *o)
{
    rng *r = s->r;
    uint64_t item = draw_odd(r, o->m);
    uint64_t station = draw_odd(r, o->n);
    uint64_t any = rng_below(r, o->n);

    switch (rng_below(r, 11)) {
    case 0:
        return call_open_read(item);
    case 1:
        return call_open_write(item, draw_value(r));
    case 2:
        return false_change(s, o, item);
    case 3:
        return call_poll(station);
    case 4:
        return call_put(station, OSPREYSCREEN_PUT_DATA);
    case 5:
        return call_put(any, draw_odd(r, 3));
    case 6:
        return call_link(station, OSPREYSCREEN_LINK_OFF);
    case 7:
        return call_link(any, draw_odd(r, 2));
    case 8:
        return call_reach(item);
    case 9:
        return call_plan(item);
    default:
        return false_lay(s, o);
    }
}

/* A step out of turn, of the task whose round is open or of another. */
static call slip(season *s, const outlook *o)
{
    rng *r = s->r;
    uint64_t station = rng_below(r, o->n);
    unsigned item = choose_item(s);

    switch (rng_below(r, 10)) {
    case 0:
        return call_open_read(item);
    case 1:
        return call_open_write(item, draw_value(r));
    case 2:
        draw_configuration(r, o->n, s->g->config);
        return call_open_change(item, s->g->config);
    case 3:
        return call_poll(station);
    case 4:
    case 5:
        return call_put(station, 1 + rng_below(r, 2));
    case 6:
        return call_commit();
    case 7:
        return rng_one_in(r, 2) ? call_abandon() : call_reach(item);
    default:
        return mistake(s, o);
    }
}

/* Makes a task's call. What happens in the house meanwhile comes before it, so
 * it falls between any two steps of a round. */
static ospreyscreen_reply make(season *s, call c)
{
    enum { REACHES = 25, DIAGNOSES = 25, PLANS = 25 };

    move_stations(s);
    if (rng_one_in(s->r, s->weather->sections)) {
        drop_section(s);
    }
    if (rng_one_in(s->r, s->set_ups)) {
        set_up(s);
    }
    if (rng_one_in(s->r, REACHES)) {
        record(s, call_reach(choose_item(s)));
    }
    if (rng_one_in(s->r, DIAGNOSES)) {
        record(s, call_diagnose());
    }
    if (rng_one_in(s->r, PLANS)) {
        record(s, call_plan(choose_item(s)));
    }
    if (rng_one_in(s->r, s->weather->slips)) {
        outlook o = look(s);
        record(s, slip(s, &o));
    }
    return record(s, c);
}

/* ---- Rounds ---- */

/* How often a task turns to other stations before it gives up. */
enum { TURNS = 4 };

/* A set of the side that lies in the stations, if there is one; else any. */
static unsigned choose_set(rng *r, const uint8_t *config, unsigned side, unsigned stations)
{
    unsigned first = (unsigned)rng_below(r, PLACES);
    unsigned any = 0;

    for (unsigned i = 0; i < PLACES; i++) {
        unsigned set = configuration_set(config, side + (first + i) % PLACES);
        if (set != 0 && (set & ~stations) == 0) {
            return set;
        }
        any = set != 0 ? set : any;
    }
    return any;
}

/* The station of the set that comes next for the task, one that it counts on
 * if it can. */
static unsigned next_station(rng *r, const task *t, unsigned set, unsigned counts_on)
{
    if ((set & counts_on) != 0) {
        set &= counts_on;
    }
    if (t->takes == RISING) {
        set &= ~set + 1;
    }
    while (t->takes == FALLING && (set & (set - 1)) != 0) {
        set &= set - 1;
    }
    return station_of(r, set);
}

/* Makes a poll or put at the station. If that is off, a task that watches the
 * bus rather asks for reach and waits. False if the task turns to other
 * stations; from then on it watches the bus. */
static bool step_at(season *s, const outlook *o, bool watches, unsigned station, call c)
{
    bool off = (o->off >> station & 1) != 0;
    bool waits = off && watches && !rng_one_in(s->r, 4);
    uint64_t number = make(s, waits ? call_reach(o->item) : c).number;
    return (!off && number == OSPREYSCREEN_DONE) || !rng_one_in(s->r, 3);
}

/* The stations that the task polls: those that it knows, or else all, and when
 * it has found a configuration one of its read sets. */
static unsigned stations_to_poll(season *s, const task *t, const outlook *o, unsigned counts_on)
{
    const uint8_t *found = outlook_configuration(o, o->item, o->polled);
    unsigned all = o->on | o->off;
    unsigned known = t->known[o->item] & all;

    if (found != NULL) {
        return choose_set(s->r, found, READ_SIDE, counts_on);
    }
    return known != 0 && !rng_one_in(s->r, 8) ? known : all;
}

/* Polls until the round is heard. False if it is closed, or at the end of the
 * task's patience. */
static bool poll_enough(season *s, task *t)
{
    unsigned aim = 0;

    for (unsigned tries = 0, turned = 0; tries < t->patience && turned < TURNS; tries++) {
        outlook o = look(s);
        const uint8_t *found = outlook_configuration(&o, o.item, o.polled);
        if (o.round == OSPREYSCREEN_ROUND_NONE) {
            return false;
        }
        if (found != NULL && configuration_holds(found, READ_SIDE, o.polled)) {
            if (rng_one_in(s->r, t->learns)) {
                t->known[o.item] = choose_set(s->r, found, READ_SIDE, o.polled);
            }
            return true;
        }
        bool watches = t->watches || turned > 0;
        unsigned counts_on = watches ? o.on : o.on | o.off;
        if ((aim & ~o.polled) == 0) {
            aim = stations_to_poll(s, t, &o, counts_on);
        }
        unsigned station = next_station(s->r, t, aim & ~o.polled, counts_on);
        if (!step_at(s, &o, watches, station, call_poll(station))) {
            turned++;
            aim = 0;
        }
    }
    return false;
}

/* The configuration whose write sets the puts aim at: the change's target or
 * the one found. A null pointer if the round is closed or takes no puts. */
static const uint8_t *aimed_at(const outlook *o, bool target)
{
    bool change = o->round == OSPREYSCREEN_ROUND_CHANGE;

    if (target) {
        return change ? o->target : NULL;
    }
    return change || o->round == OSPREYSCREEN_ROUND_WRITE
               ? outlook_configuration(o, o->item, o->polled)
               : NULL;
}

/* Puts until a write set is held; false as above. Some commit too early. */
static bool put_enough(season *s, const task *t, uint64_t sort, bool target)
{
    enum { EARLY = 50 };
    unsigned aim = 0;

    for (unsigned tries = 0, turned = 0; tries < t->patience && turned < TURNS; tries++) {
        outlook o = look(s);
        const uint8_t *config = aimed_at(&o, target);
        unsigned puts = sort == OSPREYSCREEN_PUT_DATA ? o.data_puts : o.configuration_puts;
        if (config == NULL || configuration_holds(config, WRITE_SIDE, puts)) {
            return config != NULL;
        }
        bool watches = t->watches || turned > 0;
        unsigned counts_on = watches ? o.on : o.on | o.off;
        if ((aim & ~puts) == 0) {
            aim = choose_set(s->r, config, WRITE_SIDE, counts_on);
        }
        unsigned station = next_station(s->r, t, aim & ~puts, counts_on);
        if (!step_at(s, &o, watches, station, call_put(station, sort))) {
            turned++;
            aim = 0;
        }
        if (rng_one_in(s->r, s->weather->surges)) {
            s->lines[station].turns = now(s);
        }
        if (rng_one_in(s->r, EARLY)) {
            make(s, call_commit());
        }
    }
    return false;
}

/* The puts of a change, of one sort after the other. Some changes are
 * committed or given up half way, and some mix up whose write sets the sorts
 * of put are for. */
static bool put_change(season *s, const task *t)
{
    uint64_t first = 1 + rng_below(s->r, 2);
    uint64_t second = OSPREYSCREEN_PUT_DATA + OSPREYSCREEN_PUT_CONFIGURATION - first;
    bool target_first = (first == OSPREYSCREEN_PUT_DATA) != rng_one_in(s->r, 8);

    if (!put_enough(s, t, first, target_first) || rng_one_in(s->r, 12)) {
        return false;
    }
    if (rng_one_in(s->r, 6)) {
        make(s, call_commit());
    }
    return put_enough(s, t, second, !target_first);
}

static bool put_all(season *s, const task *t)
{
    switch (look(s).round) {
    case OSPREYSCREEN_ROUND_READ:
        return true;
    case OSPREYSCREEN_ROUND_WRITE:
        return put_enough(s, t, OSPREYSCREEN_PUT_DATA, false);
    case OSPREYSCREEN_ROUND_CHANGE:
        return put_change(s, t);
    default:
        return false;
    }
}

/* Opens a round. One that hangs is closed after some tries. */
static bool open_round(season *s, call opening)
{
    for (int tries = 0; tries < 3; tries++) {
        uint64_t number = make(s, opening).number;
        if (number != OSPREYSCREEN_BUSY) {
            return number == OSPREYSCREEN_DONE;
        }
        if (rng_one_in(s->r, 2)) {
            make(s, call_abandon());
        }
    }
    return false;
}

/* Takes the stations on the bus in rising number: as many polls as the plan says,
 * and in a write as many puts. */
static void follow_plan(season *s, const ospreyscreen_reply *told)
{
    outlook o = look(s);
    unsigned left = o.on & ~o.polled;

    for (uint64_t made = 0; made < told->first && left != 0; made++) {
        make(s, call_poll((unsigned)__builtin_ctz(left)));
        o = look(s);
        left = o.on & ~o.polled;
    }
    left = o.round == OSPREYSCREEN_ROUND_WRITE ? o.on : 0;
    for (uint64_t made = 0; made < told->second && left != 0; made++) {
        make(s, call_put((unsigned)__builtin_ctz(left), OSPREYSCREEN_PUT_DATA));
        o = look(s);
        left = o.on & ~o.data_puts;
    }
}

/* What a task that does not plan goes by: no polls and no puts. */
static const ospreyscreen_reply NO_PLAN = {.number = OSPREYSCREEN_OUT_OF_HEARING};

/* Opens a round and takes it to its commit, by the plan and on from where that
 * ends. If the commit is short, since puts are gone with their stations, the
 * task may ask what holds the round up; it polls and goes on. In the end it
 * gives up, or hangs. */
static void play_round(season *s, task *t, call opening, const ospreyscreen_reply *told)
{
    enum { ATTEMPTS = 3 };

    if (!open_round(s, opening)) {
        return;
    }
    follow_plan(s, told);
    for (int i = 0; i < ATTEMPTS && poll_enough(s, t) && put_all(s, t); i++) {
        uint64_t number = make(s, call_commit()).number;
        if (number == OSPREYSCREEN_DONE || number == OSPREYSCREEN_IDLE) {
            return;
        }
        if (rng_one_in(s->r, 2)) {
            make(s, call_diagnose());
        }
        make(s, call_poll(rng_below(s->r, look(s).n)));
    }
    if (!rng_one_in(s->r, 10)) {
        make(s, call_abandon());
    }
}

/* ---- Installers ---- */

static unsigned other_side(unsigned side)
{
    return side == READ_SIDE ? WRITE_SIDE : READ_SIDE;
}

/* Each set of the side is one station of the group, the other side's is all. */
static void draw_one_and_all(rng *r, unsigned group, unsigned side, uint8_t *sheet)
{
    memset(sheet, 0, OSPREYSCREEN_CONFIGURATION_LENGTH);
    configuration_set_to(sheet, other_side(side), group);
    for (unsigned place = 0; place < PLACES && group != 0; place++) {
        unsigned one = 1u << station_of(r, group);
        configuration_set_to(sheet, side + place, one);
        group &= ~one;
    }
}

/* The group in rows: these are the sets of the side. The other side's are the
 * columns, with a station of the last row where that does not reach them. */
static void draw_grid(rng *r, unsigned group, unsigned side, uint8_t *sheet)
{
    unsigned rows[PLACES] = {0};
    unsigned columns[PLACES] = {0};
    unsigned width = 2 + (unsigned)rng_below(r, 3);
    unsigned count = 0;

    for (unsigned station = 0; station < OSPREYSCREEN_STATIONS_MAX; station++) {
        unsigned one = group & 1u << station;
        if (one != 0) {
            rows[count / width] |= one;
            columns[count % width] |= one;
            count++;
        }
    }
    unsigned last = rows[(count - 1) / width];
    for (unsigned place = 0; place < PLACES; place++) {
        if (columns[place] != 0 && (columns[place] & last) == 0) {
            columns[place] |= 1u << station_of(r, last);
        }
        configuration_set_to(sheet, side + place, rows[place]);
        configuration_set_to(sheet, other_side(side) + place, columns[place]);
    }
}

/* The stations of a new sheet: all, neighbours, any, or such as the old
 * configuration does not name, or names for reading alone. */
static unsigned choose_group(rng *r, const outlook *o, const uint8_t *old)
{
    unsigned all = o->on != 0 && !rng_one_in(r, 4) ? o->on : o->on | o->off;
    unsigned neighbours = (2u << rng_below(r, o->n)) - 1;
    unsigned away = all & ~configuration_stations(old);

    switch (rng_below(r, 5)) {
    case 0:
        return all;
    case 1:
        return all & neighbours << station_of(r, all);
    case 2:
        return draw_some(r, all);
    case 3:
        away = all & ~configuration_side(old, WRITE_SIDE);
        break;
    default:
        break;
    }
    return away != 0 ? draw_some(r, away) : all;
}

/* A sheet for an item, some in another spelling. The one found at the last visit
 * is false if nobody came before, or may be if the house has other stations now. */
static void draw_sheet(season *s, const outlook *o, unsigned item, uint8_t *sheet)
{
    rng *r = s->r;
    const uint8_t *old = outlook_configuration(o, item, o->on | o->off);
    unsigned group = choose_group(r, o, old);
    unsigned side = rng_one_in(r, 2) ? READ_SIDE : WRITE_SIDE;

    switch (rng_below(r, 6)) {
    case 0:
        configuration_majorities(r, o->n, sheet);
        break;
    case 1:
        draw_one_and_all(r, group, side, sheet);
        break;
    case 2:
        draw_grid(r, group, side, sheet);
        break;
    case 3:
        memcpy(sheet, s->sheets[item], OSPREYSCREEN_CONFIGURATION_LENGTH);
        break;
    default:
        draw_among(r, group, sheet);
        break;
    }
    if (rng_one_in(r, 3)) {
        configuration_respell(r, all_stations(o->n), sheet);
    }
    memcpy(s->sheets[item], old, OSPREYSCREEN_CONFIGURATION_LENGTH);
}

/* Installers come for one item or for some, now and then with a false sheet
 * first. */
static void visit(season *s)
{
    uint64_t changes = rng_one_in(s->r, 4) ? 1 + rng_below(s->r, 5) : 1;

    for (; changes > 0; changes--) {
        outlook o = look(s);
        unsigned item = choose_item(s);
        uint8_t sheet[OSPREYSCREEN_CONFIGURATION_LENGTH];
        if (rng_one_in(s->r, 10)) {
            record(s, false_change(s, &o, item));
        }
        draw_sheet(s, &o, item, sheet);
        play_round(s, &s->tasks[INSTALLER], call_open_change(item, sheet), &NO_PLAN);
    }
}

/* ---- The season ---- */

/* A task's read or write. One that watches the bus asks for reach first, one
 * that plans for a plan; it most likely lets it be if nothing can be read. */
static void work(season *s, unsigned who)
{
    task *t = &s->tasks[who];
    unsigned item = choose_item(s);
    bool reads = who == DASHBOARD || rng_one_in(s->r, 4);
    bool stays = rng_one_in(s->r, 4);
    ospreyscreen_reply told = NO_PLAN;

    if (t->watches && rng_one_in(s->r, 2) &&
        make(s, call_reach(item)).first == OSPREYSCREEN_REACH_NOTHING && !stays) {
        return;
    }
    if (t->plans) {
        told = make(s, call_plan(item));
        if (told.number == OSPREYSCREEN_OUT_OF_HEARING && !stays) {
            return;
        }
    }
    play_round(s, t, reads ? call_open_read(item) : call_open_write(item, draw_value(s->r)), &told);
}

/* Each station has its own; the house as a whole has the weather's drops. */
static line draw_line(rng *r, const weather *w, unsigned n)
{
    uint64_t fair = w->drops * n;
    line l = {.outage = 40 * (n + 2)};

    l.up = fair / 2 + rng_below(r, fair);
    l.outages = 1 + rng_below(r, 2 * w->outages);
    return l;
}

static task draw_task(rng *r, unsigned n)
{
    task t = {.takes = (order)rng_below(r, ORDERS)};

    t.watches = rng_one_in(r, 2);
    t.plans = rng_one_in(r, 2);
    t.patience = n + 6 + (unsigned)rng_below(r, 40);
    t.learns = 1 + (unsigned)rng_below(r, 8);
    return t;
}

/* Mostly few items, which makes the calls fast. */
static unsigned choose_items(rng *r, unsigned n)
{
    if (rng_one_in(r, 20)) {
        return 1 + (unsigned)rng_below(r, OSPREYSCREEN_ITEMS_MAX);
    }
    return 1 + (unsigned)rng_below(r, n > 8 ? 2 : 4);
}

/* Some thousand calls: more with more stations, whose rounds are longer, and
 * fewer on a large table. */
static uint64_t choose_length(rng *r, unsigned n, unsigned m)
{
    uint64_t length = (n + 2) * (600 + rng_below(r, 600));
    uint64_t most = 600000 / (n * m);
    return length < most ? length : most;
}

static season draw_season(generator *g, unsigned n)
{
    rng *r = &g->source;
    season s = {.g = g, .r = r, .n = n, .m = choose_items(r, n)};

    s.weather = &WEATHERS[rng_below(r, sizeof WEATHERS / sizeof WEATHERS[0])];
    for (unsigned station = 0; station < OSPREYSCREEN_STATIONS_MAX; station++) {
        s.lines[station] = draw_line(r, s.weather, n);
    }
    for (unsigned who = 0; who < TASKS; who++) {
        s.tasks[who] = draw_task(r, n);
    }
    s.visits = 2u << rng_below(r, 4);
    s.set_ups = 500u << rng_below(r, 8);
    return s;
}

void season_list(generator *g, uint64_t seed, uint64_t number)
{
    /* Houses of all sizes come in turn. */
    unsigned n = 1 + (unsigned)((seed + 5 * number) % OSPREYSCREEN_STATIONS_MAX);
    g->source = generate_source(~seed, number); /* not that of the random list */
    season s = draw_season(g, n);
    uint64_t length = choose_length(s.r, n, s.m);

    record_table(&g->to, OSPREYSCREEN_TABLE_LENGTH(n, s.m), draw_place(s.r), false);
    record(&s, generate_lay(g, n, s.m));
    while (now(&s) < length && recorder_has_room(&g->to)) {
        if (rng_one_in(s.r, s.visits)) {
            visit(&s);
        } else {
            work(&s, (unsigned)rng_below(s.r, INSTALLER));
        }
    }
}
