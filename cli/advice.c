#include "advice.h"

#include "replies.h"

#include <inttypes.h>
#include <string.h>

/* ---- Calls on a copy of the table ---- */

static bool poll_on(table *t, unsigned station)
{
    return ospreyscreen_poll(t->bytes, t->length, station).first != 0;
}

static void link_on(table *t, unsigned station)
{
    ospreyscreen_link(t->bytes, t->length, station, OSPREYSCREEN_LINK_ON);
}

/* Whether the round is heard once the station is linked, if it is off, and polled. */
static bool heard_with(const table *t, unsigned station)
{
    table trial = *t;
    link_on(&trial, station);
    return poll_on(&trial, station);
}

/* Those of the stations one of which is enough to be heard. */
static unsigned each_heard(const table *t, unsigned stations)
{
    unsigned enough = 0;
    for (unsigned s = 0; s < STATIONS_MAX; s++) {
        if (has_station(stations, s) && heard_with(t, s)) {
            enough |= 1u << s;
        }
    }
    return enough;
}

/* Polls the stations in rising number until the round is heard; gives those that
 * were polled, and whether it is. */
static bool polls_until_heard(table *trial, unsigned stations, unsigned *polls)
{
    for (unsigned s = 0; s < STATIONS_MAX; s++) {
        if (has_station(stations, s)) {
            link_on(trial, s);
            *polls |= 1u << s;
            if (poll_on(trial, s)) {
                return true;
            }
        }
    }
    return false;
}

/* The polls without those that are not needed: of these a station off the bus is
 * left out before one on it, and a higher one before a lower. */
static unsigned needed_polls(const table *t, unsigned polls, unsigned off)
{
    for (int on_bus = 0; on_bus < 2; on_bus++) {
        for (unsigned s = STATIONS_MAX; s-- > 0;) {
            table trial = *t;
            unsigned fewer = 0;
            if (has_station(polls, s) && has_station(off, s) != on_bus &&
                polls_until_heard(&trial, polls & ~(1u << s), &fewer)) {
                polls = fewer;
            }
        }
    }
    return polls;
}

/* ---- A round that is not heard ---- */

/* "1", "one of: 1, 2", or "one more of: 1, 2" if there are some already. */
static void print_one_of(FILE *out, unsigned stations, bool some)
{
    if (count_stations(stations) > 1) {
        fprintf(out, some ? "one more of: " : "one of: ");
    }
    print_stations(out, stations);
}

/* "link 1 on", or "link one of 1, 2 on". */
static void print_link_one(FILE *out, unsigned stations)
{
    fprintf(out, "link %s", count_stations(stations) == 1 ? "" : "one of ");
    print_stations(out, stations);
    fprintf(out, " on");
}

/* "link 1 and 2 on". */
static void print_link_all(FILE *out, unsigned stations)
{
    fprintf(out, "link ");
    print_stations_and(out, stations);
    fprintf(out, " on");
}

/* The stations on the bus do not do: some have to be linked. */
static void print_links_and_polls(FILE *out, const table *t, const head *h)
{
    unsigned unpolled = all_below(h->n) & ~h->polled;
    unsigned enough = each_heard(t, unpolled & h->off);
    unsigned polls = 0;
    table trial = *t;

    if (enough != 0) {
        fprintf(out, "too few stations are on the bus; ");
        print_link_one(out, enough);
        fprintf(out, " and poll it");
        return;
    }
    if (!polls_until_heard(&trial, unpolled & h->on, &polls)) {
        polls_until_heard(&trial, unpolled & h->off, &polls); /* with all of them it is heard */
    }
    polls = needed_polls(t, polls, h->off);
    fprintf(out, "too few stations are on the bus; ");
    print_link_all(out, polls & h->off);
    fprintf(out, ", and poll ");
    print_stations_and(out, polls);
}

static void print_unheard(FILE *out, const table *t, const head *h)
{
    unsigned open = h->on & ~h->polled;
    unsigned polls = 0;
    table trial = *t;

    if (h->polled == 0) {
        fprintf(out, "nothing is polled; ");
    } else {
        fprintf(out, "the polled stations %04X hold no read set; ", h->polled);
    }
    if ((h->data_puts | h->configuration_puts) != 0) {
        fprintf(out, "puts stand, so that none can be polled; abandon");
        return;
    }
    unsigned enough = each_heard(t, open);
    if (enough != 0) {
        fprintf(out, "poll ");
        print_one_of(out, enough, h->polled != 0);
    } else if (polls_until_heard(&trial, open, &polls)) {
        fprintf(out, "poll ");
        print_stations_and(out, needed_polls(t, polls, h->off));
    } else {
        print_links_and_polls(out, t, h);
    }
}

/* ---- A round that is short ---- */

/* What the write sets lack, by place: the stations that have no put yet. */
typedef struct {
    unsigned lacks[PLACES];
    int count;
} lacking;

static bool is_listed(const lacking *l, unsigned lacks)
{
    for (int i = 0; i < l->count; i++) {
        if (l->lacks[i] == lacks) {
            return true;
        }
    }
    return false;
}

/* The sets that lack as few stations as any, of those that lack as few off the
 * bus as any. */
static lacking fewest_lacking(const configuration *c, unsigned puts, unsigned off)
{
    lacking l = {.count = 0};
    int fewest = 2 * STATIONS_MAX * STATIONS_MAX;

    for (int place = 0; place < places_of(c, WRITE_SIDE); place++) {
        unsigned lacks = set_in(c, WRITE_SIDE, place) & ~puts;
        int cost = STATIONS_MAX * count_stations(lacks & off) + count_stations(lacks);
        if (cost < fewest) {
            fewest = cost;
            l.count = 0;
        }
        if (cost == fewest && !is_listed(&l, lacks)) {
            l.lacks[l.count] = lacks;
            l.count++;
        }
    }
    return l;
}

/* What is to be put where, so that the puts hold a write set, if that takes one
 * put more. */
static void print_one_put(FILE *out, const char *sort, const lacking *l, bool some, unsigned off)
{
    unsigned any = 0;

    for (int i = 0; i < l->count; i++) {
        any |= l->lacks[i];
    }
    if ((any & off) != 0) {
        fprintf(out, "too few stations are on the bus; ");
        print_link_one(out, any);
        fprintf(out, " and put %s at it", sort);
    } else {
        fprintf(out, "put %s at ", sort);
        print_one_of(out, any, some);
    }
}

/* The same if it takes several. */
static void print_puts(FILE *out, const char *sort, const lacking *l, unsigned off)
{
    bool links = (l->lacks[0] & off) != 0;

    if (links) {
        fprintf(out, "too few stations are on the bus; ");
    } else {
        fprintf(out, "put %s at ", sort);
    }
    for (int i = 0; i < l->count; i++) {
        unsigned lacks = l->lacks[i];
        fprintf(out, i == 0 ? "" : links ? ", or " : ", or at ");
        if (links) {
            print_link_all(out, lacks & off);
            fprintf(out, ", and put %s at ", sort);
        }
        print_stations_and(out, lacks);
    }
}

/* One sort of puts, which hold no write set. */
static void print_short_of(FILE *out, const char *sort, unsigned puts, const configuration *c,
                           const char *whose, unsigned off)
{
    lacking l = fewest_lacking(c, puts, off);

    if (puts == 0) {
        fprintf(out, "no %s is put, and a write set%s is needed; ", sort, whose);
    } else {
        fprintf(out, "the %s puts %04X hold no write set%s; ", sort, puts, whose);
    }
    if (count_stations(l.lacks[0]) == 1) {
        print_one_put(out, sort, &l, puts != 0, off);
    } else {
        print_puts(out, sort, &l, off);
    }
}

static void print_short(FILE *out, const table *t, const head *h)
{
    findings f = table_findings(t, h);
    bool change = h->round == OSPREYSCREEN_ROUND_CHANGE;
    const configuration *data = change ? &h->target : &f.config.config;
    bool data_short = !holds_set(data, WRITE_SIDE, h->data_puts);

    if (data_short) {
        print_short_of(out, "data", h->data_puts, data, change ? " of the target" : "", h->off);
    }
    if (change && !holds_set(&f.config.config, WRITE_SIDE, h->configuration_puts)) {
        fprintf(out, data_short ? "; " : "");
        print_short_of(out, "configuration", h->configuration_puts, &f.config.config,
                       " of the old configuration", h->off);
        fprintf(out, ", best at every station on the bus");
    }
}

/* ---- The open round ---- */

/* The stations whose copies of the item have the last count that there is. */
static unsigned at_the_last(const table *t, const head *h, bool change)
{
    unsigned last = 0;
    for (unsigned s = 0; s < h->n; s++) {
        copy c = table_copy(t, h->item, s);
        if ((change ? c.generation : c.version) == UINT64_MAX) {
            last |= 1u << s;
        }
    }
    return last;
}

/* A round that polls no copy with the last count, and writes over them. */
static void print_mending(FILE *out, const head *h, unsigned polls, unsigned last, const char *sort)
{
    if ((polls & h->off) != 0) {
        fprintf(out, ", ");
        print_link_all(out, polls & h->off);
    }
    fprintf(out, ", open it again, poll ");
    print_stations_and(out, polls);
    fprintf(out, ", not ");
    print_stations_and(out, last);
    if ((last & h->on) != 0) {
        fprintf(out, ", and put %s at ", sort);
        print_stations_and(out, last & h->on);
        fprintf(out, " too");
    }
}

/* No house counts so far, so that a copy is damaged. */
static void print_spent(FILE *out, const table *t, const head *h)
{
    bool change = h->round == OSPREYSCREEN_ROUND_CHANGE;
    unsigned last = at_the_last(t, h, change);
    unsigned polls = 0;
    table again = *t;

    fprintf(out, "the %s found is the last that there is, %" PRIu64 "; abandon", change ? "generation" : "version",
            UINT64_MAX);
    ospreyscreen_abandon(again.bytes, again.length);
    ospreyscreen_open_read(again.bytes, again.length, h->item);
    table trial = again;
    if (polls_until_heard(&trial, h->on & ~last, &polls) || polls_until_heard(&trial, h->off & ~last, &polls)) {
        print_mending(out, h, needed_polls(&again, polls, h->off), last, change ? "configuration" : "data");
    } else {
        fprintf(out, ": the item can be read, and not %s", change ? "changed" : "written");
    }
}

/* What the round needs before its commit, by the number that commit would get. */
static void print_need(FILE *out, const table *t, const head *h, uint64_t number)
{
    switch (number) {
    case OSPREYSCREEN_UNHEARD:
        print_unheard(out, t, h);
        break;
    case OSPREYSCREEN_SPENT:
        print_spent(out, t, h);
        break;
    case OSPREYSCREEN_SHORT:
        print_short(out, t, h);
        break;
    default:
        fprintf(out, "commit: nothing is missing");
        break;
    }
}

static uint64_t commit_number(const table *t)
{
    return ospreyscreen_diagnose(t->bytes, t->length).first;
}

/* ---- By number ---- */

static void print_refused(FILE *out, const table *t, const call *c, uint64_t number);

/* 2: what there is. */
static void print_range(FILE *out, const table *t, const call *c)
{
    if (c->code == OSPREYSCREEN_LAY) {
        fprintf(out, "n is 1 to %d, and m is 1 to %d", OSPREYSCREEN_STATIONS_MAX, OSPREYSCREEN_ITEMS_MAX);
        return;
    }
    head h = table_head(t);
    bool by_station = c->code == OSPREYSCREEN_POLL || c->code == OSPREYSCREEN_PUT ||
                      c->code == OSPREYSCREEN_LINK;
    if (!by_station) {
        fprintf(out, "items are 0 to %u", h.m - 1);
    } else if (c->numbers[ARGUMENT_STATION] >= h.n) {
        fprintf(out, "stations are 0 to %u", h.n - 1);
    } else if (c->code == OSPREYSCREEN_PUT) {
        fprintf(out, "a put is data (1) or configuration (2)");
    } else {
        fprintf(out, "a link is off (0) or on (1)");
    }
}

/* 4: what is open. */
static void print_busy(FILE *out, const table *t)
{
    head h = table_head(t);
    uint64_t number = commit_number(t);

    fprintf(out, "a %s of item %u is open; commit or abandon it first", ROUND_NAMES[h.round], h.item);
    if (number != OSPREYSCREEN_DONE) {
        fprintf(out, " (a commit would get %" PRIu64 " %s)", number, number_word(number));
    }
}

/* 5: what is to be done first, or nothing. */
static void print_idle(FILE *out, const call *c)
{
    if (c->code == OSPREYSCREEN_ABANDON || c->code == OSPREYSCREEN_DIAGNOSE) {
        fprintf(out, "no round is open: there is nothing to %s", call_of(c->code)->name);
    } else {
        fprintf(out, "no round is open; open read, open write or open change first");
    }
}

/* The stations at which the same call would do something. */
static unsigned other_stations(const table *t, const call *c)
{
    unsigned others = 0;

    for (unsigned s = 0; s < table_head(t).n; s++) {
        table trial = *t;
        call other = *c;
        other.numbers[ARGUMENT_STATION] = s;
        if (call_make(&trial, &other).number == OSPREYSCREEN_DONE &&
            memcmp(trial.bytes, t->bytes, t->length) != 0) {
            others |= 1u << s;
        }
    }
    return others;
}

/* 6: a link, or another station; if neither is enough, what else is wrong. */
static void print_off(FILE *out, const table *t, const call *c)
{
    unsigned station = (unsigned)c->numbers[ARGUMENT_STATION];
    unsigned others = other_stations(t, c);
    table trial = *t;

    link_on(&trial, station);
    uint64_t then = call_make(&trial, c).number;
    if (then != OSPREYSCREEN_DONE) {
        fprintf(out, "on the bus it would get %" PRIu64 " %s; ", then, number_word(then));
        print_refused(out, t, c, then);
        return;
    }
    fprintf(out, "link %u on once it answers", station);
    if (others != 0) {
        fprintf(out, ", or %s another: ", c->code == OSPREYSCREEN_POLL ? "poll" : "put at");
        print_stations(out, others);
    }
}

/* 7: on with the round. */
static void print_over(FILE *out, const table *t)
{
    head h = table_head(t);
    fprintf(out, "puts stand, so that the polls are over; ");
    print_need(out, t, &h, commit_number(t));
}

/* 9: what the round takes. */
static void print_wrong_put(FILE *out, const table *t)
{
    if (table_head(t).round == OSPREYSCREEN_ROUND_READ) {
        fprintf(out, "a read takes no puts; commit");
    } else {
        fprintf(out, "a write takes data puts alone; for other sets abandon it, and open a change");
    }
}

/* Whether the plan is done once the stations are linked. */
static bool plan_with(const table *t, const call *c, unsigned stations)
{
    table trial = *t;
    for (unsigned s = 0; s < STATIONS_MAX; s++) {
        if (has_station(stations, s)) {
            link_on(&trial, s);
        }
    }
    return call_make(&trial, c).number == OSPREYSCREEN_DONE;
}

/* 15: the stations by whose link the plan is done: one of these, or else those
 * that are off, without those that are not needed. */
static void print_out_of_hearing(FILE *out, const table *t, const call *c)
{
    head h = table_head(t);
    unsigned enough = 0;
    unsigned links = h.off;

    for (unsigned s = STATIONS_MAX; s-- > 0;) {
        if (has_station(h.off, s) && plan_with(t, c, 1u << s)) {
            enough |= 1u << s;
        }
        if (plan_with(t, c, links & ~(1u << s))) {
            links &= ~(1u << s);
        }
    }
    if (h.on == 0) {
        fprintf(out, "nobody is on the bus; ");
    } else {
        fprintf(out, "the stations on the bus, %04X, are not heard; ", h.on);
    }
    if (enough != 0) {
        print_link_one(out, enough);
    } else {
        print_link_all(out, links);
    }
}

static void print_refused(FILE *out, const table *t, const call *c, uint64_t number)
{
    switch (number) {
    case OSPREYSCREEN_UNSOUND:
        fprintf(out, "there is no table yet; begin with a lay");
        break;
    case OSPREYSCREEN_NO_SUCH_THING:
        print_range(out, t, c);
        break;
    case OSPREYSCREEN_FALSE_CONFIGURATION:
        print_falsehood(out, &c->config,
                        c->code == OSPREYSCREEN_LAY ? (unsigned)c->numbers[ARGUMENT_N] : table_head(t).n);
        break;
    case OSPREYSCREEN_BUSY:
        print_busy(out, t);
        break;
    case OSPREYSCREEN_IDLE:
        print_idle(out, c);
        break;
    case OSPREYSCREEN_OFF_THE_BUS:
        print_off(out, t, c);
        break;
    case OSPREYSCREEN_READING_OVER:
        print_over(out, t);
        break;
    case OSPREYSCREEN_WRONG_PUT:
        print_wrong_put(out, t);
        break;
    case OSPREYSCREEN_OUT_OF_HEARING:
        print_out_of_hearing(out, t, c);
        break;
    default: {
        head h = table_head(t);
        print_need(out, t, &h, number);
        break;
    }
    }
}

bool has_advice(const call *c, ospreyscreen_reply reply)
{
    return reply.number != OSPREYSCREEN_DONE ||
           (c->code == OSPREYSCREEN_DIAGNOSE && reply.first != OSPREYSCREEN_DONE);
}

void print_advice(FILE *out, const table *t, const call *c, ospreyscreen_reply reply)
{
    print_refused(out, t, c, reply.number != OSPREYSCREEN_DONE ? reply.number : reply.first);
}
