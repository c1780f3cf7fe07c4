#include "tally.h"

#include "bytes.h"
#include "configurations.h"
#include "outlook.h"

#include <inttypes.h>
#include <stdio.h>
#include <string.h>

enum {
    RANDOM = 1 << FORM_RANDOM,
    DIRECTED = 1 << FORM_DIRECTED,
    SEASON = 1 << FORM_SEASON,
    FRAMES = 1 << FORM_FRAMES,
    BY_HAND = RANDOM | DIRECTED, /* where bytes are set by hand */
    LISTS = BY_HAND | SEASON,    /* which trials run */
    ALL = LISTS | FRAMES
};

typedef struct {
    const char *name;
    unsigned forms; /* that should meet it */
} meter_row;

static const meter_row METERS[MET_COUNT] = {
    [MET_REACH_NOTHING] = {"reach 0, nothing", ALL},
    [MET_REACH_READ] = {"reach 1, read", ALL},
    [MET_REACH_READ_AND_WRITE] = {"reach 3, read and write", ALL},
    [MET_VERSION_TIE] = {"commits that found a tie by version, values different", BY_HAND},
    [MET_GENERATION_TIE] = {"calls that found a tie by generation, configurations different", BY_HAND},
    [MET_REACH_TIE] = {"reaches that found a tie by generation, configurations different", BY_HAND},
    [MET_REACH_LEFT] = {"reaches that a newer copy off the bus would give another figure", ALL},
    [MET_REACH_LEFT_BY_HAND] = {"the same on tables changed by hand", BY_HAND},
    [MET_REACH_HELD] = {"reaches held to rounds on copies of the table", LISTS},
    [MET_REACH_PARTS] = {"reaches of 0 where no part of the stations on the bus is heard", LISTS},
    [MET_REACH_SPENT] = {"reaches of 1 or 3 with the version spent", BY_HAND},
    [MET_DIAGNOSE_DONE] = {"diagnoses: commit would get 0, done", ALL},
    [MET_DIAGNOSE_UNHEARD] = {"diagnoses: commit would get 8, unheard", ALL},
    [MET_DIAGNOSE_SPENT] = {"diagnoses: commit would get 10, spent", BY_HAND},
    [MET_DIAGNOSE_SHORT] = {"diagnoses: commit would get 11, short", ALL},
    [MET_DIAGNOSE_APART] = {"diagnoses where version and generation are of two stations", ALL},
    [MET_DIAGNOSE_TIE] = {"diagnoses that found a tie by version, values different", BY_HAND},
    [MET_DIAGNOSE_GONE] = {"diagnoses where the station that gave the version is off", ALL},
    [MET_DIAGNOSE_LATER_SET] = {"diagnoses where a later read set is held too", ALL},
    [MET_DIAGNOSE_HELD] = {"diagnoses held to a commit on a copy of the table", LISTS},
    [MET_DIAGNOSE_BOOK] = {"diagnoses of a heard round whose station has the book's reading", LISTS},
    [MET_PLAN_FEWER_PUTS] = {"plans of fewer puts than polls", ALL},
    [MET_PLAN_MORE_PUTS] = {"plans of more puts than polls", ALL},
    [MET_PLAN_CHANGES] = {"plans where the configuration found changes from poll to poll", ALL},
    [MET_PLAN_PASSES_OFF] = {"plans whose polls pass a station off the bus", ALL},
    [MET_PLAN_IN_ROUND] = {"plans of another item than that of the open round", ALL},
    [MET_PLAN_OF_POLLED] = {"plans of an item whose open round has polled", ALL},
    [MET_PLAN_NOBODY] = {"plans out of hearing, nobody on the bus", ALL},
    [MET_PLAN_UNHEARD] = {"plans out of hearing with stations on the bus", ALL},
    [MET_PLAN_TIE] = {"plans that found a tie by generation, configurations different", BY_HAND},
    [MET_PLAN_LEFT] = {"plans where a copy off the bus has a newer configuration", BY_HAND},
    [MET_PLAN_LOST] = {"plans where some more polls are unheard again", BY_HAND},
    [MET_PLAN_AGAIN] = {"plans where more polls are unheard again, and still more heard", BY_HAND},
    [MET_PLAN_OTHER_PUTS] = {"plans of other puts than if all on the bus were polled", BY_HAND},
    [MET_PLAN_OUT] = {"plans out of hearing held to polls on a copy of the table", LISTS},
    [MET_PLAN_WRITE] = {"plans held to a read and a write on copies of the table", LISTS},
    [MET_PLAN_CHANGE] = {"plans held to a read and a change on copies of the table", LISTS},
    [MET_PLAN_BOOK] = {"planned reads compared with the book, and plans with the reach", LISTS},
    [MET_PLAN_SPENT_VERSION] = {"planned writes with the version spent", BY_HAND},
    [MET_PLAN_SPENT_GENERATION] = {"planned changes with the generation spent", BY_HAND},
    [MET_LAY_RESPELLED] = {"lays that store another spelling than is given", ALL},
    [MET_OPENING_RESPELLED] = {"changes opened that store another spelling than is given", ALL},
    [MET_STANDARD_GIVEN] = {"lays and changes opened with a standard form", ALL},
    [MET_OLD_FOUND] = {"commits that go by an older spelling", BY_HAND},
    [MET_OLD_STORED] = {"commits that store an older spelling", BY_HAND},
    [MET_OLD_PLACE] = {"polls that show another read place than the standard form has", BY_HAND},
    [MET_RESPELLED_CALL] = {"lays and changes opened, held to another spelling", LISTS},
    [MET_RESPELLED_TABLE] = {"calls held to the same on the table in another spelling", LISTS},
    [MET_RESPELLED_PLACE] = {"of these polls and diagnoses with another read place", LISTS},
    [MET_DISJOINT_MOVE] = {"changes to disjoint stations", ALL},
    [MET_MISSING_MOVE] = {"changes where every old write set misses every new read set", ALL},
    [MET_STALE_POLL] = {"polls of a copy older than one polled before", ALL},
    [MET_DROP] = {"drops", ALL},
    [MET_DROP_OF_A_PUT] = {"drops that took back a put", ALL},
    [MET_RETURN] = {"returns", ALL},
    [MET_FIRST_LINK] = {"first links after a lay", ALL},
    [MET_UNLINKED_REACH] = {"reaches with no station linked since the lay", ALL},
    [MET_UNLINKED_POLL] = {"polls refused at a station not linked since the lay", ALL},
    [MET_UNLINKED_PUT] = {"puts refused at a station not linked since the lay", ALL},
    [MET_UNLINKED_COMMIT] = {"rounds finished with a station not linked since the lay", ALL},
    [MET_LATE_POLL] = {"first polls of a station first linked in the same round", ALL},
    [MET_SHORT_WRITE] = {"short writes", ALL},
    [MET_SHORT_DATA] = {"changes short of data puts alone", ALL},
    [MET_SHORT_CONFIGURATION] = {"changes short of configuration puts alone", ALL},
    [MET_SPENT_VERSION] = {"spent in a write", BY_HAND},
    [MET_SPENT_GENERATION] = {"spent in a change", BY_HAND},
    [MET_BOOK] = {"finished rounds compared with the book", LISTS},
    [MET_BYTES] = {"tables changed by hand", BY_HAND},
    [MET_RAISE] = {"counters raised", RANDOM},
    [MET_ODD_CONFIGURATION] = {"configurations not 32 bytes long", BY_HAND | SEASON},
    [MET_FALSE_FRAME] = {"lines that are no frame", FRAMES},
};

static const char *const ROUND_NAMES[ROUND_KINDS] = {"none", "read", "write", "change"};

static const char *const CLAUSES[BROKEN_CLAUSES] = {
    [BROKEN_SHORT] = "shorter than a head",
    [BROKEN_LENGTH] = "length",
    [BROKEN_N_ZERO] = "n is 0",
    [BROKEN_N_HIGH] = "n above 16",
    [BROKEN_M_ZERO] = "m is 0",
    [BROKEN_M_HIGH] = "m above 32",
    [BROKEN_ROUND] = "no such round",
    [BROKEN_ITEM] = "no such item",
    [BROKEN_OFF_STATION] = "off set: no such station",
    [BROKEN_POLLED_STATION] = "polled set: no such station",
    [BROKEN_DATA_STATION] = "data puts: no such station",
    [BROKEN_CONFIGURATION_STATION] = "configuration puts: no such station",
    [BROKEN_DATA_OFF] = "data put off the bus",
    [BROKEN_CONFIGURATION_OFF] = "configuration put off the bus",
    [BROKEN_NONE_ITEM] = "no round, an item",
    [BROKEN_NONE_POLLED] = "no round, a polled set",
    [BROKEN_NONE_DATA] = "no round, data puts",
    [BROKEN_NONE_CONFIGURATION] = "no round, configuration puts",
    [BROKEN_NONE_VALUE] = "no round, a value",
    [BROKEN_NONE_TARGET] = "no round, a target",
    [BROKEN_READ_DATA] = "a read with data puts",
    [BROKEN_READ_CONFIGURATION] = "a read with configuration puts",
    [BROKEN_READ_VALUE] = "a read with a value",
    [BROKEN_READ_TARGET] = "a read with a target",
    [BROKEN_WRITE_CONFIGURATION] = "a write with configuration puts",
    [BROKEN_WRITE_TARGET] = "a write with a target",
    [BROKEN_CHANGE_VALUE] = "a change with a value",
    [BROKEN_TARGET + FALSE_READ_EMPTY] = "target: empty read side",
    [BROKEN_TARGET + FALSE_WRITE_EMPTY] = "target: empty write side",
    [BROKEN_TARGET + FALSE_READ_GAP] = "target: gap on the read side",
    [BROKEN_TARGET + FALSE_WRITE_GAP] = "target: gap on the write side",
    [BROKEN_TARGET + FALSE_READ_STATION] = "target: no such station to read",
    [BROKEN_TARGET + FALSE_WRITE_STATION] = "target: no such station to write",
    [BROKEN_TARGET + FALSE_DISJOINT] = "target: disjoint sets",
    [BROKEN_ZEROS] = "bytes 12 to 15",
    [BROKEN_COPY + FALSE_READ_EMPTY] = "copy: empty read side",
    [BROKEN_COPY + FALSE_WRITE_EMPTY] = "copy: empty write side",
    [BROKEN_COPY + FALSE_READ_GAP] = "copy: gap on the read side",
    [BROKEN_COPY + FALSE_WRITE_GAP] = "copy: gap on the write side",
    [BROKEN_COPY + FALSE_READ_STATION] = "copy: no such station to read",
    [BROKEN_COPY + FALSE_WRITE_STATION] = "copy: no such station to write",
    [BROKEN_COPY + FALSE_DISJOINT] = "copy: disjoint sets",
};

/* ---- Looking ---- */

/* Ties among the polled copies. */
static void look_at_ties(sight *s, const outlook *o, const call *c)
{
    if (o->polled != 0) {
        s->met[MET_GENERATION_TIE] = outlook_tie(o, o->item, o->polled, COUNTER_GENERATION);
        bool tie = outlook_tie(o, o->item, o->polled, COUNTER_VERSION);
        s->met[MET_VERSION_TIE] = c->code == OSPREYSCREEN_COMMIT && tie;
        s->met[MET_DIAGNOSE_TIE] = c->code == OSPREYSCREEN_DIAGNOSE && tie;
    }
}

/* The standard form of a valid configuration of n stations. */
static void standard_form_of(const uint8_t *config, unsigned n, uint8_t standard[CONFIGURATION])
{
    ref_standard_form(n, config, CONFIGURATION, standard, CONFIGURATION);
}

static bool is_standard(const uint8_t *config, unsigned n)
{
    uint8_t standard[CONFIGURATION] = {0};
    standard_form_of(config, n, standard);
    return memcmp(standard, config, CONFIGURATION) == 0;
}

/* What a lay or an opening of a change is given for n stations. */
static void look_at_spelling(sight *s, const call *c, uint64_t n, meter respelled)
{
    bool valid = c->config_len == CONFIGURATION && n >= 1 && n <= OSPREYSCREEN_STATIONS_MAX &&
                 ref_false(c->config, n) == 0;
    bool standard = valid && is_standard(c->config, (unsigned)n);
    s->met[MET_STANDARD_GIVEN] = standard;
    s->met[respelled] = valid && !standard;
}

/* What a commit lacks, and where a change moves the quorums. */
static void look_at_commit(sight *s, const outlook *o)
{
    const uint8_t *found = outlook_configuration(o, o->item, o->polled);
    if (found == NULL) {
        return;
    }
    bool change = o->round == OSPREYSCREEN_ROUND_CHANGE;
    s->lacks_data = !configuration_holds(change ? o->target : found, WRITE_SIDE, o->data_puts);
    s->lacks_configuration =
        change && !configuration_holds(found, WRITE_SIDE, o->configuration_puts);
    s->met[MET_DISJOINT_MOVE] =
        change && (configuration_stations(found) & configuration_stations(o->target)) == 0;
    s->met[MET_MISSING_MOVE] = change && configuration_misses(found, o->target);
    s->met[MET_OLD_FOUND] = !s->covered && !is_standard(found, o->n);
    s->met[MET_OLD_STORED] = !s->covered && change && !is_standard(o->target, o->n);
}

/* A copy that is older than one polled before. */
static bool stale(const outlook *o, const call *c)
{
    uint64_t station = c->numbers[ARGUMENT_STATION];
    if (o->polled == 0 || station >= o->n) {
        return false;
    }
    const uint8_t *newest = outlook_newest(o, o->item, o->polled, COUNTER_VERSION);
    const uint8_t *copy = outlook_copy(o, o->item, (unsigned)station);
    return get_number(copy + COUNTER_VERSION, 8) < get_number(newest + COUNTER_VERSION, 8);
}

/* The set of the call's station; none if the table has no such station. */
static unsigned station_named(const outlook *o, const call *c)
{
    uint64_t station = c->numbers[ARGUMENT_STATION];
    return station < o->n ? 1u << station : 0;
}

/* A copy that is older than one polled before, and a place of an older spelling. */
static void look_at_poll(sight *s, const outlook *o, const call *c)
{
    unsigned polled = o->polled | station_named(o, c);
    const uint8_t *found = outlook_configuration(o, o->item, polled);
    uint8_t standard[CONFIGURATION] = {0};

    s->met[MET_STALE_POLL] = stale(o, c);
    if (!s->covered && found != NULL) {
        standard_form_of(found, o->n, standard);
        s->met[MET_OLD_PLACE] = configuration_read_figure(found, polled) !=
                                configuration_read_figure(standard, polled);
    }
}

static void look_at_link(sight *s, const outlook *o, const call *c)
{
    bool goes_off = c->numbers[ARGUMENT_STATE] == OSPREYSCREEN_LINK_OFF;
    unsigned one = station_named(o, c);

    s->met[MET_DROP] = goes_off && (o->on & one) != 0;
    s->met[MET_DROP_OF_A_PUT] = goes_off && ((o->data_puts | o->configuration_puts) & one) != 0;
    s->met[MET_RETURN] = !goes_off && (o->off & one) != 0;
}

/* Stations not linked since the lay, and those first linked in this round. */
static void look_at_first_links(sight *s, const tally *t, const outlook *o, const call *c)
{
    unsigned one = station_named(o, c);

    s->unlinked = (t->unlinked & one) != 0;
    s->met[MET_FIRST_LINK] = s->met[MET_RETURN] && s->unlinked;
    s->met[MET_RETURN] &= !s->unlinked;
    s->met[MET_UNLINKED_REACH] =
        c->code == OSPREYSCREEN_REACH && t->unlinked == all_stations(o->n);
    s->met[MET_UNLINKED_COMMIT] = c->code == OSPREYSCREEN_COMMIT && t->unlinked != 0;
    s->met[MET_LATE_POLL] = c->code == OSPREYSCREEN_POLL && (t->late & ~o->polled & one) != 0;
}

/* A tie among the stations on the bus, and a newer copy off it that gives
 * another figure. */
static void look_at_reach(sight *s, const outlook *o, const call *c)
{
    uint64_t item = c->numbers[ARGUMENT_ITEM];
    if (item >= o->m) {
        return;
    }
    unsigned i = (unsigned)item;
    bool left = outlook_reach(o, i, o->on) != outlook_reach(o, i, all_stations(o->n));
    s->met[MET_REACH_TIE] = !s->covered && outlook_tie(o, i, o->on, COUNTER_GENERATION);
    s->met[MET_REACH_LEFT] = s->covered && left;
    s->met[MET_REACH_LEFT_BY_HAND] = !s->covered && left;
}

/* Which stations gave version and generation, and how many read sets of the
 * configuration found are held. */
static void look_at_diagnose(sight *s, const outlook *o)
{
    const uint8_t *data = outlook_newest(o, o->item, o->polled, COUNTER_VERSION);
    const uint8_t *found = outlook_newest(o, o->item, o->polled, COUNTER_GENERATION);
    unsigned held = 0;

    if (found == NULL) {
        return;
    }
    for (unsigned place = 0; place < PLACES; place++) {
        unsigned set = configuration_set(found + CONFIGURATION_IN, READ_SIDE + place);
        held += set != 0 && (set & ~o->polled) == 0;
    }
    unsigned station = (unsigned)(data - outlook_copy(o, o->item, 0)) / COPY;
    s->met[MET_DIAGNOSE_APART] = data != found;
    s->met[MET_DIAGNOSE_GONE] = (o->off >> station & 1) != 0;
    s->met[MET_DIAGNOSE_LATER_SET] = held > 1;
}

/* Puts at the stations on the bus, from the lowest on, until they hold a write
 * set of the configuration; 0 if all do not. */
static unsigned puts_for(const outlook *o, const uint8_t *config)
{
    unsigned size = set_size(o->on);
    for (unsigned puts = 1; puts <= size; puts++) {
        if (configuration_holds(config, WRITE_SIDE, lowest_stations(o->on, puts))) {
            return puts;
        }
    }
    return 0;
}

/* What longer starts than the one that is heard first come to. */
static void look_behind_plan(sight *s, const outlook *o, unsigned item, unsigned start)
{
    unsigned size = set_size(o->on);
    for (unsigned count = set_size(start); count <= size; count++) {
        bool heard = outlook_heard(o, item, lowest_stations(o->on, count));
        s->met[MET_PLAN_LOST] |= !heard;
        s->met[MET_PLAN_AGAIN] |= heard && s->met[MET_PLAN_LOST];
    }
}

/* What the start that is heard first has found, and who is off. */
static void look_at_plan(sight *s, const outlook *o, const call *c)
{
    uint64_t asked = c->numbers[ARGUMENT_ITEM];
    unsigned start = asked < o->m ? outlook_heard_start(o, (unsigned)asked) : 0;

    s->nobody = o->on == 0;
    if (start == 0) {
        return;
    }
    unsigned item = (unsigned)asked;
    const uint8_t *found = outlook_configuration(o, item, start);
    const uint8_t *first = outlook_configuration(o, item, lowest_stations(start, 1));
    const uint8_t *last = outlook_configuration(o, item, o->on);
    const uint8_t *with_off = outlook_configuration(o, item, start | o->off);
    bool open = o->round != OSPREYSCREEN_ROUND_NONE;
    s->met[MET_PLAN_CHANGES] = memcmp(found, first, CONFIGURATION) != 0;
    s->met[MET_PLAN_PASSES_OFF] = o->off != 0 && lowest_stations(o->off, 1) < start;
    s->met[MET_PLAN_IN_ROUND] = open && o->item != item;
    s->met[MET_PLAN_OF_POLLED] = open && o->item == item && o->polled != 0;
    s->met[MET_PLAN_TIE] = !s->covered && outlook_tie(o, item, start, COUNTER_GENERATION);
    s->met[MET_PLAN_LEFT] = !s->covered && memcmp(found, with_off, CONFIGURATION) != 0;
    s->met[MET_PLAN_OTHER_PUTS] = !s->covered && puts_for(o, found) != puts_for(o, last);
    if (!s->covered) {
        look_behind_plan(s, o, item, start);
    }
}

sight tally_look(const tally *t, const call *c, const loan *table, bool covered)
{
    sight s = {.covered = covered};
    outlook o;

    s.broken = covered ? 0 : ref_broken(table->bytes, table->len);
    if (c->code == OSPREYSCREEN_LAY) {
        look_at_spelling(&s, c, c->numbers[ARGUMENT_N], MET_LAY_RESPELLED);
    }
    if (!outlook_read(&o, table->bytes, table->len)) {
        return s;
    }
    s.n = o.n;
    s.round = o.round % ROUND_KINDS;
    if (!covered && o.round != OSPREYSCREEN_ROUND_NONE) {
        look_at_ties(&s, &o, c);
    }
    switch (c->code) {
    case OSPREYSCREEN_POLL:
        look_at_poll(&s, &o, c);
        break;
    case OSPREYSCREEN_OPEN_CHANGE:
        look_at_spelling(&s, c, o.n, MET_OPENING_RESPELLED);
        break;
    case OSPREYSCREEN_COMMIT:
        look_at_commit(&s, &o);
        break;
    case OSPREYSCREEN_LINK:
        look_at_link(&s, &o, c);
        break;
    case OSPREYSCREEN_REACH:
        look_at_reach(&s, &o, c);
        break;
    case OSPREYSCREEN_DIAGNOSE:
        look_at_diagnose(&s, &o);
        break;
    case OSPREYSCREEN_PLAN:
        look_at_plan(&s, &o, c);
        break;
    default:
        break;
    }
    if (covered) {
        look_at_first_links(&s, t, &o, c);
    }
    return s;
}

/* ---- Counting ---- */

static void count_diagnose(tally *t, const ospreyscreen_reply *reply)
{
    t->met[MET_DIAGNOSE_DONE] += reply->first == OSPREYSCREEN_DONE;
    t->met[MET_DIAGNOSE_UNHEARD] += reply->first == OSPREYSCREEN_UNHEARD;
    t->met[MET_DIAGNOSE_SPENT] += reply->first == OSPREYSCREEN_SPENT;
    t->met[MET_DIAGNOSE_SHORT] += reply->first == OSPREYSCREEN_SHORT;
    t->stations[reply->second]++;
    t->places[reply->third]++;
}

static void count_plan(tally *t, const ospreyscreen_reply *reply)
{
    t->plan_polls[reply->first]++;
    t->plan_puts[reply->second]++;
    t->met[MET_PLAN_FEWER_PUTS] += reply->second != 0 && reply->second < reply->first;
    t->met[MET_PLAN_MORE_PUTS] += reply->second > reply->first;
}

/* The reply is the reference's too, so that its figures are in range. */
static void count_done(tally *t, const sight *s, const call *c, const ospreyscreen_reply *reply)
{
    for (int m = 0; m < MET_COUNT; m++) {
        t->met[m] += s->met[m];
    }
    if (c->code == OSPREYSCREEN_COMMIT) {
        t->commits[s->round][s->n]++;
    }
    if (c->code == OSPREYSCREEN_POLL) {
        t->polls[reply->first]++;
    }
    if (c->code == OSPREYSCREEN_DIAGNOSE) {
        count_diagnose(t, reply);
    }
    if (c->code == OSPREYSCREEN_PLAN) {
        count_plan(t, reply);
    }
    if (c->code == OSPREYSCREEN_REACH) {
        t->met[MET_REACH_NOTHING] += reply->first == OSPREYSCREEN_REACH_NOTHING;
        t->met[MET_REACH_READ] += reply->first == OSPREYSCREEN_REACH_READ;
        t->met[MET_REACH_READ_AND_WRITE] += reply->first == OSPREYSCREEN_REACH_READ_AND_WRITE;
    }
}

/* Counts a clause that is broken alone. With no items no item is in range. */
static void count_alone(tally *t, uint64_t broken)
{
    if ((broken >> BROKEN_M_ZERO & 1) != 0) {
        broken &= ~(UINT64_C(1) << BROKEN_ITEM);
    }
    for (unsigned clause = 0; clause < BROKEN_CLAUSES; clause++) {
        t->alone[clause] += broken == UINT64_C(1) << clause;
    }
}

static void count_refused(tally *t, const sight *s, const call *c, uint64_t number)
{
    bool write = s->round == OSPREYSCREEN_ROUND_WRITE;
    if (number == OSPREYSCREEN_SHORT) {
        t->met[MET_SHORT_WRITE] += write;
        t->met[MET_SHORT_DATA] += !write && s->lacks_data && !s->lacks_configuration;
        t->met[MET_SHORT_CONFIGURATION] += !write && !s->lacks_data && s->lacks_configuration;
    }
    if (number == OSPREYSCREEN_SPENT) {
        t->met[MET_SPENT_VERSION] += write;
        t->met[MET_SPENT_GENERATION] += !write;
    }
    if (number == OSPREYSCREEN_OFF_THE_BUS) {
        t->met[MET_UNLINKED_POLL] += s->unlinked && c->code == OSPREYSCREEN_POLL;
        t->met[MET_UNLINKED_PUT] += s->unlinked && c->code == OSPREYSCREEN_PUT;
    }
    if (number == OSPREYSCREEN_OUT_OF_HEARING) {
        t->plan_polls[0]++;
        t->met[MET_PLAN_NOBODY] += s->nobody;
        t->met[MET_PLAN_UNHEARD] += !s->nobody;
    }
    if (number == OSPREYSCREEN_UNSOUND && c->code != OSPREYSCREEN_LAY) {
        count_alone(t, s->broken);
    }
}

/* Keeps which stations are not linked since the lay, and which were first
 * linked since the last opening. The call replied 0. */
static void follow_links(tally *t, const sight *s, const call *c)
{
    if (c->code == OSPREYSCREEN_LAY) {
        t->unlinked = all_stations((unsigned)c->numbers[ARGUMENT_N]);
    }
    if (shape_of(c)->opens != OSPREYSCREEN_ROUND_NONE) {
        t->late = 0;
    }
    if (s->met[MET_FIRST_LINK]) {
        unsigned one = 1u << c->numbers[ARGUMENT_STATION];
        t->unlinked &= ~one;
        t->late |= one;
    }
}

void tally_call(tally *t, const sight *s, const call *c, const ospreyscreen_reply *reply)
{
    t->calls++;
    t->replies[c->code][reply->number]++;
    t->met[MET_ODD_CONFIGURATION] += call_has(shape_of(c), ARGUMENT_CONFIGURATION) &&
                                     c->config_len != OSPREYSCREEN_CONFIGURATION_LENGTH;
    if (!s->covered) {
        t->unlinked = 0;
        t->late = 0;
    }
    if (reply->number == OSPREYSCREEN_DONE) {
        count_done(t, s, c, reply);
        follow_links(t, s, c);
    } else {
        count_refused(t, s, c, reply->number);
    }
}

/* ---- The report ---- */

/* Whether the form should meet the number from the call. A season damages
 * nothing and raises no counter; a runner lends a lay what it needs, and its
 * table is unsound only before a lay. */
static bool form_gives(form f, const call_shape *shape, uint64_t number)
{
    bool by_hand = f == FORM_RANDOM || f == FORM_DIRECTED;
    bool lay = shape->code == OSPREYSCREEN_LAY;

    if (!call_can_give(shape, number)) {
        return false;
    }
    switch (number) {
    case OSPREYSCREEN_UNSOUND:
        return by_hand || lay == (f == FORM_SEASON);
    case OSPREYSCREEN_SPENT:
        return by_hand;
    default:
        return true;
    }
}

static bool form_meets(form f, int m)
{
    return (METERS[m].forms >> f & 1) != 0;
}

/* A row for each number that a call gives, a column for each call. */
static void print_replies(FILE *to, const tally *t, form f)
{
    fprintf(to, "%-8s%11s", "number", "replies");
    for (int i = 0; i < CALL_COUNT; i++) {
        fprintf(to, "%13s", CALLS[i].name);
    }
    for (uint64_t number = 0; number < REPLY_NUMBERS; number++) {
        uint64_t all = 0;
        bool given = false;
        for (int i = 0; i < CALL_COUNT; i++) {
            all += t->replies[CALLS[i].code][number];
            given |= call_can_give(&CALLS[i], number);
        }
        if (!given) {
            continue;
        }
        fprintf(to, "\n%-8" PRIu64 "%11" PRIu64, number, all);
        for (int i = 0; i < CALL_COUNT; i++) {
            if (form_gives(f, &CALLS[i], number)) {
                fprintf(to, "%13" PRIu64, t->replies[CALLS[i].code][number]);
            } else {
                fprintf(to, "%13s", "-");
            }
        }
    }
    fprintf(to, "\n");
}

static void print_commits(FILE *to, const tally *t)
{
    fprintf(to, "finished rounds by n, 1 to %d\n", OSPREYSCREEN_STATIONS_MAX);
    for (int kind = 1; kind < ROUND_KINDS; kind++) {
        fprintf(to, "%8s", ROUND_NAMES[kind]);
        for (int n = 1; n < STATION_COUNTS; n++) {
            fprintf(to, " %" PRIu64, t->commits[kind][n]);
        }
        fprintf(to, "\n");
    }
}

/* Replies by a figure that is one plus a station or a place, or a number of
 * stations; or 0. */
typedef struct {
    const char *name;
    unsigned forms; /* that should meet every figure */
    const uint64_t *replies;
    int count;
} by_figure;

enum { BY_FIGURE = 5 };

static void by_figures(const tally *t, by_figure rows[BY_FIGURE])
{
    rows[0] = (by_figure){"polls by read place", ALL, t->polls, PLACE_COUNTS};
    rows[1] = (by_figure){"diagnoses by read place", ALL, t->places, PLACE_COUNTS};
    rows[2] = (by_figure){"diagnoses by station", LISTS, t->stations, STATION_COUNTS};
    rows[3] = (by_figure){"plans by polls", DIRECTED | SEASON, t->plan_polls, STATION_COUNTS};
    rows[4] = (by_figure){"plans by puts", DIRECTED | SEASON, t->plan_puts, STATION_COUNTS};
}

static void print_figures(FILE *to, const tally *t)
{
    by_figure rows[BY_FIGURE];

    by_figures(t, rows);
    for (int i = 0; i < BY_FIGURE; i++) {
        fprintf(to, "%s, none first:", rows[i].name);
        for (int figure = 0; figure < rows[i].count; figure++) {
            fprintf(to, " %" PRIu64, rows[i].replies[figure]);
        }
        fprintf(to, "\n");
    }
}

void tally_print(FILE *to, const tally *t, form f)
{
    fprintf(to, "calls %" PRIu64 " in %" PRIu64 " lists\n", t->calls, t->lists);
    print_replies(to, t, f);
    print_commits(to, t);
    print_figures(to, t);
    for (int m = 0; m < MET_COUNT; m++) {
        if (form_meets(f, m)) {
            fprintf(to, "%9" PRIu64 "  %s\n", t->met[m], METERS[m].name);
        }
    }
    if ((BY_HAND >> f & 1) == 0) {
        return;
    }
    fprintf(to, "calls on a table that breaks one clause of soundness alone\n");
    for (int clause = 0; clause < BROKEN_CLAUSES; clause++) {
        fprintf(to, "%9" PRIu64 "  %s\n", t->alone[clause], CLAUSES[clause]);
    }
}

/* Tells of one thing that was to be met, if it was not. */
static bool met(FILE *to, uint64_t times, const char *kind, const char *what)
{
    if (times == 0) {
        fprintf(to, "not met: %s%s\n", kind, what);
    }
    return times != 0;
}

static bool met_numbers(FILE *to, const tally *t, form f)
{
    bool all = true;
    for (int i = 0; i < CALL_COUNT; i++) {
        for (uint64_t number = 0; number < REPLY_NUMBERS; number++) {
            if (form_gives(f, &CALLS[i], number)) {
                char kind[32];
                snprintf(kind, sizeof kind, "number %" PRIu64 " from ", number);
                all &= met(to, t->replies[CALLS[i].code][number], kind, CALLS[i].name);
            }
        }
    }
    return all;
}

static bool met_commits(FILE *to, const tally *t)
{
    bool all = true;
    for (int kind = 1; kind < ROUND_KINDS; kind++) {
        for (int n = 1; n < STATION_COUNTS; n++) {
            char stations[32];
            snprintf(stations, sizeof stations, " with n = %d finished", n);
            all &= met(to, t->commits[kind][n], ROUND_NAMES[kind], stations);
        }
    }
    return all;
}

static bool met_figures(FILE *to, const tally *t, form f)
{
    bool all = true;
    by_figure rows[BY_FIGURE];

    by_figures(t, rows);
    for (int i = 0; i < BY_FIGURE; i++) {
        for (int figure = 0; figure < rows[i].count && (rows[i].forms >> f & 1) != 0; figure++) {
            char which[32];
            snprintf(which, sizeof which, ": figure %d", figure);
            all &= met(to, rows[i].replies[figure], rows[i].name, which);
        }
    }
    return all;
}

bool tally_met_all(FILE *to, const tally *t, form f)
{
    bool all = met_numbers(to, t, f);
    all &= met_commits(to, t);
    all &= met_figures(to, t, f);
    for (int m = 0; m < MET_COUNT; m++) {
        all &= !form_meets(f, m) || met(to, t->met[m], "", METERS[m].name);
    }
    for (int clause = 0; clause < BROKEN_CLAUSES && (BY_HAND >> f & 1) != 0; clause++) {
        all &= met(to, t->alone[clause], "broken alone: ", CLAUSES[clause]);
    }
    return all;
}
