/*
 * A season of one house: five stations, four items. The laid table has nobody
 * on the bus; the installers wire three stations on the first day and two
 * later. Stations drop and return with old copies, also in the middle of a
 * round. The configuration of every item is changed twice while readings go
 * on; the second change retires station 4. Every finished round is compared
 * with a plain record that this program keeps for itself.
 *
 * The parts to copy are wire, which links the stations, advice_on, which has a
 * branch for every number that a call can give, print_plan, which says what a
 * round will take, run_round, which brings a round to its end, print_diagnosis,
 * which says what held it up if it has to be given up, and retire, which asks
 * for reach before a station goes for good.
 */
#include "ospreyscreen.h"

#include <inttypes.h>
#include <stdbool.h>
#include <stdio.h>
#include <stdlib.h>

enum { STATIONS = 5, ITEMS = 4, DAYS = 200, PHASES = 3, ATTEMPTS = 3, START = 500 };
enum { INTERRUPTED_DAY = 30, REGROUP_DAY = 60, RETIRE_DAY = 120, RETIRED = 4 };

static uint8_t table[OSPREYSCREEN_TABLE_LENGTH(STATIONS, ITEMS)];

/* ---- Configurations ---- */

/* A configuration as sets: bit i is station i, unused places are zero. */
typedef struct {
    uint16_t read[OSPREYSCREEN_SETS_PER_SIDE];
    uint16_t write[OSPREYSCREEN_SETS_PER_SIDE];
} configuration;

/* docs/GUIDE.md has these three and what each survives. */
static const configuration phases[PHASES] = {
    /* Station 0 counts twice: three votes of six read, four write. */
    {{0x0003, 0x0005, 0x0009, 0x000E, 0x0011, 0x0016, 0x001A, 0x001C},
     {0x0007, 0x000B, 0x000D, 0x0013, 0x0015, 0x0019, 0x001E}},
    /* Eight of the ten sets of three. */
    {{0x0007, 0x000B, 0x000D, 0x000E, 0x0013, 0x0015, 0x001A, 0x001C},
     {0x0007, 0x000B, 0x000D, 0x000E, 0x0013, 0x0015, 0x001A, 0x001C}},
    /* Station 4 is in no set: two of four read, three write. */
    {{0x0003, 0x0005, 0x0006, 0x0009, 0x000A, 0x000C}, {0x0007, 0x000B, 0x000D, 0x000E}},
};

/* The 32 bytes of the sets, each low byte first. */
static void to_bytes(const configuration *from, uint8_t to[OSPREYSCREEN_CONFIGURATION_LENGTH])
{
    for (size_t i = 0; i < OSPREYSCREEN_SETS_PER_SIDE; i++) {
        uint8_t *read = to + 2 * i;
        uint8_t *write = read + 2 * OSPREYSCREEN_SETS_PER_SIDE;
        read[0] = (uint8_t)(from->read[i] & 0xFF);
        read[1] = (uint8_t)(from->read[i] >> 8);
        write[0] = (uint8_t)(from->write[i] & 0xFF);
        write[1] = (uint8_t)(from->write[i] >> 8);
    }
}

/* ---- Refusals ---- */

/* What to do after a reply. */
typedef enum {
    GO_ON,         /* the call was done */
    TRY_ANOTHER,   /* this station is off: take another one */
    STOP_POLLING,  /* puts stand, so the round is heard: no poll is needed */
    POLL_MORE,     /* no read set has been polled yet */
    PUT_MORE,      /* the puts hold no write set */
    CLOSE_FIRST,   /* commit or abandon the round that is open, then open again */
    OPEN_FIRST,    /* there is no round: open one */
    READ_ONLY,     /* the item's counter is at its end: it can be read only */
    WAIT,          /* a round could not be heard now: open none until a station comes on */
    RESTORE,       /* the table was damaged: bring back a saved one, or lay anew */
    MEND_PROGRAM   /* a wrong argument or a call in the wrong round */
} advice;

static unsigned long seen[OSPREYSCREEN_OUT_OF_HEARING + 1];

/* The branch of each number. Which call can give which is in the header. */
static advice advice_on(ospreyscreen_reply reply)
{
    if (reply.number <= OSPREYSCREEN_OUT_OF_HEARING) {
        seen[reply.number]++;
    }
    switch (reply.number) {
    case OSPREYSCREEN_DONE:
        return GO_ON;
    case OSPREYSCREEN_UNSOUND:
        return RESTORE;
    case OSPREYSCREEN_NO_SUCH_THING:
        return MEND_PROGRAM;
    case OSPREYSCREEN_FALSE_CONFIGURATION:
        return MEND_PROGRAM;
    case OSPREYSCREEN_BUSY:
        return CLOSE_FIRST;
    case OSPREYSCREEN_IDLE:
        return OPEN_FIRST;
    case OSPREYSCREEN_OFF_THE_BUS:
        return TRY_ANOTHER;
    case OSPREYSCREEN_READING_OVER:
        return STOP_POLLING;
    case OSPREYSCREEN_UNHEARD:
        return POLL_MORE;
    case OSPREYSCREEN_WRONG_PUT:
        return MEND_PROGRAM;
    case OSPREYSCREEN_SPENT:
        return READ_ONLY;
    case OSPREYSCREEN_SHORT:
        return PUT_MORE;
    case OSPREYSCREEN_OUT_OF_HEARING:
        return WAIT;
    default: /* 12 comes from the frame runner alone, 13 and 14 from votes */
        return MEND_PROGRAM;
    }
}

/* Ends the program where firmware would restore a table or raise an alarm. */
static void fail(const char *call, ospreyscreen_reply reply)
{
    fprintf(stderr, "%s: refused, %" PRIu64 "\n", call, reply.number);
    exit(EXIT_FAILURE);
}

/* For calls that only a damaged table or a wrong program has refused. */
static ospreyscreen_reply must(const char *call, ospreyscreen_reply reply)
{
    if (advice_on(reply) != GO_ON) {
        fail(call, reply);
    }
    return reply;
}

/* ---- The bus ---- */

/* The day on which the installers wire each station; they go from 0 up. */
static const int wiring_day[STATIONS] = {1, 1, 1, 3, 5};
static uint64_t wired; /* stations below it are in use */
static uint32_t weather = 1;

/* A number below the sides given, the same in every run. */
static uint32_t roll(uint32_t sides)
{
    weather = weather * 1664525u + 1013904223u;
    return (weather >> 16) % sides;
}

static void link_station(uint64_t station, uint64_t state)
{
    must("link", ospreyscreen_link(table, sizeof table, station, state));
}

static uint64_t reach_of(uint64_t item)
{
    return must("reach", ospreyscreen_reach(table, sizeof table, item)).first;
}

/* What a round on the item will take if it goes by the stations on the bus from
 * the lowest up, as the rounds below do. With 0 puts no write can finish. */
static void print_plan(uint64_t item)
{
    ospreyscreen_reply reply = ospreyscreen_plan(table, sizeof table, item);

    switch (advice_on(reply)) {
    case GO_ON:
        printf("polls %" PRIu64 ", puts %" PRIu64 "\n", reply.first, reply.second);
        break;
    case WAIT:
        printf("out of hearing\n");
        break;
    default:
        fail("plan", reply);
    }
}

/* Links the stations that are wired on the day. Until its link a station is
 * off the bus; one that is linked late has old copies, like one that returns. */
static void wire(int day)
{
    for (uint64_t s = 0; s < STATIONS; s++) {
        if (wiring_day[s] == day) {
            link_station(s, OSPREYSCREEN_LINK_ON);
            wired = s + 1;
            printf("day %d, station %" PRIu64 " linked: reach %" PRIu64 ", ", day, s, reach_of(0));
            print_plan(0);
        }
    }
}

/* Overnight some stations drop, and some of those that were off return. */
static void night(void)
{
    for (uint64_t s = 0; s < wired; s++) {
        if (roll(6) == 0) {
            link_station(s, OSPREYSCREEN_LINK_OFF);
        } else if (roll(2) == 0) {
            link_station(s, OSPREYSCREEN_LINK_ON);
        }
    }
}

/* Now and then a station drops between the puts and the commit. */
static void gust(void)
{
    if (roll(4) == 0) {
        link_station(roll((uint32_t)wired), OSPREYSCREEN_LINK_OFF);
    }
}

/* ---- Rounds ---- */

/* A round to be run; value is for a write, target for a change. */
typedef struct {
    enum ospreyscreen_round kind;
    uint64_t item;
    uint64_t value;
    const configuration *target;
} job;

static ospreyscreen_reply open_once(const job *j)
{
    uint8_t target[OSPREYSCREEN_CONFIGURATION_LENGTH];

    switch (j->kind) {
    case OSPREYSCREEN_ROUND_WRITE:
        return ospreyscreen_open_write(table, sizeof table, j->item, j->value);
    case OSPREYSCREEN_ROUND_CHANGE:
        to_bytes(j->target, target);
        return ospreyscreen_open_change(table, sizeof table, j->item, target, sizeof target);
    default:
        return ospreyscreen_open_read(table, sizeof table, j->item);
    }
}

/* Opens the round; one that somebody left open is given up first. */
static void open_round(const job *j)
{
    ospreyscreen_reply reply = open_once(j);

    switch (advice_on(reply)) {
    case GO_ON:
        return;
    case CLOSE_FIRST:
        must("abandon", ospreyscreen_abandon(table, sizeof table));
        must("open", open_once(j));
        return;
    default:
        fail("open", reply);
    }
}

/* Polls from station 0 on until the round is heard; tells whether it is. */
static bool hear(void)
{
    for (uint64_t s = 0; s < wired; s++) {
        ospreyscreen_reply reply = ospreyscreen_poll(table, sizeof table, s);
        switch (advice_on(reply)) {
        case GO_ON:
            if (reply.first != 0) { /* one plus the read place held */
                return true;
            }
            break;
        case TRY_ANOTHER:
            break;
        case STOP_POLLING:
            return true;
        default:
            fail("poll", reply);
        }
    }
    return false;
}

/* Puts at every station on the bus, so that as many copies as possible are
 * new. Tells whether the item can still be written (number 10: it cannot). */
static bool put_everywhere(uint64_t sort)
{
    for (uint64_t s = 0; s < wired; s++) {
        ospreyscreen_reply reply = ospreyscreen_put(table, sizeof table, s, sort);
        switch (advice_on(reply)) {
        case GO_ON:
        case TRY_ANOTHER:
            break;
        case READ_ONLY:
            return false;
        default:
            fail("put", reply);
        }
    }
    return true;
}

/* A change also puts the new configuration wherever it puts the data: a
 * later round finds it only at copies that have it. */
static bool put_for(enum ospreyscreen_round kind)
{
    switch (kind) {
    case OSPREYSCREEN_ROUND_WRITE:
        return put_everywhere(OSPREYSCREEN_PUT_DATA);
    case OSPREYSCREEN_ROUND_CHANGE:
        return put_everywhere(OSPREYSCREEN_PUT_DATA) &&
               put_everywhere(OSPREYSCREEN_PUT_CONFIGURATION);
    default:
        return true;
    }
}

/* Runs the round and tells whether it was finished, with its figures. A
 * station that drops takes its put along, so a short round is tried again;
 * one that gets nowhere is abandoned, and no copy has changed. The figures are
 * then those of a diagnose: what held the round up at last. */
static bool run_round(const job *j, ospreyscreen_reply *figures)
{
    open_round(j);
    for (int attempt = 0; attempt < ATTEMPTS && hear() && put_for(j->kind); attempt++) {
        gust();
        *figures = ospreyscreen_commit(table, sizeof table);
        advice next = advice_on(*figures);
        if (next == GO_ON) {
            return true;
        }
        if (next == READ_ONLY) {
            break;
        }
        if (next != POLL_MORE && next != PUT_MORE) {
            fail("commit", *figures);
        }
        night(); /* time goes by, and stations may return */
    }
    *figures = must("diagnose", ospreyscreen_diagnose(table, sizeof table));
    must("abandon", ospreyscreen_abandon(table, sizeof table));
    return false;
}

/* The word of a number that commit gives on an open round: one of these four. */
static const char *word_of(uint64_t number)
{
    switch (number) {
    case OSPREYSCREEN_DONE:
        return "done";
    case OSPREYSCREEN_UNHEARD:
        return "unheard";
    case OSPREYSCREEN_SPENT:
        return "spent";
    default: /* OSPREYSCREEN_SHORT */
        return "short";
    }
}

/* A diagnose in words, for the fitter. Figures of stations and read places are
 * one more than their numbers, and 0 for none. */
static void print_diagnosis(ospreyscreen_reply d)
{
    printf("commit would get %" PRIu64 " %s; ", d.first, word_of(d.first));
    if (d.second != 0) {
        printf("version from station %" PRIu64 "; ", d.second - 1);
    } else {
        printf("nothing polled; ");
    }
    if (d.third != 0) {
        printf("read place %" PRIu64 " held\n", d.third - 1);
    } else {
        printf("no read place held\n");
    }
}

/* ---- The record ---- */

/* What a single copy of each item would hold. */
typedef struct {
    uint64_t value;
    uint64_t version;
    uint64_t generation;
} entry;

static entry record[ITEMS];
static unsigned long finished[OSPREYSCREEN_ROUND_CHANGE + 1];
static unsigned long given_up[OSPREYSCREEN_ROUND_CHANGE + 1];
static unsigned long held_up_by[OSPREYSCREEN_SHORT + 1];

/* Every finished round has to show what the record has. */
static void check(uint64_t item, ospreyscreen_reply figures)
{
    const entry *e = &record[item];

    if (figures.first != e->value || figures.second != e->version ||
        figures.third != e->generation) {
        fprintf(stderr, "item %" PRIu64 " does not agree with the record\n", item);
        exit(EXIT_FAILURE);
    }
}

/* Runs the round and keeps the record beside it. */
static bool run_and_check(const job *j)
{
    ospreyscreen_reply figures;

    if (!run_round(j, &figures)) {
        given_up[j->kind]++;
        held_up_by[figures.first]++;
        if (j->kind == OSPREYSCREEN_ROUND_CHANGE) {
            printf("change of item %" PRIu64 " given up: ", j->item);
            print_diagnosis(figures);
        }
        return false;
    }
    finished[j->kind]++;
    if (j->kind == OSPREYSCREEN_ROUND_WRITE) {
        record[j->item].value = j->value;
        record[j->item].version++;
    } else if (j->kind == OSPREYSCREEN_ROUND_CHANGE) {
        record[j->item].generation++;
    }
    check(j->item, figures);
    return true;
}

/* ---- The season ---- */

/* Lays the table: the one call that needs no sound table. Nobody is on the bus
 * after it. */
static void lay_house(void)
{
    uint8_t first[OSPREYSCREEN_CONFIGURATION_LENGTH];

    to_bytes(&phases[0], first);
    must("lay", ospreyscreen_lay(table, sizeof table, STATIONS, ITEMS, START, first, sizeof first));
    for (size_t i = 0; i < ITEMS; i++) {
        record[i].value = START;
    }
    printf("laid: reach %" PRIu64 ", ", reach_of(0));
    print_plan(0);
}

/* The phase that the items are to be in on the day. */
static unsigned phase_of_day(int day)
{
    return day < REGROUP_DAY ? 0 : day < RETIRE_DAY ? 1 : 2;
}

/* A change that could not be finished is tried again the next day. Tells
 * whether every item has come to the phase. */
static bool change_towards(unsigned phase)
{
    static unsigned phase_of[ITEMS];
    bool all = true;

    for (uint64_t item = 0; item < ITEMS; item++) {
        if (phase_of[item] < phase) {
            job j = {OSPREYSCREEN_ROUND_CHANGE, item, 0, &phases[phase_of[item] + 1]};
            if (run_and_check(&j)) {
                phase_of[item]++;
            }
        }
        all = all && phase_of[item] == phase;
    }
    return all;
}

/* Whether the stations on the bus can read and write every item. */
static bool all_in_reach(void)
{
    for (uint64_t item = 0; item < ITEMS; item++) {
        if (reach_of(item) != OSPREYSCREEN_REACH_READ_AND_WRITE) {
            return false;
        }
    }
    return true;
}

/* No item has the station in a set any more. It goes off, and for good if the
 * others do without it: reach judges by what they know. Else it may return, as
 * after a drop, and is tried again the next day. */
static void retire(int day)
{
    link_station(RETIRED, OSPREYSCREEN_LINK_OFF);
    if (all_in_reach()) {
        wired = RETIRED;
        printf("day %d, station %d retired: reach 3 for every item\n", day, RETIRED);
    }
}

static void write_and_read(int day)
{
    for (uint64_t item = 0; item < ITEMS; item++) {
        job write = {OSPREYSCREEN_ROUND_WRITE, item, 1000 * item + (uint64_t)day, NULL};
        job read = {OSPREYSCREEN_ROUND_READ, item, 0, NULL};
        run_and_check(&write);
        night();
        run_and_check(&read);
    }
}

/* A reader is interrupted and leaves its round open. */
static void leave_a_round_open(void)
{
    must("open", ospreyscreen_open_read(table, sizeof table, 0));
}

static void run_season(void)
{
    for (int day = 1; day <= DAYS; day++) {
        wire(day);
        night();
        if (day == INTERRUPTED_DAY) {
            leave_a_round_open();
        }
        if (change_towards(phase_of_day(day)) && day >= RETIRE_DAY && wired > RETIRED) {
            retire(day);
        }
        write_and_read(day);
    }
}

/* ---- What came of it ---- */

static void print_rounds(const char *name, enum ospreyscreen_round kind)
{
    printf("%s: %lu finished, %lu given up\n", name, finished[kind], given_up[kind]);
}

static void print_summary(void)
{
    print_rounds("reads", OSPREYSCREEN_ROUND_READ);
    print_rounds("writes", OSPREYSCREEN_ROUND_WRITE);
    print_rounds("changes", OSPREYSCREEN_ROUND_CHANGE);
    for (uint64_t number = OSPREYSCREEN_DONE; number <= OSPREYSCREEN_SHORT; number++) {
        if (held_up_by[number] != 0) {
            printf("given up as %s: %lu\n", word_of(number), held_up_by[number]);
        }
    }
    for (int number = OSPREYSCREEN_UNSOUND; number <= OSPREYSCREEN_OUT_OF_HEARING; number++) {
        if (seen[number] != 0) {
            printf("refused with %d: %lu\n", number, seen[number]);
        }
    }
    for (uint64_t s = 0; s < wired; s++) {
        link_station(s, OSPREYSCREEN_LINK_ON);
    }
    for (uint64_t item = 0; item < ITEMS; item++) {
        printf("item %" PRIu64 ": value %" PRIu64 ", version %" PRIu64 ", generation %" PRIu64
               ", reach %" PRIu64 ", ",
               item, record[item].value, record[item].version, record[item].generation,
               reach_of(item));
        print_plan(item);
    }
}

int main(void)
{
    lay_house();
    run_season();
    print_summary();
    return EXIT_SUCCESS;
}
