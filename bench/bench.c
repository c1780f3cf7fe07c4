/*
 * Times the library beside the optimised C in one run.
 *
 *   bench [--samples N]             a Markdown table: calls, whole rounds,
 *                                   refusals, votes and standard forms; behind
 *                                   it the highest ratios
 *   bench --growth [--samples N]    a CSV table: cost against the number of copies
 *
 * A sample is the mean time of a batch of runs. Batches of the two
 * implementations take turns on the same table, which is set back before each
 * batch; the minimum and the median of the samples are given. Where a run
 * changes what the next one would do, it first copies the head, or the head
 * and the item's copies, from a saved table; that is in the time of both.
 */
#include "calls.h"
#include "configurations.h"
#include "form_rows.h"
#include "optimised.h"
#include "options.h"
#include "times.h"
#include "votes_rows.h"

#include <stdio.h>
#include <stdlib.h>
#include <string.h>

static const implementation LIBRARY = IMPLEMENTATION("library", ospreyscreen_);
static const implementation OPTIMISED = IMPLEMENTATION("optimised", opt_);

static const double WARM_UP_NS = 3e8;

/* What configurations a table's copies have: majorities, so many a side. */
typedef enum { ALIKE, BY_ITEM, BY_COPY } variety;

typedef struct {
    const char *name;
    variety differ; /* which neighbours have different ones */
    unsigned sets;
} kind;

static const kind KINDS[] = {
    {"alike", ALIKE, 8},
    {"by item", BY_ITEM, 8},
    {"different, 8 sets", BY_COPY, 8},
    {"different, 3 sets", BY_COPY, 3},
};
enum { KIND_COUNT = sizeof KINDS / sizeof KINDS[0] };

struct row;

/* A table and what is to be done on item 0 of it. */
typedef struct {
    const kind *kind;
    const struct row *row;
    unsigned n;
    unsigned m;
    size_t len;
    unsigned quorum;  /* stations below it: the first set of both sides */
    size_t set_back;  /* bytes that a run copies from the saved table first */
    uint8_t config[OSPREYSCREEN_CONFIGURATION_LENGTH];
    uint8_t table[OSPREYSCREEN_TABLE_LENGTH_MAX];
    uint8_t saved[OSPREYSCREEN_TABLE_LENGTH_MAX];
} scene;

/* One run; gives the numbers of its calls, joined by or. */
typedef uint64_t run_function(scene *s);
typedef uint64_t run_with_function(const implementation *with, scene *s);

/* How much of the table a run sets back. */
typedef enum { NOTHING, HEAD, HEAD_AND_ITEM } extent;

typedef struct row {
    const char *name;
    run_with_function *prepare; /* brings the table to where the run starts */
    run_function *run[SIDES];
    extent set_back;
    uint64_t number; /* what every run gives */
} row;

/* ---- Runs ---- */

FOR_EACH_SIDE uint64_t nothing(const implementation *with, scene *s)
{
    (void)with;
    (void)s;
    return 0;
}

FOR_EACH_SIDE uint64_t lay(const implementation *with, scene *s)
{
    return with->lay(s->table, s->len, s->n, s->m, 500, s->config, sizeof s->config).number;
}

FOR_EACH_SIDE uint64_t open_read(const implementation *with, scene *s)
{
    return with->open_read(s->table, s->len, 0).number;
}

FOR_EACH_SIDE uint64_t open_write(const implementation *with, scene *s)
{
    return with->open_write(s->table, s->len, 0, 510).number;
}

FOR_EACH_SIDE uint64_t open_change(const implementation *with, scene *s)
{
    return with->open_change(s->table, s->len, 0, s->config, sizeof s->config).number;
}

FOR_EACH_SIDE uint64_t poll_last(const implementation *with, scene *s)
{
    return with->poll(s->table, s->len, s->quorum - 1).number;
}

FOR_EACH_SIDE uint64_t put_last(const implementation *with, scene *s)
{
    return with->put(s->table, s->len, s->quorum - 1, OSPREYSCREEN_PUT_DATA).number;
}

FOR_EACH_SIDE uint64_t commit(const implementation *with, scene *s)
{
    return with->commit(s->table, s->len).number;
}

FOR_EACH_SIDE uint64_t abandon(const implementation *with, scene *s)
{
    return with->abandon(s->table, s->len).number;
}

FOR_EACH_SIDE uint64_t link_last(const implementation *with, scene *s)
{
    return with->link(s->table, s->len, s->n - 1, OSPREYSCREEN_LINK_ON).number;
}

/* Its number is 0 with nobody on the bus too; so the figure has to be 3. */
FOR_EACH_SIDE uint64_t reach(const implementation *with, scene *s)
{
    ospreyscreen_reply reply = with->reach(s->table, s->len, 0);
    return reply.number | (reply.first ^ OSPREYSCREEN_REACH_READ_AND_WRITE);
}

/* Its number is 0 whatever commit would get; so that is joined to it. */
FOR_EACH_SIDE uint64_t diagnose(const implementation *with, scene *s)
{
    ospreyscreen_reply reply = with->diagnose(s->table, s->len);
    return reply.number | reply.first;
}

FOR_EACH_SIDE uint64_t plan(const implementation *with, scene *s)
{
    return with->plan(s->table, s->len, 0).number;
}

FOR_EACH_SIDE uint64_t links(const implementation *with, scene *s)
{
    uint64_t numbers = 0;
    for (unsigned station = 0; station < s->n; station++) {
        numbers |= with->link(s->table, s->len, station, OSPREYSCREEN_LINK_ON).number;
    }
    return numbers;
}

/* The stations from this one on go off the bus. */
FOR_EACH_SIDE uint64_t drops_from(const implementation *with, scene *s, unsigned station)
{
    uint64_t numbers = 0;
    for (; station < s->n; station++) {
        numbers |= with->link(s->table, s->len, station, OSPREYSCREEN_LINK_OFF).number;
    }
    return numbers;
}

/* The stations of the first sets stay on the bus, or all of them but one. */
FOR_EACH_SIDE uint64_t drops(const implementation *with, scene *s)
{
    return drops_from(with, s, s->quorum);
}

FOR_EACH_SIDE uint64_t drops_and_one_more(const implementation *with, scene *s)
{
    return drops_from(with, s, s->quorum - 1);
}

FOR_EACH_SIDE uint64_t polls(const implementation *with, scene *s)
{
    uint64_t numbers = 0;
    for (unsigned station = 0; station < s->quorum; station++) {
        numbers |= with->poll(s->table, s->len, station).number;
    }
    return numbers;
}

FOR_EACH_SIDE uint64_t puts_of(const implementation *with, scene *s, uint64_t sort)
{
    uint64_t numbers = 0;
    for (unsigned station = 0; station < s->quorum; station++) {
        numbers |= with->put(s->table, s->len, station, sort).number;
    }
    return numbers;
}

FOR_EACH_SIDE uint64_t read_to_commit(const implementation *with, scene *s)
{
    return open_read(with, s) | polls(with, s);
}

FOR_EACH_SIDE uint64_t write_to_puts(const implementation *with, scene *s)
{
    return open_write(with, s) | polls(with, s);
}

FOR_EACH_SIDE uint64_t write_to_commit(const implementation *with, scene *s)
{
    return write_to_puts(with, s) | puts_of(with, s, OSPREYSCREEN_PUT_DATA);
}

FOR_EACH_SIDE uint64_t change_to_commit(const implementation *with, scene *s)
{
    return open_change(with, s) | polls(with, s) | puts_of(with, s, OSPREYSCREEN_PUT_DATA) |
           puts_of(with, s, OSPREYSCREEN_PUT_CONFIGURATION);
}

FOR_EACH_SIDE uint64_t read_round(const implementation *with, scene *s)
{
    return read_to_commit(with, s) | commit(with, s);
}

FOR_EACH_SIDE uint64_t write_round(const implementation *with, scene *s)
{
    return write_to_commit(with, s) | commit(with, s);
}

FOR_EACH_SIDE uint64_t change_round(const implementation *with, scene *s)
{
    return change_to_commit(with, s) | commit(with, s);
}

/* Each station's copy of the item has a higher generation than the one below. */
FOR_EACH_SIDE uint64_t rising_generations(const implementation *with, scene *s)
{
    uint8_t *copy = s->table + OSPREYSCREEN_HEAD_LENGTH;

    (void)with;
    for (unsigned station = 0; station < s->n; station++, copy += OSPREYSCREEN_COPY_LENGTH) {
        copy[16] = (uint8_t)station;
    }
    return 0;
}

/* The item is read and written at its last station alone. */
FOR_EACH_SIDE uint64_t last_station_alone(const implementation *with, scene *s)
{
    uint8_t *copy = s->table + OSPREYSCREEN_HEAD_LENGTH;
    unsigned last = 1u << (s->n - 1);

    (void)with;
    for (unsigned station = 0; station < s->n; station++, copy += OSPREYSCREEN_COPY_LENGTH) {
        uint8_t *config = copy + OSPREYSCREEN_COPY_LENGTH - OSPREYSCREEN_CONFIGURATION_LENGTH;
        memset(config, 0, OSPREYSCREEN_CONFIGURATION_LENGTH);
        config[0] = config[16] = (uint8_t)last;
        config[1] = config[17] = (uint8_t)(last >> 8);
    }
    return 0;
}

/* ---- Runs that are refused, and what goes before them ---- */

/* The configuration with a first read set that misses the first write set. */
static void set_apart(const scene *s, uint8_t *config)
{
    unsigned apart = ((1u << s->n) - 1) & ~((1u << s->quorum) - 1);
    config[0] = (uint8_t)apart;
    config[1] = (uint8_t)(apart >> 8);
}

FOR_EACH_SIDE uint64_t spoil_head(const implementation *with, scene *s)
{
    uint64_t numbers = read_to_commit(with, s);
    s->table[12] = 1;
    return numbers;
}

FOR_EACH_SIDE uint64_t spoil_last_copy(const implementation *with, scene *s)
{
    uint64_t numbers = read_to_commit(with, s);
    set_apart(s, s->table + s->len - OSPREYSCREEN_CONFIGURATION_LENGTH);
    return numbers;
}

FOR_EACH_SIDE uint64_t spoil_config(const implementation *with, scene *s)
{
    (void)with;
    set_apart(s, s->config);
    return 0;
}

/* The configuration given becomes its standard form. */
FOR_EACH_SIDE uint64_t standard_config(const implementation *with, scene *s)
{
    uint8_t given[OSPREYSCREEN_CONFIGURATION_LENGTH];
    memcpy(given, s->config, sizeof given);
    return with->standard_form(s->n, given, sizeof given, s->config, sizeof s->config).number;
}

FOR_EACH_SIDE uint64_t spend_version(const implementation *with, scene *s)
{
    uint64_t numbers = write_to_puts(with, s);
    memset(s->table + OSPREYSCREEN_HEAD_LENGTH, 0xFF, 8);
    return numbers;
}

FOR_EACH_SIDE uint64_t read_while_off(const implementation *with, scene *s)
{
    return open_read(with, s) | with->link(s->table, s->len, s->quorum - 1, OSPREYSCREEN_LINK_OFF).number;
}

FOR_EACH_SIDE uint64_t poll_longer(const implementation *with, scene *s)
{
    return with->poll(s->table, s->len + OSPREYSCREEN_COPY_LENGTH, s->quorum - 1).number;
}

FOR_EACH_SIDE uint64_t poll_beyond(const implementation *with, scene *s)
{
    return with->poll(s->table, s->len, s->n).number;
}

/* ---- The runs of each side ---- */

#define EACH_SIDE(run)                                                                             \
    static uint64_t library_##run(scene *s)                                                        \
    {                                                                                              \
        return run(&LIBRARY, s);                                                                   \
    }                                                                                              \
    static uint64_t optimised_##run(scene *s)                                                      \
    {                                                                                              \
        return run(&OPTIMISED, s);                                                                 \
    }

EACH_SIDE(lay)
EACH_SIDE(open_read)
EACH_SIDE(open_write)
EACH_SIDE(open_change)
EACH_SIDE(poll_last)
EACH_SIDE(put_last)
EACH_SIDE(commit)
EACH_SIDE(abandon)
EACH_SIDE(link_last)
EACH_SIDE(reach)
EACH_SIDE(diagnose)
EACH_SIDE(plan)
EACH_SIDE(read_round)
EACH_SIDE(write_round)
EACH_SIDE(change_round)
EACH_SIDE(poll_longer)
EACH_SIDE(poll_beyond)

#define BY_SIDE(run)                                                                               \
    {                                                                                              \
        [LIBRARY_SIDE] = library_##run, [OPTIMISED_SIDE] = optimised_##run                         \
    }

static const row ROWS[] = {
    {"lay", nothing, BY_SIDE(lay), NOTHING, OSPREYSCREEN_DONE},
    {"lay, standard form given", standard_config, BY_SIDE(lay), NOTHING, OSPREYSCREEN_DONE},
    {"open read", nothing, BY_SIDE(open_read), HEAD, OSPREYSCREEN_DONE},
    {"open write", nothing, BY_SIDE(open_write), HEAD, OSPREYSCREEN_DONE},
    {"open change", nothing, BY_SIDE(open_change), HEAD, OSPREYSCREEN_DONE},
    {"open change, standard form given", standard_config, BY_SIDE(open_change), HEAD,
     OSPREYSCREEN_DONE},
    {"poll", read_to_commit, BY_SIDE(poll_last), NOTHING, OSPREYSCREEN_DONE},
    {"put", write_to_puts, BY_SIDE(put_last), NOTHING, OSPREYSCREEN_DONE},
    {"commit of a read", read_to_commit, BY_SIDE(commit), HEAD, OSPREYSCREEN_DONE},
    {"commit of a write", write_to_commit, BY_SIDE(commit), HEAD, OSPREYSCREEN_DONE},
    {"commit of a change", change_to_commit, BY_SIDE(commit), HEAD_AND_ITEM, OSPREYSCREEN_DONE},
    {"abandon", read_to_commit, BY_SIDE(abandon), HEAD, OSPREYSCREEN_DONE},
    {"link", nothing, BY_SIDE(link_last), NOTHING, OSPREYSCREEN_DONE},
    {"reach", nothing, BY_SIDE(reach), NOTHING, OSPREYSCREEN_DONE},
    {"reach, stations off", drops, BY_SIDE(reach), NOTHING, OSPREYSCREEN_DONE},
    {"diagnose", write_to_commit, BY_SIDE(diagnose), NOTHING, OSPREYSCREEN_DONE},
    {"diagnose, short", write_to_puts, BY_SIDE(diagnose), NOTHING, OSPREYSCREEN_SHORT},
    {"diagnose, unheard", open_write, BY_SIDE(diagnose), NOTHING, OSPREYSCREEN_UNHEARD},
    {"plan", nothing, BY_SIDE(plan), NOTHING, OSPREYSCREEN_DONE},
    {"plan, stations off", drops, BY_SIDE(plan), NOTHING, OSPREYSCREEN_DONE},
    {"plan, generations rising", rising_generations, BY_SIDE(plan), NOTHING, OSPREYSCREEN_DONE},
    {"plan, the last station", last_station_alone, BY_SIDE(plan), NOTHING, OSPREYSCREEN_DONE},
    {"read round", nothing, BY_SIDE(read_round), NOTHING, OSPREYSCREEN_DONE},
    {"write round", nothing, BY_SIDE(write_round), NOTHING, OSPREYSCREEN_DONE},
    {"change round", nothing, BY_SIDE(change_round), HEAD_AND_ITEM, OSPREYSCREEN_DONE},
    {"unsound: length", read_to_commit, BY_SIDE(poll_longer), NOTHING, OSPREYSCREEN_UNSOUND},
    {"unsound: byte 12", spoil_head, BY_SIDE(poll_last), NOTHING, OSPREYSCREEN_UNSOUND},
    {"unsound: last copy", spoil_last_copy, BY_SIDE(poll_last), NOTHING, OSPREYSCREEN_UNSOUND},
    {"no such station", read_to_commit, BY_SIDE(poll_beyond), NOTHING, OSPREYSCREEN_NO_SUCH_THING},
    {"lay: false configuration", spoil_config, BY_SIDE(lay), NOTHING, OSPREYSCREEN_FALSE_CONFIGURATION},
    {"false target", spoil_config, BY_SIDE(open_change), NOTHING, OSPREYSCREEN_FALSE_CONFIGURATION},
    {"busy", read_to_commit, BY_SIDE(open_read), NOTHING, OSPREYSCREEN_BUSY},
    {"idle", nothing, BY_SIDE(commit), NOTHING, OSPREYSCREEN_IDLE},
    {"off the bus", read_while_off, BY_SIDE(poll_last), NOTHING, OSPREYSCREEN_OFF_THE_BUS},
    {"reading over", write_to_commit, BY_SIDE(poll_last), NOTHING, OSPREYSCREEN_READING_OVER},
    {"unheard", open_write, BY_SIDE(put_last), NOTHING, OSPREYSCREEN_UNHEARD},
    {"wrong put", read_to_commit, BY_SIDE(put_last), NOTHING, OSPREYSCREEN_WRONG_PUT},
    {"spent", spend_version, BY_SIDE(put_last), NOTHING, OSPREYSCREEN_SPENT},
    {"short", write_to_puts, BY_SIDE(commit), NOTHING, OSPREYSCREEN_SHORT},
    {"out of hearing", drops_and_one_more, BY_SIDE(plan), NOTHING, OSPREYSCREEN_OUT_OF_HEARING},
};
enum { ROW_COUNT = sizeof ROWS / sizeof ROWS[0] };

/* ---- Scenes ---- */

/* Majorities, as many a side as the scene's kind says. */
static void majorities(rng *r, const scene *s, uint8_t config[OSPREYSCREEN_CONFIGURATION_LENGTH])
{
    static const size_t side = OSPREYSCREEN_CONFIGURATION_LENGTH / 2;
    size_t used = 2 * s->kind->sets;

    configuration_majorities(r, s->n, config);
    memset(config + used, 0, side - used);
    memset(config + side + used, 0, side - used);
}

/* Gives every copy, or every item, a configuration that differs from the one
 * before it; n is 3 or more, since fewer stations have one majority only. */
static void differ(rng *r, scene *s)
{
    const uint8_t *before = s->config;
    size_t copy = 0;
    for (size_t at = OSPREYSCREEN_HEAD_LENGTH; at < s->len; at += OSPREYSCREEN_COPY_LENGTH, copy++) {
        uint8_t *config = s->table + at + 24;
        if (s->kind->differ == BY_ITEM && copy % s->n != 0) {
            memcpy(config, before, OSPREYSCREEN_CONFIGURATION_LENGTH);
            continue;
        }
        do {
            majorities(r, s, config);
        } while (memcmp(config, before, OSPREYSCREEN_CONFIGURATION_LENGTH) == 0);
        before = config;
    }
}

/* A table with every station on the bus. */
static void set_scene(scene *s, const kind *k, unsigned n, unsigned m)
{
    rng r = {n * 100 + m};

    s->kind = k;
    s->n = n;
    s->m = m;
    s->len = OSPREYSCREEN_TABLE_LENGTH(n, m);
    s->quorum = n / 2 + 1;
    majorities(&r, s, s->config);
    if (lay(&OPTIMISED, s) != 0 || links(&OPTIMISED, s) != 0) {
        give_up("refused", "lay or link");
    }
    if (k->differ != ALIKE) {
        differ(&r, s);
    }
    memcpy(s->saved, s->table, s->len);
}

/* Brings the scene to the start of the row. */
static void set_row(scene *s, const row *w)
{
    static const size_t head = OSPREYSCREEN_HEAD_LENGTH;

    s->row = w;
    s->set_back = w->set_back == NOTHING ? 0
                  : w->set_back == HEAD  ? head
                                         : head + (size_t)OSPREYSCREEN_COPY_LENGTH * s->n;
    if (w->prepare(&OPTIMISED, s) != 0) {
        give_up("refused on the way to", w->name);
    }
    memcpy(s->saved, s->table, s->len);
}

/* ---- Times ---- */

FOR_EACH_SIDE double batch_of(unsigned side, scene *s, unsigned runs)
{
    const row *w = s->row;
    run_function *run = w->run[side];
    uint64_t wrong = 0;

    memcpy(s->table, s->saved, s->len);
    double start = now_ns();
    for (unsigned i = 0; i < runs; i++) {
        memcpy(s->table, s->saved, s->set_back);
        wrong |= run(s) ^ w->number;
    }
    double time = now_ns() - start;
    if (wrong != 0) {
        give_up("gives another number", w->name);
    }
    return time / runs;
}

static double batch(unsigned side, void *at, unsigned runs)
{
    return side == LIBRARY_SIDE ? batch_of(LIBRARY_SIDE, at, runs)
                                : batch_of(OPTIMISED_SIDE, at, runs);
}

/* Runs a while without a result, until the processor is at its pace. */
static void warm_up(scene *s)
{
    double start = now_ns();

    set_scene(s, &KINDS[0], 3, 1);
    set_row(s, &ROWS[0]);
    while (now_ns() - start < WARM_UP_NS) {
        batch(LIBRARY_SIDE, s, 100);
        batch(OPTIMISED_SIDE, s, 100);
    }
}

/* ---- Tables ---- */

static void print_scene(scene *s, unsigned samples, summary *sum)
{
    char size[32];
    timing t[SIDES];

    snprintf(size, sizeof size, "%u x %u", s->n, s->m);
    measure(batch, s, samples, t);
    print_row(size, s->kind->name, s->row->name, t, sum);
}

/* All rows on three sizes. */
static void print_table(scene *s, unsigned samples)
{
    static const unsigned sizes[][2] = {{3, 1}, {5, 8}, {16, 32}};
    summary sum = {.rows = 0};

    print_heading(samples);
    for (unsigned size = 0; size < sizeof sizes / sizeof sizes[0]; size++) {
        for (unsigned k = 0; k < KIND_COUNT; k++) {
            for (unsigned i = 0; i < ROW_COUNT; i++) {
                set_scene(s, &KINDS[k], sizes[size][0], sizes[size][1]);
                set_row(s, &ROWS[i]);
                print_scene(s, samples, &sum);
            }
        }
    }
    print_votes_rows(samples, &sum);
    print_form_rows(samples, &sum);
    print_summary(&sum);
}

static const row *row_named(const char *name)
{
    for (unsigned i = 0; i < ROW_COUNT; i++) {
        if (strcmp(ROWS[i].name, name) == 0) {
            return &ROWS[i];
        }
    }
    give_up("no row", name);
}

/* One line of the growth table: minima. */
static void print_growth_row(scene *s, const char *label, const char *name, unsigned samples)
{
    const row *w = row_named(name);
    timing t[SIDES];

    set_row(s, w);
    measure(batch, s, samples, t);
    printf("%s,%u,%u,%u,%.1f,%.1f\n", label, s->n, s->m, s->n * s->m, t[LIBRARY_SIDE].minimum,
           t[OPTIMISED_SIDE].minimum);
    fflush(stdout);
}

static const kind *kind_named(const char *name)
{
    for (unsigned i = 0; i < KIND_COUNT; i++) {
        if (strcmp(KINDS[i].name, name) == 0) {
            return &KINDS[i];
        }
    }
    give_up("no kind", name);
}

/* A poll and a lay on tables from one copy to the most. */
static void print_growth(scene *s, unsigned samples)
{
    static const unsigned sizes[][2] = {{1, 1},  {2, 1},  {2, 2},  {4, 2},   {4, 4},
                                        {8, 4},  {8, 8},  {16, 8}, {16, 16}, {16, 32}};
    const kind *alike = kind_named("alike");
    const kind *different = kind_named("different, 8 sets");

    printf("call,n,m,copies,library_ns,c_ns\n");
    for (unsigned i = 0; i < sizeof sizes / sizeof sizes[0]; i++) {
        unsigned n = sizes[i][0];
        unsigned m = sizes[i][1];
        set_scene(s, alike, n, m);
        print_growth_row(s, "lay", "lay", samples);
        set_scene(s, alike, n, m);
        print_growth_row(s, "poll (alike)", "poll", samples);
        if (n > 2) {
            set_scene(s, different, n, m);
            print_growth_row(s, "poll (different)", "poll", samples);
        }
    }
}

int main(int argc, char **argv)
{
    static scene s;
    uint64_t samples = 2001;
    bool growth = false;
    const option all[] = {
        {.name = "--samples", .number = &samples, .most = SAMPLES_MOST},
        {.name = "--growth", .flag = &growth},
    };

    options_read(argc, argv, "bench [--growth] [--samples N]", all, sizeof all / sizeof all[0]);
    if (samples < 1) {
        give_up("samples", "1 to 10001");
    }
    warm_up(&s);
    if (growth) {
        print_growth(&s, (unsigned)samples);
    } else {
        print_table(&s, (unsigned)samples);
    }
    return EXIT_SUCCESS;
}
