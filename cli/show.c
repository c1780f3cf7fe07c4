/*
 * show TABLE [ITEM]: a saved table in words.
 */
#include "show.h"

#include "commands.h"
#include "files.h"
#include "replies.h"
#include "words.h"

#include <inttypes.h>
#include <string.h>

/* ---- The head ---- */

/* "0, 1 (0003)", or "none". */
static void print_set(FILE *out, unsigned set)
{
    if (set == 0) {
        fprintf(out, "none");
        return;
    }
    print_stations(out, set);
    fprintf(out, " (%04X)", set);
}

static void print_named_set(FILE *out, const char *name, unsigned set)
{
    fprintf(out, "  %-19s", name);
    print_set(out, set);
    fprintf(out, "\n");
}

/* The sides of a configuration, each on a line: they can be long. */
static void print_sides(FILE *out, const char *name, const configuration *c)
{
    for (int side = 0; side < SIDES; side++) {
        fprintf(out, "  %-19s", side == 0 ? name : "");
        print_side(out, c, side);
        fprintf(out, "\n");
    }
}

static void print_bus(FILE *out, const head *h)
{
    fprintf(out, "%u %s, %u %s\n", h->n, h->n == 1 ? "station" : "stations", h->m,
            h->m == 1 ? "item" : "items");
    print_named_set(out, "on the bus", h->on);
    print_named_set(out, "off the bus", h->off);
}

/* ---- The open round ---- */

static void print_found(FILE *out, const table *t, const head *h)
{
    fprintf(out, "  %-19s", "found");
    if (h->polled == 0) {
        fprintf(out, "nothing yet\n");
        return;
    }
    findings f = table_findings(t, h);
    fprintf(out, "version %" PRIu64 ", value %" PRIu64 ", from station %u\n", f.data.version, f.data.value,
            f.version_station);
    fprintf(out, "  %-19sgeneration %" PRIu64 ", from station %u\n", "", f.config.generation,
            f.generation_station);
    print_sides(out, "", &f.config.config);
}

/* Heard or not, and what commit would get: diagnose's own figures. */
static void print_prospect(FILE *out, const table *t, const head *h)
{
    ospreyscreen_reply d = ospreyscreen_diagnose(t->bytes, t->length);

    if (d.third != 0) {
        findings f = table_findings(t, h);
        unsigned place = (unsigned)d.third - 1;
        fprintf(out, "  %-19sby read place %u, the set %04X\n", "heard", place,
                set_in(&f.config.config, READ_SIDE, (int)place));
    } else {
        fprintf(out, "  not heard\n");
    }
    fprintf(out, "  %-19s%" PRIu64 " %s\n", "commit would get", d.first, number_word(d.first));
}

static void print_round(FILE *out, const table *t, const head *h)
{
    if (h->round == OSPREYSCREEN_ROUND_NONE) {
        fprintf(out, "no round is open\n");
        return;
    }
    fprintf(out, "round: %s of item %u", ROUND_NAMES[h->round], h->item);
    if (h->round == OSPREYSCREEN_ROUND_WRITE) {
        fprintf(out, ", value %" PRIu64, h->value);
    }
    fprintf(out, "\n");
    if (h->round == OSPREYSCREEN_ROUND_CHANGE) {
        print_sides(out, "target", &h->target);
    }
    print_named_set(out, "polled", h->polled);
    if ((h->polled & h->off) != 0) {
        print_named_set(out, "  off by now", h->polled & h->off);
    }
    if (h->round != OSPREYSCREEN_ROUND_READ) {
        print_named_set(out, "data puts", h->data_puts);
    }
    if (h->round == OSPREYSCREEN_ROUND_CHANGE) {
        print_named_set(out, "configuration puts", h->configuration_puts);
    }
    print_found(out, t, h);
    print_prospect(out, t, h);
}

/* ---- Items ---- */

static const char *stale_words(bool data, bool config)
{
    return data && config ? "  stale data and configuration"
           : data         ? "  stale data"
           : config       ? "  stale configuration"
                          : "";
}

/* The width of a column: that of its name, or of its highest number. */
static int width_of(const char *name, uint64_t highest)
{
    int width = (int)strlen(name);
    int digits = snprintf(NULL, 0, "%" PRIu64, highest);
    return digits > width ? digits : width;
}

static uint64_t highest_value(const table *t, const head *h, unsigned item)
{
    uint64_t highest = 0;
    for (unsigned s = 0; s < h->n; s++) {
        uint64_t value = table_copy(t, item, s).value;
        highest = value > highest ? value : highest;
    }
    return highest;
}

static void print_copies(FILE *out, const table *t, const head *h, unsigned item)
{
    uint64_t version, generation;

    table_newest(t, item, &version, &generation);
    int versions = width_of("version", version);
    int generations = width_of("generation", generation);
    int values = width_of("value", highest_value(t, h, item));
    fprintf(out, "  station  bus  %*s  %*s  %*s\n", versions, "version", generations, "generation", values, "value");
    for (unsigned s = 0; s < h->n; s++) {
        copy c = table_copy(t, item, s);
        fprintf(out, "  %7u  %-3s  %*" PRIu64 "  %*" PRIu64 "  %*" PRIu64 "%s\n", s,
                has_station(h->on, s) ? "on" : "off", versions, c.version, generations, c.generation, values, c.value,
                stale_words(c.version < version, c.generation < generation));
    }
}

/* Whether a station before this one has the same configuration. */
static bool shown_before(const table *t, unsigned item, unsigned station, const configuration *c)
{
    for (unsigned s = 0; s < station; s++) {
        copy other = table_copy(t, item, s);
        if (same_configuration(&other.config, c)) {
            return true;
        }
    }
    return false;
}

/* The stations that have the configuration. */
static unsigned stations_with(const table *t, const head *h, unsigned item, const configuration *c)
{
    unsigned set = 0;
    for (unsigned s = 0; s < h->n; s++) {
        copy other = table_copy(t, item, s);
        if (same_configuration(&other.config, c)) {
            set |= 1u << s;
        }
    }
    return set;
}

static void print_configurations(FILE *out, const table *t, const head *h, unsigned item)
{
    for (unsigned s = 0; s < h->n; s++) {
        copy c = table_copy(t, item, s);
        if (!shown_before(t, item, s, &c.config)) {
            fprintf(out, "  configuration at ");
            print_stations(out, stations_with(t, h, item, &c.config));
            fprintf(out, "\n    ");
            print_side(out, &c.config, READ_SIDE);
            fprintf(out, "\n    ");
            print_side(out, &c.config, WRITE_SIDE);
            fprintf(out, "\n");
        }
    }
}

/* What a new round can do: reach's and plan's own figures. */
static void print_outlook(FILE *out, const table *t, unsigned item)
{
    ospreyscreen_reply plan = ospreyscreen_plan(t->bytes, t->length, item);

    uint64_t reach = ospreyscreen_reach(t->bytes, t->length, item).first;
    fprintf(out, "item %u: reach %" PRIu64 " %s; ", item, reach, reach_word(reach));
    if (plan.number == OSPREYSCREEN_DONE) {
        fprintf(out, "in rising number a new round is ");
        print_plan_figures(out, plan.first, plan.second);
    } else {
        fprintf(out, "a new round is %s", number_word(plan.number));
    }
    fprintf(out, "\n");
}

void print_state(FILE *out, const table *t, unsigned item)
{
    head h = table_head(t);

    print_bus(out, &h);
    print_round(out, t, &h);
    for (unsigned i = 0; i < h.m; i++) {
        if (item == EVERY_ITEM || item == i) {
            print_outlook(out, t, i);
            print_copies(out, t, &h, i);
            print_configurations(out, t, &h, i);
        }
    }
}

/* ---- The command ---- */

int command_show(int argc, char **argv)
{
    static table t;
    char why[WHY_ROOM];
    uint64_t item = EVERY_ITEM;

    if (argc < 2 || argc > 3) {
        return wrong_usage("show", "a TABLE is needed, and perhaps an ITEM");
    }
    if (!table_load(&t, argv[1], why) ||
        (argc == 3 && !item_of_table(&item, &t, argv[2], why))) {
        return trouble("show", why);
    }
    print_state(stdout, &t, (unsigned)item);
    return finish_output("show");
}
