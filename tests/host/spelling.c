#include "spelling.h"

#include "bytes.h"
#include "configurations.h"
#include "damage.h"

#include <string.h>

/* A call is held to one on a respelled table once in so many times. */
enum { TABLES = 16 };

/* Random numbers that depend on the head and the call. */
static rng source_of(const call *c, const uint8_t *table, size_t len)
{
    rng r = {(uint64_t)c->code};
    for (size_t at = 0; at + 8 <= len && at < HEAD; at += 8) {
        r.state = rng_next(&r) ^ get_number(table + at, 8);
    }
    for (int kind = 0; kind < ARGUMENT_KINDS; kind++) {
        r.state = rng_next(&r) ^ c->numbers[kind];
    }
    return r;
}

static bool has_configuration(const call *c)
{
    return c->config != NULL && c->config_len == CONFIGURATION;
}

bool spelling_keep(table_before *kept, const call *c, const loan *table)
{
    if (table->len > sizeof kept->bytes || table->len == 0) {
        return false;
    }
    rng r = source_of(c, table->bytes, table->len);
    kept->to_table = rng_one_in(&r, TABLES);
    if (!has_configuration(c) && !kept->to_table) {
        return false;
    }
    kept->len = table->len;
    memcpy(kept->bytes, table->bytes, table->len);
    return true;
}

/* ---- Calls on copies ---- */

/* Makes the call on the copy, with this configuration if it takes one. */
static ospreyscreen_reply make_on(const implementation *with, const call *c, uint8_t *config,
                                  table_before *copy)
{
    ospreyscreen_reply reply = {0};
    const loan lent[LENT_KINDS] = {
        [LENT_TABLE] = {copy->bytes, copy->len},
        [LENT_CONFIGURATION] = {config, c->config_len},
        [LENT_REPLY] = {(uint8_t *)&reply, sizeof reply},
    };
    call_make(with, c, lent);
    return reply;
}

/* Every configuration of a sound table becomes its standard form. */
static void standardise(const implementation *with, table_before *t)
{
    bool change = t->bytes[ROUND_AT] == OSPREYSCREEN_ROUND_CHANGE;

    for (size_t at = change ? 0 : HEAD; at < t->len; at += COPY) { /* a target stands like a copy's */
        uint8_t *config = t->bytes + at + CONFIGURATION_IN;
        uint8_t given[CONFIGURATION];
        memcpy(given, config, sizeof given);
        with->standard_form(t->bytes[N_AT], given, sizeof given, config, sizeof given);
    }
}

/* ---- A respelled table ---- */

/* Whether the replies are the same but for the read place, which is one in both
 * or in neither. */
static bool same_but_place(int code, const ospreyscreen_reply *a, const ospreyscreen_reply *b)
{
    ospreyscreen_reply shown = *b;

    if (code == OSPREYSCREEN_POLL && (a->first != 0) == (b->first != 0)) {
        shown.first = a->first;
    }
    if (code == OSPREYSCREEN_DIAGNOSE && (a->third != 0) == (b->third != 0)) {
        shown.third = a->third;
    }
    return same_reply(a, &shown);
}

static const char *hold_to_table(const implementation *with, const spelled *said, rng *r,
                                 tally *counts)
{
    const call *c = said->made;
    uint8_t config[CONFIGURATION_ROOM];
    table_before copy = *said->before;
    table_before after = {.len = said->after->len};

    if (c->config != NULL) {
        memcpy(config, c->config, c->config_len);
    }
    memcpy(after.bytes, said->after->bytes, after.len);
    damage_spelling(r, copy.bytes, copy.len);
    ospreyscreen_reply reply = make_on(with, c, c->config != NULL ? config : NULL, &copy);
    if (!same_but_place(c->code, said->reply, &reply)) {
        return "a call on the same table in another spelling gets another reply";
    }
    standardise(with, &copy);
    standardise(with, &after);
    if (memcmp(copy.bytes, after.bytes, after.len) != 0) {
        return "a call on the same table in another spelling leaves another table";
    }
    if (counts != NULL) {
        counts->met[MET_RESPELLED_TABLE]++;
        counts->met[MET_RESPELLED_PLACE] += !same_reply(said->reply, &reply);
    }
    return NULL;
}

/* ---- A respelled argument ---- */

/* The number of stations that the call's configuration is for. */
static uint64_t stations_of(const spelled *said)
{
    bool lay = said->made->code == OSPREYSCREEN_LAY;
    return lay ? said->made->numbers[ARGUMENT_N] : said->before->bytes[N_AT];
}

/* Whether the call, which is done, has stored the form that the library gives by
 * itself: lay in the first copy, which is like all, open change in the head. */
static bool stores_form(const implementation *with, const spelled *said, uint64_t n)
{
    size_t at = said->made->code == OSPREYSCREEN_LAY ? HEAD + CONFIGURATION_IN : TARGET_AT;
    uint8_t own[CONFIGURATION];
    ospreyscreen_reply reply =
        with->standard_form(n, said->made->config, CONFIGURATION, own, sizeof own);
    return reply.number == OSPREYSCREEN_DONE && memcmp(said->after->bytes + at, own, sizeof own) == 0;
}

static const char *hold_to_argument(const implementation *with, const spelled *said, rng *r,
                                    tally *counts)
{
    uint64_t n = stations_of(said);
    uint8_t config[CONFIGURATION];
    table_before copy = *said->before;

    if (n < 1 || n > OSPREYSCREEN_STATIONS_MAX || ref_false(said->made->config, n) != 0) {
        return NULL;
    }
    bool done = said->reply->number == OSPREYSCREEN_DONE;
    if (done && !stores_form(with, said, n)) {
        return "what is stored is not the standard form";
    }
    memcpy(config, said->made->config, sizeof config);
    configuration_respell(r, all_stations((unsigned)n), config);
    ospreyscreen_reply reply = make_on(with, said->made, config, &copy);
    if (!same_reply(said->reply, &reply) ||
        memcmp(copy.bytes, said->after->bytes, copy.len) != 0) {
        return "a call with the same configuration in another spelling differs";
    }
    if (counts != NULL) {
        counts->met[MET_RESPELLED_CALL] += done;
    }
    return NULL;
}

const char *spelling_hold(const implementation *with, const spelled *said, tally *counts)
{
    const table_before *before = said->before;
    rng r = source_of(said->made, before->bytes, before->len);
    const char *wrong = NULL;

    rng_next(&r); /* what was drawn with it chose the call */
    if (has_configuration(said->made)) {
        wrong = hold_to_argument(with, said, &r, counts);
    }
    if (wrong == NULL && before->to_table && ref_broken(before->bytes, before->len) == 0) {
        wrong = hold_to_table(with, said, &r, counts);
    }
    return wrong;
}
