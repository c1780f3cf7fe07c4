#include "calls.h"

#include "words.h"

#include <inttypes.h>
#include <string.h>

const argument_shape ARGUMENTS[ARGUMENT_KINDS] = {
    [ARGUMENT_N] = {"n", "N", 1, {NULL}},
    [ARGUMENT_M] = {"m", "M", 1, {NULL}},
    [ARGUMENT_ITEM] = {"item", "ITEM", 1, {NULL}},
    [ARGUMENT_STATION] = {"station", "STATION", 1, {NULL}},
    [ARGUMENT_SORT] = {"sort", "data|configuration", 1, {NULL, "data", "configuration"}},
    [ARGUMENT_STATE] = {"state", "on|off", 1, {"off", "on"}},
    [ARGUMENT_VALUE] = {"value", "VALUE", 8, {NULL}},
    [ARGUMENT_CONFIGURATION] = {"configuration", "read SETS write SETS", 32, {NULL}},
    [ARGUMENT_TARGET] = {"target", "read SETS write SETS", 32, {NULL}},
};

/* ---- The calls ---- */

/* A lay is lent just the bytes that its n and m need, and none if no table has
 * them: it gets 2 then, whatever it is lent. */
static ospreyscreen_reply make_lay(table *t, const call *c)
{
    table laid = {.length = 0};
    uint64_t n = c->numbers[ARGUMENT_N];
    uint64_t m = c->numbers[ARGUMENT_M];

    if (n <= OSPREYSCREEN_STATIONS_MAX && m <= OSPREYSCREEN_ITEMS_MAX) {
        laid.length = (size_t)OSPREYSCREEN_TABLE_LENGTH(n, m);
    }
    ospreyscreen_reply reply = ospreyscreen_lay(laid.bytes, laid.length, n, m, c->numbers[ARGUMENT_VALUE],
                                                c->config.bytes, sizeof c->config.bytes);
    if (reply.number == OSPREYSCREEN_DONE) {
        *t = laid;
    }
    return reply;
}

static ospreyscreen_reply make_open_read(table *t, const call *c)
{
    return ospreyscreen_open_read(t->bytes, t->length, c->numbers[ARGUMENT_ITEM]);
}

static ospreyscreen_reply make_open_write(table *t, const call *c)
{
    return ospreyscreen_open_write(t->bytes, t->length, c->numbers[ARGUMENT_ITEM],
                                   c->numbers[ARGUMENT_VALUE]);
}

static ospreyscreen_reply make_open_change(table *t, const call *c)
{
    return ospreyscreen_open_change(t->bytes, t->length, c->numbers[ARGUMENT_ITEM], c->config.bytes,
                                    sizeof c->config.bytes);
}

static ospreyscreen_reply make_poll(table *t, const call *c)
{
    return ospreyscreen_poll(t->bytes, t->length, c->numbers[ARGUMENT_STATION]);
}

static ospreyscreen_reply make_put(table *t, const call *c)
{
    return ospreyscreen_put(t->bytes, t->length, c->numbers[ARGUMENT_STATION], c->numbers[ARGUMENT_SORT]);
}

static ospreyscreen_reply make_commit(table *t, const call *c)
{
    (void)c;
    return ospreyscreen_commit(t->bytes, t->length);
}

static ospreyscreen_reply make_abandon(table *t, const call *c)
{
    (void)c;
    return ospreyscreen_abandon(t->bytes, t->length);
}

static ospreyscreen_reply make_link(table *t, const call *c)
{
    return ospreyscreen_link(t->bytes, t->length, c->numbers[ARGUMENT_STATION], c->numbers[ARGUMENT_STATE]);
}

static ospreyscreen_reply make_reach(table *t, const call *c)
{
    return ospreyscreen_reach(t->bytes, t->length, c->numbers[ARGUMENT_ITEM]);
}

static ospreyscreen_reply make_diagnose(table *t, const call *c)
{
    (void)c;
    return ospreyscreen_diagnose(t->bytes, t->length);
}

static ospreyscreen_reply make_plan(table *t, const call *c)
{
    return ospreyscreen_plan(t->bytes, t->length, c->numbers[ARGUMENT_ITEM]);
}

const call_shape CALLS[CALL_COUNT] = {
    {OSPREYSCREEN_LAY, "lay", 4, {ARGUMENT_N, ARGUMENT_M, ARGUMENT_VALUE, ARGUMENT_CONFIGURATION},
     "a new table: N stations, M items at VALUE", make_lay},
    {OSPREYSCREEN_OPEN_READ, "open read", 1, {ARGUMENT_ITEM}, "open a round that reads the item", make_open_read},
    {OSPREYSCREEN_OPEN_WRITE, "open write", 2, {ARGUMENT_ITEM, ARGUMENT_VALUE},
     "open a round that writes the item", make_open_write},
    {OSPREYSCREEN_OPEN_CHANGE, "open change", 2, {ARGUMENT_ITEM, ARGUMENT_TARGET},
     "open a round that changes its sets", make_open_change},
    {OSPREYSCREEN_POLL, "poll", 1, {ARGUMENT_STATION}, "take the station's copy into account", make_poll},
    {OSPREYSCREEN_PUT, "put", 2, {ARGUMENT_STATION, ARGUMENT_SORT},
     "mark its copy for writing at the commit", make_put},
    {OSPREYSCREEN_COMMIT, "commit", 0, {0}, "finish the round: puts take effect", make_commit},
    {OSPREYSCREEN_ABANDON, "abandon", 0, {0}, "give the round up: no copy changes", make_abandon},
    {OSPREYSCREEN_LINK, "link", 2, {ARGUMENT_STATION, ARGUMENT_STATE},
     "take the station on the bus, or off it", make_link},
    {OSPREYSCREEN_REACH, "reach", 1, {ARGUMENT_ITEM}, "what those on the bus can do with it",
     make_reach},
    {OSPREYSCREEN_DIAGNOSE, "diagnose", 0, {0}, "what holds the open round up", make_diagnose},
    {OSPREYSCREEN_PLAN, "plan", 1, {ARGUMENT_ITEM}, "how many polls and puts a round takes", make_plan},
};

const call_shape *call_of(int code)
{
    for (int i = 0; i < CALL_COUNT; i++) {
        if (CALLS[i].code == code) {
            return &CALLS[i];
        }
    }
    return NULL;
}

ospreyscreen_reply call_make(table *t, const call *c)
{
    return call_of(c->code)->make(t, c);
}

/* ---- Words ---- */

bool is_configuration(argument kind)
{
    return kind == ARGUMENT_CONFIGURATION || kind == ARGUMENT_TARGET;
}

usage usage_of(const call_shape *shape)
{
    usage u;
    size_t length = (size_t)snprintf(u.text, sizeof u.text, "%s", shape->name);

    for (int i = 0; i < shape->count && length < sizeof u.text; i++) {
        length += (size_t)snprintf(u.text + length, sizeof u.text - length, " %s",
                                   ARGUMENTS[shape->arguments[i]].usage);
    }
    return u;
}

/* How the call is written behind what is wrong with its words. */
static bool complain_of_call(char *why, const call_shape *shape, const char *what)
{
    return complain(why, "%.300s: %s", what, usage_of(shape).text);
}

static bool number_from_argument(uint64_t *number, argument kind, const char *word, char *why)
{
    const argument_shape *shape = &ARGUMENTS[kind];

    for (uint64_t i = 0; i < sizeof shape->words / sizeof *shape->words; i++) {
        if (shape->words[i] != NULL && strcmp(word, shape->words[i]) == 0) {
            *number = i;
            return true;
        }
    }
    if (number_from_word(number, word, shape->width == 1 ? UINT8_MAX : UINT64_MAX, why)) {
        return true;
    }
    if (strspn(word, "0123456789") != strlen(word)) {
        return complain(why, "'%.40s' is no %s", word, shape->name);
    }
    return false;
}

/* The arguments of the call from the words behind its name. */
static bool arguments_from_words(call *c, const call_shape *shape, char **words, int count, char *why)
{
    char what[WHY_ROOM];
    int at = 0;

    for (int i = 0; i < shape->count; i++) {
        argument kind = shape->arguments[i];
        if (at == count) {
            complain(what, "the %s is missing", ARGUMENTS[kind].name);
            return complain_of_call(why, shape, what);
        }
        if (is_configuration(kind)) {
            return configuration_from_words(&c->config, words + at, count - at, why);
        }
        if (!number_from_argument(&c->numbers[kind], kind, words[at], what)) {
            return complain_of_call(why, shape, what);
        }
        at++;
    }
    if (at < count) {
        complain(what, "'%.40s' is left over", words[at]);
        return complain_of_call(why, shape, what);
    }
    return true;
}

/* "open" without more, or what stands behind it alone. */
static bool is_about_opening(const char *word)
{
    return strcmp(word, "open") == 0 || strcmp(word, "read") == 0 || strcmp(word, "write") == 0 ||
           strcmp(word, "change") == 0;
}

bool call_from_words(call *c, char **words, int count, char *why)
{
    if (count > WORDS_MOST) {
        return complain(why, "no call has so many words");
    }
    for (int i = 0; i < CALL_COUNT; i++) {
        int matched = begins_with(words, count, CALLS[i].name);
        if (matched > 0) {
            *c = (call){.code = CALLS[i].code};
            return arguments_from_words(c, &CALLS[i], words + matched, count - matched, why);
        }
    }
    if (is_about_opening(words[0])) {
        return complain(why, "a round is opened by open read, open write or open change");
    }
    return complain(why, "no call '%.40s': the calls are lay, open read, open write, open change, poll, put, "
                         "commit, abandon, link, reach, diagnose and plan; help lists every word", words[0]);
}

static void print_argument(FILE *out, const call *c, argument kind)
{
    const argument_shape *shape = &ARGUMENTS[kind];

    if (is_configuration(kind)) {
        print_configuration(out, &c->config);
        return;
    }
    uint64_t number = c->numbers[kind];
    if (number < sizeof shape->words / sizeof *shape->words && shape->words[number] != NULL) {
        fprintf(out, "%s", shape->words[number]);
    } else {
        fprintf(out, "%" PRIu64, number);
    }
}

void print_call(FILE *out, const call *c)
{
    const call_shape *shape = call_of(c->code);

    fprintf(out, "%s", shape->name);
    for (int i = 0; i < shape->count; i++) {
        fprintf(out, " ");
        print_argument(out, c, shape->arguments[i]);
    }
}

/* ---- Frames ---- */

size_t frame_length(const call_shape *shape)
{
    size_t length = 1;
    for (int i = 0; i < shape->count; i++) {
        length += ARGUMENTS[shape->arguments[i]].width;
    }
    return length;
}

bool call_from_frame(call *c, const uint8_t *frame, size_t length)
{
    const call_shape *shape = length == 0 ? NULL : call_of(frame[0]);

    if (shape == NULL || length != frame_length(shape)) {
        return false;
    }
    *c = (call){.code = shape->code};
    const uint8_t *at = frame + 1;
    for (int i = 0; i < shape->count; i++) {
        argument kind = shape->arguments[i];
        size_t width = ARGUMENTS[kind].width;
        if (is_configuration(kind)) {
            memcpy(c->config.bytes, at, width);
        }
        for (size_t k = width; k > 0 && !is_configuration(kind); k--) {
            c->numbers[kind] = c->numbers[kind] << 8 | at[k - 1];
        }
        at += width;
    }
    return true;
}

size_t call_to_frame(const call *c, uint8_t frame[FRAME_MOST])
{
    const call_shape *shape = call_of(c->code);
    uint8_t *at = frame;

    *at++ = (uint8_t)shape->code;
    for (int i = 0; i < shape->count; i++) {
        argument kind = shape->arguments[i];
        size_t width = ARGUMENTS[kind].width;
        if (is_configuration(kind)) {
            memcpy(at, c->config.bytes, width);
        }
        for (size_t k = 0; k < width && !is_configuration(kind); k++) {
            at[k] = (uint8_t)(c->numbers[kind] >> (8 * k) & 0xFF);
        }
        at += width;
    }
    return (size_t)(at - frame);
}
