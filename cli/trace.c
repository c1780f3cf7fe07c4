/*
 * trace [TABLE] < FRAMES > TRACE: what the frame runner would do, with the table
 * after each frame.
 */
#include "trace.h"

#include "advice.h"
#include "commands.h"
#include "files.h"
#include "replies.h"
#include "words.h"

#include <errno.h>
#include <inttypes.h>
#include <string.h>

/* ---- JSON ---- */

/* No words that are printed here have quotes or backslashes, and all are ASCII:
 * they are texts of JSON as they stand. */

/* A number of 64 bits is a text: many readers of JSON round it. */
static void json_wide(FILE *out, const char *key, uint64_t number)
{
    fprintf(out, "\"%s\":\"%" PRIu64 "\"", key, number);
}

static void json_stations(FILE *out, const char *key, unsigned set)
{
    const char *before = "";

    fprintf(out, "\"%s\":[", key);
    for (unsigned s = 0; s < STATIONS_MAX; s++) {
        if (has_station(set, s)) {
            fprintf(out, "%s%u", before, s);
            before = ",";
        }
    }
    fprintf(out, "]");
}

static void json_configuration(FILE *out, const configuration *c)
{
    for (int side = 0; side < SIDES; side++) {
        fprintf(out, "%s\"%s\":[", side == 0 ? "{" : ",", SIDE_NAMES[side]);
        for (int place = 0; place < places_of(c, side); place++) {
            fprintf(out, "%s\"%04X\"", place == 0 ? "" : ",", set_in(c, side, place));
        }
        fprintf(out, "]");
    }
    fprintf(out, "}");
}

/* ---- The call and its reply ---- */

static void json_argument(FILE *out, const call *c, argument kind)
{
    const argument_shape *shape = &ARGUMENTS[kind];

    if (is_configuration(kind)) {
        fprintf(out, "\"%s\":", shape->name);
        json_configuration(out, &c->config);
        return;
    }
    uint64_t number = c->numbers[kind];
    if (kind == ARGUMENT_VALUE) {
        json_wide(out, shape->name, number);
    } else if (number < sizeof shape->words / sizeof *shape->words && shape->words[number] != NULL) {
        fprintf(out, "\"%s\":\"%s\"", shape->name, shape->words[number]);
    } else {
        fprintf(out, "\"%s\":%" PRIu64, shape->name, number);
    }
}

static void json_call(FILE *out, const call *c)
{
    const call_shape *shape = call_of(c->code);
    uint8_t frame[FRAME_MOST];
    size_t length = call_to_frame(c, frame);

    fprintf(out, ",\"frame\":\"");
    for (size_t i = 0; i < length; i++) {
        fprintf(out, "%02X", frame[i]);
    }
    fprintf(out, "\",\"call\":{\"code\":\"%02X\",\"name\":\"%s\"", (unsigned)c->code, shape->name);
    for (int i = 0; i < shape->count; i++) {
        fprintf(out, ",");
        json_argument(out, c, shape->arguments[i]);
    }
    fprintf(out, "},\"words\":\"");
    print_call(out, c);
    fprintf(out, "\"");
}

static void json_figures(FILE *out, ospreyscreen_reply reply)
{
    fprintf(out, ",\"reply\":{\"number\":%" PRIu64 ",\"word\":\"%s\",\"figures\":[\"%" PRIu64 "\",\"%" PRIu64
                 "\",\"%" PRIu64 "\"],\"text\":\"",
            reply.number, number_word(reply.number), reply.first, reply.second, reply.third);
}

/* What to do next, or null. */
static void json_advice(FILE *out, const table *t, const call *c, ospreyscreen_reply reply)
{
    if (!has_advice(c, reply)) {
        fprintf(out, ",\"advice\":null");
        return;
    }
    fprintf(out, ",\"advice\":\"");
    print_advice(out, t, c, reply);
    fprintf(out, "\"");
}

/* ---- The table ---- */

static void json_found(FILE *out, const table *t, const head *h)
{
    if (h->polled == 0) {
        fprintf(out, ",\"found\":null");
        return;
    }
    findings f = table_findings(t, h);
    fprintf(out, ",\"found\":{");
    json_wide(out, "version", f.data.version);
    fprintf(out, ",");
    json_wide(out, "value", f.data.value);
    fprintf(out, ",\"version_station\":%u,", f.version_station);
    json_wide(out, "generation", f.config.generation);
    fprintf(out, ",\"generation_station\":%u,\"configuration\":", f.generation_station);
    json_configuration(out, &f.config.config);
    fprintf(out, "}");
}

static void json_round(FILE *out, const table *t, const head *h)
{
    if (h->round == OSPREYSCREEN_ROUND_NONE) {
        fprintf(out, "null");
        return;
    }
    ospreyscreen_reply d = ospreyscreen_diagnose(t->bytes, t->length);
    fprintf(out, "{\"kind\":\"%s\",\"item\":%u,", ROUND_NAMES[h->round], h->item);
    if (h->round == OSPREYSCREEN_ROUND_WRITE) {
        json_wide(out, "value", h->value);
    } else {
        fprintf(out, "\"value\":null");
    }
    fprintf(out, ",\"target\":");
    if (h->round == OSPREYSCREEN_ROUND_CHANGE) {
        json_configuration(out, &h->target);
    } else {
        fprintf(out, "null");
    }
    fprintf(out, ",");
    json_stations(out, "polled", h->polled);
    fprintf(out, ",");
    json_stations(out, "data_puts", h->data_puts);
    fprintf(out, ",");
    json_stations(out, "configuration_puts", h->configuration_puts);
    json_found(out, t, h);
    if (d.third != 0) {
        fprintf(out, ",\"read_place\":%" PRIu64, d.third - 1);
    } else {
        fprintf(out, ",\"read_place\":null");
    }
    fprintf(out, ",\"commit\":%" PRIu64 "}", d.first);
}

/* The configurations that the item's copies have, each once, and where each
 * station's stands among them. */
static int gather_configurations(const table *t, const head *h, unsigned item,
                                 configuration gathered[STATIONS_MAX], int index[STATIONS_MAX])
{
    int count = 0;

    for (unsigned s = 0; s < h->n; s++) {
        copy c = table_copy(t, item, s);
        index[s] = 0;
        while (index[s] < count && !same_configuration(&gathered[index[s]], &c.config)) {
            index[s]++;
        }
        if (index[s] == count) {
            gathered[count] = c.config;
            count++;
        }
    }
    return count;
}

static void json_copies(FILE *out, const table *t, const head *h, unsigned item)
{
    configuration gathered[STATIONS_MAX];
    int index[STATIONS_MAX];
    int count = gather_configurations(t, h, item, gathered, index);
    uint64_t version, generation;

    table_newest(t, item, &version, &generation);
    fprintf(out, "\"configurations\":[");
    for (int i = 0; i < count; i++) {
        fprintf(out, i == 0 ? "" : ",");
        json_configuration(out, &gathered[i]);
    }
    fprintf(out, "],\"copies\":[");
    for (unsigned s = 0; s < h->n; s++) {
        copy c = table_copy(t, item, s);
        fprintf(out, s == 0 ? "{" : ",{");
        json_wide(out, "version", c.version);
        fprintf(out, ",");
        json_wide(out, "value", c.value);
        fprintf(out, ",");
        json_wide(out, "generation", c.generation);
        fprintf(out, ",\"configuration\":%d,\"stale_data\":%s,\"stale_configuration\":%s}", index[s],
                c.version < version ? "true" : "false", c.generation < generation ? "true" : "false");
    }
    fprintf(out, "]");
}

static void json_item(FILE *out, const table *t, const head *h, unsigned item)
{
    ospreyscreen_reply plan = ospreyscreen_plan(t->bytes, t->length, item);

    fprintf(out, "{\"reach\":%" PRIu64 ",\"plan\":",
            ospreyscreen_reach(t->bytes, t->length, item).first);
    if (plan.number == OSPREYSCREEN_DONE) {
        fprintf(out, "{\"polls\":%" PRIu64 ",\"puts\":%" PRIu64 "},", plan.first, plan.second);
    } else {
        fprintf(out, "null,");
    }
    json_copies(out, t, h, item);
    fprintf(out, "}");
}

/* The table, and the end of the line. */
static void json_table(FILE *out, const table *t)
{
    if (t->length == 0) {
        fprintf(out, ",\"table\":null}\n");
        return;
    }
    head h = table_head(t);
    fprintf(out, ",\"table\":{\"n\":%u,\"m\":%u,", h.n, h.m);
    json_stations(out, "on", h.on);
    fprintf(out, ",");
    json_stations(out, "off", h.off);
    fprintf(out, ",\"round\":");
    json_round(out, t, &h);
    fprintf(out, ",\"items\":[");
    for (unsigned item = 0; item < h.m; item++) {
        fprintf(out, item == 0 ? "" : ",");
        json_item(out, t, &h, item);
    }
    fprintf(out, "]}}\n");
}

/* ---- Lines ---- */

void trace_call(FILE *out, uint64_t at, table *t, const call *c)
{
    ospreyscreen_reply reply = call_make(t, c);

    fprintf(out, TRACE_BEGINNING "%" PRIu64, at);
    json_call(out, c);
    json_figures(out, reply);
    print_reply(out, c, reply);
    fprintf(out, "\"}");
    json_advice(out, t, c, reply);
    json_table(out, t);
}

void trace_false_frame(FILE *out, uint64_t at, const table *t)
{
    ospreyscreen_reply reply = {.number = OSPREYSCREEN_FALSE_FRAME};

    fprintf(out, TRACE_BEGINNING "%" PRIu64 ",\"frame\":null,\"call\":null,\"words\":\"false frame\"", at);
    json_figures(out, reply);
    fprintf(out, "refused, %d %s\"},\"advice\":\"a frame is a call's code and arguments in upper-case digits, "
                 "and nothing else\"", OSPREYSCREEN_FALSE_FRAME, number_word(OSPREYSCREEN_FALSE_FRAME));
    json_table(out, t);
}

/* ---- The command ---- */

enum { LINE_ROOM = 2 * FRAME_MOST + 1 };

/* The value of an upper-case hexadecimal digit, or -1. */
static int digit_value(char c)
{
    return c >= '0' && c <= '9' ? c - '0' : c >= 'A' && c <= 'F' ? c - 'A' + 10 : -1;
}

/* The call of a line of digits; false if it is no frame. */
static bool call_from_line(call *c, const char *line, size_t length)
{
    uint8_t frame[FRAME_MOST];

    if (length % 2 != 0 || length > 2 * sizeof frame) {
        return false;
    }
    for (size_t i = 0; i < length; i += 2) {
        int high = digit_value(line[i]);
        int low = digit_value(line[i + 1]);
        if (high < 0 || low < 0) {
            return false;
        }
        frame[i / 2] = (uint8_t)(16 * high + low);
    }
    return call_from_frame(c, frame, length / 2);
}

/* A line of any length, of which no more is kept than tells that it is too long.
 * Only byte 0A ends one; a last line without it counts, but one that a failed
 * read cuts off does not. */
static bool next_line(char line[LINE_ROOM], size_t *length)
{
    int c;

    for (*length = 0; (c = getchar()) != EOF && c != '\n';) {
        if (*length < LINE_ROOM) {
            line[*length] = (char)c;
            ++*length;
        }
    }
    return c == '\n' || (*length > 0 && !ferror(stdin));
}

static void trace_lines(table *t)
{
    char line[LINE_ROOM];
    size_t length;

    for (uint64_t at = 1; !ferror(stdout) && next_line(line, &length); at++) {
        call c;
        if (call_from_line(&c, line, length)) {
            trace_call(stdout, at, t, &c);
        } else {
            trace_false_frame(stdout, at, t);
        }
    }
}

int command_trace(int argc, char **argv)
{
    static table t;
    char why[WHY_ROOM];

    if (argc > 2) {
        return wrong_usage("trace", "one TABLE at most can be given; frames come from standard input");
    }
    if (argc == 2 && !table_load(&t, argv[1], why)) {
        return trouble("trace", why);
    }
    setvbuf(stdout, NULL, _IOLBF, BUFSIZ);
    trace_lines(&t);
    if (ferror(stdin)) {
        return trouble("trace", strerror(errno));
    }
    return finish_output("trace");
}
