/*
 * Turns an installer's sheet of votes into a configuration:
 *
 *   votes "2 1 1 1 1" 3 4
 *
 * The votes of station 0, 1 and so on, then how many votes a read needs and a
 * write. Prints the sets, the 32 bytes as 64 digits for a frame, and the frames
 * that lay a house with them and link its stations. The exit status is 1 if the
 * library refuses the sheet, and 2 if it cannot be read.
 */
#include "ospreyscreen.h"

#include <errno.h>
#include <inttypes.h>
#include <stdio.h>
#include <stdlib.h>
#include <string.h>

/* The library says what it thinks of 17 stations; here is only room for some more. */
enum { ROOM = 64, REFUSED = 1, NOT_READ = 2 };

typedef struct {
    uint8_t votes[ROOM];
    size_t count;
    uint64_t total;
    uint64_t read;
    uint64_t write;
} sheet;

typedef struct {
    uint8_t bytes[OSPREYSCREEN_CONFIGURATION_LENGTH];
} configuration;

/* ---- Reading the sheet ---- */

/* The names are those that make gives the three words. */
static void stop(const char *name, const char *word, const char *what)
{
    fprintf(stderr, "votes: %s: '%s' %s\n", name, word, what);
    exit(NOT_READ);
}

/* Moves the text behind spaces; gives whether it goes on. */
static int goes_on(const char **text)
{
    *text += strspn(*text, " \t\n");
    return **text != '\0';
}

/* The number at the text; moves the text behind it. */
static uint64_t take_number(const char **text, const char *name, uint64_t most, const char *above)
{
    char word[40];
    size_t length = strcspn(*text, " \t\n");

    snprintf(word, sizeof word, "%.*s", (int)(length < sizeof word ? length : sizeof word), *text);
    if (strspn(word, "0123456789") != strlen(word)) {
        stop(name, word, "is no number");
    }
    errno = 0;
    unsigned long long number = strtoull(word, NULL, 10);
    if (errno != 0 || number > most || length >= sizeof word) {
        stop(name, word, above);
    }
    *text += length;
    return number;
}

static void read_votes(sheet *s, const char *text)
{
    const char *all = text;
    while (goes_on(&text)) {
        if (s->count == ROOM) {
            stop("VOTES", text, "is left over, and there are more stations than can be");
        }
        uint64_t votes = take_number(&text, "VOTES", UINT8_MAX, "is above 255, a station's most");
        s->votes[s->count] = (uint8_t)votes;
        s->count++;
        s->total += votes;
    }
    if (s->count == 0) {
        stop("VOTES", all, "has no number in it");
    }
}

static uint64_t read_threshold(const char *name, const char *text)
{
    const char *all = text;
    if (!goes_on(&text)) {
        stop(name, all, "has no number in it");
    }
    uint64_t number = take_number(&text, name, UINT64_MAX, "is too large");
    if (goes_on(&text)) {
        stop(name, all, "is more than one number");
    }
    return number;
}

/* ---- Words ---- */

static const char *votes_word(uint64_t number)
{
    return number == 1 ? "vote" : "votes";
}

/* ---- Why it is refused ---- */

static void tell_threshold(const sheet *s, const char *what, uint64_t threshold)
{
    if (threshold == 0) {
        printf("the %s threshold is 0\n", what);
    } else {
        printf("the %s threshold, %" PRIu64 ", is above the %" PRIu64 " %s\n", what, threshold,
               s->total, votes_word(s->total));
    }
}

static void tell_false_votes(const sheet *s)
{
    if (s->count > OSPREYSCREEN_STATIONS_MAX) {
        printf("%zu stations, and there may be %d\n", s->count, OSPREYSCREEN_STATIONS_MAX);
    } else if (s->total == 0) {
        printf("no station has a vote\n");
    } else if (s->read == 0 || s->read > s->total) {
        tell_threshold(s, "read", s->read);
    } else if (s->write == 0 || s->write > s->total) {
        tell_threshold(s, "write", s->write);
    } else {
        printf("the thresholds together, %" PRIu64 ", do not exceed the %" PRIu64 " %s\n",
               s->read + s->write, s->total, votes_word(s->total));
    }
}

/* A side is asked alone with all the votes as the other threshold: one set
 * reaches them. */
static void tell_too_many(const sheet *s)
{
    configuration unused;
    const uint64_t thresholds[] = {s->read, s->write};
    static const char *const sides[] = {"read", "write"};
    const char *joint = "";

    for (int side = 0; side < 2; side++) {
        ospreyscreen_reply reply = ospreyscreen_votes(s->votes, s->count, thresholds[side],
                                                      s->total, unused.bytes, sizeof unused.bytes);
        if (reply.number == OSPREYSCREEN_TOO_MANY_SETS) {
            printf("%smore than %d smallest sets reach the %s threshold, %" PRIu64, joint,
                   OSPREYSCREEN_SETS_PER_SIDE, sides[side], thresholds[side]);
            joint = ", and ";
        }
    }
    printf("\n");
}

static void tell_refusal(const sheet *s, uint64_t number)
{
    switch (number) {
    case OSPREYSCREEN_FALSE_VOTES:
        printf("refused, 13 false votes: ");
        tell_false_votes(s);
        break;
    case OSPREYSCREEN_TOO_MANY_SETS:
        printf("refused, 14 too many sets: ");
        tell_too_many(s);
        break;
    default:
        printf("refused, %" PRIu64 "\n", number);
        break;
    }
}

/* ---- The configuration ---- */

/* The set in a place of a side; zero if the place is not used. */
static unsigned set_in(const uint8_t *side, int place)
{
    return (unsigned)side[2 * place] | (unsigned)side[2 * place + 1] << 8;
}

static void print_set(const sheet *s, unsigned set)
{
    uint64_t votes = 0;
    const char *before = "";

    printf("  %04X  ", set);
    for (size_t station = 0; station < s->count; station++) {
        if ((set >> station & 1) != 0) {
            printf("%s%zu", before, station);
            before = ", ";
            votes += s->votes[station];
        }
    }
    printf(": %" PRIu64 " %s\n", votes, votes_word(votes));
}

static void print_side(const sheet *s, const char *what, uint64_t threshold, const uint8_t *side)
{
    printf("a %s needs %" PRIu64 " %s: one of these sets of stations\n", what, threshold,
           votes_word(threshold));
    for (int place = 0; place < OSPREYSCREEN_SETS_PER_SIDE && set_in(side, place) != 0; place++) {
        print_set(s, set_in(side, place));
    }
}

static void print_bytes(const configuration *c)
{
    for (size_t i = 0; i < sizeof c->bytes; i++) {
        printf("%02X", c->bytes[i]);
    }
    printf("\n");
}

static void print_configuration(const sheet *s, const configuration *c)
{
    printf("%zu %s, %" PRIu64 " %s\n", s->count, s->count == 1 ? "station" : "stations", s->total,
           votes_word(s->total));
    print_side(s, "read", s->read, c->bytes);
    print_side(s, "write", s->write, c->bytes + sizeof c->bytes / 2);
    printf("the configuration, 32 bytes\n");
    print_bytes(c);
}

/* The frames that set a house up: the lay, and a link for each station. */
static void print_frames(const sheet *s, const configuration *c)
{
    printf("the frame that lays such a house with one item at 0: call, n, m, value, these bytes\n");
    printf("01%02zX010000000000000000", s->count);
    print_bytes(c);
    printf("the frames that link its stations, each once it is wired: call, station, 1 for on\n");
    for (size_t station = 0; station < s->count; station++) {
        printf("09%02zX01\n", station);
    }
}

int main(int argc, char **argv)
{
    sheet s;
    configuration c;

    if (argc != 4) {
        fprintf(stderr, "usage: votes VOTES READ WRITE, as in: votes \"2 1 1 1 1\" 3 4\n");
        return NOT_READ;
    }
    memset(&s, 0, sizeof s);
    read_votes(&s, argv[1]);
    s.read = read_threshold("READ", argv[2]);
    s.write = read_threshold("WRITE", argv[3]);
    ospreyscreen_reply reply =
        ospreyscreen_votes(s.votes, s.count, s.read, s.write, c.bytes, sizeof c.bytes);
    if (reply.number != OSPREYSCREEN_DONE) {
        tell_refusal(&s, reply.number);
        return REFUSED;
    }
    print_configuration(&s, &c);
    print_frames(&s, &c);
    return EXIT_SUCCESS;
}
