/*
 * votes VOTE.. read R write W: an installer's sheet as a configuration.
 * The votes of station 0, 1 and so on, then how many votes a read needs and how
 * many a write.
 */
#include "votes.h"

#include "commands.h"
#include "sets.h"
#include "words.h"

#include <inttypes.h>
#include <string.h>

typedef struct {
    uint8_t votes[WORDS_MOST];
    size_t count;
    uint64_t total;
    uint64_t thresholds[SIDES];
} sheet;

/* ---- Reading ---- */

static bool is_side(const char *word)
{
    return strcmp(word, SIDE_NAMES[READ_SIDE]) == 0 || strcmp(word, SIDE_NAMES[WRITE_SIDE]) == 0;
}

static bool sheet_from_words(sheet *s, char **words, int count, char *why)
{
    int at = 0;
    uint64_t number = 0;

    memset(s, 0, sizeof *s);
    for (; at < count && !is_side(words[at]); at++) {
        if (!number_from_word(&number, words[at], UINT8_MAX, why)) {
            return false;
        }
        s->votes[at] = (uint8_t)number;
        s->total += number;
    }
    s->count = (size_t)at;
    if (at == 0) {
        return complain(why, "the votes are missing, one number for each station");
    }
    for (int side = 0; side < SIDES; side++, at += 2) {
        if (at + 1 >= count) {
            return complain(why, "'%s' and the votes that a %s needs are missing", SIDE_NAMES[side],
                            SIDE_NAMES[side]);
        }
        if (strcmp(words[at], SIDE_NAMES[side]) != 0) {
            return complain(why, "'%.40s' stands where '%s' is needed", words[at], SIDE_NAMES[side]);
        }
        if (!number_from_word(&s->thresholds[side], words[at + 1], UINT64_MAX, why)) {
            return false;
        }
    }
    return at == count || complain(why, "'%.40s' is left over", words[at]);
}

/* ---- Words ---- */

static const char *votes_word(uint64_t number)
{
    return number == 1 ? "vote" : "votes";
}

/* ---- Why it is refused ---- */

static void tell_threshold(FILE *out, const sheet *s, int side)
{
    uint64_t threshold = s->thresholds[side];

    if (threshold == 0) {
        fprintf(out, "a %s has to need a vote at least", SIDE_NAMES[side]);
    } else {
        fprintf(out, "a %s needs %" PRIu64 ", of %" PRIu64 " %s in all", SIDE_NAMES[side], threshold,
                s->total, votes_word(s->total));
    }
}

static void tell_false_votes(FILE *out, const sheet *s)
{
    if (s->count > OSPREYSCREEN_STATIONS_MAX) {
        fprintf(out, "%zu stations, and there may be %d", s->count, OSPREYSCREEN_STATIONS_MAX);
        return;
    }
    if (s->total == 0) {
        fprintf(out, "no station has a vote");
        return;
    }
    for (int side = 0; side < SIDES; side++) {
        if (s->thresholds[side] == 0 || s->thresholds[side] > s->total) {
            tell_threshold(out, s, side);
            return;
        }
    }
    fprintf(out, "a read needs %" PRIu64 " and a write %" PRIu64 "; together they have to need more than all "
                    "%" PRIu64 " %s",
            s->thresholds[READ_SIDE], s->thresholds[WRITE_SIDE], s->total, votes_word(s->total));
}

/* A side is asked alone with all the votes as the other threshold: one set
 * reaches them. */
static void tell_too_many(FILE *out, const sheet *s)
{
    configuration unused;
    const char *joint = "";

    for (int side = 0; side < SIDES; side++) {
        ospreyscreen_reply reply = ospreyscreen_votes(s->votes, s->count, s->thresholds[side], s->total,
                                                      unused.bytes, sizeof unused.bytes);
        if (reply.number == OSPREYSCREEN_TOO_MANY_SETS) {
            fprintf(out, "%smore than %d smallest sets have the %" PRIu64 " %s that a %s needs", joint, PLACES,
                    s->thresholds[side], votes_word(s->thresholds[side]), SIDE_NAMES[side]);
            joint = ", and ";
        }
    }
    fprintf(out, "; give some stations more votes, or none");
}

static void tell_refusal(const sheet *s, uint64_t number, char *why)
{
    FILE *out = fmemopen(why, WHY_ROOM, "w");

    if (out == NULL) {
        complain(why, "refused, %" PRIu64, number);
        return;
    }
    if (number == OSPREYSCREEN_FALSE_VOTES) {
        fprintf(out, "refused, 13 false votes: ");
        tell_false_votes(out, s);
    } else {
        fprintf(out, "refused, 14 too many sets: ");
        tell_too_many(out, s);
    }
    fclose(out);
}

/* ---- The configuration ---- */

static void print_set(const sheet *s, unsigned set)
{
    uint64_t votes = 0;

    for (unsigned station = 0; station < s->count; station++) {
        votes += has_station(set, station) ? s->votes[station] : 0;
    }
    printf("  %04X  ", set);
    print_stations(stdout, set);
    printf(": %" PRIu64 " %s\n", votes, votes_word(votes));
}

static void print_sheet(const sheet *s, const configuration *c)
{
    unsigned unused = all_below((unsigned)s->count);

    printf("%zu %s, %" PRIu64 " %s\n", s->count, s->count == 1 ? "station" : "stations", s->total,
           votes_word(s->total));
    for (int side = 0; side < SIDES; side++) {
        printf("a %s needs %" PRIu64 " %s: one of these sets of stations\n", SIDE_NAMES[side],
               s->thresholds[side], votes_word(s->thresholds[side]));
        for (int place = 0; place < places_of(c, side); place++) {
            print_set(s, set_in(c, side, place));
            unused &= ~set_in(c, side, place);
        }
    }
    if (unused != 0) {
        printf("in no set: ");
        print_stations(stdout, unused);
        printf("\n");
    }
    printf("the configuration, 32 bytes\n");
    print_digits(stdout, c);
    printf("\n");
}

/* What to type next. */
static void print_words(const sheet *s, const configuration *c)
{
    printf("to change item 0 of a table to these sets, type in the console\nopen change 0 ");
    print_configuration(stdout, c);
    printf("\nto lay a new table of one item at 0 with them, and to link each station once it is wired\n"
           "lay %zu 1 0 ", s->count);
    print_configuration(stdout, c);
    printf("\n");
    for (size_t station = 0; station < s->count; station++) {
        printf("link %zu on\n", station);
    }
}

int print_votes(char **words, int count, char *why)
{
    sheet s;
    configuration c;

    if (count > WORDS_MOST) {
        complain(why, "so many words are no sheet: there may be %d stations", STATIONS_MAX);
        return STATUS_TROUBLE;
    }
    if (!sheet_from_words(&s, words, count, why)) {
        return STATUS_TROUBLE;
    }
    ospreyscreen_reply reply = ospreyscreen_votes(s.votes, s.count, s.thresholds[READ_SIDE],
                                                  s.thresholds[WRITE_SIDE], c.bytes, sizeof c.bytes);
    if (reply.number != OSPREYSCREEN_DONE) {
        tell_refusal(&s, reply.number, why);
        return STATUS_NO;
    }
    print_sheet(&s, &c);
    print_words(&s, &c);
    return STATUS_DONE;
}

/* A word of the command line may be several numbers, in quotes. */
int command_votes(int argc, char **argv)
{
    char text[2048] = "";
    char why[WHY_ROOM];
    char *words[WORDS_MOST];
    size_t length = 0;

    for (int i = 1; i < argc && length < sizeof text; i++) {
        length += (size_t)snprintf(text + length, sizeof text - length, "%s ", argv[i]);
    }
    if (length >= sizeof text) {
        return wrong_usage("votes", "so long a text is no sheet");
    }
    int count = split_words(text, length, words);
    lower_words(words, count < WORDS_MOST ? count : WORDS_MOST);
    int status = print_votes(words, count, why);
    if (status == STATUS_DONE) {
        return finish_output("votes");
    }
    if (status == STATUS_TROUBLE) {
        return wrong_usage("votes", why);
    }
    trouble("votes", why);
    return STATUS_NO;
}
