/*
 * form N SHEET [OTHER]: the standard form of a configuration of N stations, or
 * whether two sheets are for one house: then their standard forms are equal,
 * byte for byte, and a table laid with either is the same. If not, it prints what
 * passes by one sheet alone, and the status is 1.
 */
#include "commands.h"
#include "sets.h"
#include "words.h"

#include <inttypes.h>
#include <string.h>

enum { SHEETS = 2, SHEET_ROOM = 256 };

static const char *const NAMES[SHEETS] = {"SHEET", "OTHER"};

/* A sheet as it is given, and its standard form. */
typedef struct {
    configuration given;
    configuration form;
} sheet;

/* One word of the command line: 64 digits, or words. */
static bool configuration_from_text(configuration *c, const char *text, char *why)
{
    char copied[SHEET_ROOM];
    char *words[WORDS_MOST];

    if (strlen(text) >= sizeof copied) {
        return complain(why, "so long a text is no configuration");
    }
    strcpy(copied, text);
    int count = split_words(copied, strlen(copied), words);
    if (count > WORDS_MOST) {
        return complain(why, "so many words are no configuration");
    }
    lower_words(words, count);
    return configuration_from_words(c, words, count, why);
}

static bool sheet_from_text(sheet *s, const char *name, const char *text, char *why)
{
    char reason[WHY_ROOM];
    return configuration_from_text(&s->given, text, reason) || complain(why, "%s: %.450s", name, reason);
}

static void print_sheet(const char *name, const sheet *s)
{
    printf("%s: ", name);
    print_configuration(stdout, &s->given);
    printf("\n  standard form: ");
    print_configuration(stdout, &s->form);
    printf("\n");
}

/* Why the sheet has no standard form; it is refused. */
static int tell_refusal(const char *name, uint64_t n, const configuration *c, uint64_t number)
{
    fprintf(stderr, "ospreyscreen: form: ");
    if (number == OSPREYSCREEN_NO_SUCH_THING) {
        fprintf(stderr, "refused, 2 no such thing: N is 1 to %d\n", OSPREYSCREEN_STATIONS_MAX);
    } else {
        fprintf(stderr, "%s: refused, 3 false configuration: ", name);
        print_falsehood(stderr, c, (unsigned)n);
        fprintf(stderr, "\n");
    }
    return STATUS_TROUBLE;
}

/* The sets that pass by this sheet and not by the other. */
static void print_alone(const char *name, const configuration *form, const configuration *other)
{
    static const char *const verbs[SIDES] = {"reads", "writes"};

    for (int side = 0; side < SIDES; side++) {
        for (int place = 0; place < places_of(form, side); place++) {
            unsigned set = set_in(form, side, place);
            if (!holds_set(other, side, set)) {
                printf("  %04X (", set);
                print_stations(stdout, set);
                printf(") %s by %s alone\n", verbs[side], name);
            }
        }
    }
}

/* Whether both are for one house; gives the status. */
static int compare(const sheet sheets[SHEETS])
{
    if (same_configuration(&sheets[0].form, &sheets[1].form)) {
        printf("one house; ");
        return STATUS_DONE;
    }
    printf("two houses\n");
    print_alone(NAMES[0], &sheets[0].form, &sheets[1].form);
    print_alone(NAMES[1], &sheets[1].form, &sheets[0].form);
    return STATUS_NO;
}

int command_form(int argc, char **argv)
{
    sheet sheets[SHEETS];
    char why[WHY_ROOM];
    uint64_t n = 0;
    int status = STATUS_DONE;
    int count = argc - 2;

    if (argc < 3 || argc > 4) {
        return wrong_usage("form", "N and one or two configurations are needed; one of several words stands in quotes");
    }
    if (!number_from_word(&n, argv[1], UINT64_MAX, why)) {
        return wrong_usage("form", why);
    }
    for (int i = 0; i < count; i++) {
        sheet *s = &sheets[i];
        if (!sheet_from_text(s, NAMES[i], argv[2 + i], why)) {
            return wrong_usage("form", why);
        }
        ospreyscreen_reply reply = ospreyscreen_standard_form(n, s->given.bytes, sizeof s->given.bytes,
                                                              s->form.bytes, sizeof s->form.bytes);
        if (reply.number != OSPREYSCREEN_DONE) {
            return tell_refusal(NAMES[i], n, &s->given, reply.number);
        }
    }
    for (int i = 0; i < count; i++) {
        print_sheet(NAMES[i], &sheets[i]);
    }
    if (count == SHEETS) {
        status = compare(sheets);
    }
    if (status == STATUS_DONE) {
        printf("its standard form, 32 bytes\n");
        print_digits(stdout, &sheets[0].form);
        printf("\n");
    }
    int output = finish_output("form");
    return output != STATUS_DONE ? output : status;
}
