/*
 * Compares two sheets for a house of so many stations:
 *
 *   standard_form 3 ONE OTHER
 *
 * A sheet is a configuration as 64 digits, as votes prints it and as a lay frame
 * has it. Prints the sets of each sheet and of its standard form, and whether
 * both are for one house: then the standard forms are equal, byte for byte, and
 * a table laid with either is the same. If not, it prints what passes by one
 * sheet alone. The exit status is 0 if they are for one house, 1 if not, and 2
 * if a sheet is refused or cannot be read.
 */
#include "ospreyscreen.h"

#include <errno.h>
#include <inttypes.h>
#include <stdio.h>
#include <stdlib.h>
#include <string.h>

enum { ONE_HOUSE = 0, TWO_HOUSES = 1, TROUBLE = 2, SIDES = 2, SHEETS = 2 };

/* One side of a configuration: eight places of two bytes. */
enum { SIDE_LENGTH = OSPREYSCREEN_CONFIGURATION_LENGTH / SIDES };

typedef struct {
    uint8_t bytes[OSPREYSCREEN_CONFIGURATION_LENGTH];
} configuration;

/* The words as make has them. */
static const char *const NAMES[SHEETS] = {"ONE", "OTHER"};

/* ---- Reading ---- */

static void stop(const char *name, const char *word, const char *what)
{
    fprintf(stderr, "standard_form: %s: '%s' %s\n", name, word, what);
    exit(TROUBLE);
}

static uint64_t read_stations(const char *word)
{
    errno = 0;
    unsigned long long number = strtoull(word, NULL, 10);
    if (*word == '\0' || strspn(word, "0123456789") != strlen(word) || errno != 0) {
        stop("N", word, "is no number of stations");
    }
    return number;
}

static configuration read_sheet(const char *name, const char *word)
{
    configuration c;
    unsigned byte;

    if (strlen(word) != 2 * sizeof c.bytes || strspn(word, "0123456789ABCDEF") != strlen(word)) {
        stop(name, word, "is not 64 digits, 0 to 9 and A to F");
    }
    for (size_t i = 0; i < sizeof c.bytes; i++) {
        sscanf(word + 2 * i, "%2X", &byte);
        c.bytes[i] = (uint8_t)byte;
    }
    return c;
}

/* ---- Sets ---- */

/* The set in a place of a side; zero if the place is not used. */
static unsigned set_in(const configuration *c, int side, int place)
{
    const uint8_t *at = c->bytes + SIDE_LENGTH * side + 2 * place;
    return (unsigned)at[0] | (unsigned)at[1] << 8;
}

/* Whether the stations hold a set of the side, so that they pass. */
static int passes(const configuration *c, int side, unsigned stations)
{
    for (int place = 0; place < OSPREYSCREEN_SETS_PER_SIDE; place++) {
        unsigned set = set_in(c, side, place);
        if (set != 0 && (set & ~stations) == 0) {
            return 1;
        }
    }
    return 0;
}

/* How many places there are up to the last used one: a gap before it is shown. */
static int places_of(const configuration *c, int side)
{
    int places = OSPREYSCREEN_SETS_PER_SIDE;
    while (places > 0 && set_in(c, side, places - 1) == 0) {
        places--;
    }
    return places;
}

static void print_sets(const char *what, const configuration *c)
{
    static const char *const sides[SIDES] = {" read", ", write"};

    printf("%s", what);
    for (int side = 0; side < SIDES; side++) {
        printf("%s", sides[side]);
        for (int place = 0; place < places_of(c, side); place++) {
            printf(" %04X", set_in(c, side, place));
        }
    }
    printf("\n");
}

static void print_bytes(const configuration *c)
{
    for (size_t i = 0; i < sizeof c->bytes; i++) {
        printf("%02X", c->bytes[i]);
    }
    printf("\n");
}

/* ---- The comparison ---- */

/* The standard form of the sheet, both printed. */
static configuration standard_form(const char *name, uint64_t n, const configuration *sheet)
{
    configuration form;
    ospreyscreen_reply reply = ospreyscreen_standard_form(n, sheet->bytes, sizeof sheet->bytes,
                                                          form.bytes, sizeof form.bytes);

    printf("%s:", name);
    print_sets("", sheet);
    if (reply.number != OSPREYSCREEN_DONE) {
        printf("refused, %" PRIu64 " %s\n", reply.number,
               reply.number == OSPREYSCREEN_NO_SUCH_THING ? "no such number of stations"
                                                          : "false configuration");
        exit(TROUBLE);
    }
    print_sets("  standard form:", &form);
    return form;
}

/* The sets that pass by this sheet and not by the other. */
static void print_alone(const char *name, const configuration *form, const configuration *other)
{
    static const char *const verbs[SIDES] = {"reads", "writes"};

    for (int side = 0; side < SIDES; side++) {
        for (int place = 0; place < OSPREYSCREEN_SETS_PER_SIDE; place++) {
            unsigned set = set_in(form, side, place);
            if (set != 0 && !passes(other, side, set)) {
                printf("  %04X %s by %s alone\n", set, verbs[side], name);
            }
        }
    }
}

int main(int argc, char **argv)
{
    configuration forms[SHEETS];

    if (argc != 4) {
        fprintf(stderr, "usage: standard_form N ONE OTHER, two configurations of 64 digits\n");
        return TROUBLE;
    }
    uint64_t n = read_stations(argv[1]);
    for (int i = 0; i < SHEETS; i++) {
        configuration sheet = read_sheet(NAMES[i], argv[2 + i]);
        forms[i] = standard_form(NAMES[i], n, &sheet);
    }
    if (memcmp(forms[0].bytes, forms[1].bytes, sizeof forms[0].bytes) != 0) {
        printf("two houses\n");
        print_alone(NAMES[0], &forms[0], &forms[1]);
        print_alone(NAMES[1], &forms[1], &forms[0]);
        return TWO_HOUSES;
    }
    printf("one house; its standard form, 32 bytes\n");
    print_bytes(&forms[0]);
    return ONE_HOUSE;
}
