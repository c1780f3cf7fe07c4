#include "sets.h"

#include "words.h"

#include <string.h>

enum { SIDE_LENGTH = OSPREYSCREEN_CONFIGURATION_LENGTH / SIDES };

const char *const SIDE_NAMES[SIDES] = {"read", "write"};

/* ---- Sets ---- */

unsigned all_below(unsigned n)
{
    return (1u << (n < STATIONS_MAX ? n : STATIONS_MAX)) - 1;
}

bool has_station(unsigned set, unsigned station)
{
    return (set >> station & 1) != 0;
}

int count_stations(unsigned set)
{
    int count = 0;
    for (; set != 0; set &= set - 1) {
        count++;
    }
    return count;
}

/* The stations with a comma between two, and the last word before the last. */
static void print_joined(FILE *out, unsigned set, const char *last)
{
    const char *before = "";

    for (unsigned station = 0; set != 0; station++) {
        if (has_station(set, station)) {
            set &= ~(1u << station);
            fprintf(out, "%s%u", before, station);
            before = count_stations(set) == 1 ? last : ", ";
        }
    }
}

void print_stations(FILE *out, unsigned set)
{
    print_joined(out, set, ", ");
}

void print_stations_and(FILE *out, unsigned set)
{
    print_joined(out, set, " and ");
}

/* ---- Configurations ---- */

unsigned set_in(const configuration *c, int side, int place)
{
    const uint8_t *at = c->bytes + SIDE_LENGTH * side + 2 * place;
    return (unsigned)at[0] | (unsigned)at[1] << 8;
}

static void store_set(configuration *c, int side, int place, unsigned set)
{
    uint8_t *at = c->bytes + SIDE_LENGTH * side + 2 * place;
    at[0] = (uint8_t)(set & 0xFF);
    at[1] = (uint8_t)(set >> 8);
}

int places_of(const configuration *c, int side)
{
    int places = PLACES;
    while (places > 0 && set_in(c, side, places - 1) == 0) {
        places--;
    }
    return places;
}

bool holds_set(const configuration *c, int side, unsigned stations)
{
    for (int place = 0; place < PLACES; place++) {
        unsigned set = set_in(c, side, place);
        if (set != 0 && (set & ~stations) == 0) {
            return true;
        }
    }
    return false;
}

bool same_configuration(const configuration *a, const configuration *b)
{
    return memcmp(a->bytes, b->bytes, sizeof a->bytes) == 0;
}

void print_side(FILE *out, const configuration *c, int side)
{
    fprintf(out, "%s", SIDE_NAMES[side]);
    for (int place = 0; place < places_of(c, side); place++) {
        fprintf(out, " %04X", set_in(c, side, place));
    }
}

void print_configuration(FILE *out, const configuration *c)
{
    print_side(out, c, READ_SIDE);
    fprintf(out, " ");
    print_side(out, c, WRITE_SIDE);
}

void print_digits(FILE *out, const configuration *c)
{
    for (size_t i = 0; i < sizeof c->bytes; i++) {
        fprintf(out, "%02X", c->bytes[i]);
    }
}

/* ---- From words ---- */

static int digit_value(char c)
{
    static const char digits[] = "0123456789abcdef0123456789ABCDEF";
    const char *found = c == '\0' ? NULL : strchr(digits, c);
    return found == NULL ? -1 : (int)((found - digits) % 16);
}

static bool all_digits(const char *word)
{
    while (digit_value(*word) >= 0) {
        word++;
    }
    return *word == '\0';
}

static bool set_from_word(unsigned *set, const char *word, char *why)
{
    *set = 0;
    if (!all_digits(word)) {
        return complain(why, "'%.40s' is no set: sets are four digits, 0 to 9 and A to F, as 0003", word);
    }
    for (; *word != '\0'; word++) {
        *set = 16 * *set + (unsigned)digit_value(*word);
        if (*set > 0xFFFF) {
            return complain(why, "a set has four digits: FFFF is all 16 stations");
        }
    }
    return true;
}

static bool from_digits(configuration *c, const char *word, char *why)
{
    if (!all_digits(word)) {
        return complain(why, "a configuration of 64 digits has 0 to 9 and A to F alone");
    }
    for (size_t i = 0; i < sizeof c->bytes; i++) {
        c->bytes[i] = (uint8_t)(16 * digit_value(word[2 * i]) + digit_value(word[2 * i + 1]));
    }
    return true;
}

/* The sets of one side, up to the word that is given or the end; gives how many
 * words they are, or -1. */
static int side_from_words(configuration *c, int side, char **words, int count, const char *end,
                           char *why)
{
    int place = 0;

    for (; place < count && (end == NULL || strcmp(words[place], end) != 0); place++) {
        unsigned set;
        if (place == PLACES) {
            complain(why, "there are more than %d sets on the %s side", PLACES, SIDE_NAMES[side]);
            return -1;
        }
        if (!set_from_word(&set, words[place], why)) {
            return -1;
        }
        store_set(c, side, place, set);
    }
    return place;
}

bool configuration_from_words(configuration *c, char **words, int count, char *why)
{
    memset(c, 0, sizeof *c);
    if (count == 1 && strlen(words[0]) == 2 * sizeof c->bytes) {
        return from_digits(c, words[0], why);
    }
    if (count > 0 && strcmp(words[0], "read") == 0) {
        int sets = side_from_words(c, READ_SIDE, words + 1, count - 1, "write", why);
        if (sets < 0) {
            return false;
        }
        if (sets + 1 < count) {
            return side_from_words(c, WRITE_SIDE, words + sets + 2, count - sets - 2, NULL, why) >= 0;
        }
    }
    return complain(why, "a configuration is 'read' and its sets, then 'write' and its sets, or 64 digits");
}

/* ---- What makes one false ---- */

/* A side by itself; gives whether something was printed. */
static bool print_false_side(FILE *out, const configuration *c, int side, unsigned n)
{
    int places = places_of(c, side);

    if (places == 0) {
        fprintf(out, "the %s side has no set", SIDE_NAMES[side]);
        return true;
    }
    for (int place = 0; place < places; place++) {
        unsigned set = set_in(c, side, place);
        if (set == 0) {
            fprintf(out, "an unused place stands before the last %s set", SIDE_NAMES[side]);
            return true;
        }
        if ((set & ~all_below(n)) != 0) {
            fprintf(out, "the %s set %04X names a station above %u, the last", SIDE_NAMES[side], set, n - 1);
            return true;
        }
    }
    return false;
}

void print_falsehood(FILE *out, const configuration *c, unsigned n)
{
    if (print_false_side(out, c, READ_SIDE, n) || print_false_side(out, c, WRITE_SIDE, n)) {
        return;
    }
    for (int i = 0; i < places_of(c, READ_SIDE); i++) {
        for (int k = 0; k < places_of(c, WRITE_SIDE); k++) {
            unsigned read = set_in(c, READ_SIDE, i);
            unsigned write = set_in(c, WRITE_SIDE, k);
            if ((read & write) == 0) {
                fprintf(out, "the read set %04X (", read);
                print_stations(out, read);
                fprintf(out, ") and the write set %04X (", write);
                print_stations(out, write);
                fprintf(out, ") share no station");
                return;
            }
        }
    }
}
