/*
 * The frame runner of document 01 over the reference, one character at a
 * time. It derives the expected output of frame scripts. Sentences of the
 * paper stand in quotes.
 *
 *   ref_runner [--met] [--tables] < lines > replies
 *
 * With --met it prints what it met to standard error, and ends with status 2
 * if random lines should have met more. With --tables a blank and the digits of
 * the table follow each reply on its line; an empty table has none.
 */
#include "calls.h"
#include "options.h"
#include "reference.h"
#include "tally.h"

#include <stdio.h>
#include <stdlib.h>
#include <string.h>

enum { LONGEST_LINE = 2 * FRAME_MOST, NOT_MET = 2 };

static const implementation REFERENCE = IMPLEMENTATION("reference", ref_);

static uint8_t table[OSPREYSCREEN_TABLE_LENGTH_MAX];
static size_t table_length; /* "Before a lay succeeds the table is empty." */
static tally counts;
static bool tables; /* printed behind the replies */

/* The value of an upper-case hexadecimal digit, or -1. */
static int digit(char c)
{
    static const char digits[] = "0123456789ABCDEF";
    const char *found = memchr(digits, c, 16);
    return found == NULL ? -1 : (int)(found - digits);
}

static bool is_byte(const char *text)
{
    return digit(text[0]) >= 0 && digit(text[1]) >= 0;
}

static uint8_t byte(const char *text)
{
    return (uint8_t)(16 * digit(text[0]) + digit(text[1]));
}

/* Reads the call of a line into the frame; false if the line is no frame. */
static bool read_frame(const char *line, size_t length, uint8_t frame[FRAME_MOST], call *c)
{
    if (length % 2 != 0 || length > LONGEST_LINE) {
        return false;
    }
    for (size_t i = 0; i < length / 2; i++) {
        if (!is_byte(line + 2 * i)) {
            return false;
        }
        frame[i] = byte(line + 2 * i);
    }
    return call_from_frame(c, frame, length / 2);
}

/* "For a lay the runner lends just the length that its n and m need." One
 * that no table has gets 2 at any length. */
static size_t lent_length(const call *c)
{
    if (c->code != OSPREYSCREEN_LAY) {
        return table_length;
    }
    uint64_t need = 56 * (1 + c->numbers[ARGUMENT_N] * c->numbers[ARGUMENT_M]);
    return need > sizeof table ? 0 : (size_t)need;
}

/* "A refused lay keeps the old table." */
static ospreyscreen_reply make_call(const call *c)
{
    uint8_t config[OSPREYSCREEN_CONFIGURATION_LENGTH] = {0};
    ospreyscreen_reply reply;
    loan lent[LENT_KINDS] = {
        [LENT_TABLE] = {table, lent_length(c)},
        [LENT_CONFIGURATION] = {config, c->config_len},
        [LENT_REPLY] = {(uint8_t *)&reply, sizeof reply},
    };
    if (c->config != NULL) {
        memcpy(config, c->config, c->config_len);
    }
    sight seen = tally_look(&counts, c, &(loan){table, table_length}, table_length != 0);
    call_make(&REFERENCE, c, lent);
    tally_call(&counts, &seen, c, &reply);
    if (c->code == OSPREYSCREEN_LAY && reply.number == OSPREYSCREEN_DONE) {
        table_length = lent[LENT_TABLE].len;
    }
    return reply;
}

static void print_figure(uint64_t figure)
{
    for (int i = 0; i < 8; i++) {
        printf("%02X", (unsigned)(figure >> (8 * i) & 0xFF));
    }
}

static void print_table(void)
{
    printf(" ");
    for (size_t i = 0; i < table_length; i++) {
        printf("%02X", (unsigned)table[i]);
    }
}

/* "Any other line, an empty one too, gets 12: its call byte is shown if two
 * upper-case hexadecimal digits lead it, else 00." */
static void answer(const char *line, size_t length)
{
    uint8_t frame[FRAME_MOST];
    uint8_t code = length >= 2 && is_byte(line) ? byte(line) : 0;
    ospreyscreen_reply reply = {OSPREYSCREEN_FALSE_FRAME, 0, 0, 0};
    call c;

    if (read_frame(line, length, frame, &c)) {
        reply = make_call(&c);
    } else {
        counts.met[MET_FALSE_FRAME]++;
    }
    printf("%02X%02X", code, (unsigned)reply.number);
    print_figure(reply.first);
    print_figure(reply.second);
    print_figure(reply.third);
    if (tables) {
        print_table();
    }
    printf("\n");
}

/* "A line ends with byte 0A". "A last line of one byte or more without its
 * line end counts as a line." */
static void answer_all(void)
{
    char line[LONGEST_LINE];
    size_t length = 0;

    for (int c = getchar(); c != EOF; c = getchar()) {
        if (c == '\n') {
            answer(line, length);
            length = 0;
        } else {
            if (length < LONGEST_LINE) {
                line[length] = (char)c;
            }
            length++;
        }
    }
    if (length > 0) {
        answer(line, length);
    }
}

int main(int argc, char **argv)
{
    bool met = false;
    const option all[] = {{.name = "--met", .flag = &met}, {.name = "--tables", .flag = &tables}};

    options_read(argc, argv, "ref_runner [--met] [--tables]", all, sizeof all / sizeof all[0]);
    answer_all();
    if (ferror(stdin) || fflush(stdout) != 0) {
        return EXIT_FAILURE;
    }
    if (met) {
        tally_print(stderr, &counts, FORM_FRAMES);
    }
    return met && !tally_met_all(stderr, &counts, FORM_FRAMES) ? NOT_MET : EXIT_SUCCESS;
}
