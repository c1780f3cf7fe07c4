/*
 * console [TABLE]: calls as words, one a line. After each come its own words,
 * the reply in words and, after a refusal, what to do next. Nothing is kept but
 * the table, and that only by save.
 */
#include "advice.h"
#include "commands.h"
#include "editor.h"
#include "files.h"
#include "replies.h"
#include "show.h"
#include "trace.h"
#include "votes.h"
#include "words.h"

#include <ctype.h>
#include <errno.h>
#include <stdlib.h>
#include <string.h>

enum { PROMPT_ROOM = 40 };

/* The table in hand and how it came about: the calls since it was empty or
 * loaded. */
static table now;
static table start;
static table saved; /* as it was loaded or saved last */
static call *calls;
static size_t call_count;

static char *table_name; /* where save goes if no file is named */
static char *trace_name; /* where the calls were traced last */
static char *question;   /* the line that has to be said again */
static bool leaving;

/* A line: its words behind that which says what it is, the line as it was typed,
 * and of that what stands behind the first word, for names of files. */
typedef struct {
    char **words;
    int count;
    const char *line;
    const char *rest;
    bool again; /* the line before it was the same, and was asked about */
} given;

/* ---- The table in hand ---- */

/* Keeps a copy of the text in place of the one that was kept; none of a null
 * pointer. */
static void keep_text(char **kept, const char *text)
{
    char *copied = text == NULL ? NULL : strdup(text);
    free(*kept);
    *kept = copied;
}

/* What would lose something is done at a terminal only if it is said twice.
 * Scripts are taken at their word. */
static bool is_sure(const given *g, const char *loss)
{
    if (g->again || !somebody_types()) {
        return true;
    }
    printf("%s; say it again to go on\n", loss);
    keep_text(&question, g->line);
    return false;
}

static bool is_saved(void)
{
    return now.length == saved.length && memcmp(now.bytes, saved.bytes, now.length) == 0;
}

static bool may_let_go(const given *g)
{
    return is_saved() || is_sure(g, "the table is not saved, and would be lost");
}

static bool is_same_name(const char *name, const char *known)
{
    return known != NULL && strcmp(name, known) == 0;
}

/* Whether the file still holds the table that was loaded or saved last. */
static bool is_as_saved(const char *name)
{
    static table t;
    char why[WHY_ROOM];
    return table_load(&t, name, why) && t.length == saved.length &&
           memcmp(t.bytes, saved.bytes, saved.length) == 0;
}

/* Whether a file may be written over: another table than this console's, or one
 * that somebody else has changed. What is no table is not written over at all. */
static bool may_save_over(const given *g, const char *name)
{
    if (!holds_table(name) || (is_same_name(name, table_name) && is_as_saved(name))) {
        return true;
    }
    return is_sure(g, is_same_name(name, table_name) ? "the file has changed meanwhile, and that would be lost"
                                                     : "there is such a file already, and it would be lost");
}

/* Takes the table of a file in hand. */
static void take_table(const table *t, const char *name)
{
    now = *t;
    start = *t;
    saved = *t;
    call_count = 0;
    keep_text(&table_name, name);
    keep_text(&trace_name, NULL); /* it has other calls */
}

/* Calls are kept for trace; where there is no room for more the program ends. */
static void keep_call(const call *c)
{
    if ((call_count & (call_count + 1)) == 0) {
        call *more = realloc(calls, 2 * (call_count + 1) * sizeof *calls);
        if (more == NULL) {
            perror("ospreyscreen: console");
            exit(STATUS_TROUBLE);
        }
        calls = more;
    }
    calls[call_count] = *c;
    call_count++;
}

/* ---- Calls ---- */

/* A drop that takes puts along is told: link's reply does not show it. */
static void print_lost_puts(unsigned puts)
{
    head h = table_head(&now);
    unsigned lost = puts & ~(h.data_puts | h.configuration_puts);

    if (lost != 0) {
        printf("  its puts are gone with it%s\n", (lost & h.polled) != 0 ? "; its poll still counts" : "");
    }
}

/* Prints the text with two blanks in front of each line, broken between words
 * where it would pass the terminal's last column. */
static void print_indented(const char *text)
{
    size_t columns = screen_columns();
    size_t at = 0;

    while (*text != '\0') {
        size_t length = strcspn(text, " ");
        bool breaks = columns > 0 && at + 1 + length > columns;
        printf("%s%.*s", at == 0 ? "  " : breaks ? "\n  " : " ", (int)length, text);
        at = (at == 0 || breaks ? 2 : at + 1) + length;
        text += length;
        text += strspn(text, " ");
    }
    printf("\n");
}

/* What to do next, where there is something to say. */
static void print_next(const call *c, ospreyscreen_reply reply)
{
    char *text = NULL;
    size_t length = 0;
    FILE *memory = open_memstream(&text, &length);

    if (memory != NULL) {
        print_advice(memory, &now, c, reply);
        if (fclose(memory) == 0) {
            print_indented(text);
        }
    }
    free(text);
}

static bool run_call(const given *g, char *why)
{
    call c;
    head before = {0};

    if (!call_from_words(&c, g->words, g->count, why)) {
        return false;
    }
    if (c.code == OSPREYSCREEN_LAY && !may_let_go(g)) {
        return true;
    }
    if (now.length > 0) {
        before = table_head(&now);
    }
    keep_call(&c);
    ospreyscreen_reply reply = call_make(&now, &c);
    print_call(stdout, &c);
    printf(": ");
    print_reply(stdout, &c, reply);
    printf("\n");
    if (has_advice(&c, reply)) {
        print_next(&c, reply);
    } else if (c.code == OSPREYSCREEN_LINK) {
        print_lost_puts(before.data_puts | before.configuration_puts);
    } else if (c.code == OSPREYSCREEN_LAY) {
        keep_text(&table_name, NULL); /* a new table is not that of the file */
    }
    return true;
}

/* ---- The other words ---- */

static bool run_show(const given *g, char *why)
{
    uint64_t item = EVERY_ITEM;

    if (g->count > 1) {
        return complain(why, "'%.40s' is left over: show [ITEM]", g->words[1]);
    }
    if (now.length == 0) {
        return complain(why, "there is no table yet; lay one, or load FILE");
    }
    if (g->count == 1 && !item_of_table(&item, &now, g->words[0], why)) {
        return false;
    }
    print_state(stdout, &now, (unsigned)item);
    return true;
}

/* Votes that are refused do not end a script: no call is. */
static bool run_votes(const given *g, char *why)
{
    int status = print_votes(g->words, g->count, why);
    if (status == STATUS_NO) {
        printf("%s\n", why);
    }
    return status != STATUS_TROUBLE;
}

static bool run_save(const given *g, char *why)
{
    const char *name = *g->rest != '\0' ? g->rest : table_name;

    if (now.length == 0) {
        return complain(why, "there is no table yet; lay one, or load FILE");
    }
    if (name == NULL) {
        return complain(why, "the file is missing: save FILE");
    }
    if (!may_save_over(g, name)) {
        return true;
    }
    if (!file_save(name, now.bytes, now.length, holds_table, why)) {
        return false;
    }
    printf("saved in %s, %zu bytes\n", name, now.length);
    saved = now;
    if (name != table_name) {
        keep_text(&table_name, name);
    }
    return true;
}

static bool run_load(const given *g, char *why)
{
    static table loaded;
    char reason[WHY_ROOM];

    if (*g->rest == '\0') {
        return complain(why, "the file is missing: load FILE");
    }
    if (!table_load(&loaded, g->rest, reason)) {
        return complain(why, "%.450s%s", reason, now.length == 0 ? "" : "; the table in hand is kept");
    }
    if (may_let_go(g)) {
        take_table(&loaded, g->rest);
        printf("loaded %s, %zu bytes\n", g->rest, now.length);
    }
    return true;
}

static bool holds_trace(const char *name)
{
    char first[sizeof TRACE_BEGINNING] = "";
    FILE *file = open_to_read(name);

    if (file == NULL) {
        return false;
    }
    size_t got = fread(first, 1, sizeof first - 1, file);
    fclose(file);
    return got == sizeof first - 1 && strcmp(first, TRACE_BEGINNING) == 0;
}

/* The calls once more, from where they began. */
static bool run_trace(const given *g, char *why)
{
    char *text = NULL;
    size_t length = 0;
    table again = start;

    if (*g->rest == '\0') {
        return complain(why, "the file is missing: trace FILE");
    }
    if (call_count == 0) {
        return complain(why, "there are no calls yet; nothing is written");
    }
    if (!is_same_name(g->rest, trace_name) && holds_trace(g->rest) &&
        !is_sure(g, "there is such a file already, and it would be lost")) {
        return true;
    }
    FILE *memory = open_memstream(&text, &length);
    if (memory == NULL) {
        return complain(why, "%s", strerror(errno));
    }
    for (size_t i = 0; i < call_count; i++) {
        trace_call(memory, i + 1, &again, &calls[i]);
    }
    bool good = fclose(memory) == 0 || complain(why, "%s", strerror(errno));
    good = good && file_save(g->rest, text, length, holds_trace, why);
    if (good) {
        printf("traced in %s, %zu %s\n", g->rest, call_count, call_count == 1 ? "call" : "calls");
        keep_text(&trace_name, g->rest);
    }
    free(text);
    return good;
}

static bool run_quit(const given *g, char *why)
{
    if (g->count > 0) {
        return complain(why, "'%.40s' is left over: quit", g->words[0]);
    }
    leaving = may_let_go(g);
    return true;
}

static bool run_help(const given *g, char *why);

typedef struct {
    const char *name;
    const char *arguments;
    const char *about;
    bool (*run)(const given *g, char *why);
} console_word;

static const console_word WORDS[] = {
    {"show", " [ITEM]", "the table in words", run_show},
    {"votes", " VOTE.. read R write W", "station sets from votes", run_votes},
    {"save", " [FILE]", "write the table to a file", run_save},
    {"load", " FILE", "take the table of a file in hand", run_load},
    {"trace", " FILE", "write the calls so far for tools/picture", run_trace},
    {"help", " [WORD]", "these words", run_help},
    {"quit", "", "leave", run_quit},
};
enum { WORD_COUNT = sizeof WORDS / sizeof *WORDS };

static void print_help_line(const char *name, const char *arguments, const char *about)
{
    int width = 38 - (int)strlen(name);
    printf("%s%-*s %s\n", name, width, arguments, about);
}

/* The calls and words that the word begins; all of them without a word. */
static bool run_help(const given *g, char *why)
{
    char asked[WHY_ROOM] = "";
    int shown = 0;

    if (g->count > 2) {
        return complain(why, "'%.40s' is left over: help [WORD]", g->words[2]);
    }
    if (g->count > 0) {
        snprintf(asked, sizeof asked, "%.40s%s%.40s", g->words[0], g->count == 2 ? " " : "",
                 g->count == 2 ? g->words[1] : "");
    }
    size_t length = strlen(asked);
    for (int i = 0; i < CALL_COUNT; i++) {
        if (strncmp(CALLS[i].name, asked, length) == 0) {
            print_help_line(usage_of(&CALLS[i]).text, "", CALLS[i].about);
            shown++;
        }
    }
    for (int i = 0; i < WORD_COUNT; i++) {
        if (strncmp(WORDS[i].name, asked, length) == 0) {
            print_help_line(WORDS[i].name, WORDS[i].arguments, WORDS[i].about);
            shown++;
        }
    }
    if (shown == 0) {
        return complain(why, "nothing begins with '%.40s'; help lists every word", asked);
    }
    if (length == 0) {
        printf("SETS are station sets, four hexadecimal digits each: 0003 is stations 0 and 1\n"
               "arrow keys edit and recall lines, Ctrl-C gives one up; # skips a line\n");
    }
    return true;
}

/* ---- Lines ---- */

static const console_word *word_of(const char *name)
{
    if (strcmp(name, "exit") == 0) {
        name = "quit";
    }
    for (int i = 0; i < WORD_COUNT; i++) {
        if (strcmp(WORDS[i].name, name) == 0) {
            return &WORDS[i];
        }
    }
    return NULL;
}

/* Moves past the blanks, or past what is none. */
static char *past(char *text, bool blanks)
{
    while (*text != '\0' && (isspace((unsigned char)*text) != 0) == blanks) {
        text++;
    }
    return text;
}

/* The line without blanks around it. */
static char *trim(char *line)
{
    size_t length = strlen(line);
    while (length > 0 && isspace((unsigned char)line[length - 1]) != 0) {
        length--;
    }
    line[length] = '\0';
    return past(line, true);
}

/* Whether the line is the one that was asked about; no line is then. */
static bool is_answer(const char *line)
{
    bool again = question != NULL && strcmp(question, line) == 0;
    keep_text(&question, NULL);
    return again;
}

static bool run_words(char **words, int count, char *typed, char *why)
{
    char *line = trim(typed);
    given g = {words, count, line, past(past(line, false), true), is_answer(line)};
    const console_word *w = word_of(words[0]);

    if (w == NULL) {
        return run_call(&g, why);
    }
    g.words++;
    g.count--;
    return w->run(&g, why);
}

/* Empty lines and comments are passed over. */
static bool run_line(char *line, size_t length, char *why)
{
    char *words[WORDS_MOST];
    char *typed = strdup(line);
    bool good = true;

    if (typed == NULL) {
        return complain(why, "%s", strerror(errno));
    }
    int count = split_words(line, length, words);
    if (count > 0 && words[0][0] != '#') {
        lower_words(words, count < WORDS_MOST ? count : WORDS_MOST);
        good = strlen(typed) != length ? complain(why, "there is a byte 0 in the line")
                                       : run_words(words, count, typed, why);
    }
    free(typed);
    return good;
}

/* "> ", with the open round in front. */
static void make_prompt(char prompt[PROMPT_ROOM])
{
    head h = {0};

    if (now.length > 0) {
        h = table_head(&now);
    }
    if (h.round != OSPREYSCREEN_ROUND_NONE) {
        snprintf(prompt, PROMPT_ROOM, "%s %u> ", ROUND_NAMES[h.round], h.item);
    } else {
        strcpy(prompt, "> ");
    }
}

/* The end of the input is a quit. Gives whether the input goes on. */
static bool end_of_input(void)
{
    given g = {NULL, 0, "quit", "", is_answer("quit")};
    char why[WHY_ROOM];

    run_quit(&g, why);
    return !leaving;
}

/* A wrong line is told; it ends a script, since what follows was written to come
 * after it. */
static int run_lines(void)
{
    char prompt[PROMPT_ROOM];
    char why[WHY_ROOM];
    char *line = NULL;
    size_t length = 0;

    for (unsigned long at = 1; !leaving; at++) {
        make_prompt(prompt);
        line_result result = read_line(prompt, &line, &length);
        if (result == LINE_FAILED) {
            return trouble("console", strerror(errno));
        }
        if (result == LINE_END && !end_of_input()) {
            break;
        }
        if (result == LINE_DROPPED) {
            keep_text(&question, NULL);
        }
        if (result != LINE_READ || run_line(line, length, why)) {
            continue;
        }
        fflush(stdout);
        if (!somebody_types()) {
            fprintf(stderr, "ospreyscreen: console: line %lu: %s; the script ends here\n", at, why);
            return STATUS_TROUBLE;
        }
        fprintf(stderr, "%s\n", why);
    }
    return finish_output("console");
}

int command_console(int argc, char **argv)
{
    static table loaded;
    char why[WHY_ROOM];

    if (argc > 2) {
        return wrong_usage("console", "one TABLE at most can be given");
    }
    if (argc == 2) {
        if (!table_load(&loaded, argv[1], why)) {
            return trouble("console", why);
        }
        take_table(&loaded, argv[1]);
    }
    if (somebody_types()) {
        printf("Ospreyscreen %s; help lists the words, quit leaves\n%s\n", OSPREYSCREEN_VERSION_STRING,
               argc == 2 ? "the table is in hand; show prints it" : "there is no table yet; lay one, or load FILE");
    }
    editor_start();
    int status = run_lines();
    free(calls);
    keep_text(&table_name, NULL);
    keep_text(&trace_name, NULL);
    keep_text(&question, NULL);
    return status;
}
