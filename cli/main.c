/*
 * ospreyscreen: one program for the people at the panel, over the library's
 * header and archive alone. Each command has a file of its own.
 */
#include "commands.h"
#include "ospreyscreen.h"

#include <errno.h>
#include <signal.h>
#include <stdbool.h>
#include <stdio.h>
#include <string.h>

typedef struct {
    const char *name;
    const char *arguments;
    const char *about;
    int (*run)(int argc, char **argv);
} command;

static const command COMMANDS[] = {
    {"console", " [TABLE]", "type calls, as 'poll 1', and see their replies and what to do next; help lists them",
     command_console},
    {"show", " TABLE [ITEM]", "a saved table in words: stations, the open round, copies", command_show},
    {"votes", " VOTE.. read R write W", "station sets from votes of stations 0, 1, .., as: votes 2 1 1 read 2 write 3",
     command_votes},
    {"form", " N SHEET [OTHER]", "the standard form of a configuration; whether two are for one house", command_form},
    {"trace", " [TABLE] < FRAMES > TRACE", "each frame's call, reply and table, one JSON object a line",
     command_trace},
};

static const char CLOSING[] =
    "\nTABLE is a file that the console's save wrote. SHEET and OTHER are configurations: 64 digits,\n"
    "or words in quotes, as \"read 0003 0005 write 0007\".\n"
    "The status is 0 if all went well, 1 if votes are refused or two sheets differ, and 2 for anything else.\n"
    "ospreyscreen(1) has more.\n";

static void print_usage(FILE *out, const command *c)
{
    fprintf(out, "ospreyscreen %s%s\n", c->name, c->arguments);
}

static void print_help(void)
{
    printf("usage:\n");
    for (size_t i = 0; i < sizeof COMMANDS / sizeof *COMMANDS; i++) {
        printf("  ");
        print_usage(stdout, &COMMANDS[i]);
        printf("      %s\n", COMMANDS[i].about);
    }
    printf("  ospreyscreen --help | --version\n%s", CLOSING);
}

static const command *command_of(const char *name)
{
    for (size_t i = 0; i < sizeof COMMANDS / sizeof *COMMANDS; i++) {
        if (strcmp(COMMANDS[i].name, name) == 0) {
            return &COMMANDS[i];
        }
    }
    return NULL;
}

int trouble(const char *name, const char *what)
{
    fflush(stdout);
    fprintf(stderr, "ospreyscreen: %s: %s\n", name, what);
    return STATUS_TROUBLE;
}

int wrong_usage(const char *name, const char *what)
{
    trouble(name, what);
    fprintf(stderr, "usage: ");
    print_usage(stderr, command_of(name));
    return STATUS_TROUBLE;
}

int finish_output(const char *name)
{
    if (fflush(stdout) != 0 || ferror(stdout)) {
        return trouble(name, errno != 0 ? strerror(errno) : "standard output cannot be written");
    }
    return STATUS_DONE;
}

/* No command, or one that there is not. */
static int no_command(const char *name)
{
    if (name != NULL) {
        fprintf(stderr, "ospreyscreen: no command '%s'\n", name);
    }
    fprintf(stderr, "usage: ospreyscreen");
    for (size_t i = 0; i < sizeof COMMANDS / sizeof *COMMANDS; i++) {
        fprintf(stderr, "%s%s", i == 0 ? " " : " | ", COMMANDS[i].name);
    }
    fprintf(stderr, " ..; ospreyscreen --help says more\n");
    return STATUS_TROUBLE;
}

static bool asks_for_help(const char *word)
{
    return strcmp(word, "--help") == 0 || strcmp(word, "-h") == 0;
}

int main(int argc, char **argv)
{
    const char *name = argc > 1 ? argv[1] : NULL;
    const command *c = name == NULL ? NULL : command_of(name);

    signal(SIGXFSZ, SIG_IGN); /* a file that is too long is an error of the write */
    if (name != NULL && (asks_for_help(name) || strcmp(name, "help") == 0)) {
        print_help();
        return finish_output("help");
    }
    if (name != NULL && strcmp(name, "--version") == 0) {
        printf("ospreyscreen %s\n", OSPREYSCREEN_VERSION_STRING);
        return finish_output("version");
    }
    if (c == NULL) {
        return no_command(name);
    }
    if (argc == 3 && asks_for_help(argv[2])) {
        printf("usage: ");
        print_usage(stdout, c);
        printf("%s\n", c->about);
        return finish_output(name);
    }
    return c->run(argc - 1, argv + 1);
}
