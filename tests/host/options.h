/* Command lines of the test programs: --name VALUE, and flags --name. */
#ifndef OPTIONS_H
#define OPTIONS_H

#include <stdbool.h>
#include <stddef.h>
#include <stdint.h>

/* One option; exactly one of the three pointers is set. */
typedef struct {
    const char *name; /* with its dashes */
    uint64_t *number; /* up to most */
    uint64_t most;
    const char **text;
    bool *flag;
} option;

/* Reads the options in any order. Ends the program with the usage on standard
 * error if a word is no option, or its number is none or too large. */
void options_read(int argc, char **argv, const char *usage, const option *options, size_t count);

/* Ends the program with the usage on standard error. */
_Noreturn void options_give_up(const char *usage);

/* The number in the text; false if it is none, or above most. */
bool number_in(const char *text, uint64_t most, uint64_t *number);

#endif
