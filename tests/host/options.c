#include "options.h"

#include <errno.h>
#include <stdio.h>
#include <stdlib.h>
#include <string.h>

bool number_in(const char *text, uint64_t most, uint64_t *number)
{
    char *end;
    if (text == NULL || *text < '0' || *text > '9') {
        return false;
    }
    errno = 0;
    unsigned long long read = strtoull(text, &end, 10);
    *number = read;
    return errno == 0 && *end == '\0' && read <= most;
}

static const option *named(const option *options, size_t count, const char *name)
{
    for (size_t i = 0; i < count; i++) {
        if (strcmp(options[i].name, name) == 0) {
            return &options[i];
        }
    }
    return NULL;
}

/* Takes the option, whose value is the next word; false if it has none. */
static bool take(const option *o, const char *next)
{
    if (o->flag != NULL) {
        *o->flag = true;
        return true;
    }
    if (o->text != NULL && next != NULL) {
        *o->text = next;
        return true;
    }
    return o->number != NULL && number_in(next, o->most, o->number);
}

_Noreturn void options_give_up(const char *usage)
{
    fprintf(stderr, "usage: %s\n", usage);
    exit(EXIT_FAILURE);
}

void options_read(int argc, char **argv, const char *usage, const option *options, size_t count)
{
    for (int i = 1; i < argc; i++) {
        const option *o = named(options, count, argv[i]);
        if (o == NULL || !take(o, argv[i + 1])) { /* argv ends with a null pointer */
            options_give_up(usage);
        }
        i += o->flag == NULL;
    }
}
