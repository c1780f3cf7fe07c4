/*
 * Lines from standard input. Where that is a terminal there is a prompt; where
 * standard output is one too, and can move its cursor, there are editing and a
 * history of the lines so far.
 */
#ifndef EDITOR_H
#define EDITOR_H

#include <stdbool.h>
#include <stddef.h>

typedef enum {
    LINE_READ,
    LINE_DROPPED, /* Ctrl-C: the line so far is given up */
    LINE_END,     /* the end of the input, or an error of the terminal */
    LINE_FAILED   /* an error of it, errno, where nobody types */
} line_result;

/* Whether somebody types. */
bool somebody_types(void);

/* The columns of the terminal that standard output is; 0 if it is none. */
size_t screen_columns(void);

/* Makes the terminal ready; it is put back when the program ends. */
void editor_start(void);

/* The line without its end, good until the next call. */
line_result read_line(const char *prompt, char **line, size_t *length);

#endif
