/*
 * The calls on a table as words, as frames and made. The words are those of
 * tools/frames.
 */
#ifndef CALLS_H
#define CALLS_H

#include "table.h"

enum { CALL_COUNT = OSPREYSCREEN_PLAN, ARGUMENTS_MOST = 4, FRAME_MOST = 43 };

/* What an argument can be. All are numbers but the last two. */
typedef enum {
    ARGUMENT_N,
    ARGUMENT_M,
    ARGUMENT_ITEM,
    ARGUMENT_STATION,
    ARGUMENT_SORT,
    ARGUMENT_STATE,
    ARGUMENT_VALUE,
    ARGUMENT_CONFIGURATION,
    ARGUMENT_TARGET,
    ARGUMENT_KINDS
} argument;

typedef struct {
    const char *name;
    const char *usage;    /* how it is written in a line of words */
    size_t width;         /* bytes in a frame */
    const char *words[3]; /* the words that may stand for a number, if any */
} argument_shape;

extern const argument_shape ARGUMENTS[ARGUMENT_KINDS];

/* A call and its arguments; those that it does not have are zero. */
typedef struct {
    int code; /* enum ospreyscreen_call */
    uint64_t numbers[ARGUMENT_CONFIGURATION];
    configuration config; /* of a lay, or the target of a change */
} call;

typedef struct {
    int code;
    const char *name;
    int count;
    argument arguments[ARGUMENTS_MOST]; /* in the frame's order */
    const char *about;
    ospreyscreen_reply (*make)(table *t, const call *c);
} call_shape;

extern const call_shape CALLS[CALL_COUNT];

/* The row of a code, or a null pointer. */
const call_shape *call_of(int code);

/* Whether the argument is the 32 bytes of a configuration. */
bool is_configuration(argument kind);

/* The call that the words mean; if they mean none, why says so. */
bool call_from_words(call *c, char **words, int count, char *why);

/* "open write 0 510". */
void print_call(FILE *out, const call *c);

/* "open write ITEM VALUE". */
typedef struct {
    char text[64];
} usage;
usage usage_of(const call_shape *shape);

size_t frame_length(const call_shape *shape);

/* The call in a frame; false if the bytes are none. */
bool call_from_frame(call *c, const uint8_t *frame, size_t length);

/* The frame of a call, and its length. */
size_t call_to_frame(const call *c, uint8_t frame[FRAME_MOST]);

/* Makes the call. A lay that is refused keeps the table. */
ospreyscreen_reply call_make(table *t, const call *c);

#endif
