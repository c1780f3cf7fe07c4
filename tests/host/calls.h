/*
 * Calls as data: what calls there are, their arguments and what they can
 * reply stand here once, for the reference, the runners, the generators and
 * the test of the decoder. A new call is a row of CALLS, a new argument a row
 * of ARGUMENTS, a new buffer that is lent a row of LENT (loans.h).
 */
#ifndef CALLS_H
#define CALLS_H

#include "ospreyscreen.h"

#include <stdbool.h>

enum { REPLY_NUMBERS = 16, ARGUMENTS_MOST = 4, FRAME_MOST = 43, CONFIGURATION_ROOM = 300 };

/* The buffers that calls are lent. A reply is one of them: on x86-64 with the
 * System V convention the caller hands over where a struct of four numbers is
 * to be written. The tests do so by hand and choose what stands there before,
 * so that they see a byte of a reply that a call does not write. */
typedef enum { LENT_TABLE, LENT_CONFIGURATION, LENT_REPLY, LENT_KINDS } lent_kind;

/* A lent buffer; a null pointer goes with length 0 only. */
typedef struct {
    uint8_t *bytes;
    size_t len;
} loan;

/* Whether number and figures are the same. */
static inline bool same_reply(const ospreyscreen_reply *a, const ospreyscreen_reply *b)
{
    return a->number == b->number && a->first == b->first && a->second == b->second &&
           a->third == b->third;
}

/* What an argument can be. Every kind but the configuration is a number. */
typedef enum {
    ARGUMENT_N,
    ARGUMENT_M,
    ARGUMENT_ITEM,
    ARGUMENT_STATION,
    ARGUMENT_SORT,
    ARGUMENT_STATE,
    ARGUMENT_VALUE,
    ARGUMENT_CONFIGURATION,
    ARGUMENT_KINDS
} argument;

typedef struct {
    const char *name;
    const char *frame_kind; /* what tools/frames calls it */
    size_t width;           /* bytes in a frame */
} argument_shape;

extern const argument_shape ARGUMENTS[ARGUMENT_KINDS];

/* A call with its arguments; those that its code does not name are zero. */
typedef struct {
    int code; /* enum ospreyscreen_call */
    uint64_t numbers[ARGUMENT_KINDS];
    const uint8_t *config;
    size_t config_len;
} call;

/* Calls by their arguments: numbers of any width, some of which do not exist,
 * and configurations of 32 bytes. */

static inline call call_open_read(uint64_t item)
{
    call c = {.code = OSPREYSCREEN_OPEN_READ};
    c.numbers[ARGUMENT_ITEM] = item;
    return c;
}

static inline call call_open_write(uint64_t item, uint64_t value)
{
    call c = {.code = OSPREYSCREEN_OPEN_WRITE};
    c.numbers[ARGUMENT_ITEM] = item;
    c.numbers[ARGUMENT_VALUE] = value;
    return c;
}

/* The target is 32 bytes, as the configuration of a lay. */
static inline call call_open_change(uint64_t item, const uint8_t *target)
{
    call c = {.code = OSPREYSCREEN_OPEN_CHANGE};
    c.numbers[ARGUMENT_ITEM] = item;
    c.config = target;
    c.config_len = OSPREYSCREEN_CONFIGURATION_LENGTH;
    return c;
}

static inline call call_lay(uint64_t n, uint64_t m, uint64_t value, const uint8_t *config)
{
    call c = {.code = OSPREYSCREEN_LAY};
    c.numbers[ARGUMENT_N] = n;
    c.numbers[ARGUMENT_M] = m;
    c.numbers[ARGUMENT_VALUE] = value;
    c.config = config;
    c.config_len = OSPREYSCREEN_CONFIGURATION_LENGTH;
    return c;
}

static inline call call_poll(uint64_t station)
{
    call c = {.code = OSPREYSCREEN_POLL};
    c.numbers[ARGUMENT_STATION] = station;
    return c;
}

static inline call call_put(uint64_t station, uint64_t sort)
{
    call c = {.code = OSPREYSCREEN_PUT};
    c.numbers[ARGUMENT_STATION] = station;
    c.numbers[ARGUMENT_SORT] = sort;
    return c;
}

static inline call call_commit(void)
{
    return (call){.code = OSPREYSCREEN_COMMIT};
}

static inline call call_abandon(void)
{
    return (call){.code = OSPREYSCREEN_ABANDON};
}

static inline call call_link(uint64_t station, uint64_t state)
{
    call c = {.code = OSPREYSCREEN_LINK};
    c.numbers[ARGUMENT_STATION] = station;
    c.numbers[ARGUMENT_STATE] = state;
    return c;
}

static inline call call_reach(uint64_t item)
{
    call c = {.code = OSPREYSCREEN_REACH};
    c.numbers[ARGUMENT_ITEM] = item;
    return c;
}

static inline call call_diagnose(void)
{
    return (call){.code = OSPREYSCREEN_DIAGNOSE};
}

static inline call call_plan(uint64_t item)
{
    call c = {.code = OSPREYSCREEN_PLAN};
    c.numbers[ARGUMENT_ITEM] = item;
    return c;
}

/* An implementation's functions, so that a program can drive any of them. */
typedef struct {
    const char *name;
    ospreyscreen_reply (*lay)(uint8_t *, size_t, uint64_t, uint64_t, uint64_t, const uint8_t *, size_t);
    ospreyscreen_reply (*open_read)(uint8_t *, size_t, uint64_t);
    ospreyscreen_reply (*open_write)(uint8_t *, size_t, uint64_t, uint64_t);
    ospreyscreen_reply (*open_change)(uint8_t *, size_t, uint64_t, const uint8_t *, size_t);
    ospreyscreen_reply (*poll)(uint8_t *, size_t, uint64_t);
    ospreyscreen_reply (*put)(uint8_t *, size_t, uint64_t, uint64_t);
    ospreyscreen_reply (*commit)(uint8_t *, size_t);
    ospreyscreen_reply (*abandon)(uint8_t *, size_t);
    ospreyscreen_reply (*link)(uint8_t *, size_t, uint64_t, uint64_t);
    ospreyscreen_reply (*reach)(const uint8_t *, size_t, uint64_t);
    ospreyscreen_reply (*diagnose)(const uint8_t *, size_t);
    ospreyscreen_reply (*plan)(const uint8_t *, size_t, uint64_t);
    ospreyscreen_reply (*standard_form)(uint64_t, const uint8_t *, size_t, uint8_t *, size_t);
} implementation;

/* An implementation's table, from the prefix of its functions. */
#define IMPLEMENTATION(name, prefix)                                                           \
    {                                                                                          \
        name, prefix##lay, prefix##open_read, prefix##open_write, prefix##open_change,         \
            prefix##poll, prefix##put, prefix##commit, prefix##abandon, prefix##link,          \
            prefix##reach, prefix##diagnose, prefix##plan, prefix##standard_form               \
    }

typedef struct {
    int code;
    const char *name;
    int argument_count;
    argument arguments[ARGUMENTS_MOST]; /* in the frame's order */
    unsigned numbers;                   /* bit k: it can give number k */
    int opens;                          /* the kind of round; none if it is no opening */
    /* Makes the call; gives what the function gives: where its reply is. */
    const void *(*make)(const implementation *, const call *, const loan lent[LENT_KINDS]);
} call_shape;

enum { CALL_COUNT = 12, CALL_CODES = 1 + CALL_COUNT };
extern const call_shape CALLS[CALL_COUNT];

/* The row of the code, or a null pointer. */
const call_shape *call_of(int code);

/* The row of a call whose code is known to be one; ends the program if not. */
const call_shape *shape_of(const call *c);

/* Makes the call on what is lent; false if its reply is not where it is to be. */
bool call_make(const implementation *with, const call *c, const loan lent[LENT_KINDS]);

/* Whether the header says that the call can give the number. */
bool call_can_give(const call_shape *shape, uint64_t number);

/* Whether the call has an argument of the kind. */
bool call_has(const call_shape *shape, argument kind);

/* "Lengths in bytes by code". */
size_t frame_length(const call_shape *shape);

/* The call in a frame, whose configuration stays where it is; false if the
 * bytes are no frame. */
bool call_from_frame(call *c, const uint8_t *frame, size_t len);

/* The frame of a call and its length; 0 if an argument does not fit. */
size_t call_to_frame(const call *c, uint8_t frame[FRAME_MOST]);

#endif
