#include "calls.h"

#include "bytes.h"

#include <stdio.h>
#include <stdlib.h>
#include <string.h>

const argument_shape ARGUMENTS[ARGUMENT_KINDS] = {
    [ARGUMENT_N] = {"n", "byte", 1},
    [ARGUMENT_M] = {"m", "byte", 1},
    [ARGUMENT_ITEM] = {"item", "byte", 1},
    [ARGUMENT_STATION] = {"station", "byte", 1},
    [ARGUMENT_SORT] = {"sort", "sort", 1},
    [ARGUMENT_STATE] = {"state", "state", 1},
    [ARGUMENT_VALUE] = {"value", "value", 8},
    [ARGUMENT_CONFIGURATION] = {"configuration", "configuration", OSPREYSCREEN_CONFIGURATION_LENGTH},
};

/* ---- One function of an implementation on what is lent ---- */

/* The functions as they are called: with where the reply goes in front. */
typedef const void *no_number(uint8_t *reply, uint8_t *table, size_t len);
typedef const void *one_number(uint8_t *reply, uint8_t *table, size_t len, uint64_t first);
typedef const void *two_numbers(uint8_t *reply, uint8_t *table, size_t len, uint64_t first,
                                uint64_t second);
typedef const void *one_number_and_bytes(uint8_t *reply, uint8_t *table, size_t len, uint64_t first,
                                         const uint8_t *bytes, size_t bytes_len);
typedef const void *three_numbers_and_bytes(uint8_t *reply, uint8_t *table, size_t len,
                                            uint64_t first, uint64_t second, uint64_t third,
                                            const uint8_t *bytes, size_t bytes_len);

/* The function under another of these types; the compiler is not to ask. */
#define AS(type, function) ((type *)(void (*)(void))(function))

/* What every function takes first, and what those with a configuration take last. */
#define REPLY_AND_TABLE lent[LENT_REPLY].bytes, lent[LENT_TABLE].bytes, lent[LENT_TABLE].len
#define LENT_CONFIG lent[LENT_CONFIGURATION].bytes, lent[LENT_CONFIGURATION].len

static const void *make_lay(const implementation *with, const call *c, const loan lent[LENT_KINDS])
{
    return AS(three_numbers_and_bytes, with->lay)(REPLY_AND_TABLE, c->numbers[ARGUMENT_N],
                                                  c->numbers[ARGUMENT_M],
                                                  c->numbers[ARGUMENT_VALUE], LENT_CONFIG);
}

static const void *make_open_read(const implementation *with, const call *c,
                                  const loan lent[LENT_KINDS])
{
    return AS(one_number, with->open_read)(REPLY_AND_TABLE, c->numbers[ARGUMENT_ITEM]);
}

static const void *make_open_write(const implementation *with, const call *c,
                                   const loan lent[LENT_KINDS])
{
    return AS(two_numbers, with->open_write)(REPLY_AND_TABLE, c->numbers[ARGUMENT_ITEM],
                                             c->numbers[ARGUMENT_VALUE]);
}

static const void *make_open_change(const implementation *with, const call *c,
                                    const loan lent[LENT_KINDS])
{
    return AS(one_number_and_bytes, with->open_change)(REPLY_AND_TABLE, c->numbers[ARGUMENT_ITEM],
                                                       LENT_CONFIG);
}

static const void *make_poll(const implementation *with, const call *c, const loan lent[LENT_KINDS])
{
    return AS(one_number, with->poll)(REPLY_AND_TABLE, c->numbers[ARGUMENT_STATION]);
}

static const void *make_put(const implementation *with, const call *c, const loan lent[LENT_KINDS])
{
    return AS(two_numbers, with->put)(REPLY_AND_TABLE, c->numbers[ARGUMENT_STATION],
                                      c->numbers[ARGUMENT_SORT]);
}

static const void *make_commit(const implementation *with, const call *c,
                               const loan lent[LENT_KINDS])
{
    (void)c;
    return AS(no_number, with->commit)(REPLY_AND_TABLE);
}

static const void *make_abandon(const implementation *with, const call *c,
                                const loan lent[LENT_KINDS])
{
    (void)c;
    return AS(no_number, with->abandon)(REPLY_AND_TABLE);
}

static const void *make_link(const implementation *with, const call *c, const loan lent[LENT_KINDS])
{
    return AS(two_numbers, with->link)(REPLY_AND_TABLE, c->numbers[ARGUMENT_STATION],
                                       c->numbers[ARGUMENT_STATE]);
}

static const void *make_reach(const implementation *with, const call *c,
                              const loan lent[LENT_KINDS])
{
    return AS(one_number, with->reach)(REPLY_AND_TABLE, c->numbers[ARGUMENT_ITEM]);
}

static const void *make_diagnose(const implementation *with, const call *c,
                                 const loan lent[LENT_KINDS])
{
    (void)c;
    return AS(no_number, with->diagnose)(REPLY_AND_TABLE);
}

static const void *make_plan(const implementation *with, const call *c, const loan lent[LENT_KINDS])
{
    return AS(one_number, with->plan)(REPLY_AND_TABLE, c->numbers[ARGUMENT_ITEM]);
}

/* ---- The rows ---- */

#define GIVES(number) (1u << OSPREYSCREEN_##number)
#define OPENING_GIVES (GIVES(DONE) | GIVES(UNSOUND) | GIVES(NO_SUCH_THING) | GIVES(BUSY))

/* The numbers are those of document 01's table, by call, and document 02's. */
const call_shape CALLS[CALL_COUNT] = {
    {OSPREYSCREEN_LAY, "lay",
     4, {ARGUMENT_N, ARGUMENT_M, ARGUMENT_VALUE, ARGUMENT_CONFIGURATION},
     GIVES(DONE) | GIVES(UNSOUND) | GIVES(NO_SUCH_THING) | GIVES(FALSE_CONFIGURATION),
     OSPREYSCREEN_ROUND_NONE, make_lay},
    {OSPREYSCREEN_OPEN_READ, "open read",
     1, {ARGUMENT_ITEM},
     OPENING_GIVES, OSPREYSCREEN_ROUND_READ, make_open_read},
    {OSPREYSCREEN_OPEN_WRITE, "open write",
     2, {ARGUMENT_ITEM, ARGUMENT_VALUE},
     OPENING_GIVES, OSPREYSCREEN_ROUND_WRITE, make_open_write},
    {OSPREYSCREEN_OPEN_CHANGE, "open change",
     2, {ARGUMENT_ITEM, ARGUMENT_CONFIGURATION},
     OPENING_GIVES | GIVES(FALSE_CONFIGURATION), OSPREYSCREEN_ROUND_CHANGE, make_open_change},
    {OSPREYSCREEN_POLL, "poll",
     1, {ARGUMENT_STATION},
     GIVES(DONE) | GIVES(UNSOUND) | GIVES(NO_SUCH_THING) | GIVES(IDLE) | GIVES(OFF_THE_BUS) |
         GIVES(READING_OVER),
     OSPREYSCREEN_ROUND_NONE, make_poll},
    {OSPREYSCREEN_PUT, "put",
     2, {ARGUMENT_STATION, ARGUMENT_SORT},
     GIVES(DONE) | GIVES(UNSOUND) | GIVES(NO_SUCH_THING) | GIVES(IDLE) | GIVES(OFF_THE_BUS) |
         GIVES(UNHEARD) | GIVES(WRONG_PUT) | GIVES(SPENT),
     OSPREYSCREEN_ROUND_NONE, make_put},
    {OSPREYSCREEN_COMMIT, "commit",
     0, {0},
     GIVES(DONE) | GIVES(UNSOUND) | GIVES(IDLE) | GIVES(UNHEARD) | GIVES(SPENT) | GIVES(SHORT),
     OSPREYSCREEN_ROUND_NONE, make_commit},
    {OSPREYSCREEN_ABANDON, "abandon",
     0, {0},
     GIVES(DONE) | GIVES(UNSOUND) | GIVES(IDLE), OSPREYSCREEN_ROUND_NONE, make_abandon},
    {OSPREYSCREEN_LINK, "link",
     2, {ARGUMENT_STATION, ARGUMENT_STATE},
     GIVES(DONE) | GIVES(UNSOUND) | GIVES(NO_SUCH_THING), OSPREYSCREEN_ROUND_NONE, make_link},
    {OSPREYSCREEN_REACH, "reach",
     1, {ARGUMENT_ITEM},
     GIVES(DONE) | GIVES(UNSOUND) | GIVES(NO_SUCH_THING), OSPREYSCREEN_ROUND_NONE, make_reach},
    {OSPREYSCREEN_DIAGNOSE, "diagnose",
     0, {0},
     GIVES(DONE) | GIVES(UNSOUND) | GIVES(IDLE), OSPREYSCREEN_ROUND_NONE, make_diagnose},
    {OSPREYSCREEN_PLAN, "plan",
     1, {ARGUMENT_ITEM},
     GIVES(DONE) | GIVES(UNSOUND) | GIVES(NO_SUCH_THING) | GIVES(OUT_OF_HEARING),
     OSPREYSCREEN_ROUND_NONE, make_plan},
};

const call_shape *call_of(int code)
{
    for (int i = 0; i < CALL_COUNT; i++) {
        if (CALLS[i].code == code) {
            return &CALLS[i];
        }
    }
    return NULL;
}

const call_shape *shape_of(const call *c)
{
    const call_shape *shape = call_of(c->code);
    if (shape == NULL) {
        fprintf(stderr, "no call has the code %d\n", c->code);
        abort();
    }
    return shape;
}

bool call_make(const implementation *with, const call *c, const loan lent[LENT_KINDS])
{
    return shape_of(c)->make(with, c, lent) == lent[LENT_REPLY].bytes;
}

bool call_can_give(const call_shape *shape, uint64_t number)
{
    return number < REPLY_NUMBERS && (shape->numbers >> number & 1) != 0;
}

bool call_has(const call_shape *shape, argument kind)
{
    for (int i = 0; i < shape->argument_count; i++) {
        if (shape->arguments[i] == kind) {
            return true;
        }
    }
    return false;
}

/* ---- Frames ---- */

size_t frame_length(const call_shape *shape)
{
    size_t length = 1;
    for (int i = 0; i < shape->argument_count; i++) {
        length += ARGUMENTS[shape->arguments[i]].width;
    }
    return length;
}

bool call_from_frame(call *c, const uint8_t *frame, size_t len)
{
    const call_shape *shape = len == 0 ? NULL : call_of(frame[0]);
    if (shape == NULL || len != frame_length(shape)) {
        return false;
    }
    *c = (call){.code = shape->code};
    const uint8_t *at = frame + 1;
    for (int i = 0; i < shape->argument_count; i++) {
        argument kind = shape->arguments[i];
        if (kind == ARGUMENT_CONFIGURATION) {
            c->config = at;
            c->config_len = ARGUMENTS[kind].width;
        } else {
            c->numbers[kind] = get_number(at, ARGUMENTS[kind].width);
        }
        at += ARGUMENTS[kind].width;
    }
    return true;
}

size_t call_to_frame(const call *c, uint8_t frame[FRAME_MOST])
{
    const call_shape *shape = shape_of(c);
    uint8_t *at = frame;

    *at++ = (uint8_t)shape->code;
    for (int i = 0; i < shape->argument_count; i++) {
        argument kind = shape->arguments[i];
        size_t width = ARGUMENTS[kind].width;
        if (kind == ARGUMENT_CONFIGURATION) {
            if (c->config_len != width) {
                return 0;
            }
            memcpy(at, c->config, width);
        } else if (width < 8 && c->numbers[kind] >> (8 * width) != 0) {
            return 0;
        } else {
            set_number(at, width, c->numbers[kind]);
        }
        at += width;
    }
    return (size_t)(at - frame);
}
