/*
 * The frame runner of document 01 in plain C over the optimised C: what the
 * proved runner's lines a second are compared with. Reads and writes 64 KiB
 * at a time. All replies to lines that have been read are written before the
 * next read, so a slow writer sees each reply at once.
 */
#define _POSIX_C_SOURCE 200809L /* read, write */

#include "bytes.h"
#include "calls.h"
#include "optimised.h"

#include <errno.h>
#include <stdbool.h>
#include <stdlib.h>
#include <string.h>
#include <unistd.h>

enum { BUFFER = 65536, CODES = 256, LINE_MOST = 2 * FRAME_MOST, REPLY_LINE = 53 };

/* "Lengths in bytes by code, kept as a table"; 0 for a code that has none. */
static uint8_t frame_lengths[CODES];

static void set_frame_lengths(void)
{
    for (int i = 0; i < CALL_COUNT; i++) {
        frame_lengths[CALLS[i].code] = (uint8_t)frame_length(&CALLS[i]);
    }
}

/* One more than the value of each upper-case hexadecimal digit; else 0. */
static const uint8_t DIGITS[256] = {
    ['0'] = 1,  ['1'] = 2,  ['2'] = 3,  ['3'] = 4,  ['4'] = 5,  ['5'] = 6,  ['6'] = 7,  ['7'] = 8,
    ['8'] = 9,  ['9'] = 10, ['A'] = 11, ['B'] = 12, ['C'] = 13, ['D'] = 14, ['E'] = 15, ['F'] = 16,
};

typedef struct {
    uint8_t table[OSPREYSCREEN_TABLE_LENGTH_MAX];
    size_t len; /* 0 before a lay succeeds */
    /* The start of a line whose end has not been read, and its whole length. */
    uint8_t line[LINE_MOST];
    size_t line_length;
    uint8_t out[BUFFER];
    size_t out_length;
} runner;

/* ---- Frames ---- */

/* The byte that two digits stand for; false if they are not digits. */
static inline bool byte_at(const uint8_t *text, uint8_t *byte)
{
    unsigned high = DIGITS[text[0]];
    unsigned low = DIGITS[text[1]];
    *byte = (uint8_t)((high - 1) << 4 | (low - 1));
    return high != 0 && low != 0;
}

/* The frame in a line whose first byte is the code; false if it is no frame. */
static bool decode(const uint8_t *line, size_t length, uint8_t code, uint8_t frame[FRAME_MOST])
{
    if (frame_lengths[code] == 0 || length != 2 * (size_t)frame_lengths[code]) {
        return false;
    }
    bool digits = true;
    for (size_t i = 0; i < length / 2; i++) {
        digits &= byte_at(line + 2 * i, &frame[i]);
    }
    return digits;
}

static inline uint64_t value_at(const uint8_t *bytes)
{
    return get_number(bytes, 8);
}

/* "For a lay the runner lends just the length that its n and m need." No
 * table has an n or m that is not listed. */
static ospreyscreen_reply lay(runner *r, const uint8_t *frame)
{
    uint8_t n = frame[1];
    uint8_t m = frame[2];
    bool listed = n <= OSPREYSCREEN_STATIONS_MAX && m <= OSPREYSCREEN_ITEMS_MAX;
    size_t need = listed ? OSPREYSCREEN_TABLE_LENGTH(n, m) : 0;
    ospreyscreen_reply reply = opt_lay(r->table, need, n, m, value_at(frame + 3), frame + 11,
                                       OSPREYSCREEN_CONFIGURATION_LENGTH);
    if (reply.number == OSPREYSCREEN_DONE) {
        r->len = need;
    }
    return reply;
}

static ospreyscreen_reply make_call(runner *r, const uint8_t *frame)
{
    switch (frame[0]) {
    case OSPREYSCREEN_LAY:
        return lay(r, frame);
    case OSPREYSCREEN_OPEN_READ:
        return opt_open_read(r->table, r->len, frame[1]);
    case OSPREYSCREEN_OPEN_WRITE:
        return opt_open_write(r->table, r->len, frame[1], value_at(frame + 2));
    case OSPREYSCREEN_OPEN_CHANGE:
        return opt_open_change(r->table, r->len, frame[1], frame + 2,
                               OSPREYSCREEN_CONFIGURATION_LENGTH);
    case OSPREYSCREEN_POLL:
        return opt_poll(r->table, r->len, frame[1]);
    case OSPREYSCREEN_PUT:
        return opt_put(r->table, r->len, frame[1], frame[2]);
    case OSPREYSCREEN_COMMIT:
        return opt_commit(r->table, r->len);
    case OSPREYSCREEN_ABANDON:
        return opt_abandon(r->table, r->len);
    case OSPREYSCREEN_LINK:
        return opt_link(r->table, r->len, frame[1], frame[2]);
    case OSPREYSCREEN_REACH:
        return opt_reach(r->table, r->len, frame[1]);
    case OSPREYSCREEN_DIAGNOSE:
        return opt_diagnose(r->table, r->len);
    case OSPREYSCREEN_PLAN:
        return opt_plan(r->table, r->len, frame[1]);
    default: /* a call that this runner has not been taught */
        abort();
    }
}

/* ---- Output ---- */

static void flush(runner *r)
{
    size_t at = 0;
    while (at < r->out_length) {
        ssize_t written = write(STDOUT_FILENO, r->out + at, r->out_length - at);
        if (written > 0) {
            at += (size_t)written;
        } else if (written == 0 || errno != EINTR) {
            exit(EXIT_FAILURE);
        }
    }
    r->out_length = 0;
}

static uint8_t *print_byte(uint8_t *out, uint8_t byte)
{
    static const char digits[] = "0123456789ABCDEF";
    out[0] = (uint8_t)digits[byte >> 4];
    out[1] = (uint8_t)digits[byte & 15];
    return out + 2;
}

static uint8_t *print_figure(uint8_t *out, uint64_t figure)
{
    if (figure == 0) {
        memset(out, '0', 16);
        return out + 16;
    }
    for (int i = 0; i < 8; i++, figure >>= 8) {
        out = print_byte(out, (uint8_t)figure);
    }
    return out;
}

static void print_reply(runner *r, uint8_t code, const ospreyscreen_reply *reply)
{
    if (BUFFER - r->out_length < REPLY_LINE) {
        flush(r);
    }
    uint8_t *out = r->out + r->out_length;
    out = print_byte(out, code);
    out = print_byte(out, (uint8_t)reply->number);
    out = print_figure(out, reply->first);
    out = print_figure(out, reply->second);
    out = print_figure(out, reply->third);
    *out = '\n';
    r->out_length += REPLY_LINE;
}

/* ---- Lines ---- */

/* Answers a line. Of one longer than any frame only the first digits count. */
static void answer(runner *r, const uint8_t *line, size_t length)
{
    uint8_t frame[FRAME_MOST];
    uint8_t code = 0;
    ospreyscreen_reply reply = {OSPREYSCREEN_FALSE_FRAME, 0, 0, 0};

    if (length < 2 || !byte_at(line, &code)) {
        code = 0;
    } else if (decode(line, length, code, frame)) {
        reply = make_call(r, frame);
    }
    print_reply(r, code, &reply);
}

/* Keeps the part of a line, up to the length of the longest frame. */
static void keep(runner *r, const uint8_t *part, size_t length)
{
    if (r->line_length < LINE_MOST) {
        size_t room = LINE_MOST - r->line_length;
        memcpy(r->line + r->line_length, part, length < room ? length : room);
    }
    r->line_length += length;
}

static void answer_kept(runner *r)
{
    answer(r, r->line, r->line_length);
    r->line_length = 0;
}

/* Answers every line that ends in the chunk, and keeps the rest. */
static void take(runner *r, const uint8_t *chunk, size_t length)
{
    const uint8_t *end = chunk + length;
    while (chunk < end) {
        const uint8_t *line_end = memchr(chunk, '\n', (size_t)(end - chunk));
        if (line_end == NULL) {
            keep(r, chunk, (size_t)(end - chunk));
            return;
        }
        if (r->line_length == 0) {
            answer(r, chunk, (size_t)(line_end - chunk));
        } else {
            keep(r, chunk, (size_t)(line_end - chunk));
            answer_kept(r);
        }
        chunk = line_end + 1;
    }
}

int main(void)
{
    static runner r;
    static uint8_t in[BUFFER];

    set_frame_lengths();
    for (;;) {
        ssize_t got = read(STDIN_FILENO, in, sizeof in);
        if (got > 0) {
            take(&r, in, (size_t)got);
            flush(&r);
        } else if (got == 0) {
            break;
        } else if (errno != EINTR) {
            return EXIT_FAILURE;
        }
    }
    if (r.line_length > 0) {
        answer_kept(&r);
    }
    flush(&r);
    return EXIT_SUCCESS;
}
