/*
 * Writes random frame lines.
 *
 *   random_frames [--lines N] [--seed S]
 *
 * The lines are calls on tables of all sizes, as the differential test chooses
 * them: a lay, links, then rounds, with drops, returns, late links and calls of
 * any content between. One line in fifteen is damaged, and the last one may
 * lack its end. Before the first lay every call is made on the empty table.
 */
#include "generate.h"
#include "options.h"
#include "reference.h"

#include <stdio.h>
#include <stdlib.h>
#include <string.h>

enum { LINE_ROOM = 2 * FRAME_MOST + 8, LIST_STEPS = 1 << 14, LIST_BYTES = 1 << 22 };

typedef struct {
    uint8_t text[LINE_ROOM];
    size_t length;
} line;

/* ---- Lines ---- */

static line line_of(const uint8_t *frame, size_t length)
{
    static const char digits[] = "0123456789ABCDEF";
    line l = {.length = 2 * length};
    for (size_t i = 0; i < length; i++) {
        l.text[2 * i] = (uint8_t)digits[frame[i] >> 4];
        l.text[2 * i + 1] = (uint8_t)digits[frame[i] & 15];
    }
    return l;
}

static void insert(rng *r, line *l, uint8_t byte)
{
    size_t at = rng_below(r, l->length + 1);
    memmove(l->text + at + 1, l->text + at, l->length - at);
    l->text[at] = byte;
    l->length++;
}

/* Changes one byte, but not to a line end. */
static void change_byte(rng *r, line *l)
{
    uint8_t byte = (uint8_t)rng_next(r);
    l->text[rng_below(r, l->length)] = byte == '\n' ? 0 : byte;
}

static void change_to_lower_case(rng *r, line *l)
{
    uint8_t byte = (uint8_t)('a' + rng_below(r, 6));
    l->text[rng_below(r, l->length)] = byte;
}

static void damage(rng *r, line *l)
{
    switch (rng_below(r, 10)) {
    case 0: /* an odd number of digits */
        l->length--;
        break;
    case 1:
        change_to_lower_case(r, l);
        break;
    case 2:
        insert(r, l, ' ');
        break;
    case 3:
        l->text[l->length++] = '\r';
        break;
    case 4:
        insert(r, l, 0);
        break;
    case 5: /* a byte too many or too few */
        l->length += 2;
        l->text[l->length - 1] = l->text[l->length - 2] = '0';
        break;
    case 6:
        l->length -= 2;
        break;
    case 7: /* an unknown code */
        l->text[0] = (uint8_t)('1' + rng_below(r, 9));
        break;
    case 8:
        l->length = 0;
        break;
    default:
        change_byte(r, l);
        break;
    }
}

/* A line of digits longer than any frame; now and then very long. */
static void write_long_line(rng *r)
{
    uint64_t length = 87 + rng_below(r, rng_one_in(r, 100) ? 150000 : 100);
    for (uint64_t i = 0; i < length; i++) {
        putchar('0' + (int)rng_below(r, 10));
    }
    putchar('\n');
}

/* Writes the line; the last one may lack its end. */
static void write_line(rng *r, const line *l, bool last)
{
    fwrite(l->text, 1, l->length, stdout);
    if (!last || l->length == 0 || rng_one_in(r, 2)) {
        putchar('\n');
    }
}

/* ---- Calls ---- */

/* The length that the lay needs, if it is done with that length; else 0. */
static size_t laid_length(const call *c)
{
    static uint8_t scratch[OSPREYSCREEN_TABLE_LENGTH(OSPREYSCREEN_STATIONS_MAX,
                                                     OSPREYSCREEN_ITEMS_MAX)];
    uint64_t n = c->numbers[ARGUMENT_N];
    uint64_t m = c->numbers[ARGUMENT_M];

    if (n > OSPREYSCREEN_STATIONS_MAX || m > OSPREYSCREEN_ITEMS_MAX) {
        return 0;
    }
    size_t length = OSPREYSCREEN_TABLE_LENGTH(n, m);
    ospreyscreen_reply reply = ref_lay(scratch, length, n, m, c->numbers[ARGUMENT_VALUE], c->config,
                                       c->config_len);
    return reply.number == OSPREYSCREEN_DONE ? length : 0;
}

/* Records the call. The runner lends a lay the length that it needs, so one
 * that is done starts a list on a table of that length. One that is refused
 * keeps the table, and is not recorded. */
static void follow(generator *g, const call *c)
{
    if (c->code == OSPREYSCREEN_LAY) {
        size_t length = laid_length(c);
        if (length == 0) {
            return;
        }
        record_table(&g->to, length, GUARD_AFTER, false);
    }
    generate_step(g, c);
}

/* Writes the call, whose frame this is. Now and then its line is damaged, or
 * one longer than any frame stands in its place, and the call is not made. */
static void write_call(generator *g, const call *c, const line *whole, bool last)
{
    rng *r = &g->source;
    line l = *whole;

    if (rng_one_in(r, 200)) {
        write_long_line(r);
        return;
    }
    if (rng_one_in(r, 15)) {
        damage(r, &l);
    } else {
        follow(g, c);
    }
    write_line(r, &l, last);
}

/* Every call once, but lay, while there is no table. */
static uint64_t write_before_lay(generator *g, uint64_t lines)
{
    uint8_t frame[FRAME_MOST] = {0};
    uint64_t written = 0;
    for (int i = 0; i < CALL_COUNT && written < lines; i++) {
        frame[0] = (uint8_t)CALLS[i].code;
        line l = line_of(frame, frame_length(&CALLS[i]));
        if (CALLS[i].code != OSPREYSCREEN_LAY) {
            written++;
            write_line(&g->source, &l, written == lines);
        }
    }
    return written;
}

/* A lay, then calls for a while. */
static uint64_t write_table_lines(generator *g, uint64_t lines)
{
    call c = generate_any_lay(g);
    uint64_t most = 1 + rng_below(&g->source, 70 * (3 + c.numbers[ARGUMENT_N]));
    uint64_t written = 0;

    while (written < lines && written < most) {
        uint8_t frame[FRAME_MOST];
        size_t length = call_to_frame(&c, frame); /* none if an argument does not fit */
        if (length > 0) {
            line l = line_of(frame, length);
            written++;
            write_call(g, &c, &l, written == lines);
        }
        c = generate_call(g);
    }
    return written;
}

int main(int argc, char **argv)
{
    uint64_t lines = 1000;
    uint64_t seed = 1;
    const option all[] = {
        {.name = "--lines", .number = &lines, .most = UINT64_MAX},
        {.name = "--seed", .number = &seed, .most = UINT64_MAX},
    };
    options_read(argc, argv, "random_frames [--lines N] [--seed S]", all, sizeof all / sizeof all[0]);
    list l = list_make(LIST_STEPS, LIST_BYTES);
    generator g = generator_make(&l);
    g.source = generate_source(seed, 0);
    g.drops = 30;
    lines -= write_before_lay(&g, lines);
    while (lines > 0) {
        lines -= write_table_lines(&g, lines);
    }
    list_free(&l);
    return fflush(stdout) == 0 ? EXIT_SUCCESS : EXIT_FAILURE;
}
