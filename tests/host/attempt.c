#include "attempt.h"

#include "bytes.h"

#include <string.h>

/* Random numbers that depend on the head and on the item's counters. */
static rng source_of(const outlook *o, unsigned item)
{
    rng r = {get_number(o->table, 8)};
    for (unsigned station = 0; station < o->n; station++) {
        const uint8_t *copy = outlook_copy(o, item, station);
        r.state = rng_next(&r) ^ get_number(copy + COUNTER_VERSION, 8);
        r.state = rng_next(&r) ^ get_number(copy + COUNTER_GENERATION, 8);
    }
    return r;
}

void attempt_make(attempt *a, const implementation *with, const loan *table, uint64_t item)
{
    outlook_read(&a->seen, table->bytes, table->len);
    a->with = with;
    a->table = table;
    a->item = item;
    a->source = source_of(&a->seen, (unsigned)item);
    a->as_said = true;
}

static void expect(attempt *a, const ospreyscreen_reply *reply, uint64_t number)
{
    a->as_said &= reply->number == number;
}

void attempt_begin(attempt *a)
{
    memcpy(a->copy, a->table->bytes, a->table->len);
    if (a->copy[ROUND_AT] != OSPREYSCREEN_ROUND_NONE) {
        attempt_abandon(a);
    }
}

void attempt_open_read(attempt *a)
{
    ospreyscreen_reply reply = a->with->open_read(a->copy, a->table->len, a->item);
    expect(a, &reply, OSPREYSCREEN_DONE);
}

void attempt_open_write(attempt *a)
{
    uint64_t value = rng_next(&a->source);
    ospreyscreen_reply reply = a->with->open_write(a->copy, a->table->len, a->item, value);
    expect(a, &reply, OSPREYSCREEN_DONE);
}

void attempt_open_change(attempt *a, const uint8_t *target)
{
    ospreyscreen_reply reply =
        a->with->open_change(a->copy, a->table->len, a->item, target, CONFIGURATION);
    expect(a, &reply, OSPREYSCREEN_DONE);
}

uint64_t attempt_poll(attempt *a, unsigned station)
{
    ospreyscreen_reply reply = a->with->poll(a->copy, a->table->len, station);
    expect(a, &reply, OSPREYSCREEN_DONE);
    return reply.first;
}

void attempt_put(attempt *a, unsigned station, uint64_t sort, uint64_t number)
{
    ospreyscreen_reply reply = a->with->put(a->copy, a->table->len, station, sort);
    expect(a, &reply, number);
}

ospreyscreen_reply attempt_commit(attempt *a, uint64_t number)
{
    ospreyscreen_reply reply = a->with->commit(a->copy, a->table->len);
    expect(a, &reply, number);
    return reply;
}

void attempt_abandon(attempt *a)
{
    ospreyscreen_reply reply = a->with->abandon(a->copy, a->table->len);
    expect(a, &reply, OSPREYSCREEN_DONE);
}

bool attempt_in_book(const ospreyscreen_reply *end, const ospreyscreen_reply *book)
{
    return book == NULL || (end->first == book->first && end->second == book->second &&
                            end->third == book->third);
}
