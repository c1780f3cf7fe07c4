#include "runs.h"

#include "bytes.h"
#include "fields.h"

#include <string.h>

static size_t whole_table(const loan lent[LENT_KINDS])
{
    return lent[LENT_TABLE].len;
}

static size_t whole_configuration(const loan lent[LENT_KINDS])
{
    return lent[LENT_CONFIGURATION].len;
}

static size_t whole_reply(const loan lent[LENT_KINDS])
{
    return lent[LENT_REPLY].len;
}

const lent_rule LENT[LENT_KINDS] = {
    [LENT_TABLE] = {"table", GUARD_WRITABLE, TABLE_ROOM, whole_table},
    [LENT_CONFIGURATION] = {"configuration", GUARD_READ_ONLY, CONFIGURATION_ROOM,
                            whole_configuration},
    [LENT_REPLY] = {"reply", GUARD_WRITABLE, sizeof(ospreyscreen_reply), whole_reply},
};

run run_make(const implementation *with)
{
    run r = {.with = with};
    for (int kind = 0; kind < LENT_KINDS; kind++) {
        r.buffers[kind] = guard_make(LENT[kind].room, LENT[kind].access);
    }
    return r;
}

void run_begin(run *r, const list *l)
{
    uint8_t *lent = guard_lend(&r->buffers[LENT_TABLE], l->len, l->place);
    memset(guard_inside(&r->buffers[LENT_TABLE]), 0x5A, l->len);
    r->lent[LENT_TABLE] = (loan){l->null_table && l->len == 0 ? NULL : lent, l->len};
    guard_lend(&r->buffers[LENT_CONFIGURATION], 0, GUARD_AFTER);
    r->lent[LENT_CONFIGURATION] = (loan){NULL, 0};
    size_t size = sizeof(ospreyscreen_reply);
    r->lent[LENT_REPLY] = (loan){guard_lend(&r->buffers[LENT_REPLY], size, GUARD_AFTER), size};
}

void run_lend(run *r, const step *s)
{
    const call *c = &s->made;
    if (c->config == NULL) {
        r->lent[LENT_CONFIGURATION] = (loan){NULL, 0};
        return;
    }
    uint8_t *lent = guard_lend(&r->buffers[LENT_CONFIGURATION], c->config_len, s->place);
    memcpy(guard_inside(&r->buffers[LENT_CONFIGURATION]), c->config, c->config_len);
    r->lent[LENT_CONFIGURATION] = (loan){lent, c->config_len};
}

bool run_call(const run *r, const call *c)
{
    memset(r->lent[LENT_REPLY].bytes, 0xC3, r->lent[LENT_REPLY].len);
    return call_make(r->with, c, r->lent);
}

ospreyscreen_reply run_reply(const run *r)
{
    ospreyscreen_reply reply;
    memcpy(&reply, r->lent[LENT_REPLY].bytes, sizeof reply);
    return reply;
}

static bool change_bytes(const loan *table, const step *s)
{
    if (s->at > table->len || s->count > table->len - s->at) {
        return false;
    }
    if (s->count > 0) {
        memcpy(table->bytes + s->at, s->bytes, s->count);
    }
    return true;
}

/* Whether the table is of a length that has all the item's copies. */
static bool has_item(const loan *table, uint64_t item)
{
    return table->len >= HEAD && item < table->bytes[M_AT] &&
           table->len == OSPREYSCREEN_TABLE_LENGTH(table->bytes[N_AT], table->bytes[M_AT]);
}

static uint8_t *counter_in(const loan *table, const step *s, size_t station)
{
    return table->bytes + copy_at(table->bytes[N_AT], s->item, station) + s->raised;
}

/* Adds the number to the counter of all the item's copies, if none of them
 * passes 2^64 - 1: their order stays. */
static bool raise_counters(const loan *table, const step *s)
{
    if (!has_item(table, s->item)) {
        return false;
    }
    for (size_t station = 0; station < table->bytes[N_AT]; station++) {
        if (get_number(counter_in(table, s, station), 8) > UINT64_MAX - s->by) {
            return false;
        }
    }
    for (size_t station = 0; station < table->bytes[N_AT]; station++) {
        uint8_t *number = counter_in(table, s, station);
        set_number(number, 8, get_number(number, 8) + s->by);
    }
    return true;
}

bool run_change(run *r, const step *s)
{
    const loan *table = &r->lent[LENT_TABLE];
    return s->kind == STEP_BYTES ? change_bytes(table, s) : raise_counters(table, s);
}

bool run_intact(const run *r)
{
    for (int kind = 0; kind < LENT_KINDS; kind++) {
        if (!guard_intact(&r->buffers[kind])) {
            return false;
        }
    }
    return true;
}

static bool differ_at(const loan *a, const loan *b, size_t count, size_t *at)
{
    if (count == 0 || memcmp(a->bytes, b->bytes, count) == 0) {
        return false;
    }
    for (*at = 0; a->bytes[*at] == b->bytes[*at]; ++*at) {
    }
    return true;
}

bool runs_differ(const run *a, const run *b, lent_kind *kind, size_t *at)
{
    for (int k = 0; k < LENT_KINDS; k++) {
        if (differ_at(&a->lent[k], &b->lent[k], LENT[k].binding(b->lent), at)) {
            *kind = (lent_kind)k;
            return true;
        }
    }
    return false;
}
