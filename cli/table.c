#include "table.h"

#include <string.h>

/* Where the head's fields begin, and a copy's. */
enum {
    AT_N = 0,
    AT_M = 1,
    AT_OFF = 2,
    AT_ROUND = 4,
    AT_ITEM = 5,
    AT_POLLED = 6,
    AT_DATA_PUTS = 8,
    AT_CONFIGURATION_PUTS = 10,
    AT_VALUE = 16,
    AT_TARGET = 24
};
enum { AT_COPY_VERSION = 0, AT_COPY_VALUE = 8, AT_COPY_GENERATION = 16, AT_COPY_CONFIGURATION = 24 };

const char *const ROUND_NAMES[] = {"none", "read", "write", "change"};

/* Least significant byte first. */
static uint64_t get_number(const uint8_t *at, int width)
{
    uint64_t number = 0;
    for (int i = width - 1; i >= 0; i--) {
        number = number << 8 | at[i];
    }
    return number;
}

static unsigned get_set(const uint8_t *at)
{
    return (unsigned)get_number(at, 2);
}

/* A sound table has an item 0, so that reach gets 1 or 0. */
bool table_is_sound(const table *t)
{
    return ospreyscreen_reach(t->bytes, t->length, 0).number == OSPREYSCREEN_DONE;
}

head table_head(const table *t)
{
    const uint8_t *at = t->bytes;
    head h = {
        .n = at[AT_N],
        .m = at[AT_M],
        .off = get_set(at + AT_OFF),
        .round = at[AT_ROUND],
        .item = at[AT_ITEM],
        .polled = get_set(at + AT_POLLED),
        .data_puts = get_set(at + AT_DATA_PUTS),
        .configuration_puts = get_set(at + AT_CONFIGURATION_PUTS),
        .value = get_number(at + AT_VALUE, 8),
    };
    h.on = all_below(h.n) & ~h.off;
    memcpy(h.target.bytes, at + AT_TARGET, sizeof h.target.bytes);
    return h;
}

copy table_copy(const table *t, unsigned item, unsigned station)
{
    unsigned number = item * t->bytes[AT_N] + station;
    const uint8_t *at = t->bytes + OSPREYSCREEN_HEAD_LENGTH + OSPREYSCREEN_COPY_LENGTH * number;
    copy c = {
        .version = get_number(at + AT_COPY_VERSION, 8),
        .value = get_number(at + AT_COPY_VALUE, 8),
        .generation = get_number(at + AT_COPY_GENERATION, 8),
    };
    memcpy(c.config.bytes, at + AT_COPY_CONFIGURATION, sizeof c.config.bytes);
    return c;
}

void table_newest(const table *t, unsigned item, uint64_t *version, uint64_t *generation)
{
    *version = 0;
    *generation = 0;
    for (unsigned station = 0; station < t->bytes[AT_N]; station++) {
        copy c = table_copy(t, item, station);
        *version = c.version > *version ? c.version : *version;
        *generation = c.generation > *generation ? c.generation : *generation;
    }
}

/* Of equal counters the lowest station's. */
findings table_findings(const table *t, const head *h)
{
    findings f = {0};
    bool first = true;

    for (unsigned station = 0; station < h->n; station++) {
        if (!has_station(h->polled, station)) {
            continue;
        }
        copy c = table_copy(t, h->item, station);
        if (first || c.version > f.data.version) {
            f.version_station = station;
            f.data = c;
        }
        if (first || c.generation > f.config.generation) {
            f.generation_station = station;
            f.config = c;
        }
        first = false;
    }
    return f;
}
