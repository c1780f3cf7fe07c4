#include "outlook.h"

#include "bytes.h"
#include "configurations.h"
#include "fields.h"

#include <string.h>

bool outlook_read(outlook *o, const uint8_t *table, size_t len)
{
    if (len < HEAD) {
        return false;
    }
    *o = (outlook){.table = table,
                   .n = table[N_AT],
                   .m = table[M_AT],
                   .round = table[ROUND_AT],
                   .item = table[ITEM_AT],
                   .target = table + TARGET_AT};
    if (o->n < 1 || o->n > OSPREYSCREEN_STATIONS_MAX || o->item >= o->m ||
        len != OSPREYSCREEN_TABLE_LENGTH(o->n, o->m)) {
        return false;
    }
    unsigned all = all_stations(o->n);
    o->off = get_set(table + OFF_AT) & all;
    o->on = all & ~o->off;
    o->polled = get_set(table + POLLED_AT) & all;
    o->data_puts = get_set(table + DATA_AT) & all;
    o->configuration_puts = get_set(table + PUTS_AT) & all;
    return true;
}

const uint8_t *outlook_copy(const outlook *o, unsigned item, unsigned station)
{
    return o->table + copy_at(o->n, item, station);
}

const uint8_t *outlook_newest(const outlook *o, unsigned item, unsigned among, counter by)
{
    const uint8_t *newest = NULL;
    for (unsigned station = 0; station < o->n; station++) {
        const uint8_t *copy = outlook_copy(o, item, station);
        if ((among >> station & 1) != 0 &&
            (newest == NULL || get_number(copy + by, 8) > get_number(newest + by, 8))) {
            newest = copy;
        }
    }
    return newest;
}

bool outlook_tie(const outlook *o, unsigned item, unsigned among, counter by)
{
    const uint8_t *newest = outlook_newest(o, item, among, by);
    size_t at = by == COUNTER_VERSION ? VALUE_IN : CONFIGURATION_IN;
    size_t width = by == COUNTER_VERSION ? 8 : CONFIGURATION;

    for (unsigned station = 0; station < o->n; station++) {
        const uint8_t *copy = outlook_copy(o, item, station);
        if ((among >> station & 1) != 0 && memcmp(copy + by, newest + by, 8) == 0 &&
            memcmp(copy + at, newest + at, width) != 0) {
            return true;
        }
    }
    return false;
}

bool outlook_spent(const outlook *o, unsigned item, unsigned among, counter by)
{
    const uint8_t *newest = outlook_newest(o, item, among, by);
    return newest != NULL && get_number(newest + by, 8) == UINT64_MAX;
}

const uint8_t *outlook_configuration(const outlook *o, unsigned item, unsigned among)
{
    const uint8_t *newest = outlook_newest(o, item, among, COUNTER_GENERATION);
    return newest == NULL ? NULL : newest + CONFIGURATION_IN;
}

uint64_t outlook_reach(const outlook *o, unsigned item, unsigned among)
{
    const uint8_t *config = outlook_configuration(o, item, among);
    if (config == NULL || !configuration_holds(config, READ_SIDE, o->on)) {
        return OSPREYSCREEN_REACH_NOTHING;
    }
    return configuration_holds(config, WRITE_SIDE, o->on) ? OSPREYSCREEN_REACH_READ_AND_WRITE
                                                          : OSPREYSCREEN_REACH_READ;
}

bool outlook_heard(const outlook *o, unsigned item, unsigned among)
{
    const uint8_t *config = outlook_configuration(o, item, among);
    return config != NULL && configuration_holds(config, READ_SIDE, among);
}

unsigned outlook_heard_start(const outlook *o, unsigned item)
{
    unsigned size = set_size(o->on);
    for (unsigned count = 1; count <= size; count++) {
        unsigned start = lowest_stations(o->on, count);
        if (outlook_heard(o, item, start)) {
            return start;
        }
    }
    return 0;
}
