/* The library's names over the optimised C, for builds without the library. */
#include "optimised.h"

ospreyscreen_reply ospreyscreen_lay(uint8_t *table, size_t len, uint64_t n, uint64_t m,
                                    uint64_t value, const uint8_t *config, size_t config_len)
{
    return opt_lay(table, len, n, m, value, config, config_len);
}

ospreyscreen_reply ospreyscreen_open_read(uint8_t *table, size_t len, uint64_t item)
{
    return opt_open_read(table, len, item);
}

ospreyscreen_reply ospreyscreen_open_write(uint8_t *table, size_t len, uint64_t item,
                                           uint64_t value)
{
    return opt_open_write(table, len, item, value);
}

ospreyscreen_reply ospreyscreen_open_change(uint8_t *table, size_t len, uint64_t item,
                                            const uint8_t *target, size_t target_len)
{
    return opt_open_change(table, len, item, target, target_len);
}

ospreyscreen_reply ospreyscreen_poll(uint8_t *table, size_t len, uint64_t station)
{
    return opt_poll(table, len, station);
}

ospreyscreen_reply ospreyscreen_put(uint8_t *table, size_t len, uint64_t station, uint64_t sort)
{
    return opt_put(table, len, station, sort);
}

ospreyscreen_reply ospreyscreen_commit(uint8_t *table, size_t len)
{
    return opt_commit(table, len);
}

ospreyscreen_reply ospreyscreen_abandon(uint8_t *table, size_t len)
{
    return opt_abandon(table, len);
}

ospreyscreen_reply ospreyscreen_link(uint8_t *table, size_t len, uint64_t station, uint64_t state)
{
    return opt_link(table, len, station, state);
}

ospreyscreen_reply ospreyscreen_reach(const uint8_t *table, size_t len, uint64_t item)
{
    return opt_reach(table, len, item);
}

ospreyscreen_reply ospreyscreen_diagnose(const uint8_t *table, size_t len)
{
    return opt_diagnose(table, len);
}

ospreyscreen_reply ospreyscreen_plan(const uint8_t *table, size_t len, uint64_t item)
{
    return opt_plan(table, len, item);
}

ospreyscreen_reply ospreyscreen_standard_form(uint64_t n, const uint8_t *config, size_t config_len,
                                              uint8_t *out, size_t out_len)
{
    return opt_standard_form(n, config, config_len, out, out_len);
}
