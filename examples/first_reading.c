/*
 * Lays a table of three stations and one item, links the stations, writes 510
 * through stations 0 and 1, reads it back through stations 1 and 2, and prints
 * the reading.
 */
#include "ospreyscreen.h"

#include <inttypes.h>
#include <stdio.h>
#include <stdlib.h>

enum { STATIONS = 3, ITEMS = 1, ITEM = 0 };

static uint8_t table[OSPREYSCREEN_TABLE_LENGTH(STATIONS, ITEMS)];

/* Any two of the three stations are a read quorum and a write quorum. A set is
 * two bytes, the low one first, with bit i for station i: 3 is stations 0 and
 * 1, 5 is 0 and 2, 6 is 1 and 2. Places that are not used are zero. */
static const uint8_t pairs[OSPREYSCREEN_CONFIGURATION_LENGTH] = {
    3, 0, 5, 0, 6, 0, 0, 0, 0, 0, 0, 0, 0, 0, 0, 0, /* eight read sets */
    3, 0, 5, 0, 6, 0, 0, 0, 0, 0, 0, 0, 0, 0, 0, 0, /* eight write sets */
};

/* The reply, if the call was done. */
static ospreyscreen_reply done(const char *call, ospreyscreen_reply reply)
{
    if (reply.number != OSPREYSCREEN_DONE) {
        fprintf(stderr, "%s: refused, %" PRIu64 "\n", call, reply.number);
        exit(EXIT_FAILURE);
    }
    return reply;
}

/* After a lay every station is off the bus. Firmware links each one once it is
 * wired and answers; here all three are. */
static void link_stations(void)
{
    for (uint64_t station = 0; station < STATIONS; station++) {
        done("link", ospreyscreen_link(table, sizeof table, station, OSPREYSCREEN_LINK_ON));
    }
}

static void write_item(uint64_t value)
{
    done("open write", ospreyscreen_open_write(table, sizeof table, ITEM, value));
    done("poll", ospreyscreen_poll(table, sizeof table, 0));
    done("poll", ospreyscreen_poll(table, sizeof table, 1));
    done("put", ospreyscreen_put(table, sizeof table, 0, OSPREYSCREEN_PUT_DATA));
    done("put", ospreyscreen_put(table, sizeof table, 1, OSPREYSCREEN_PUT_DATA));
    done("commit", ospreyscreen_commit(table, sizeof table));
}

static ospreyscreen_reply read_item(void)
{
    done("open read", ospreyscreen_open_read(table, sizeof table, ITEM));
    done("poll", ospreyscreen_poll(table, sizeof table, 1));
    done("poll", ospreyscreen_poll(table, sizeof table, 2));
    return done("commit", ospreyscreen_commit(table, sizeof table));
}

int main(void)
{
    done("lay", ospreyscreen_lay(table, sizeof table, STATIONS, ITEMS, 500, pairs, sizeof pairs));
    link_stations();
    write_item(510);
    ospreyscreen_reply reading = read_item();
    printf("value %" PRIu64 ", version %" PRIu64 ", generation %" PRIu64 "\n", reading.first,
           reading.second, reading.third);
    return EXIT_SUCCESS;
}
