/*
 * Prints the table of docs/FORMAT.md, eight bytes a line: three stations, all
 * linked and one dropped since, one item, in the middle of a second write.
 * test_docs.py holds the document to what this program prints.
 */
#include "ospreyscreen.h"

#include <inttypes.h>
#include <stdio.h>
#include <stdlib.h>

enum { STATIONS = 3, ITEMS = 1, ITEM = 0, ROW = 8 };

static uint8_t table[OSPREYSCREEN_TABLE_LENGTH(STATIONS, ITEMS)];

static const uint8_t pairs[OSPREYSCREEN_CONFIGURATION_LENGTH] = {
    3, 0, 5, 0, 6, 0, 0, 0, 0, 0, 0, 0, 0, 0, 0, 0, /* eight read sets */
    3, 0, 5, 0, 6, 0, 0, 0, 0, 0, 0, 0, 0, 0, 0, 0, /* eight write sets */
};

static void done(ospreyscreen_reply reply)
{
    if (reply.number != OSPREYSCREEN_DONE) {
        fprintf(stderr, "refused, %" PRIu64 "\n", reply.number);
        exit(EXIT_FAILURE);
    }
}

/* Opens a write and polls stations 0 and 1. */
static void open_and_poll(uint64_t value)
{
    done(ospreyscreen_open_write(table, sizeof table, ITEM, value));
    done(ospreyscreen_poll(table, sizeof table, 0));
    done(ospreyscreen_poll(table, sizeof table, 1));
}

int main(void)
{
    done(ospreyscreen_lay(table, sizeof table, STATIONS, ITEMS, 500, pairs, sizeof pairs));
    for (uint64_t station = 0; station < STATIONS; station++) {
        done(ospreyscreen_link(table, sizeof table, station, OSPREYSCREEN_LINK_ON));
    }
    open_and_poll(510);
    done(ospreyscreen_put(table, sizeof table, 0, OSPREYSCREEN_PUT_DATA));
    done(ospreyscreen_put(table, sizeof table, 1, OSPREYSCREEN_PUT_DATA));
    done(ospreyscreen_commit(table, sizeof table));
    done(ospreyscreen_link(table, sizeof table, 2, OSPREYSCREEN_LINK_OFF));
    open_and_poll(520);
    done(ospreyscreen_put(table, sizeof table, 0, OSPREYSCREEN_PUT_DATA));
    for (size_t at = 0; at < sizeof table; at += ROW) {
        printf("%04zX ", at);
        for (size_t i = 0; i < ROW; i++) {
            printf(" %02X", table[at + i]);
        }
        printf("\n");
    }
    return EXIT_SUCCESS;
}
