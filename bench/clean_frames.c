/*
 * Writes frame lines for timing.
 *
 *   clean_frames --stations n --items m [--lines N]
 *
 * One lay and a link for each station, then whole reads and writes only: all
 * configurations stay alike, so every part of the script costs the same.
 */
#include "calls.h"
#include "configurations.h"
#include "options.h"

#include <stdio.h>
#include <stdlib.h>

typedef struct {
    rng source;
    uint64_t left; /* lines still to be written */
    uint64_t stations;
    uint64_t items;
} writer;

/* Writes the call while lines are left. */
static void write_call(writer *w, call c)
{
    uint8_t frame[FRAME_MOST];
    size_t length = call_to_frame(&c, frame);

    if (w->left == 0) {
        return;
    }
    w->left--;
    for (size_t i = 0; i < length; i++) {
        printf("%02X", frame[i]);
    }
    putchar('\n');
}

static void write_lay(writer *w)
{
    uint8_t config[OSPREYSCREEN_CONFIGURATION_LENGTH];
    uint64_t value = rng_any_width(&w->source);

    configuration_majorities(&w->source, (unsigned)w->stations, config);
    write_call(w, call_lay(w->stations, w->items, value, config));
}

static void write_links(writer *w)
{
    for (uint64_t station = 0; station < w->stations; station++) {
        write_call(w, call_link(station, OSPREYSCREEN_LINK_ON));
    }
}

/* A read or a write through the lowest majority. */
static void write_round(writer *w)
{
    rng *r = &w->source;
    uint64_t majority = w->stations / 2 + 1;
    uint64_t item = rng_below(r, w->items);
    uint64_t value = rng_any_width(r);
    bool write = rng_one_in(r, 2);

    write_call(w, write ? call_open_write(item, value) : call_open_read(item));
    for (uint64_t station = 0; station < majority; station++) {
        write_call(w, call_poll(station));
    }
    for (uint64_t station = 0; write && station < majority; station++) {
        write_call(w, call_put(station, OSPREYSCREEN_PUT_DATA));
    }
    write_call(w, call_commit());
}

int main(int argc, char **argv)
{
    writer w = {.source = {1}, .left = 1000, .stations = 3, .items = 1};
    const option all[] = {
        {.name = "--lines", .number = &w.left, .most = UINT64_MAX},
        {.name = "--stations", .number = &w.stations, .most = OSPREYSCREEN_STATIONS_MAX},
        {.name = "--items", .number = &w.items, .most = OSPREYSCREEN_ITEMS_MAX},
    };
    options_read(argc, argv, "clean_frames [--stations n] [--items m] [--lines N]", all,
                 sizeof all / sizeof all[0]);
    write_lay(&w);
    write_links(&w);
    while (w.left > 0) {
        write_round(&w);
    }
    return fflush(stdout) == 0 ? EXIT_SUCCESS : EXIT_FAILURE;
}
