#include "reach.h"

#include "attempt.h"
#include "configurations.h"

/* ---- Calls on the copy ---- */

/* A station of the set, which is taken out of it. */
static unsigned take_one(rng *r, unsigned *set)
{
    unsigned station = station_of(r, *set);
    *set &= ~(1u << station);
    return station;
}

/* Polls the stations in any order; gives the last poll's first figure, and 0
 * if there is none. */
static uint64_t poll_all(attempt *a, unsigned stations)
{
    uint64_t shown = 0;
    while (stations != 0) {
        shown = attempt_poll(a, take_one(&a->source, &stations));
    }
    return shown;
}

/* Data puts at the stations in any order; each gets the number. */
static void put_all(attempt *a, unsigned stations, uint64_t number)
{
    while (stations != 0) {
        attempt_put(a, take_one(&a->source, &stations), OSPREYSCREEN_PUT_DATA, number);
    }
}

/* ---- Rounds ---- */

/* A read that polls all stations on the bus is heard, and done, exactly if the
 * figure is 1 or 3; its figures are then the book's. */
static const char *hold_to_read(attempt *a, const reached *said)
{
    bool readable = said->figure != OSPREYSCREEN_REACH_NOTHING;

    attempt_begin(a);
    attempt_open_read(a);
    a->as_said &= (poll_all(a, a->seen.on) != 0) == readable;
    ospreyscreen_reply end = attempt_commit(a, readable ? OSPREYSCREEN_DONE : OSPREYSCREEN_UNHEARD);
    if (!a->as_said) {
        return "a read of all stations on the bus differs from the reach";
    }
    bool in_book = !readable || attempt_in_book(&end, said->book);
    return in_book ? NULL : "a read of all stations on the bus differs from the book";
}

/* How a write ends that has polls of all stations on the bus and data puts at
 * them all: by the figure, and by the newest version among their copies. */
static uint64_t end_of_write(const outlook *o, const reached *said)
{
    if (said->figure == OSPREYSCREEN_REACH_NOTHING) {
        return OSPREYSCREEN_UNHEARD;
    }
    if (outlook_spent(o, (unsigned)said->item, o->on, COUNTER_VERSION)) {
        return OSPREYSCREEN_SPENT;
    }
    return said->figure == OSPREYSCREEN_REACH_READ ? OSPREYSCREEN_SHORT : OSPREYSCREEN_DONE;
}

static const char *hold_to_write(attempt *a, uint64_t end)
{
    attempt_begin(a);
    attempt_open_write(a);
    poll_all(a, a->seen.on);
    put_all(a, a->seen.on, end == OSPREYSCREEN_SHORT ? OSPREYSCREEN_DONE : end);
    attempt_commit(a, end);
    return a->as_said ? NULL : "a write at all stations on the bus differs from the reach";
}

/* A read that polls the part alone is not heard. */
static void expect_unheard(attempt *a, unsigned part)
{
    attempt_open_read(a);
    a->as_said &= poll_all(a, part) == 0;
    attempt_abandon(a);
}

/* No part of the stations on the bus is heard: all parts of few stations, some
 * of many. */
static const char *hold_to_parts(attempt *a)
{
    enum { FEW = 6, DRAWN = 24 };
    unsigned more = a->seen.on; /* than few */

    for (int i = 0; i < FEW; i++) {
        more &= more - 1;
    }
    attempt_begin(a);
    for (unsigned part = a->seen.on; more == 0 && part != 0; part = (part - 1) & a->seen.on) {
        expect_unheard(a, part);
    }
    for (int i = 0; more != 0 && i < DRAWN; i++) {
        expect_unheard(a, part_of(&a->source, a->seen.on));
    }
    return a->as_said ? NULL : "some stations on the bus are heard where the reach is 0";
}

/* ---- One reach ---- */

static bool is_figure(uint64_t figure)
{
    return figure == OSPREYSCREEN_REACH_NOTHING || figure == OSPREYSCREEN_REACH_READ ||
           figure == OSPREYSCREEN_REACH_READ_AND_WRITE;
}

const char *reach_hold(const implementation *with, const reached *said, tally *counts)
{
    attempt a;

    if (!is_figure(said->figure)) {
        return "a reach is none of 0, 1 and 3";
    }
    attempt_make(&a, with, said->table, said->item);
    uint64_t end = end_of_write(&a.seen, said);
    bool to_parts = said->book != NULL && said->figure == OSPREYSCREEN_REACH_NOTHING;
    if (counts != NULL) {
        counts->met[MET_REACH_HELD]++;
        counts->met[MET_REACH_SPENT] += end == OSPREYSCREEN_SPENT;
        counts->met[MET_REACH_PARTS] += to_parts && a.seen.on != 0;
    }
    const char *wrong = hold_to_read(&a, said);
    if (wrong == NULL) {
        wrong = hold_to_write(&a, end);
    }
    return wrong == NULL && to_parts ? hold_to_parts(&a) : wrong;
}
