#include "diagnose.h"

#include "bytes.h"
#include "outlook.h"

#include <string.h>

bool diagnose_foretells(const ospreyscreen_reply *told, const ospreyscreen_reply *end)
{
    return end->number == (told->number == OSPREYSCREEN_DONE ? told->first : told->number);
}

/* The copy of the round's item at the station shown; a null pointer if it is
 * none of the stations polled. */
static const uint8_t *copy_shown(const outlook *o, const ospreyscreen_reply *told)
{
    uint64_t station = told->second - 1;
    bool polled = told->second != 0 && station < o->n && (o->polled >> station & 1) != 0;
    return polled ? outlook_copy(o, o->item, (unsigned)station) : NULL;
}

/* Whether the commit, which is done, goes by this copy: its version, and but
 * for a write its value. */
static bool goes_by(const outlook *o, const uint8_t *copy, const ospreyscreen_reply *end)
{
    bool write = o->round == OSPREYSCREEN_ROUND_WRITE;
    return end->second == get_number(copy + VERSION_IN, 8) + write &&
           (write || end->first == get_number(copy + VALUE_IN, 8));
}

static bool in_book(const uint8_t *copy, const ospreyscreen_reply *book)
{
    return get_number(copy + VALUE_IN, 8) == book->first &&
           get_number(copy + VERSION_IN, 8) == book->second;
}

/* A diagnose that is done, and how the commit on a copy ends. */
static const char *hold_figures(const diagnosed *said, const ospreyscreen_reply *end, tally *counts)
{
    const ospreyscreen_reply *told = said->told;
    outlook o;

    outlook_read(&o, said->table->bytes, said->table->len);
    const uint8_t *copy = copy_shown(&o, told);
    if (copy == NULL) {
        bool nothing = o.polled == 0 && told->second == 0 && told->third == 0;
        return nothing ? NULL : "a diagnose shows a station that is not polled, or none";
    }
    if (told->first == OSPREYSCREEN_DONE && !goes_by(&o, copy, end)) {
        return "a commit does not go by the station that diagnose shows";
    }
    bool current = told->third != 0 && said->book != NULL;
    if (current && !in_book(copy, said->book)) {
        return "the station that diagnose shows has not the book's reading";
    }
    if (counts != NULL) {
        counts->met[MET_DIAGNOSE_BOOK] += current;
    }
    return NULL;
}

const char *diagnose_hold(const implementation *with, const diagnosed *said, tally *counts)
{
    uint8_t copy[OSPREYSCREEN_TABLE_LENGTH_MAX];
    size_t len = said->table->len;

    if (len > sizeof copy) { /* no table is as long; the reference has been asked */
        return NULL;
    }
    if (len > 0) {
        memcpy(copy, said->table->bytes, len);
    }
    ospreyscreen_reply end = with->commit(copy, len);
    if (!diagnose_foretells(said->told, &end)) {
        return "a commit on a copy gets another number than diagnose told";
    }
    if (counts != NULL) {
        counts->met[MET_DIAGNOSE_HELD]++;
    }
    return said->told->number == OSPREYSCREEN_DONE ? hold_figures(said, &end, counts) : NULL;
}
