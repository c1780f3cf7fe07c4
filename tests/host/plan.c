#include "plan.h"

#include "attempt.h"
#include "configurations.h"

/* The figures of a plan that is out of hearing are 0: nothing is planned. */
enum { NEVER = 0 };

/* The lowest station of the set. */
static unsigned first_of(unsigned set)
{
    return (unsigned)__builtin_ctz(set);
}

/* Whether a poll or put comes next: a station is left, and fewer than planned
 * are made. */
static bool goes_on(unsigned left, uint64_t made, uint64_t goal)
{
    return left != 0 && (goal == NEVER || made < goal);
}

/* The polls as planned, at the stations on the bus from the lowest on: the last
 * one is heard, and no other. A commit before it is refused. */
static void poll_rising(attempt *a, uint64_t polls)
{
    uint64_t made = 0;

    for (unsigned left = a->seen.on; goes_on(left, made, polls); left &= left - 1) {
        bool last = ++made == polls;
        if (last) {
            attempt_commit(a, OSPREYSCREEN_UNHEARD);
        }
        a->as_said &= (attempt_poll(a, first_of(left)) != 0) == last;
    }
    a->as_said &= polls == NEVER || made == polls;
}

/* The puts as planned, at the stations on the bus from the lowest on, and the
 * commit; one before the last put is short. With the counter spent all get 10. */
static void put_rising(attempt *a, uint64_t puts, uint64_t sort, bool spent)
{
    uint64_t put = spent ? OSPREYSCREEN_SPENT : OSPREYSCREEN_DONE;
    uint64_t early = spent ? OSPREYSCREEN_SPENT : OSPREYSCREEN_SHORT;
    uint64_t made = 0;

    for (unsigned left = a->seen.on; goes_on(left, made, puts); left &= left - 1) {
        if (++made == puts) {
            attempt_commit(a, early);
        }
        attempt_put(a, first_of(left), sort, put);
    }
    a->as_said &= puts == NEVER || made == puts;
    attempt_commit(a, puts == NEVER ? early : put);
}

/* The plan on these bytes is the same. */
static void ask_again(attempt *a, const planned *said, const uint8_t *table)
{
    ospreyscreen_reply now = a->with->plan(table, a->table->len, a->item);
    a->as_said &= same_reply(&now, said->told);
}

/* ---- Rounds ---- */

/* The plan is the same without a round and in one that has these polls, and on
 * the table after all that. */
static const char *hold_to_read(attempt *a, const planned *said)
{
    uint64_t polls = said->told->first;

    attempt_begin(a);
    ask_again(a, said, a->copy);
    attempt_open_read(a);
    poll_rising(a, polls);
    ask_again(a, said, a->copy);
    uint64_t number = polls == NEVER ? OSPREYSCREEN_UNHEARD : OSPREYSCREEN_DONE;
    ospreyscreen_reply end = attempt_commit(a, number);
    ask_again(a, said, a->table->bytes);
    if (!a->as_said) {
        return "a read by rising polls differs from the plan";
    }
    bool in_book = polls == NEVER || attempt_in_book(&end, said->book);
    return in_book ? NULL : "a planned read differs from the book";
}

static const char *hold_to_write(attempt *a, const ospreyscreen_reply *told, bool spent)
{
    attempt_begin(a);
    attempt_open_write(a);
    poll_rising(a, told->first);
    put_rising(a, told->second, OSPREYSCREEN_PUT_DATA, spent);
    return a->as_said ? NULL : "a write by rising puts differs from the plan";
}

/* The target is the lowest station on the bus, so that one data put is enough. */
static const char *hold_to_change(attempt *a, const ospreyscreen_reply *told, bool spent)
{
    unsigned station = first_of(a->seen.on);
    uint8_t target[CONFIGURATION] = {0};

    configuration_set_to(target, READ_SIDE, 1u << station);
    configuration_set_to(target, WRITE_SIDE, 1u << station);
    attempt_begin(a);
    attempt_open_change(a, target);
    poll_rising(a, told->first);
    attempt_put(a, station, OSPREYSCREEN_PUT_DATA, OSPREYSCREEN_DONE);
    put_rising(a, told->second, OSPREYSCREEN_PUT_CONFIGURATION, spent);
    return a->as_said ? NULL : "a change by rising puts differs from the plan";
}

/* What is in reach is heard by the last poll at the latest. Where the book
 * covers the table the plan is done exactly then, and has puts exactly if the
 * reach is 3. */
static const char *hold_to_reach(const attempt *a, const planned *said)
{
    uint64_t figure = a->with->reach(a->table->bytes, a->table->len, a->item).first;
    bool readable = figure != OSPREYSCREEN_REACH_NOTHING;
    bool writable = figure == OSPREYSCREEN_REACH_READ_AND_WRITE;
    bool heard = said->told->number == OSPREYSCREEN_DONE;

    if (readable && !heard) {
        return "a plan is out of hearing where the reach is not 0";
    }
    bool as_reach = said->book == NULL ||
                    (heard == readable && (said->told->second != NEVER) == writable);
    return as_reach ? NULL : "a plan on a table of the book differs from the reach";
}

/* ---- One plan ---- */

/* A write or a change by the plan, which is done; one of the two is drawn. */
static const char *hold_to_puts(attempt *a, const ospreyscreen_reply *told, tally *counts)
{
    bool write = rng_one_in(&a->source, 2);
    unsigned polled = lowest_stations(a->seen.on, (unsigned)told->first);
    counter raised = write ? COUNTER_VERSION : COUNTER_GENERATION;
    bool spent = outlook_spent(&a->seen, (unsigned)a->item, polled, raised);

    if (counts != NULL) {
        counts->met[write ? MET_PLAN_WRITE : MET_PLAN_CHANGE]++;
        counts->met[MET_PLAN_SPENT_VERSION] += write && spent;
        counts->met[MET_PLAN_SPENT_GENERATION] += !write && spent;
    }
    return write ? hold_to_write(a, told, spent) : hold_to_change(a, told, spent);
}

const char *plan_hold(const implementation *with, const planned *said, tally *counts)
{
    bool heard = said->told->number == OSPREYSCREEN_DONE;
    attempt a;

    attempt_make(&a, with, said->table, said->item);
    if (counts != NULL) {
        counts->met[MET_PLAN_OUT] += !heard;
        counts->met[MET_PLAN_BOOK] += heard && said->book != NULL;
    }
    const char *wrong = hold_to_read(&a, said);
    if (wrong == NULL && heard) {
        wrong = hold_to_puts(&a, said->told, counts);
    }
    return wrong == NULL ? hold_to_reach(&a, said) : wrong;
}
