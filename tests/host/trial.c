#include "trial.h"

#include "diagnose.h"
#include "plan.h"
#include "reach.h"
#include "spelling.h"
#include "watch.h"

#include <inttypes.h>
#include <stdlib.h>
#include <string.h>
#include <time.h>

trial trial_make(const implementation *tested, const implementation *reference)
{
    return (trial){.tested = run_make(tested), .reference = run_make(reference)};
}

/* ---- One step ---- */

/* What a read of the item that finishes now replies by the book. */
static ospreyscreen_reply read_in_book(const trial *t, uint64_t item)
{
    const book_item *i = &t->one_copy.items[item];
    return (ospreyscreen_reply){OSPREYSCREEN_DONE, i->value, i->writes + t->raised_version[item],
                                i->changes + t->raised_generation[item]};
}

/* Feeds the book, and holds a finished round to it. */
static bool in_book(trial *t, const call *c, tally *counts)
{
    book *b = &t->one_copy;

    if (c->code == OSPREYSCREEN_LAY && t->got.number == OSPREYSCREEN_DONE) {
        t->covered = true;
        memset(t->raised_version, 0, sizeof t->raised_version);
        memset(t->raised_generation, 0, sizeof t->raised_generation);
    }
    if (!t->covered) {
        return true;
    }
    int noted = b->noted;
    book_step(b, c, t->got.number);
    if (c->code != OSPREYSCREEN_COMMIT || t->got.number != OSPREYSCREEN_DONE) {
        return true;
    }
    if (counts != NULL) {
        counts->met[MET_BOOK]++;
    }
    ospreyscreen_reply want = read_in_book(t, b->noted_item);
    return noted != OSPREYSCREEN_ROUND_NONE && same_reply(&t->got, &want);
}

/* Holds a reach that is done to what it says. */
static const char *hold_reach(const trial *t, const call *c, tally *counts)
{
    if (c->code != OSPREYSCREEN_REACH || t->got.number != OSPREYSCREEN_DONE) {
        return NULL;
    }
    uint64_t item = c->numbers[ARGUMENT_ITEM];
    ospreyscreen_reply read = read_in_book(t, item);
    reached said = {.table = &t->tested.lent[LENT_TABLE],
                    .item = item,
                    .figure = t->got.first,
                    .book = t->covered ? &read : NULL};
    return reach_hold(t->tested.with, &said, counts);
}

/* Holds a plan that is done or out of hearing to what it says. */
static const char *hold_plan(const trial *t, const call *c, tally *counts)
{
    bool done = t->got.number == OSPREYSCREEN_DONE;
    if (c->code != OSPREYSCREEN_PLAN || (!done && t->got.number != OSPREYSCREEN_OUT_OF_HEARING)) {
        return NULL;
    }
    uint64_t item = c->numbers[ARGUMENT_ITEM];
    ospreyscreen_reply read = read_in_book(t, item);
    planned said = {.table = &t->tested.lent[LENT_TABLE],
                    .item = item,
                    .told = &t->got,
                    .book = t->covered ? &read : NULL};
    return plan_hold(t->tested.with, &said, counts);
}

/* What the tested implementation tells of the open round now. */
static ospreyscreen_reply ask(const trial *t)
{
    const loan *table = &t->tested.lent[LENT_TABLE];
    return t->tested.with->diagnose(table->bytes, table->len);
}

/* Holds a diagnose, done or refused, to a commit. */
static const char *hold_diagnose(const trial *t, tally *counts)
{
    ospreyscreen_reply read = read_in_book(t, t->one_copy.noted_item);
    diagnosed said = {.table = &t->tested.lent[LENT_TABLE],
                      .told = &t->got,
                      .book = t->covered ? &read : NULL};
    return diagnose_hold(t->tested.with, &said, counts);
}

/* Holds what a poll shows to the diagnose after it, and a commit to the one
 * before it, which told this. */
static const char *hold_to_diagnose(const trial *t, const call *c, const ospreyscreen_reply *told,
                                    tally *counts)
{
    ospreyscreen_reply now;

    switch (c->code) {
    case OSPREYSCREEN_DIAGNOSE:
        return hold_diagnose(t, counts);
    case OSPREYSCREEN_COMMIT:
        return diagnose_foretells(told, &t->got) ? NULL : "a commit gets another number than diagnose told";
    case OSPREYSCREEN_POLL:
        now = ask(t);
        return t->got.number != OSPREYSCREEN_DONE ||
                       (now.number == OSPREYSCREEN_DONE && now.third == t->got.first)
                   ? NULL
                   : "a diagnose shows another read place than the poll before it";
    default:
        return NULL;
    }
}

/* Makes the call in both runs and compares them; gives what is wrong, or a
 * null pointer. */
static const char *compare_call(trial *t, const step *s, tally *counts)
{
    const call *c = &s->made;
    lent_kind kind;
    size_t at;

    run_lend(&t->reference, s);
    run_lend(&t->tested, s);
    sight seen = {0};
    if (counts != NULL) {
        seen = tally_look(counts, c, &t->reference.lent[LENT_TABLE], t->covered);
    }
    bool placed = run_call(&t->reference, c);
    t->want = run_reply(&t->reference);
    placed &= run_call(&t->tested, c);
    t->got = run_reply(&t->tested);
    if (!placed) {
        return "a reply is not where the caller wants it";
    }
    if (!same_reply(&t->got, &t->want)) {
        return "the replies differ";
    }
    if (!call_can_give(shape_of(c), t->got.number)) {
        return "the header does not give this number to this call";
    }
    if (runs_differ(&t->tested, &t->reference, &kind, &at)) {
        return "the bytes differ";
    }
    if (!run_intact(&t->tested) || !run_intact(&t->reference)) {
        return "a byte outside the lent ones has changed";
    }
    if (counts != NULL) {
        tally_call(counts, &seen, c, &t->got);
    }
    return NULL;
}

/* Holds a call to the same in other spellings, where its table was kept. */
static const char *hold_spelling(const trial *t, const call *c, const table_before *kept,
                                 tally *counts)
{
    spelled said = {.made = c,
                    .before = kept,
                    .after = &t->tested.lent[LENT_TABLE],
                    .reply = &t->got};
    return spelling_hold(t->tested.with, &said, counts);
}

/* One call: compared, held to the book, a reach, a diagnose or a plan to what it
 * says, and some calls to the same in other spellings. */
static const char *make_call(trial *t, const step *s, tally *counts)
{
    const call *c = &s->made;
    ospreyscreen_reply told = {0};
    table_before kept;
    bool keeps = spelling_keep(&kept, c, &t->tested.lent[LENT_TABLE]);

    if (c->code == OSPREYSCREEN_COMMIT) {
        told = ask(t);
    }
    const char *wrong = compare_call(t, s, counts);
    if (wrong != NULL) {
        return wrong;
    }
    if (!in_book(t, c, counts)) {
        return "a finished round differs from the book";
    }
    wrong = hold_to_diagnose(t, c, &told, counts);
    if (wrong == NULL) {
        wrong = hold_reach(t, c, counts);
    }
    if (wrong == NULL) {
        wrong = hold_plan(t, c, counts);
    }
    return wrong == NULL && keeps ? hold_spelling(t, c, &kept, counts) : wrong;
}

/* Does to both tables what the step says. */
static void change_tables(trial *t, const step *s, tally *counts)
{
    bool done = run_change(&t->reference, s);
    run_change(&t->tested, s);
    if (s->kind == STEP_BYTES) {
        t->covered = false;
    } else if (done && s->raised == COUNTER_VERSION) {
        t->raised_version[s->item] += s->by;
    } else if (done) {
        t->raised_generation[s->item] += s->by;
    }
    if (done && counts != NULL) {
        counts->met[s->kind == STEP_BYTES ? MET_BYTES : MET_RAISE]++;
    }
}

/* ---- One list ---- */

static void begin(trial *t, const list *l)
{
    run_begin(&t->reference, l);
    run_begin(&t->tested, l);
    t->one_copy = (book){0};
    t->covered = false;
    t->why = NULL;
}

/* A list under way. */
typedef struct {
    trial *t;
    const list *l;
    tally *counts;
} walk;

static void run_steps(void *with)
{
    const walk *w = with;
    trial *t = w->t;
    const list *l = w->l;

    for (t->index = 0; t->index < l->count && t->why == NULL; t->index++) {
        const step *s = &l->steps[t->index];
        if (s->kind != STEP_CALL) {
            change_tables(t, s, w->counts);
            continue;
        }
        t->why = make_call(t, s, w->counts);
    }
}

bool trial_passes(trial *t, const list *l, tally *counts, unsigned seconds)
{
    walk w = {t, l, counts};

    begin(t, l);
    const char *stopped = watch(run_steps, &w, seconds);
    if (stopped != NULL) {
        t->got = (ospreyscreen_reply){0};
        t->why = stopped;
        t->index++;
    }
    if (counts != NULL) {
        counts->lists++;
    }
    return t->why == NULL;
}

/* ---- Shrinking ---- */

/* For one trial of a shorter list, and for all of them. */
enum { TRIAL_SECONDS = 2, SHRINK_SECONDS = 10 };

/* Leaves out steps from one on, and keeps that if the list still fails. */
static bool leave_out(trial *t, list *l, size_t from, size_t count, step *room)
{
    size_t before = l->count;
    memcpy(room, l->steps, before * sizeof *room);
    memmove(l->steps + from, l->steps + from + count, (before - from - count) * sizeof *l->steps);
    l->count = before - count;
    if (trial_passes(t, l, NULL, TRIAL_SECONDS)) {
        memcpy(l->steps, room, before * sizeof *room);
        l->count = before;
        return false;
    }
    l->count = t->index; /* nothing behind the step that fails */
    return true;
}

/* One walk over the list with pieces of one size, while there is time; gives
 * whether any went. */
static bool leave_out_pieces(trial *t, list *l, size_t size, step *room, time_t end)
{
    bool any = false;
    for (size_t from = 0; from + size <= l->count && time(NULL) < end;) {
        if (leave_out(t, l, from, size, room)) {
            any = true;
        } else {
            from += size;
        }
    }
    return any;
}

void trial_shrink(trial *t, list *l)
{
    const char *why = t->why;
    step *room = malloc(l->count * sizeof *room);
    time_t end = time(NULL) + SHRINK_SECONDS;

    if (room == NULL) {
        return;
    }
    l->count = t->index;
    for (size_t size = l->count; size > 0; size /= 2) {
        while (leave_out_pieces(t, l, size, room, end)) {
        }
    }
    free(room);
    if (trial_passes(t, l, NULL, SHRINK_SECONDS)) {
        printf("the list failed once and does not fail again\n");
        t->why = why;
    }
}

/* ---- The report ---- */

static void print_reply(const char *who, const ospreyscreen_reply *r)
{
    printf("%s: number %" PRIu64 ", figures %" PRIu64 " %" PRIu64 " %" PRIu64 "\n", who, r->number,
           r->first, r->second, r->third);
}

void trial_tell(const trial *t, const list *l)
{
    lent_kind kind;
    size_t at;

    printf("%s, in step %zu of %zu\n", t->why, t->index, l->count);
    print_reply(t->tested.with->name, &t->got);
    print_reply(t->reference.with->name, &t->want);
    if (runs_differ(&t->tested, &t->reference, &kind, &at)) {
        printf("byte %zu of the %s: %02X, not %02X\n", at, LENT[kind].name,
               t->tested.lent[kind].bytes[at], t->reference.lent[kind].bytes[at]);
    }
    list_write(stdout, l);
}
