/*
 * The test of ospreyscreen_votes: an implementation against the reference of
 * votes (ref_votes.h), and each configuration against its votes (votes_opinion.h):
 *
 *   votes_trial --form random   [--calls N] [--seed S]
 *   votes_trial --form directed [--seed S]
 *   votes_trial --votes "1 1 1" [--stations N] [--read R] [--write W] [--out LENGTH] [--null]
 *   votes_trial ... --of library|optimised|searched
 *
 * The third runs one sheet, several times, lent in other ways and with other
 * bytes in the output; stations whose votes are not given have none. The exit
 * status is 1 if a sheet fails, and 2 if a run has not met what it should.
 */
#include "optimised.h"
#include "ref_votes.h"
#include "votes_opinion.h"

#include <inttypes.h>
#include <string.h>

static const char USAGE[] =
    "votes_trial [--form random|directed] [--calls N] [--seed S]\n"
    "                   [--of library|optimised|searched]\n"
    "                   [--votes \"V V ..\" [--stations N] [--read R] [--write W] [--out N]\n"
    "                   [--null]]";

typedef ospreyscreen_reply votes_function(const uint8_t *, size_t, uint64_t, uint64_t, uint8_t *,
                                          size_t);

/* A function of votes, and the calls that its configurations are used with. */
typedef struct {
    votes_function *votes;
    implementation calls;
} tested_library;

static const tested_library LIBRARIES[] = {
    {.votes = ospreyscreen_votes, .calls = IMPLEMENTATION("library", ospreyscreen_)},
    {.votes = opt_votes, .calls = IMPLEMENTATION("optimised", opt_)},
    {.votes = opt_votes_searched, .calls = IMPLEMENTATION("searched", opt_)},
};

/* ---- Sheets as cases ---- */

static lending sheet_lends(const void *given)
{
    const sheet *s = given;
    return (lending){s->votes, s->votes_len, s->out_len, s->null};
}

static const void *make_votes(any_function *function, const void *given, uint8_t *reply,
                              const uint8_t *votes, uint8_t *out)
{
    typedef const void *votes_call(uint8_t *, const uint8_t *, size_t, uint64_t, uint64_t,
                                   uint8_t *, size_t);
    const sheet *s = given;
    return ((votes_call *)function)(reply, votes, s->votes_len, s->read, s->write, out, s->out_len);
}

static void print_sheet(const void *given)
{
    const sheet *s = given;
    size_t count = s->votes_len;

    printf("--votes \"");
    while (count > 0 && s->votes[count - 1] == 0) {
        count--;
    }
    for (size_t i = 0; i < count; i++) {
        printf(i == 0 ? "%u" : " %u", s->votes[i]);
    }
    printf("\" --stations %zu --read %" PRIu64 " --write %" PRIu64, s->votes_len, s->read, s->write);
}

static const writer VOTES = {
    .cases = "sheets",
    .in_room = VOTES_ROOM,
    .lends = sheet_lends,
    .make = make_votes,
    .wrong = votes_wrong,
    .count = votes_tally_call,
    .counted = votes_tally_counted,
    .print_case = print_sheet,
    .directed = votes_directed,
    .random = votes_random,
};

/* ---- The command line ---- */

/* Reads the votes in the text; gives how many there are. */
static size_t read_votes(const char *text, uint8_t votes[VOTES_ROOM])
{
    size_t count = 0;
    char word[8];
    int length;

    for (; sscanf(text, "%7s%n", word, &length) == 1; text += length) {
        uint64_t number;
        if (count == VOTES_ROOM || !number_in(word, UINT8_MAX, &number)) {
            options_give_up(USAGE);
        }
        votes[count++] = (uint8_t)number;
    }
    return count;
}

static const tested_library *library_named(const char *name)
{
    size_t count = sizeof LIBRARIES / sizeof LIBRARIES[0];
    for (size_t i = 0; i < count; i++) {
        if (strcmp(name, LIBRARIES[i].calls.name) == 0) {
            return &LIBRARIES[i];
        }
    }
    options_give_up(USAGE);
}

int main(int argc, char **argv)
{
    static votes_tally counts;
    static uint8_t votes[VOTES_ROOM];
    const char *text = NULL; /* the votes of one sheet */
    uint64_t stations = 0;
    sheet one = {.votes = votes};
    const option own[] = {
        {.name = "--votes", .text = &text},
        {.name = "--stations", .number = &stations, .most = VOTES_ROOM},
        {.name = "--read", .number = &one.read, .most = UINT64_MAX},
        {.name = "--write", .number = &one.write, .most = UINT64_MAX},
    };
    writer_options o = writer_read_options(argc, argv, USAGE, own, sizeof own / sizeof own[0]);
    const tested_library *of = library_named(o.of);
    writer_trial t = writer_trial_make(&VOTES, &of->calls, (any_function *)of->votes,
                                       (any_function *)ref_votes, &counts, &o);

    if (text == NULL) {
        return writer_run(&t, &o);
    }
    size_t given = read_votes(text, votes);
    one.votes_len = stations > given ? stations : given;
    one.out_len = o.out_len;
    one.null = o.null;
    return writer_run_one(&t, &one);
}
