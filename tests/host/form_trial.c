/*
 * The test of ospreyscreen_standard_form: an implementation against the
 * reference (reference.h), and each form against the station sets that pass
 * (form_opinion.h):
 *
 *   form_trial --form random   [--calls N] [--seed S]
 *   form_trial --form directed [--seed S]
 *   form_trial --config DIGITS [--stations N] [--out LENGTH] [--null]
 *   form_trial ... --of library|optimised|listed
 *
 * The third runs one spelling, several times, lent in other ways and with other
 * bytes in the output. The exit status is 1 if a spelling fails, and 2 if a run
 * has not met what it should.
 */
#include "form_opinion.h"
#include "optimised.h"
#include "reference.h"

#include <inttypes.h>
#include <string.h>

static const char USAGE[] =
    "form_trial [--form random|directed] [--calls N] [--seed S]\n"
    "                  [--of library|optimised|listed]\n"
    "                  [--config DIGITS [--stations N] [--out N] [--null]]";

/* ---- Spellings as cases ---- */

static lending spelling_lends(const void *given)
{
    const spelling *s = given;
    return (lending){s->config, s->config_len, s->out_len, s->null};
}

static const void *make_form(any_function *function, const void *given, uint8_t *reply,
                             const uint8_t *config, uint8_t *out)
{
    typedef const void *form_call(uint8_t *, uint64_t, const uint8_t *, size_t, uint8_t *, size_t);
    const spelling *s = given;
    return ((form_call *)function)(reply, s->n, config, s->config_len, out, s->out_len);
}

static void print_spelling(const void *given)
{
    const spelling *s = given;

    printf("--config \"");
    for (size_t i = 0; i < s->config_len; i++) {
        printf("%02X", s->config[i]);
    }
    printf("\" --stations %" PRIu64, s->n);
}

static const writer FORM = {
    .cases = "spellings",
    .in_room = CONFIGURATION_ROOM,
    .lends = spelling_lends,
    .make = make_form,
    .wrong = form_wrong,
    .count = form_tally_call,
    .counted = form_tally_counted,
    .print_case = print_spelling,
    .directed = form_directed,
    .random = form_random,
};

/* ---- The command line ---- */

/* Reads the bytes whose digits the text has; gives how many there are. */
static size_t read_bytes(const char *digits, uint8_t bytes[CONFIGURATION_ROOM])
{
    size_t count = 0;

    for (; *digits != '\0'; digits += 2) {
        unsigned byte;
        if (count == CONFIGURATION_ROOM || strspn(digits, "0123456789ABCDEF") < 2 ||
            sscanf(digits, "%2X", &byte) != 1) {
            options_give_up(USAGE);
        }
        bytes[count++] = (uint8_t)byte;
    }
    return count;
}

/* One of the implementations; that of the last name has the optimised calls, and
 * another standard form. */
static implementation implementation_named(const char *name)
{
    implementation all[] = {IMPLEMENTATION("library", ospreyscreen_),
                            IMPLEMENTATION("optimised", opt_), IMPLEMENTATION("listed", opt_)};

    all[2].standard_form = opt_standard_form_listed;
    for (size_t i = 0; i < sizeof all / sizeof all[0]; i++) {
        if (strcmp(name, all[i].name) == 0) {
            return all[i];
        }
    }
    options_give_up(USAGE);
}

int main(int argc, char **argv)
{
    static form_tally counts;
    static uint8_t bytes[CONFIGURATION_ROOM];
    const char *digits = NULL; /* of one spelling */
    spelling one = {.config = bytes};
    const option own[] = {
        {.name = "--config", .text = &digits},
        {.name = "--stations", .number = &one.n, .most = UINT64_MAX},
    };
    writer_options o = writer_read_options(argc, argv, USAGE, own, sizeof own / sizeof own[0]);
    implementation of = implementation_named(o.of);
    writer_trial t = writer_trial_make(&FORM, &of, (any_function *)of.standard_form,
                                       (any_function *)ref_standard_form, &counts, &o);

    if (digits == NULL) {
        return writer_run(&t, &o);
    }
    one.config_len = read_bytes(digits, bytes);
    one.out_len = o.out_len;
    one.null = o.null;
    return writer_run_one(&t, &one);
}
