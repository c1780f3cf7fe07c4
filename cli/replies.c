#include "replies.h"

#include <inttypes.h>

static const char *const NUMBER_WORDS[] = {
    [OSPREYSCREEN_DONE] = "done",
    [OSPREYSCREEN_UNSOUND] = "unsound",
    [OSPREYSCREEN_NO_SUCH_THING] = "no such thing",
    [OSPREYSCREEN_FALSE_CONFIGURATION] = "false configuration",
    [OSPREYSCREEN_BUSY] = "busy",
    [OSPREYSCREEN_IDLE] = "idle",
    [OSPREYSCREEN_OFF_THE_BUS] = "off the bus",
    [OSPREYSCREEN_READING_OVER] = "reading over",
    [OSPREYSCREEN_UNHEARD] = "unheard",
    [OSPREYSCREEN_WRONG_PUT] = "wrong put",
    [OSPREYSCREEN_SPENT] = "spent",
    [OSPREYSCREEN_SHORT] = "short",
    [OSPREYSCREEN_FALSE_FRAME] = "false frame",
    [OSPREYSCREEN_FALSE_VOTES] = "false votes",
    [OSPREYSCREEN_TOO_MANY_SETS] = "too many sets",
    [OSPREYSCREEN_OUT_OF_HEARING] = "out of hearing",
};

const char *number_word(uint64_t number)
{
    return number < sizeof NUMBER_WORDS / sizeof *NUMBER_WORDS ? NUMBER_WORDS[number] : "unknown number";
}

const char *reach_word(uint64_t reach)
{
    switch (reach) {
    case OSPREYSCREEN_REACH_READ_AND_WRITE:
        return "read and write";
    case OSPREYSCREEN_REACH_READ:
        return "read";
    default:
        return "nothing";
    }
}

/* The figure is one more than the place. */
static void print_place(FILE *out, uint64_t figure)
{
    if (figure != 0) {
        fprintf(out, "read place %" PRIu64 " held", figure - 1);
    } else {
        fprintf(out, "no read place held");
    }
}

static void print_diagnosis(FILE *out, ospreyscreen_reply reply)
{
    fprintf(out, "commit would get %" PRIu64 " %s; ", reply.first, number_word(reply.first));
    if (reply.second != 0) {
        fprintf(out, "version from station %" PRIu64 "; ", reply.second - 1);
    } else {
        fprintf(out, "nothing polled; ");
    }
    print_place(out, reply.third);
}

void print_plan_figures(FILE *out, uint64_t polls, uint64_t puts)
{
    fprintf(out, "heard after %" PRIu64 " %s, ", polls, polls == 1 ? "poll" : "polls");
    if (puts != 0) {
        fprintf(out, "write set held by %" PRIu64 " %s", puts, puts == 1 ? "put" : "puts");
    } else {
        fprintf(out, "no write set on the bus");
    }
}

static void print_done(FILE *out, const call *c, ospreyscreen_reply reply)
{
    switch (c->code) {
    case OSPREYSCREEN_COMMIT:
        fprintf(out, "done, value %" PRIu64 ", version %" PRIu64 ", generation %" PRIu64, reply.first,
                reply.second, reply.third);
        break;
    case OSPREYSCREEN_POLL:
        fprintf(out, reply.first != 0 ? "done, heard, " : "done, not heard");
        if (reply.first != 0) {
            print_place(out, reply.first);
        }
        break;
    case OSPREYSCREEN_REACH:
        fprintf(out, "done, %" PRIu64 " %s", reply.first, reach_word(reply.first));
        break;
    case OSPREYSCREEN_DIAGNOSE:
        print_diagnosis(out, reply);
        break;
    case OSPREYSCREEN_PLAN:
        fprintf(out, "done, ");
        print_plan_figures(out, reply.first, reply.second);
        break;
    default:
        fprintf(out, "done");
        break;
    }
}

void print_reply(FILE *out, const call *c, ospreyscreen_reply reply)
{
    if (reply.number == OSPREYSCREEN_DONE) {
        print_done(out, c, reply);
    } else {
        fprintf(out, "refused, %" PRIu64 " %s", reply.number, number_word(reply.number));
    }
}
