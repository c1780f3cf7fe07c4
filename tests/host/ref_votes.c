#include "ref_votes.h"

#include "bytes.h"

#include <stdbool.h>
#include <string.h>

enum { STATIONS = OSPREYSCREEN_STATIONS_MAX, PLACES = OSPREYSCREEN_SETS_PER_SIDE };

/* ---- The smallest sets ---- */

typedef struct {
    const uint8_t *votes;
    uint64_t threshold;
    unsigned most;
    unsigned count;
    unsigned *sets;
} search;

/* A set whose stations from a number on are decided. */
typedef struct {
    size_t undecided; /* the stations below it */
    unsigned set;
    uint64_t reached;  /* its votes */
    uint64_t lightest; /* the fewest votes of a station in it */
} part;

static uint64_t total_of(const uint8_t *votes, size_t count)
{
    uint64_t total = 0;
    for (size_t station = 0; station < count; station++) {
        total += votes[station];
    }
    return total;
}

/* "A smallest set reaches it and no longer does with any one station left
 * out": then it does not without its lightest one. */
static bool too_large(const part *p, uint64_t threshold)
{
    return p->set != 0 && p->reached - p->lightest >= threshold;
}

static part joined(const part *p, size_t station, uint64_t own)
{
    return (part){
        .undecided = station,
        .set = p->set | 1u << station,
        .reached = p->reached + own,
        .lightest = p->set == 0 || own < p->lightest ? own : p->lightest,
    };
}

/* A set that is too large stays so with more stations, and one that all the
 * undecided stations do not help never reaches the threshold. */
static void decide(search *s, part p)
{
    if (s->count == s->most || too_large(&p, s->threshold)) {
        return;
    }
    if (p.reached + total_of(s->votes, p.undecided) < s->threshold) {
        return;
    }
    if (p.undecided == 0) {
        s->sets[s->count++] = p.set;
        return;
    }
    size_t station = p.undecided - 1;
    uint64_t own = s->votes[station];
    /* Without a station of no votes the others reach as much. */
    if (own != 0) {
        decide(s, joined(&p, station, own));
    }
    p.undecided = station;
    decide(s, p);
}

unsigned ref_smallest(const uint8_t *votes, size_t n, uint64_t threshold, unsigned most,
                      unsigned *sets)
{
    search s = {.votes = votes, .threshold = threshold, .most = most, .sets = sets};

    decide(&s, (part){.undecided = n});
    return s.count;
}

/* ---- The call ---- */

/* "Not 1 to 16 stations, a threshold of zero or above the total, or thresholds
 * that together do not exceed the total". */
static bool false_votes(const uint8_t *votes, size_t n, uint64_t read, uint64_t write)
{
    if (n < 1 || n > STATIONS) {
        return true;
    }
    uint64_t total = total_of(votes, n);
    if (read == 0 || read > total || write == 0 || write > total) {
        return true;
    }
    return read + write <= total;
}

/* "Rising as numbers", in eight places; the sets given are falling. */
static void put_side(uint8_t *side, const unsigned *sets, unsigned count)
{
    memset(side, 0, 2 * PLACES);
    for (unsigned place = 0; place < count; place++) {
        set_set(side + 2 * place, sets[count - 1 - place]);
    }
}

static ospreyscreen_reply reply_of(uint64_t number)
{
    return (ospreyscreen_reply){number, 0, 0, 0};
}

ospreyscreen_reply ref_votes(const uint8_t *votes, size_t votes_len, uint64_t read, uint64_t write,
                             uint8_t *out, size_t out_len)
{
    unsigned reads[PLACES + 1];
    unsigned writes[PLACES + 1];

    if (out_len != OSPREYSCREEN_CONFIGURATION_LENGTH) {
        return reply_of(OSPREYSCREEN_NO_SUCH_THING);
    }
    if (false_votes(votes, votes_len, read, write)) {
        return reply_of(OSPREYSCREEN_FALSE_VOTES);
    }
    unsigned read_count = ref_smallest(votes, votes_len, read, PLACES + 1, reads);
    unsigned write_count = ref_smallest(votes, votes_len, write, PLACES + 1, writes);
    if (read_count > PLACES || write_count > PLACES) {
        return reply_of(OSPREYSCREEN_TOO_MANY_SETS);
    }
    put_side(out, reads, read_count);
    put_side(out + 2 * PLACES, writes, write_count);
    return reply_of(OSPREYSCREEN_DONE);
}
