#include "votes_cases.h"

#include <string.h>

enum { STATIONS = OSPREYSCREEN_STATIONS_MAX, OUT = OSPREYSCREEN_CONFIGURATION_LENGTH };

static uint64_t total_of(const sheet *s)
{
    uint64_t total = 0;
    for (size_t i = 0; i < s->votes_len; i++) {
        total += s->votes[i];
    }
    return total;
}

/* ---- Directed ---- */

typedef struct {
    case_user *use;
    void *with;
} taker;

static bool give(const taker *to, sheet s, uint64_t read, uint64_t write)
{
    s.read = read;
    s.write = write;
    return to->use(to->with, &s);
}

/* Every pair of thresholds from none to two above the total. */
static bool all_thresholds(const taker *to, sheet s)
{
    uint64_t most = total_of(&s) + 2;
    for (uint64_t read = 0; read <= most; read++) {
        for (uint64_t write = 0; write <= most; write++) {
            if (!give(to, s, read, write)) {
                return false;
            }
        }
    }
    return true;
}

/* Thresholds that fit if they, or their sum, are cut. */
static bool large_thresholds(const taker *to, sheet s)
{
    static const uint64_t large[] = {1u << 8,           1u << 15,           UINT16_MAX,
                                     1u << 16,          UINT64_C(1) << 31,  UINT32_MAX,
                                     UINT64_C(1) << 32, UINT64_C(1) << 63,  UINT64_MAX};
    uint64_t total = total_of(&s);

    for (size_t i = 0; i < sizeof large / sizeof large[0]; i++) {
        for (uint64_t more = 0; more <= total + 2; more++) {
            uint64_t one = large[i] + more;
            uint64_t other = large[i] - more;
            if (!give(to, s, one, total) || !give(to, s, total, one) || !give(to, s, one, one) ||
                !give(to, s, other, more) || !give(to, s, more, other) ||
                !give(to, s, one, other) || !give(to, s, other, total)) {
                return false;
            }
        }
    }
    return true;
}

/* Every list of one to four stations with up to three votes each. */
static bool small_sheets(const taker *to)
{
    uint8_t votes[4];
    for (size_t n = 1; n <= sizeof votes; n++) {
        for (unsigned all = 0; all < 1u << 2 * n; all++) {
            for (size_t i = 0; i < n; i++) {
                votes[i] = (uint8_t)(all >> 2 * i & 3);
            }
            sheet s = {.votes = votes, .votes_len = n, .out_len = OUT};
            if (!all_thresholds(to, s) || !large_thresholds(to, s)) {
                return false;
            }
        }
    }
    return true;
}

/* So many stations of equal votes among those of none, from every place on:
 * each number of them as the threshold of either side. */
static bool equal_votes(const taker *to, uint8_t each)
{
    for (size_t n = 1; n <= STATIONS; n++) {
        for (size_t count = 1; count <= n; count++) {
            for (size_t from = 0; from <= n - count; from++) {
                uint8_t votes[STATIONS] = {0};
                memset(votes + from, each, count);
                sheet s = {.votes = votes, .votes_len = n, .out_len = OUT};
                for (uint64_t needed = 1; needed <= count; needed++) {
                    uint64_t rest = count + 1 - needed;
                    if (!give(to, s, each * needed, each * rest) ||
                        !give(to, s, each * needed, each * count) ||
                        !give(to, s, each * needed - each + 1u, each * rest) ||
                        !give(to, s, each * needed, each * (rest - 1))) {
                        return false;
                    }
                }
            }
        }
    }
    return true;
}

/* One station, every one in turn, that outweighs the others together. */
static bool one_heavy(const taker *to)
{
    for (size_t n = 1; n <= STATIONS; n++) {
        for (size_t station = 0; station < n; station++) {
            uint8_t votes[STATIONS];
            memset(votes, 1, n);
            votes[station] = UINT8_MAX;
            sheet s = {.votes = votes, .votes_len = n, .out_len = OUT};
            uint64_t total = total_of(&s);
            for (uint64_t less = 0; less < n; less++) {
                if (!give(to, s, UINT8_MAX - less, UINT8_MAX) || !give(to, s, total - less, n) ||
                    !give(to, s, UINT8_MAX, total - less) || !give(to, s, n - less, total)) {
                    return false;
                }
            }
        }
    }
    return true;
}

/* Every length of the output, with sheets that are done and that are not. */
static bool out_lengths(const taker *to)
{
    static const uint8_t votes[STATIONS] = {1, 1, 1, 1, 1, 1, 1, 1, 1, 1, 1, 1, 1, 1, 1, 1};
    static const uint64_t thresholds[][2] = {{3, 3}, {2, 2}, {1, 1}, {0, 9}};

    for (size_t out_len = 0; out_len <= OUT_ROOM; out_len++) {
        for (size_t n = 0; n <= STATIONS; n += n < 4 ? 1 : 12) {
            for (unsigned null = 0; null < 2; null++) {
                sheet s = {.votes = votes, .votes_len = n, .out_len = out_len, .null = null};
                for (size_t i = 0; i < sizeof thresholds / sizeof thresholds[0]; i++) {
                    if (!give(to, s, thresholds[i][0], thresholds[i][1])) {
                        return false;
                    }
                }
                if (!give(to, s, 9, 9)) {
                    return false;
                }
            }
        }
    }
    return true;
}

/* Numbers of stations up to 300, and those that fit if they are cut. */
static bool station_counts(const taker *to)
{
    static uint8_t votes[VOTES_ROOM];
    memset(votes, 1, 300);
    votes[0] = 200;
    for (size_t n = 0; n < VOTES_ROOM; n += n == 300 ? (1 << 16) - 300 : 1) {
        sheet s = {.votes = votes, .votes_len = n, .out_len = OUT, .null = n == 0};
        uint64_t all = 199 + n;
        uint64_t cut = 199 + (n & 15);
        if (!give(to, s, all, all) || !give(to, s, cut, cut) || !give(to, s, 200, 200) ||
            !give(to, s, 1, all)) {
            return false;
        }
        s.null = false;
        if (!give(to, s, 200, 200)) {
            return false;
        }
    }
    return true;
}

bool votes_directed(case_user *use, void *with)
{
    const taker to = {use, with};
    return small_sheets(&to) && equal_votes(&to, 1) && equal_votes(&to, UINT8_MAX) &&
           one_heavy(&to) && out_lengths(&to) && station_counts(&to);
}

/* ---- Random ---- */

/* The votes of one station; a sheet has one shape, and two votes of its own. */
typedef enum {
    SHAPE_ANY,
    SHAPE_FEW,
    SHAPE_MOST_NONE,
    SHAPE_HEAVY_AMONG_LIGHT,
    SHAPE_EQUAL,
    SHAPE_DOUBLING,
    SHAPE_TWO_KINDS,
    SHAPE_HEAVY,
    SHAPES
} shape;

static uint64_t one_vote(rng *r, shape of, const uint8_t own[2])
{
    switch (of) {
    case SHAPE_FEW:
        return rng_below(r, 4);
    case SHAPE_MOST_NONE:
        return rng_one_in(r, 4) ? rng_below(r, 10) : 0;
    case SHAPE_HEAVY_AMONG_LIGHT:
        return rng_one_in(r, 5) ? 40 + rng_below(r, 2) : 1;
    case SHAPE_EQUAL:
        return own[0];
    case SHAPE_DOUBLING:
        return UINT64_C(1) << rng_below(r, 8);
    case SHAPE_TWO_KINDS:
        return own[rng_below(r, 2)];
    case SHAPE_HEAVY:
        return UINT8_MAX - rng_below(r, 3);
    default:
        return rng_below(r, 256);
    }
}

/* A number from 1 to the total, if there is one. */
static uint64_t in_total(rng *r, uint64_t total)
{
    return total == 0 ? 0 : 1 + rng_below(r, total);
}

/* The total without some station's votes, or little less than it. */
static uint64_t near_total(rng *r, const sheet *s, uint64_t total)
{
    uint64_t spare = rng_below(r, 12);
    if (rng_one_in(r, 2) && s->votes_len > 0) {
        spare = s->votes[rng_below(r, s->votes_len)];
    }
    return total - (spare < total ? spare : 0);
}

/* The votes of some of the stations together. */
static uint64_t of_some(rng *r, const sheet *s)
{
    uint64_t sum = 0;
    for (size_t i = 0; i < s->votes_len; i++) {
        sum += rng_one_in(r, 2) ? s->votes[i] : 0;
    }
    return sum;
}

static void draw_thresholds(rng *r, sheet *s)
{
    uint64_t total = total_of(s);

    switch (rng_below(r, 9)) {
    case 0:
    case 1:
        s->read = near_total(r, s, total);
        s->write = near_total(r, s, total);
        return;
    case 2: /* few votes read, many write */
        s->read = 1 + rng_below(r, 12);
        s->write = total + 1 + rng_below(r, 2) - s->read;
        return;
    case 3: /* the tightest */
        s->read = in_total(r, total);
        s->write = total + 1 - s->read;
        return;
    case 4: /* just reached, or just not */
        s->read = of_some(r, s) + rng_below(r, 2);
        s->write = total + 1 + rng_below(r, 2) - s->read;
        return;
    case 5:
        s->read = total / 2 + 1;
        s->write = total / 2 + rng_below(r, 3);
        return;
    case 6:
        s->read = rng_any_width(r);
        s->write = rng_one_in(r, 2) ? rng_any_width(r) : total - s->read + rng_below(r, 3);
        return;
    case 7: /* what fits if it is cut to 16 bits */
        s->read = in_total(r, total) + (rng_below(r, 3) << 16);
        s->write = total - rng_below(r, 3) + (rng_below(r, 3) << 16);
        return;
    default:
        s->read = in_total(r, total);
        s->write = in_total(r, total);
        return;
    }
}

/* The votes of the last random sheet. */
static uint8_t votes_room[300];

static size_t draw_count(rng *r)
{
    if (rng_one_in(r, 64)) {
        uint64_t just_none = (STATIONS + 1) * rng_below(r, 2);
        return rng_one_in(r, 4) ? just_none : rng_below(r, sizeof votes_room + 1);
    }
    return rng_one_in(r, 4) ? STATIONS : 1 + rng_below(r, STATIONS);
}

static size_t draw_out_len(rng *r)
{
    if (!rng_one_in(r, 16)) {
        return OUT;
    }
    return rng_one_in(r, 2) ? OUT - 1 + rng_below(r, 3) : rng_below(r, OUT_ROOM + 1);
}

const void *votes_random(rng *r)
{
    static sheet s;
    shape of = (shape)rng_below(r, SHAPES);
    uint8_t own[2] = {(uint8_t)(1 + rng_below(r, 255)), (uint8_t)rng_below(r, 20)};

    s = (sheet){.votes = votes_room, .votes_len = draw_count(r), .out_len = draw_out_len(r)};

    for (size_t i = 0; i < s.votes_len; i++) {
        votes_room[i] = (uint8_t)one_vote(r, of, own);
    }
    s.null = rng_one_in(r, 2);
    draw_thresholds(r, &s);
    return &s;
}
