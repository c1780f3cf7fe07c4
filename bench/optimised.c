/* Document 01 by hand for speed, with every check at every call. Station sets
 * and configurations stand in optimised_sets.h. */
#include "optimised.h"
#include "optimised_sets.h"

enum { HEAD = 56, COPY = 56, BLOCK = 8 };

/* Offsets in a copy. */
enum { VERSION = 0, VALUE = 8, GENERATION = 16, CONFIGURATION = 24 };

/* The head of a table; its sets as numbers of 16 bits. */
typedef struct {
    uint64_t n;
    uint64_t m;
    uint64_t off;
    uint64_t round;
    uint64_t item;
    uint64_t polled;
    uint64_t data_puts;
    uint64_t configuration_puts;
    uint64_t value;
    configuration target;
} head;

/* ---- Replies ---- */

static inline ospreyscreen_reply done(uint64_t first, uint64_t second, uint64_t third)
{
    return (ospreyscreen_reply){OSPREYSCREEN_DONE, first, second, third};
}

static inline ospreyscreen_reply refused(uint64_t number)
{
    return (ospreyscreen_reply){number, 0, 0, 0};
}

/* ---- Bytes ---- */

static inline void set_word(uint8_t *at, uint64_t word)
{
    memcpy(at, &word, sizeof word);
}

static inline void set_pair(uint8_t *at, uint64_t set)
{
    uint16_t pair = (uint16_t)set;
    memcpy(at, &pair, sizeof pair);
}

/* ---- Soundness ---- */

/* Tests copies one by one; one that equals the last valid one needs no test. */
static inline bool copies_valid(const uint8_t *at, size_t count, configuration *last, uint64_t n)
{
    for (; count > 0; count--, at += COPY) {
        configuration c = get_configuration(at + CONFIGURATION);
        if (difference(c, *last) != 0) {
            if (!valid(c, n)) {
                return false;
            }
            *last = c;
        }
    }
    return true;
}

/* Not zero if some copy of the block has another configuration. */
static inline uint64_t block_difference(const uint8_t *at, const uint8_t *last)
{
    lanes last_read = get_side(last);
    lanes last_write = get_side(last + 16);
    lanes sum = {0};
    for (int i = 0; i < BLOCK; i++, at += COPY) {
        sum |= get_side(at + CONFIGURATION) ^ last_read;
        sum |= get_side(at + CONFIGURATION + 16) ^ last_write;
    }
    return any(sum);
}

/* Records are the head and the copies: all are 56 bytes long, and a target
 * stands in the head where the configuration stands in a copy. */
static bool all_records_valid(const uint8_t *at, size_t count, uint64_t n)
{
    configuration last = get_configuration(at + CONFIGURATION);
    if (!valid(last, n)) {
        return false;
    }
    at += COPY;
    count -= 1;
    for (; count >= BLOCK; count -= BLOCK, at += COPY * BLOCK) {
        if (block_difference(at, at - COPY + CONFIGURATION) != 0 && !copies_valid(at, BLOCK, &last, n)) {
            return false;
        }
    }
    return copies_valid(at, count, &last, n);
}

/* The clauses on the head that depend on the kind of round, the target apart. */
static inline bool sound_round(const head *h)
{
    uint64_t target = h->target.read.low | h->target.read.high | h->target.write.low |
                      h->target.write.high;

    switch (h->round) {
    case OSPREYSCREEN_ROUND_NONE:
        return (h->item | h->polled | h->data_puts | h->configuration_puts | h->value | target) == 0;
    case OSPREYSCREEN_ROUND_READ:
        return (h->data_puts | h->configuration_puts | h->value | target) == 0;
    case OSPREYSCREEN_ROUND_WRITE:
        return (h->configuration_puts | target) == 0;
    case OSPREYSCREEN_ROUND_CHANGE:
        return h->value == 0;
    default:
        return false;
    }
}

static inline bool listed(uint64_t n, uint64_t m)
{
    return n - 1 < OSPREYSCREEN_STATIONS_MAX && m - 1 < OSPREYSCREEN_ITEMS_MAX;
}

/* Reads the head; false if the table is not sound. */
static inline bool read_sound(head *h, const uint8_t *table, size_t len)
{
    if (len < HEAD) {
        return false;
    }
    uint64_t first = get_word(table);
    uint64_t second = get_word(table + 8);

    h->n = first & 0xFF;
    h->m = first >> 8 & 0xFF;
    h->off = first >> 16 & 0xFFFF;
    h->round = first >> 32 & 0xFF;
    h->item = first >> 40 & 0xFF;
    h->polled = first >> 48;
    h->data_puts = second & 0xFFFF;
    h->configuration_puts = second >> 16 & 0xFFFF;
    h->value = get_word(table + 16);
    h->target = get_configuration(table + 24);
    if (!listed(h->n, h->m) || len != HEAD + COPY * h->n * h->m) {
        return false;
    }
    uint64_t puts = h->data_puts | h->configuration_puts;
    uint64_t named = h->off | h->polled | puts;
    if (h->item >= h->m || named >> h->n != 0 || (puts & h->off) != 0 || second >> 32 != 0) {
        return false;
    }
    if (!sound_round(h)) {
        return false;
    }
    if (h->round == OSPREYSCREEN_ROUND_CHANGE) {
        return all_records_valid(table, h->n * h->m + 1, h->n);
    }
    return all_records_valid(table + HEAD, h->n * h->m, h->n);
}

/* ---- Rounds ---- */

static inline size_t item_start(const head *h, uint64_t item)
{
    return HEAD + COPY * h->n * item;
}

static inline uint8_t *item_copies(uint8_t *table, const head *h, uint64_t item)
{
    return table + item_start(h, item);
}

static inline uint64_t on_the_bus(const head *h)
{
    return ((UINT64_C(1) << h->n) - 1) & ~h->off;
}

/* The copy with the highest counter at the offset, the lowest station among
 * equals; the set is not empty. */
static inline const uint8_t *newest(const uint8_t *copies, uint64_t stations, size_t counter)
{
    const uint8_t *best = copies + COPY * __builtin_ctzll(stations);
    uint64_t highest = get_word(best + counter);

    for (stations &= stations - 1; stations != 0; stations &= stations - 1) {
        const uint8_t *copy = copies + COPY * __builtin_ctzll(stations);
        uint64_t number = get_word(copy + counter);
        if (number > highest) {
            highest = number;
            best = copy;
        }
    }
    return best;
}

/* The newest copies by version and by generation, found in one walk. */
typedef struct {
    const uint8_t *data;
    const uint8_t *found;
    uint64_t version;
    uint64_t generation;
} newest_copies;

static inline newest_copies newest_both(const uint8_t *copies, uint64_t stations)
{
    const uint8_t *first = copies + COPY * __builtin_ctzll(stations);
    newest_copies best = {first, first, get_word(first + VERSION), get_word(first + GENERATION)};

    for (stations &= stations - 1; stations != 0; stations &= stations - 1) {
        const uint8_t *copy = copies + COPY * __builtin_ctzll(stations);
        uint64_t version = get_word(copy + VERSION);
        uint64_t generation = get_word(copy + GENERATION);
        if (version > best.version) {
            best.version = version;
            best.data = copy;
        }
        if (generation > best.generation) {
            best.generation = generation;
            best.found = copy;
        }
    }
    return best;
}

/* The polled copy with the configuration found; null if the polled stations are unheard. */
static inline const uint8_t *heard(const uint8_t *copies, uint64_t polled)
{
    if (polled == 0) {
        return NULL;
    }
    const uint8_t *found = newest(copies, polled, GENERATION);
    return holds(polled, get_configuration(found + CONFIGURATION).read) ? found : NULL;
}

/* Clears the head from the round on; the zero bytes are zero already. */
static inline void close_round(uint8_t *table)
{
    memset(table + 4, 0, HEAD - 4);
}

/* ---- The calls ---- */

ospreyscreen_reply opt_lay(uint8_t *table, size_t len, uint64_t n, uint64_t m, uint64_t value,
                           const uint8_t *config, size_t config_len)
{
    if (!listed(n, m)) {
        return refused(OSPREYSCREEN_NO_SUCH_THING);
    }
    if (len != HEAD + COPY * n * m) {
        return refused(OSPREYSCREEN_UNSOUND);
    }
    if (config_len != OSPREYSCREEN_CONFIGURATION_LENGTH || !valid(get_configuration(config), n)) {
        return refused(OSPREYSCREEN_FALSE_CONFIGURATION);
    }
    uint64_t off = (UINT64_C(1) << n) - 1;
    set_word(table, n | m << 8 | off << 16);
    memset(table + 8, 0, HEAD - 8);

    uint8_t *copies = table + HEAD;
    set_word(copies + VERSION, 0);
    set_word(copies + VALUE, value);
    set_word(copies + GENERATION, 0);
    set_sides(copies + CONFIGURATION, standard_form(config));
    size_t total = len - HEAD;
    size_t filled_to = COPY;
    for (; filled_to <= total / 2; filled_to *= 2) {
        memcpy(copies + filled_to, copies, filled_to);
    }
    memcpy(copies + filled_to, copies, total - filled_to);
    return done(0, 0, 0);
}

static inline ospreyscreen_reply open_round(uint8_t *table, size_t len, uint64_t kind, uint64_t item,
                                            uint64_t value)
{
    head h;

    if (!read_sound(&h, table, len)) {
        return refused(OSPREYSCREEN_UNSOUND);
    }
    if (item >= h.m) {
        return refused(OSPREYSCREEN_NO_SUCH_THING);
    }
    if (h.round != OSPREYSCREEN_ROUND_NONE) {
        return refused(OSPREYSCREEN_BUSY);
    }
    table[4] = (uint8_t)kind;
    table[5] = (uint8_t)item;
    set_word(table + 16, value);
    return done(0, 0, 0);
}

ospreyscreen_reply opt_open_read(uint8_t *table, size_t len, uint64_t item)
{
    return open_round(table, len, OSPREYSCREEN_ROUND_READ, item, 0);
}

ospreyscreen_reply opt_open_write(uint8_t *table, size_t len, uint64_t item, uint64_t value)
{
    return open_round(table, len, OSPREYSCREEN_ROUND_WRITE, item, value);
}

ospreyscreen_reply opt_open_change(uint8_t *table, size_t len, uint64_t item,
                                   const uint8_t *target, size_t target_len)
{
    head h;

    if (!read_sound(&h, table, len)) {
        return refused(OSPREYSCREEN_UNSOUND);
    }
    if (item >= h.m) {
        return refused(OSPREYSCREEN_NO_SUCH_THING);
    }
    if (target_len != OSPREYSCREEN_CONFIGURATION_LENGTH || !valid(get_configuration(target), h.n)) {
        return refused(OSPREYSCREEN_FALSE_CONFIGURATION);
    }
    if (h.round != OSPREYSCREEN_ROUND_NONE) {
        return refused(OSPREYSCREEN_BUSY);
    }
    table[4] = OSPREYSCREEN_ROUND_CHANGE;
    table[5] = (uint8_t)item;
    set_sides(table + 24, standard_form(target));
    return done(0, 0, 0);
}

ospreyscreen_reply opt_poll(uint8_t *table, size_t len, uint64_t station)
{
    head h;

    if (!read_sound(&h, table, len)) {
        return refused(OSPREYSCREEN_UNSOUND);
    }
    if (station >= h.n) {
        return refused(OSPREYSCREEN_NO_SUCH_THING);
    }
    if (h.round == OSPREYSCREEN_ROUND_NONE) {
        return refused(OSPREYSCREEN_IDLE);
    }
    if ((h.off >> station & 1) != 0) {
        return refused(OSPREYSCREEN_OFF_THE_BUS);
    }
    if ((h.data_puts | h.configuration_puts) != 0) {
        return refused(OSPREYSCREEN_READING_OVER);
    }
    uint64_t polled = h.polled | UINT64_C(1) << station;
    set_pair(table + 6, polled);
    const uint8_t *found = newest(item_copies(table, &h, h.item), polled, GENERATION);
    return done(first_held(polled, get_configuration(found + CONFIGURATION).read), 0, 0);
}

/* Whether the counter that a put of the sort is to raise is at its end. A data
 * put of a change raises none. */
static inline bool put_spent(const head *h, uint64_t sort, const newest_copies *best)
{
    if (h->round == OSPREYSCREEN_ROUND_WRITE) {
        return best->version == UINT64_MAX;
    }
    return sort == OSPREYSCREEN_PUT_CONFIGURATION && best->generation == UINT64_MAX;
}

ospreyscreen_reply opt_put(uint8_t *table, size_t len, uint64_t station, uint64_t sort)
{
    head h;

    if (!read_sound(&h, table, len)) {
        return refused(OSPREYSCREEN_UNSOUND);
    }
    if (station >= h.n || sort - 1 > 1) {
        return refused(OSPREYSCREEN_NO_SUCH_THING);
    }
    if (h.round == OSPREYSCREEN_ROUND_NONE) {
        return refused(OSPREYSCREEN_IDLE);
    }
    if ((h.off >> station & 1) != 0) {
        return refused(OSPREYSCREEN_OFF_THE_BUS);
    }
    if (h.polled == 0) {
        return refused(OSPREYSCREEN_UNHEARD);
    }
    newest_copies best = newest_both(item_copies(table, &h, h.item), h.polled);
    if (!holds(h.polled, get_configuration(best.found + CONFIGURATION).read)) {
        return refused(OSPREYSCREEN_UNHEARD);
    }
    /* A read takes no put, a write data puts, a change both sorts. */
    if (h.round <= sort) {
        return refused(OSPREYSCREEN_WRONG_PUT);
    }
    if (put_spent(&h, sort, &best)) {
        return refused(OSPREYSCREEN_SPENT);
    }
    uint64_t puts = sort == OSPREYSCREEN_PUT_DATA ? h.data_puts : h.configuration_puts;
    set_pair(table + 6 + 2 * sort, puts | UINT64_C(1) << station);
    return done(0, 0, 0);
}

/* The data puts at the stations take effect. */
static inline void store_data(uint8_t *copies, uint64_t stations, uint64_t version, uint64_t value)
{
    for (; stations != 0; stations &= stations - 1) {
        uint8_t *copy = copies + COPY * __builtin_ctzll(stations);
        set_word(copy + VERSION, version);
        set_word(copy + VALUE, value);
    }
}

/* The configuration puts at the stations take effect. */
static inline void store_configuration(uint8_t *copies, uint64_t stations, uint64_t generation,
                                       configuration c)
{
    for (; stations != 0; stations &= stations - 1) {
        uint8_t *copy = copies + COPY * __builtin_ctzll(stations);
        set_word(copy + GENERATION, generation);
        memcpy(copy + CONFIGURATION, &c, sizeof c);
    }
}

static inline bool enough_puts(const head *h, configuration found)
{
    switch (h->round) {
    case OSPREYSCREEN_ROUND_WRITE:
        return holds(h->data_puts, found.write);
    case OSPREYSCREEN_ROUND_CHANGE:
        return holds(h->data_puts, h->target.write) && holds(h->configuration_puts, found.write);
    default:
        return true;
    }
}

/* The number of a commit of a heard round, by the newest copies. */
static inline uint64_t closing_number(const head *h, const newest_copies *best)
{
    bool last = (h->round == OSPREYSCREEN_ROUND_WRITE && best->version == UINT64_MAX) ||
                (h->round == OSPREYSCREEN_ROUND_CHANGE && best->generation == UINT64_MAX);
    if (last) {
        return OSPREYSCREEN_SPENT;
    }
    return enough_puts(h, get_configuration(best->found + CONFIGURATION)) ? OSPREYSCREEN_DONE
                                                                          : OSPREYSCREEN_SHORT;
}

ospreyscreen_reply opt_commit(uint8_t *table, size_t len)
{
    head h;

    if (!read_sound(&h, table, len)) {
        return refused(OSPREYSCREEN_UNSOUND);
    }
    if (h.round == OSPREYSCREEN_ROUND_NONE) {
        return refused(OSPREYSCREEN_IDLE);
    }
    if (h.polled == 0) {
        return refused(OSPREYSCREEN_UNHEARD);
    }
    uint8_t *copies = item_copies(table, &h, h.item);
    newest_copies best = newest_both(copies, h.polled);
    if (!holds(h.polled, get_configuration(best.found + CONFIGURATION).read)) {
        return refused(OSPREYSCREEN_UNHEARD);
    }
    uint64_t number = closing_number(&h, &best);
    if (number != OSPREYSCREEN_DONE) {
        return refused(number);
    }
    bool write = h.round == OSPREYSCREEN_ROUND_WRITE;
    bool change = h.round == OSPREYSCREEN_ROUND_CHANGE;
    uint64_t version = best.version + write;
    uint64_t value = write ? h.value : get_word(best.data + VALUE);
    uint64_t generation = best.generation + change;
    store_data(copies, h.data_puts, version, value);
    store_configuration(copies, h.configuration_puts, generation, h.target);
    close_round(table);
    return done(value, version, generation);
}

ospreyscreen_reply opt_abandon(uint8_t *table, size_t len)
{
    head h;

    if (!read_sound(&h, table, len)) {
        return refused(OSPREYSCREEN_UNSOUND);
    }
    if (h.round == OSPREYSCREEN_ROUND_NONE) {
        return refused(OSPREYSCREEN_IDLE);
    }
    close_round(table);
    return done(0, 0, 0);
}

ospreyscreen_reply opt_link(uint8_t *table, size_t len, uint64_t station, uint64_t state)
{
    head h;

    if (!read_sound(&h, table, len)) {
        return refused(OSPREYSCREEN_UNSOUND);
    }
    if (station >= h.n || state > 1) {
        return refused(OSPREYSCREEN_NO_SUCH_THING);
    }
    uint64_t one = UINT64_C(1) << station;
    if (state == OSPREYSCREEN_LINK_ON) {
        set_pair(table + 2, h.off & ~one);
    } else {
        set_pair(table + 2, h.off | one);
        set_pair(table + 8, h.data_puts & ~one);
        set_pair(table + 10, h.configuration_puts & ~one);
    }
    return done(0, 0, 0);
}

ospreyscreen_reply opt_reach(const uint8_t *table, size_t len, uint64_t item)
{
    head h;

    if (!read_sound(&h, table, len)) {
        return refused(OSPREYSCREEN_UNSOUND);
    }
    if (item >= h.m) {
        return refused(OSPREYSCREEN_NO_SUCH_THING);
    }
    uint64_t on = on_the_bus(&h);
    const uint8_t *found = heard(table + item_start(&h, item), on);
    if (found == NULL) {
        return done(OSPREYSCREEN_REACH_NOTHING, 0, 0);
    }
    bool writable = holds(on, get_configuration(found + CONFIGURATION).write);
    return done(writable ? OSPREYSCREEN_REACH_READ_AND_WRITE : OSPREYSCREEN_REACH_READ, 0, 0);
}

ospreyscreen_reply opt_diagnose(const uint8_t *table, size_t len)
{
    head h;

    if (!read_sound(&h, table, len)) {
        return refused(OSPREYSCREEN_UNSOUND);
    }
    if (h.round == OSPREYSCREEN_ROUND_NONE) {
        return refused(OSPREYSCREEN_IDLE);
    }
    if (h.polled == 0) {
        return done(OSPREYSCREEN_UNHEARD, 0, 0);
    }
    const uint8_t *copies = table + item_start(&h, h.item);
    newest_copies best = newest_both(copies, h.polled);
    uint64_t place = first_held(h.polled, get_configuration(best.found + CONFIGURATION).read);
    uint64_t number = place == 0 ? OSPREYSCREEN_UNHEARD : closing_number(&h, &best);
    return done(number, 1 + (uint64_t)(best.data - copies) / COPY, place);
}

/* The bit above all stations: no set is held. */
enum { NONE_HELD = 0x10000 };

/* All stations up to the highest one of a set, for that used set of the side
 * which the stations hold and where these are fewest; with the bit above if
 * they hold none. A start of their rising order holds a set exactly if it lacks
 * none of these. Each lane gets what is below its highest station, by shifts,
 * or all ones if its set does not count; the fewest are in all lanes. */
static inline uint64_t up_to_first_held(uint64_t stations, const uint8_t *at)
{
    lanes s = get_side(at);
    uint16_t lacking = (uint16_t)~stations;
    lanes below = s >> 1;
    uint64_t halves[2];

    for (int shift = 1; shift < 16; shift *= 2) {
        below |= below >> shift;
    }
    below |= (lanes)(s == 0) | (lanes)((s & lacking) != 0);
    memcpy(halves, &below, sizeof halves);
    uint64_t fewest = halves[0] & halves[1];
    fewest &= fewest >> 32;
    fewest &= fewest >> 16;
    return (fewest & 0xFFFF) << 1 | 1;
}

/* How many stations the set has. */
static inline uint64_t size_of(uint64_t set)
{
    set -= set >> 1 & 0x5555;
    set = (set & 0x3333) + (set >> 2 & 0x3333);
    set = (set + (set >> 4)) & 0x0F0F;
    return (set + (set >> 8)) & 0x1F;
}

/* Looks at copies from the lowest station on until those seen are heard. What
 * that takes is worked out anew where the configuration found changes. */
static inline ospreyscreen_reply plan(const uint8_t *copies, uint64_t on)
{
    uint64_t left = on & (on - 1);
    const uint8_t *found = copies + COPY * __builtin_ctzll(on);
    uint64_t highest = get_word(found + GENERATION);
    uint64_t goal = up_to_first_held(on, found + CONFIGURATION);
    uint64_t polls = 1;

    for (; (goal & (left | NONE_HELD)) != 0; left &= left - 1, polls++) {
        if (left == 0) {
            return refused(OSPREYSCREEN_OUT_OF_HEARING);
        }
        const uint8_t *copy = copies + COPY * __builtin_ctzll(left);
        uint64_t number = get_word(copy + GENERATION);
        if (number > highest) {
            highest = number;
            found = copy;
            goal = up_to_first_held(on, found + CONFIGURATION);
        }
    }
    uint64_t puts = up_to_first_held(on, found + CONFIGURATION + 16);
    return done(polls, (puts & NONE_HELD) != 0 ? 0 : size_of(puts & on), 0);
}

ospreyscreen_reply opt_plan(const uint8_t *table, size_t len, uint64_t item)
{
    head h;

    if (!read_sound(&h, table, len)) {
        return refused(OSPREYSCREEN_UNSOUND);
    }
    if (item >= h.m) {
        return refused(OSPREYSCREEN_NO_SUCH_THING);
    }
    uint64_t on = on_the_bus(&h);
    if (on == 0) {
        return refused(OSPREYSCREEN_OUT_OF_HEARING);
    }
    return plan(table + item_start(&h, item), on);
}

ospreyscreen_reply opt_standard_form(uint64_t n, const uint8_t *config, size_t config_len,
                                     uint8_t *out, size_t out_len)
{
    if (n - 1 >= OSPREYSCREEN_STATIONS_MAX || out_len != OSPREYSCREEN_CONFIGURATION_LENGTH) {
        return refused(OSPREYSCREEN_NO_SUCH_THING);
    }
    if (config_len != OSPREYSCREEN_CONFIGURATION_LENGTH || !valid(get_configuration(config), n)) {
        return refused(OSPREYSCREEN_FALSE_CONFIGURATION);
    }
    set_sides(out, standard_form(config));
    return done(0, 0, 0);
}
