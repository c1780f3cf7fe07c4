/*
 * Ospreyscreen: replicated items in one lent table of bytes, as document 01,
 * the specification, and the requests of document 02 that are done have it.
 *
 * A station is a replica, an item a logical object, a round a logical access.
 * A table holds one copy of each of its m items at each of its n stations.
 * Rounds read an item, write it, or change its configuration, which says what
 * station sets are read quorums and write quorums. One round is open at a
 * time; it takes effect as a whole at its commit.
 *
 * Rules for the caller:
 * - The table and the configuration that a call gets are lent for that call,
 *   and so are the votes of ospreyscreen_votes, and the output of it and of
 *   ospreyscreen_standard_form. They must not overlap. A null pointer goes with
 *   length 0 only.
 * - len is the length of the table's buffer in bytes, and config_len and
 *   target_len are that of the configuration's; votes_len and out_len are
 *   those of the votes and of the output.
 * - Calls on one table must not run at the same time. Calls on different
 *   tables may: the library keeps no state of its own.
 * - A table needs no alignment. Nobody else writes it between calls.
 *
 * What every call keeps to:
 * - Any bytes and any numbers are answered: there is nothing else that a
 *   caller has to see to before a call.
 * - A refusal (a number other than 0) changes no byte and has zero figures.
 * - Figures that a call does not name below are zero.
 * - Where more than one refusal applies, the call gives the one that stands
 *   first in its list below.
 */
#ifndef OSPREYSCREEN_H
#define OSPREYSCREEN_H

#include <stddef.h>
#include <stdint.h>

#ifdef __cplusplus
extern "C" {
#endif

/* The version of this header and of the library that belongs to it. */
#define OSPREYSCREEN_VERSION_MAJOR 0
#define OSPREYSCREEN_VERSION_MINOR 7
#define OSPREYSCREEN_VERSION_PATCH 1
#define OSPREYSCREEN_VERSION_STRING                                                                \
    OSPREYSCREEN_DOTTED_(OSPREYSCREEN_VERSION_MAJOR, OSPREYSCREEN_VERSION_MINOR,                   \
                         OSPREYSCREEN_VERSION_PATCH)

/* Three numbers as text with dots between; for the macro above alone. */
#define OSPREYSCREEN_DOTTED_(a, b, c)                                                              \
    OSPREYSCREEN_TEXT_(a) "." OSPREYSCREEN_TEXT_(b) "." OSPREYSCREEN_TEXT_(c)
#define OSPREYSCREEN_TEXT_(number) #number

/* Limits and sizes; lengths are in bytes. */
#define OSPREYSCREEN_STATIONS_MAX 16
#define OSPREYSCREEN_ITEMS_MAX 32
#define OSPREYSCREEN_SETS_PER_SIDE 8
#define OSPREYSCREEN_HEAD_LENGTH 56
#define OSPREYSCREEN_COPY_LENGTH 56
#define OSPREYSCREEN_CONFIGURATION_LENGTH 32
#define OSPREYSCREEN_TABLE_LENGTH_MAX 28728

/* The only length that fits a table of n stations, 1 to 16, and m items, 1 to
 * 32. */
#define OSPREYSCREEN_TABLE_LENGTH(n, m)                                                            \
    (1u * OSPREYSCREEN_HEAD_LENGTH + 1u * OSPREYSCREEN_COPY_LENGTH * (n) * (m))

/* The number of a reply. */
enum ospreyscreen_number {
    OSPREYSCREEN_DONE = 0,
    OSPREYSCREEN_UNSOUND = 1,             /* the table is not sound; at lay, its length does not fit */
    OSPREYSCREEN_NO_SUCH_THING = 2,       /* station, item, put sort, link state, n or m out of range;
                                             at votes and standard form, the output's length */
    OSPREYSCREEN_FALSE_CONFIGURATION = 3, /* the configuration is not valid */
    OSPREYSCREEN_BUSY = 4,                /* an opening while a round is open */
    OSPREYSCREEN_IDLE = 5,                /* no round is open */
    OSPREYSCREEN_OFF_THE_BUS = 6,         /* the station is off, as all are after a lay */
    OSPREYSCREEN_READING_OVER = 7,        /* a poll while a put set is not empty */
    OSPREYSCREEN_UNHEARD = 8,             /* the polled stations hold no read set */
    OSPREYSCREEN_WRONG_PUT = 9,           /* a put in a read, or a configuration put in a write */
    OSPREYSCREEN_SPENT = 10,              /* the version or generation to be raised is 2^64 - 1 */
    OSPREYSCREEN_SHORT = 11,              /* the puts lack a write set */
    OSPREYSCREEN_FALSE_FRAME = 12,        /* given by the frame runner only, by no call below */
    OSPREYSCREEN_FALSE_VOTES = 13,        /* not 1 to 16 stations, or thresholds that do not fit */
    OSPREYSCREEN_TOO_MANY_SETS = 14,      /* more than eight smallest sets on a side */
    OSPREYSCREEN_OUT_OF_HEARING = 15      /* at plan: polls in rising number are never heard */
};

/* The calls on a table, numbered as the frame runner's frames number them. */
enum ospreyscreen_call {
    OSPREYSCREEN_LAY = 1,
    OSPREYSCREEN_OPEN_READ = 2,
    OSPREYSCREEN_OPEN_WRITE = 3,
    OSPREYSCREEN_OPEN_CHANGE = 4,
    OSPREYSCREEN_POLL = 5,
    OSPREYSCREEN_PUT = 6,
    OSPREYSCREEN_COMMIT = 7,
    OSPREYSCREEN_ABANDON = 8,
    OSPREYSCREEN_LINK = 9,
    OSPREYSCREEN_REACH = 10,
    OSPREYSCREEN_DIAGNOSE = 11,
    OSPREYSCREEN_PLAN = 12
};

/* The kind of round that is open, as byte 4 of a table's head keeps it. */
enum ospreyscreen_round {
    OSPREYSCREEN_ROUND_NONE = 0,
    OSPREYSCREEN_ROUND_READ = 1,
    OSPREYSCREEN_ROUND_WRITE = 2,
    OSPREYSCREEN_ROUND_CHANGE = 3
};

/* The sort of a put. */
enum ospreyscreen_sort {
    OSPREYSCREEN_PUT_DATA = 1,
    OSPREYSCREEN_PUT_CONFIGURATION = 2
};

/* The state of a station's link. */
enum ospreyscreen_state {
    OSPREYSCREEN_LINK_OFF = 0,
    OSPREYSCREEN_LINK_ON = 1
};

/* What a round that polls every station on the bus can do: reach's figure. */
enum ospreyscreen_reach {
    OSPREYSCREEN_REACH_NOTHING = 0,
    OSPREYSCREEN_REACH_READ = 1,
    OSPREYSCREEN_REACH_READ_AND_WRITE = 3
};

/* What every call returns, by value: the number and three figures. */
typedef struct {
    uint64_t number;
    uint64_t first;
    uint64_t second;
    uint64_t third;
} ospreyscreen_reply;

/*
 * Lays a table: n stations, 1 to 16, all off the bus; m items, 1 to 32, all
 * at the starting value with version 0, generation 0 and the configuration
 * given, in its standard form; no round. Looks at no old byte of the table and
 * writes every byte.
 * A station stays off until it is linked with state 1: until then a poll or a
 * put of it in a round gets 6. Before the first link reach is 0 for every
 * item, and plan gets 15. Link each station once it is wired and answers.
 * A configuration is 32 bytes: eight read sets, then eight write sets, two
 * bytes each, least significant byte first, bit i for station i. Unused
 * places are zero and come last on each side. It is valid if each side has a
 * used place, no set names a station n or above, and every read set shares a
 * station with every write set. Any other length is not valid. That is asked
 * of the bytes given. What is stored is their standard form, which is that of
 * ospreyscreen_standard_form: so two tables that are laid alike but for the
 * spelling of the configuration are equal, byte for byte.
 * Refusals: 2 n or m, 1 len is not OSPREYSCREEN_TABLE_LENGTH(n, m),
 * 3 the configuration.
 */
ospreyscreen_reply ospreyscreen_lay(uint8_t *table, size_t len, uint64_t n, uint64_t m,
                                    uint64_t value, const uint8_t *config, size_t config_len);

/*
 * Opens a round that reads the item: its commit gives the value.
 * Refusals: 1 table, 2 item, 4 a round is open.
 */
ospreyscreen_reply ospreyscreen_open_read(uint8_t *table, size_t len, uint64_t item);

/*
 * Opens a round that writes the value to the item. The value waits in the
 * table's head until the commit.
 * Refusals: 1 table, 2 item, 4 a round is open.
 */
ospreyscreen_reply ospreyscreen_open_write(uint8_t *table, size_t len, uint64_t item,
                                           uint64_t value);

/*
 * Opens a round that changes the item's configuration to the target, which is
 * 32 bytes as at lay. The target waits in the table's head, in its standard
 * form, until the commit, which stores it as it stands there; other items keep
 * their configurations.
 * Refusals: 1 table, 2 item, 3 the target, 4 a round is open.
 */
ospreyscreen_reply ospreyscreen_open_change(uint8_t *table, size_t len, uint64_t item,
                                            const uint8_t *target, size_t target_len);

/*
 * Polls the station: its copy now counts in the round. Polling a station
 * again changes nothing. Polls come before puts: a poll gets 7 while any put
 * stands, and is allowed again if drops have emptied both put sets.
 * Figures: first is one plus the first read place held now, or 0. Place 0 to
 * 7 is that of a read set in the configuration found, which is the one of the
 * highest generation among the polled copies, the lowest station's on equal
 * generations; a used place is held if all stations of its set are polled.
 * Places are those of the configuration as it is stored: of its standard form,
 * unless a library before 0.7 laid it or opened its change.
 * The round is heard if a place is held, so if this figure is not 0.
 * Refusals: 1 table, 2 station, 5 no round, 6 the station is off,
 * 7 a put set is not empty.
 */
ospreyscreen_reply ospreyscreen_poll(uint8_t *table, size_t len, uint64_t station);

/*
 * Notes a put of the sort given at the station; the copy changes at the
 * commit only. The same put again changes nothing.
 * Refusals: 1 table, 2 station or sort, 5 no round, 6 the station is off,
 * 8 the round is not heard, 9 a put in a read or a configuration put in a
 * write, 10 the version found (a write) or the generation found (a
 * configuration put of a change) is 2^64 - 1.
 */
ospreyscreen_reply ospreyscreen_put(uint8_t *table, size_t len, uint64_t station, uint64_t sort);

/*
 * Finishes the round: every put takes effect, and the round closes. What was
 * found is what the polled copies give: version and value of the highest
 * version, generation and configuration of the highest generation, the lowest
 * station on equal numbers.
 * - A write stores its value, with the version found plus one, in the copies
 *   with a data put.
 * - A change stores the version and value found in the copies with a data
 *   put, and the target, with the generation found plus one, in the copies
 *   with a configuration put. It does not raise the version.
 * - A read stores nothing.
 * Figures: the item's value, version and generation after the round.
 * Refusals: 1 table, 5 no round, 8 the round is not heard, 10 the version
 * found (a write) or the generation found (a change) is 2^64 - 1, 11 the data
 * puts lack a write set of the configuration found (a write) or of the target
 * (a change), or the configuration puts lack a write set of the configuration
 * found (a change).
 */
ospreyscreen_reply ospreyscreen_commit(uint8_t *table, size_t len);

/*
 * Closes the round; no copy changes.
 * Refusals: 1 table, 5 no round.
 */
ospreyscreen_reply ospreyscreen_abandon(uint8_t *table, size_t len);

/*
 * Takes the station on the bus (state 1) or off it (state 0). After a lay each
 * station needs one call with state 1. Going off takes the station out of both
 * put sets; it stays polled, and its copies are kept.
 * Refusals: 1 table, 2 station or state.
 */
ospreyscreen_reply ospreyscreen_link(uint8_t *table, size_t len, uint64_t station, uint64_t state);

/*
 * Tells what the stations on the bus can do with the item, judged by what
 * polling them all finds: the configuration of the highest generation among
 * their copies, the lowest station's on equal generations. The copies of
 * stations that are off do not count, nor does the round that is open. Changes
 * no byte.
 * Figures: first is
 * - 1 if they hold one of its read sets: a read that polls them all is done;
 * - 3 if also one of its write sets: a write that polls them all and puts data
 *   at them all is done too, unless the version found is 2^64 - 1;
 * - else 0, as with nobody on the bus: a round that polls them all is unheard.
 * On a table that only these calls have changed since a lay that was done, 0
 * means more: no set of stations on the bus is heard, so a round opened on the
 * item now cannot finish until a station comes on. Only a round that is open
 * already may, by stations that it polled before they went off.
 * Refusals: 1 table, 2 item.
 */
ospreyscreen_reply ospreyscreen_reach(const uint8_t *table, size_t len, uint64_t item);

/*
 * Tells what holds the open round up: what a commit would get now, and what the
 * polled copies have given so far. Changes no byte, so that a commit right
 * after it gets the number that it told, and is done if that is 0.
 * Figures:
 * - first is the number that commit would give now: 0, or 8, 10 or 11, as they
 *   stand there;
 * - second is one plus the station that gave the version: of the polled
 *   stations, on the bus or off by now, the lowest that has the highest version,
 *   whether the round is heard or not; 0 if nothing is polled;
 * - third is one plus the first read place held, as poll's figure has it; 0 if
 *   the round is not heard.
 * Refusals: 1 table, 5 no round, where commit gets them too.
 */
ospreyscreen_reply ospreyscreen_diagnose(const uint8_t *table, size_t len);

/*
 * Tells how many polls a new round on the item will take, and how many puts a
 * write then needs, if it turns to the stations on the bus in rising number,
 * from the lowest on. Stations that are off do not count, nor does the round
 * that is open. Changes no byte.
 * Figures:
 * - first is the polls, 1 to 16: after so many the round is heard for the first
 *   time, by what these copies give. A read that polls no more is done;
 * - second is the puts, 0 to 16: data puts at so many stations on the bus, again
 *   from the lowest on, polled or not, hold a write set of the configuration
 *   that the polls found, and one fewer do not. A write with these polls and
 *   puts is done, unless the version found is 2^64 - 1. A change needs as many
 *   configuration puts; its data puts go by the target. 0 means that puts at all
 *   stations on the bus hold no such set: a round with these polls can only read.
 * The figures are for the table as it is: a link, a change of the item that
 * finishes or a lay may change them. Another order of stations may take fewer.
 * Refusals: 1 table, 2 item, 15 the round is not heard after any of these polls,
 * that of the last station on the bus included, as with nobody on the bus. Reach
 * is then 0. On a table that only these calls have changed since a lay that was
 * done, plan gets 15 wherever reach is 0.
 */
ospreyscreen_reply ospreyscreen_plan(const uint8_t *table, size_t len, uint64_t item);

/*
 * Turns votes into the configuration that they stand for, as lay and
 * open_change take it. Byte i of the votes is how many station i has, so that
 * votes_len is the number of stations, n; read and write are the votes that a
 * read and a write need. The read side lists the smallest sets that reach
 * read, the write side those that reach write, each side rising as numbers. A
 * smallest set reaches the threshold, and no longer does with any one station
 * left out: no station of no votes is in one. So a station set holds a listed
 * set exactly if its votes reach that threshold. The configuration is valid
 * for n stations. Writes all 32 bytes of the output if done, and none if
 * refused. No figures.
 * Refusals: 2 out_len is not OSPREYSCREEN_CONFIGURATION_LENGTH, 13 votes_len
 * is not 1 to 16, a threshold is zero or above all the votes together, or the
 * two thresholds together do not exceed them, 14 more than eight smallest sets
 * on a side.
 */
ospreyscreen_reply ospreyscreen_votes(const uint8_t *votes, size_t votes_len, uint64_t read,
                                      uint64_t write, uint8_t *out, size_t out_len);

/*
 * Takes a configuration of n stations to its standard form, its one spelling:
 * on each side a set that contains another of that side is dropped, of equal
 * sets one is kept, and those that are left rise as numbers; unused places are
 * zero and come last. A station set passes for reading if it holds a read set,
 * and for writing if it holds a write set. Two configurations have the same
 * standard form exactly if the same station sets pass for reading and the same
 * for writing: so two sheets for one house compare byte for byte. The standard
 * form is valid for n and is its own standard form, and so is what
 * ospreyscreen_votes writes. Lay and open_change store it. Writes all 32 bytes
 * of the output if done, and none if refused. No figures.
 * Refusals: 2 n is not 1 to 16, or out_len is not
 * OSPREYSCREEN_CONFIGURATION_LENGTH, 3 the configuration is not valid for n, as
 * at lay; any other length is not valid.
 */
ospreyscreen_reply ospreyscreen_standard_form(uint64_t n, const uint8_t *config, size_t config_len,
                                              uint8_t *out, size_t out_len);

#ifdef __cplusplus
}
#endif

#endif
