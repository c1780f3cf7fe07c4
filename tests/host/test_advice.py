"""Follows the console's advice: random sessions, in which what is advised after
each refusal is done, and has to help.

usage: test_advice.py PLAIN [TEST..]

PLAIN is the program.
"""

import collections
import os
import pathlib
import random
import re
import struct
import sys
import tempfile
import unittest

import terminals
from terminals import configuration, Dialogue

PLAIN = ""

SEED = 20260727
SESSIONS, CALLS = 250, 40
OFTEN = 60  # so often each form is followed; then it is known
LAST = 2 ** 64 - 1  # the last version and the last generation that there is
KINDS = ["none", "read", "write", "change"]

LIST = r"((?:\d+, )*\d+)"
JOINED = r"((?:\d+, )*\d+ and \d+|\d+)"
SET = r"([0-9A-F]{4})"
SORT = r"(data|configuration)"
UNHEARD = rf"(nothing is polled|the polled stations {SET} hold no read set); "
FEW = r"too few stations are on the bus; "
DEAF = rf"(nobody is on the bus|the stations on the bus, {SET}, are not heard); "
WHOSE = r"( of the target| of the old configuration|)"
SPENT = rf"the (version|generation) found is the last that there is, {LAST}; abandon"

# Every form that advice has, by its name.
FORMS = {
    "no table": r"there is no table yet; begin with a lay",
    "n and m": r"n is 1 to 16, and m is 1 to 32",
    "items": r"items are 0 to (\d+)",
    "stations": r"stations are 0 to (\d+)",
    "sorts": r"a put is data \(1\) or configuration \(2\)",
    "states": r"a link is off \(0\) or on \(1\)",
    "no set": r"the (read|write) side has no set",
    "gap": r"an unused place stands before the last (read|write) set",
    "station above": rf"the (read|write) set {SET} names a station above (\d+), the last",
    "apart": rf"the read set {SET} \({LIST}\) and the write set {SET} \({LIST}\) share no station",
    "busy": r"a (read|write|change) of item (\d+) is open; commit or abandon it first",
    "busy, not ready": r"a (read|write|change) of item (\d+) is open; commit or abandon it first"
                       r" \(a commit would get (\d+) [a-z ]+\)",
    "idle": r"no round is open; open read, open write or open change first",
    "nothing to do": r"no round is open: there is nothing to (abandon|diagnose)",
    "puts gone": r"its puts are gone with it",
    "puts gone, poll counts": r"its puts are gone with it; its poll still counts",
    "link": r"link (\d+) on once it answers",
    "link or another": rf"link (\d+) on once it answers, or (?:poll|put at) another: {LIST}",
    "on the bus": r"on the bus it would get (\d+) [a-z ]+?; (.*)",
    "polls are over": r"puts stand, so that the polls are over; (.*)",
    "commit": r"commit: nothing is missing",
    "read takes no puts": r"a read takes no puts; commit",
    "write takes data": r"a write takes data puts alone; for other sets abandon it, and open a change",
    "poll": rf"{UNHEARD}poll (\d+)",
    "poll one": rf"{UNHEARD}poll one of: {LIST}",
    "poll one more": rf"{UNHEARD}poll one more of: {LIST}",
    "poll several": rf"{UNHEARD}poll {JOINED}",
    "link it and poll": rf"{UNHEARD}{FEW}link (\d+) on and poll it",
    "link one and poll": rf"{UNHEARD}{FEW}link one of {LIST} on and poll it",
    "link several and poll": rf"{UNHEARD}{FEW}link {JOINED} on, and poll {JOINED}",
    "puts stand": rf"{UNHEARD}puts stand, so that none can be polled; abandon",
    "spent": rf"{SPENT}: the item can be read, and not (?:written|changed)",
    "spent at some": rf"{SPENT}(?:, link {JOINED} on)?, open it again, poll {JOINED}, not {JOINED}"
                     rf"(?:, and put {SORT} at {JOINED} too)?",
    "link for a plan": rf"{DEAF}link (\d+) on",
    "link one for a plan": rf"{DEAF}link one of {LIST} on",
    "link several for a plan": rf"{DEAF}link {JOINED} on",
    "short": rf"(?:no {SORT} is put, and a|the {SORT} puts {SET} hold no) write set.*",
}
# What is said of each sort of puts that are short.
SHORT = rf"(?:no {SORT} is put, and a write set{WHOSE} is needed|the {SORT} puts {SET} hold no write set{WHOSE}); (.*?)(, best at every station on the bus|)"
LINK_AND_PUT = rf"link {JOINED} on, and put {SORT} at {JOINED}"
PUTS = {
    "put": rf"put {SORT} at (\d+)",
    "put one": rf"put {SORT} at one of: {LIST}",
    "put one more": rf"put {SORT} at one more of: {LIST}",
    "put several": rf"put {SORT} at {JOINED}",
    "put these or those": rf"put {SORT} at ({JOINED}(?:, or at {JOINED})+)",
    "link it and put": rf"{FEW}link (\d+) on and put {SORT} at it",
    "link one and put": rf"{FEW}link one of {LIST} on and put {SORT} at it",
    "link and put": rf"{FEW}({LINK_AND_PUT})",
    "link and put these or those": rf"{FEW}({LINK_AND_PUT}(?:, or {LINK_AND_PUT})+)",
}

Head = collections.namedtuple("Head", "n m off kind item polled data config zero value")
Reply = collections.namedtuple("Reply", "number text advice")
Part = collections.namedtuple("Part", "form sort ways")


def numbers(text):
    return [int(number) for number in re.findall(r"\d+", text)]


def members(bits):
    return [station for station in range(16) if bits >> station & 1]


def form_of(text, forms):
    """The name of the first form that the text has, and the match."""
    for name, pattern in forms.items():
        if match := re.fullmatch(pattern, text):
            return name, match
    raise AssertionError(f"no known advice: {text!r}")


def reply_of(printed):
    lines = printed.split("\n")
    text = lines[0].partition(": ")[2]
    refused = re.match(r"refused, (\d+)", text)
    return Reply(int(refused[1]) if refused else 0, text, lines[1][2:])


class Store:
    """A console, whose table can be marked and taken back to the mark."""

    def __init__(self, dialogue, folder):
        self.dialogue = dialogue
        self.file = folder / "mark"
        self.head = None

    def call(self, line):
        return reply_of(self.dialogue.be_sure(line))

    def mark(self):
        self.dialogue.be_sure(f"save {self.file.name}")
        self.head = Head(*struct.unpack_from("<BBHBBHHHIQ", self.file.read_bytes()))

    def at_mark(self, *lines):
        """What is printed for each of the lines at the mark. The first load may be asked about."""
        return self.dialogue.say_all([f"load {self.file.name}"] * 2 + list(lines))[2:]

    def attempt(self, *lines):
        """The reply to the last of the lines at the mark."""
        return reply_of(self.at_mark(*lines)[-1])

    def load(self, contents):
        self.file.write_bytes(contents)
        self.at_mark()

    # Stations at the mark.
    def on(self):
        return [station for station in range(self.head.n) if not self.head.off >> station & 1]

    def off(self):
        return members(self.head.off)

    def unpolled(self, stations):
        return [station for station in stations if not self.head.polled >> station & 1]


def polls(stations):
    return [f"poll {station}" for station in stations]


def links(stations):
    return [f"link {station} on" for station in stations]


def puts(sort, stations):
    return [f"put {station} {sort}" for station in stations]


def puts_in(lines):
    return [line for line in lines if line.startswith("put")]


def with_number(line, at, number):
    """The line with another number in place of its word."""
    words = line.split()
    words[at] = str(number)
    return " ".join(words)


def sets_of(line):
    """The read sets and the write sets of a lay or of a change."""
    words = line.split()
    read, write = words.index("read"), words.index("write")
    return [[int(word, 16) for word in side] for side in (words[read + 1:write], words[write + 1:])]


class Follower:
    """Does what is advised, and everything else that would do. All trials begin at the mark."""

    def __init__(self, test, store, rng):
        self.test = test
        self.store = store
        self.rng = rng
        self.met = collections.Counter()
        self.damages = set()  # of the session

    def grows(self, *others):
        """Whether a round stays heard by more polls: no damage lets old sets pass for new ones."""
        return self.damages <= {"polls", "version", *others}

    def follow(self, line, reply):
        """What comes of the advice after a call that was refused, or a diagnose."""
        self.store.mark()
        self.obey(line, reply.number, reply.advice)
        self.store.at_mark()

    def obey(self, line, number, advice):
        name, match = form_of(advice, FORMS)
        self.met[name] += 1
        self.test.assertIn(number, NUMBERS.get(name, [number]), (line, advice))
        if self.met[name] <= OFTEN or name in ("on the bus", "polls are over", "short"):
            getattr(self, "do_" + re.sub(r"\W+", "_", name))(line, match)

    def equal(self, *values):
        self.test.assertEqual(*values)

    def assert_number(self, number, *lines):
        reply = self.store.attempt(*lines)
        self.equal(reply.number, number, (lines, reply))

    def assert_heard(self, heard, *lines):
        reply = self.store.attempt(*lines)
        self.equal((reply.number, " heard" in reply.text.replace("not heard", "")), (0, heard), (lines, reply))

    # ---- Numbers ----

    def do_no_table(self, line, _):
        self.test.fail(line)

    def do_n_and_m(self, line, _):
        n, m = (int(word) for word in line.split()[1:3])
        self.test.assertFalse(1 <= n <= 16 and 1 <= m <= 32)

    def assert_last(self, line, at, last):
        self.equal(self.store.attempt(with_number(line, at, last + 1)).number, 2)
        self.test.assertNotEqual(self.store.attempt(with_number(line, at, last)).number, 2)

    def do_items(self, line, match):
        self.assert_last(line, 2 if line.startswith("open") else 1, int(match[1]))

    def do_stations(self, line, match):
        self.assert_last(with_number(line, 2, 1) if len(line.split()) > 2 else line, 1, int(match[1]))

    def do_sorts(self, line, _):
        for sort, known in {0: False, 1: True, 2: True, 3: False, "data": True, "configuration": True}.items():
            self.equal(self.store.attempt(with_number(line, 2, sort)).number != 2, known)

    def do_states(self, line, _):
        for state, known in {0: True, 1: True, 2: False, 255: False, "on": True, "off": True}.items():
            self.equal(self.store.attempt(with_number(line, 2, state)).number != 2, known)

    # ---- Configurations ----

    def stations_of(self, line):
        return int(line.split()[1]) if line.startswith("lay") else self.store.head.n

    def do_no_set(self, line, match):
        self.test.assertFalse(any(sets_of(line)[match[1] == "write"]))

    def do_gap(self, line, match):
        side = sets_of(line)[match[1] == "write"]
        self.test.assertTrue(any(one == 0 and any(side[at:]) for at, one in enumerate(side)))

    def do_station_above(self, line, match):
        n = self.stations_of(line)
        self.test.assertIn(int(match[2], 16), sets_of(line)[match[1] == "write"])
        self.equal(int(match[3]), n - 1)
        self.test.assertTrue(int(match[2], 16) >> n)

    def do_apart(self, line, match):
        read, write = (int(match[side], 16) for side in (1, 3))
        self.equal((members(read), members(write)), (numbers(match[2]), numbers(match[4])))
        self.test.assertTrue(read in sets_of(line)[0] and write in sets_of(line)[1])
        self.equal(read & write, 0)

    # ---- The round that is open, or none ----

    def do_busy(self, line, match, number=0):
        head = self.store.head
        self.equal((match[1], int(match[2])), (KINDS[head.kind], head.item))
        self.assert_number(number, "commit")
        self.assert_number(0, "abandon", line)
        if number == 0:
            self.assert_number(0, "commit", line)

    def do_busy_not_ready(self, line, match):
        self.test.assertNotEqual(int(match[3]), 0)
        self.do_busy(line, match, int(match[3]))

    def do_idle(self, line, _):
        for opening in ("open read 0", "open write 0 1", "open change 0 read 0001 write 0001"):
            self.test.assertNotEqual(self.store.attempt(opening, line).number, 5)

    def do_nothing_to_do(self, line, match):
        self.equal((line, KINDS[self.store.head.kind]), (match[1], "none"))

    def do_puts_gone(self, line, _, polled=0):
        """Of a station that is linked off."""
        station, head = int(line.split()[1]), self.store.head
        self.equal(((head.data | head.config) >> station & 1, head.polled >> station & 1), (0, polled))

    def do_puts_gone_poll_counts(self, line, match):
        self.do_puts_gone(line, match, polled=1)

    def do_commit(self, *_):
        self.assert_number(0, "commit")

    def do_polls_are_over(self, _, match):
        """On with the round: what it needs leads to a commit."""
        self.obey("commit", self.store.attempt("commit").number, match[1])

    def do_read_takes_no_puts(self, *_):
        self.equal(KINDS[self.store.head.kind], "read")
        self.assert_number(0, "commit")

    def do_write_takes_data(self, line, _):
        head = self.store.head
        self.equal(KINDS[head.kind], "write")
        lines = ["abandon", f"open change {head.item} read 0001 write 0001"]
        lines += links(range(head.n)) + polls(range(head.n))
        self.test.assertIn(self.store.attempt(*lines, line).number, (0, 10))

    # ---- Off the bus ----

    def do_link(self, line, match, others=()):
        self.assert_number(0, f"link {match[1]} on", line)
        for station in others:
            self.assert_number(0, with_number(line, 1, station))
        for station in set(range(self.store.head.n)) - set(others):
            before, _, after = self.store.at_mark("show", with_number(line, 1, station), "show")
            self.equal(before, after)

    def do_link_or_another(self, line, match):
        self.do_link(line, match, numbers(match[2]))

    def do_on_the_bus(self, line, match):
        number = int(match[1])
        self.assert_number(number, f"link {line.split()[1]} on", line)
        self.obey(line, number, match[2])

    # ---- Unheard ----

    def assert_polled(self, match):
        polled = self.store.head.polled
        self.equal(match[1] == "nothing is polled", polled == 0)
        self.equal(match[2], f"{polled:04X}" if polled else None)

    def assert_read(self):
        """A read is done as soon as it is heard."""
        if KINDS[self.store.head.kind] == "read":
            self.equal(self.store.call("commit").number, 0)

    def assert_needed(self, polled, linked=()):
        """Without one of them it is not heard."""
        for station in polled if self.grows() else ():
            rest = [other for other in polled if other != station]
            self.assert_heard(False, *links(set(linked) - {station}), *polls(rest))

    def assert_single_polls(self, stations, enough, linked=False):
        """Just these of the stations are enough."""
        for station in stations:
            self.assert_heard(station in enough, *links([station] if linked else []), f"poll {station}")
            if station in enough:
                self.assert_read()

    def do_poll(self, _, match):
        self.assert_polled(match)
        self.test.assertLessEqual(set(numbers(match[3])), set(self.store.unpolled(self.store.on())))
        self.assert_single_polls(self.store.unpolled(self.store.on()), numbers(match[3]))

    def do_poll_one(self, line, match):
        self.equal(self.store.head.polled, 0)
        self.do_poll(line, match)

    def do_poll_one_more(self, line, match):
        self.test.assertNotEqual(self.store.head.polled, 0)
        self.do_poll(line, match)

    def do_poll_several(self, _, match):
        self.assert_polled(match)
        stations = numbers(match[3])
        self.assert_single_polls(self.store.unpolled(self.store.on()), [])
        self.rng.shuffle(stations)
        self.assert_heard(True, *polls(stations))
        self.assert_read()
        self.assert_needed(stations)

    def assert_too_few(self):
        """Those on the bus do not do."""
        self.assert_single_polls(self.store.unpolled(self.store.on()), [])
        if self.store.on():
            self.assert_heard(False, *polls(self.store.on()))

    def do_link_it_and_poll(self, _, match):
        self.assert_polled(match)
        self.assert_too_few()
        self.test.assertLessEqual(set(numbers(match[3])), set(self.store.unpolled(self.store.off())))
        self.assert_single_polls(self.store.unpolled(self.store.off()), numbers(match[3]), linked=True)

    do_link_one_and_poll = do_link_it_and_poll

    def do_link_several_and_poll(self, _, match):
        self.assert_polled(match)
        self.assert_too_few()
        linked, polled = numbers(match[3]), numbers(match[4])
        self.test.assertLessEqual(set(linked), set(self.store.off()) & set(polled))
        self.assert_single_polls(self.store.unpolled(self.store.off()), [], linked=True)
        self.rng.shuffle(polled)
        self.assert_heard(True, *links(linked), *polls(polled))
        self.assert_read()
        self.assert_needed(polled, linked)

    def do_puts_stand(self, *_):
        """No poll is taken, and no put makes up for one."""
        for station in range(self.store.head.n):
            self.assert_number(7, f"link {station} on", f"poll {station}")
        self.assert_abandon(8)

    def assert_abandon(self, number):
        """Nothing else helps; then the item can be read."""
        every = range(self.store.head.n)
        self.assert_number(number, *links(every), *polls(every), *self.puts_everywhere(), "commit")
        self.assert_number(0, "abandon", f"open read {self.store.head.item}", *links(every), *polls(every), "commit")

    def opening(self):
        """The round once more, as good as it was."""
        head = self.store.head
        changes = KINDS[head.kind] == "change"
        return f"open change {head.item} read 0001 write 0001" if changes else f"open write {head.item} 1"

    def puts_everywhere(self):
        every = range(self.store.head.n)
        return [*puts("data", every), *puts("configuration", every)]

    def assert_spent(self, match):
        self.test.assertIn((match[1], KINDS[self.store.head.kind]), [("version", "write"), ("generation", "change")])
        self.assert_abandon(10)

    def do_spent(self, _, match):
        """A new round is no better, whichever stations it polls."""
        self.assert_spent(match)
        every = range(self.store.head.n)
        for polled in range(1, 1 << self.store.head.n) if self.grows(match[1]) else ():
            lines = ["abandon", *links(every), self.opening(), *polls(members(polled)), *self.puts_everywhere()]
            self.test.assertIn(self.store.attempt(*lines, "commit").number, (8, 10), lines)

    def do_spent_at_some(self, _, match):
        """A new round that polls others is done, and mends the copies that it puts at."""
        self.assert_spent(match)
        every, polled, spent = range(self.store.head.n), numbers(match[3]), numbers(match[4])
        self.test.assertFalse(set(polled) & set(spent))
        lines = ["abandon", *links(numbers(match[2] or "")), self.opening(), *polls(polled)]
        self.assert_number(0, *lines, *links(every), *self.puts_everywhere(), "commit", self.opening(), *polls(every),
                           *self.puts_everywhere(), "commit")
        self.test.assertLessEqual(set(numbers(match[6] or "")), set(spent) & set(self.store.on()))

    # ---- Short ----

    def assert_standing(self, match, sort):
        """The puts that stand, and whose write set they are to hold."""
        head = self.store.head
        standing = head.data if sort == "data" else head.config
        self.equal(match[4], f"{standing:04X}" if standing else None)
        whose = {"data": " of the target", "configuration": " of the old configuration"}
        self.equal(match[5] or match[2] or "", whose[sort] if KINDS[head.kind] == "change" else "")

    def ways(self, form, sort, match):
        """The ways on: the lines of each."""
        if form.startswith("link and put"):
            ways = [(numbers(linked), numbers(put)) for linked, _, put in re.findall(LINK_AND_PUT, match[1])]
            for linked, put in ways:
                self.equal(set(linked), set(put) & set(self.store.off()))
            return [links(linked) + puts(sort, put) for linked, put in ways]
        if form in ("link it and put", "link one and put"):
            self.test.assertLessEqual(set(numbers(match[1])), set(self.store.off()))
            return [links([station]) + puts(sort, [station]) for station in numbers(match[1])]
        if form in ("put", "put one", "put one more"):
            return [puts(sort, [station]) for station in numbers(match[2])]
        return [puts(sort, numbers(way)) for way in match[2].split(", or at ")]

    def part(self, text):
        """A sort of puts that are short."""
        match = re.fullmatch(SHORT, text)
        sort = match[1] or match[3]
        self.equal(match[7] != "", sort == "configuration")
        self.assert_standing(match, sort)
        form, advice = form_of(match[6], PUTS)
        self.met[form] += 1
        ways = self.ways(form, sort, advice)
        self.equal(len({tuple(way) for way in ways}), len(ways), text)
        return Part(form, sort, ways)

    def assert_enough(self, part, mended):
        """Every way does, and of single stations no others do. Where some have to be linked those on the bus do not."""
        for way in part.ways:
            self.assert_number(0, *mended, *way, "commit")
        single = [way[-1] for way in part.ways if len(puts_in(way)) == 1]
        links_too = part.form.startswith("link")
        for station in range(self.store.head.n) if links_too else self.store.on():
            line, = puts(part.sort, [station])
            lines = [*mended, *(links([station]) if links_too else []), line]
            self.assert_number(0 if line in single else 11, *lines, "commit")
        if links_too:
            self.assert_number(11, *mended, *puts(part.sort, self.store.on()), "commit")

    def do_short(self, _, match):
        """Each sort is tried where the other is mended."""
        texts = re.split(r"; (?=the configuration puts |no configuration is put)", match[0])
        parts = [self.part(text) for text in texts]
        for part in [part for part in parts if self.met[part.form] <= OFTEN]:
            mended = [line for other in parts if other is not part for line in self.rng.choice(other.ways)]
            self.assert_enough(part, mended)

    # ---- Plans ----

    def do_link_for_a_plan(self, line, match):
        self.equal(match[1] == "nobody is on the bus", not self.store.on())
        self.equal(match[2], f"{sum(1 << station for station in self.store.on()):04X}" if self.store.on() else None)
        for station in self.store.off():
            self.assert_number(0 if station in numbers(match[3]) else 15, f"link {station} on", line)
        self.test.assertLessEqual(set(numbers(match[3])), set(self.store.off()))

    do_link_one_for_a_plan = do_link_for_a_plan

    def do_link_several_for_a_plan(self, line, match):
        linked = numbers(match[3])
        for station in self.store.off():
            self.assert_number(15, f"link {station} on", line)
        self.assert_number(0, *links(linked), line)
        for station in linked if self.grows() else ():
            self.assert_number(15, *links(set(linked) - {station}), line)


# The numbers at which a form is advised; the others are of more than one.
NUMBERS = {"n and m": [2], "items": [2], "stations": [2], "sorts": [2], "states": [2], "no set": [3], "gap": [3],
           "station above": [3], "apart": [3], "busy": [4], "busy, not ready": [4], "idle": [5], "link": [6],
           "link or another": [6], "on the bus": [6], "polls are over": [7], "read takes no puts": [9],
           "write takes data": [9], "link for a plan": [15], "link one for a plan": [15],
           "link several for a plan": [15]}


class Draw:
    """Random calls for a house of its own size."""

    def __init__(self, rng):
        self.rng = rng
        self.n = rng.randint(1, 6)
        self.m = rng.randint(1, 3)
        every = range(1, 1 << self.n)
        self.by_size = {size: [one for one in every if len(members(one)) == size] for size in range(1, self.n + 1)}
        self.by_size[None] = every

    def side(self, size):
        """Some sets of that size, or of any."""
        sets = self.by_size[size]
        return self.rng.sample(sets, min(len(sets), self.rng.choice((1, 2, 3, 5))))

    def sets(self):
        """A valid configuration: by numbers of votes, or as it comes."""
        while True:
            size = self.rng.choice((None, *range(1, self.n + 1)))
            read, write = self.side(size), self.side(size and self.n + 1 - size)
            if all(one & other for one in read for other in write):
                return read, write

    def words(self, sets):
        read, write = (" ".join(f"{one:04X}" for one in side) for side in sets)
        return f"read {read} write {write}"

    def false_words(self):
        read, write = self.sets()
        return self.words(self.rng.choice(([[], write], [read, []], [[0] + read, write], [read, [0] + write],
                                           [read + [1 << self.n], write], [read, write + [1 << self.n | 1]],
                                           [[1], [2, 1]])))

    def lay(self):
        return f"lay {self.n} {self.m} {self.rng.randrange(1000)} {self.words(self.sets())}"

    def station(self):
        return self.rng.randrange(self.n)

    def item(self):
        return self.rng.randrange(self.m)

    def opening(self):
        kind = self.rng.choice(("read", "write", "change"))
        rest = {"read": "", "write": f" {self.rng.randrange(1000)}", "change": f" {self.words(self.sets())}"}
        return f"open {kind} {self.item()}{rest[kind]}"

    def wrong(self):
        """What the store refuses whatever the table is."""
        return self.rng.choice((
            f"poll {self.n}", f"put {self.n + 3} data", "link 255 on", f"link {self.station()} 2",
            f"put {self.station()} 3", f"put {self.station()} 0", f"open read {self.m}", f"open write {self.m} 1",
            f"reach {self.m}", "plan 255",
            f"open change {self.m} {self.words(self.sets())}", f"open change {self.item()} {self.false_words()}",
            f"lay {self.n} {self.m} 1 {self.false_words()}", f"lay {self.n} {self.m} 1 {self.false_words()}",
            "lay 17 1 0 read 0001 write 0001", "lay 0 0 0 read 0001 write 0001", "lay 1 33 0 read 0001 write 0001"))

    def put(self):
        return f"put {self.station()} {self.rng.choice(('data', 'data', 'configuration'))}"

    def call(self, is_open):
        """In a round most calls are those of rounds; else most open one."""
        weights = {
            self.put: 25 if is_open else 1,
            self.opening: 3 if is_open else 40,
            self.wrong: 2,
            lambda: f"poll {self.station()}": 30 if is_open else 1,
            lambda: f"link {self.station()} on": 9,
            lambda: f"link {self.station()} off": 7,
            lambda: f"plan {self.item()}": 3,
            lambda: "commit": 8 if is_open else 1,
            lambda: "diagnose": 4 if is_open else 1,
            lambda: "abandon": 1,
        }
        return self.rng.choices(list(weights), weights.values())[0]()

    def damaged(self, contents, how):
        """The table after something else than the store has written to it; it is as sound as it was."""
        head = Head(*struct.unpack_from("<BBHBBHHHIQ", contents))
        changed = bytearray(contents)
        at = 56 * (1 + head.item * head.n + self.station())
        if how == "polls" and head.data | head.config:
            struct.pack_into("<H", changed, 6, 0)
        elif how == "version":
            struct.pack_into("<Q", changed, at, LAST)
        elif how == "generation":
            struct.pack_into("<Q", changed, at + 16, LAST)
        elif how == "configuration":
            struct.pack_into("<Q32s", changed, at + 16, self.rng.randrange(3), configuration(*self.sets()))
        return bytes(changed)


class Advice(unittest.TestCase):
    """Random sessions: whatever is refused, what is advised is done, and does."""

    def setUp(self):
        memory = pathlib.Path("/dev/shm")
        folder = tempfile.TemporaryDirectory(dir=memory if os.access(memory, os.W_OK) else None)
        self.addCleanup(folder.cleanup)
        dialogue = Dialogue([PLAIN, "console"], folder.name)
        self.addCleanup(dialogue.close)
        self.store = Store(dialogue, pathlib.Path(folder.name))
        self.follower = Follower(self, self.store, random.Random(SEED))

    def damage(self, draw, how):
        self.store.mark()
        self.store.load(draw.damaged(self.store.file.read_bytes(), how))
        self.follower.damages.add(how)

    def run_session(self, rng):
        draw = Draw(rng)
        self.follower.damages.clear()
        self.assertEqual(self.store.call(draw.lay()).number, 0)
        for station in range(draw.n):
            if rng.random() < 0.7:
                self.store.call(f"link {station} on")
        for _ in range(CALLS):
            line = draw.call(self.store.dialogue.prompt != "> ")
            reply = self.store.call(line)
            if reply.advice:
                self.follower.follow(line, reply)
            if rng.random() < 0.02:
                self.damage(draw, rng.choice(("polls", "version", "generation", "configuration")))

    def test_advice(self):
        for line in ("reach 0", "open read 0", "poll 0", "commit"):
            reply = self.store.call(line)
            self.assertEqual((reply.number, form_of(reply.advice, FORMS)[0]), (1, "no table"))
        self.follower.met["no table"] += 1
        for seed in range(SEED, SEED + SESSIONS):
            with self.subTest(f"session {seed}"):
                self.run_session(random.Random(seed))
        missing = [name for name in [*FORMS, *PUTS] if name not in self.follower.met]
        self.assertEqual(missing, [], "forms that were not met")


if __name__ == "__main__":
    PLAIN, = (os.path.abspath(name) for name in sys.argv[1:2])
    terminals.CHECKED = PLAIN
    unittest.main(argv=sys.argv[:1] + sys.argv[2:])
