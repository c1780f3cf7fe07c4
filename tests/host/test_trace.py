"""Holds `ospreyscreen trace` to the independent implementation.

usage: test_trace.py OSPREYSCREEN REF_RUNNER RANDOM_FRAMES [--lines N] [--seed S]

Lines go to the trace and to REF_RUNNER --tables: N random ones, in scripts from
the seed S on, and directed ones. From each line, the reference's reply and the
reference's table comes the object that the trace has to have there, as document
01, the requests of document 02 that are done and docs/FORMAT.md have it. Words
are those of tools/frames. What an advice says is not compared, but that there is
one where there has to be, and nowhere else.
"""

import argparse
import collections
import functools
import json
import os
import pathlib
import pty
import re
import subprocess
import sys
import tempfile
import tty
import unittest

from tool_modules import load_tool

OSPREYSCREEN, REF_RUNNER, RANDOM_FRAMES = "", "", ""
LINES, SCRIPT_LINES, SEED = 4000, 500, 1
TIME_LIMIT = 120
TROUBLE = 2
LAST = 2 ** 64 - 1

NUMBERS = ["done", "unsound", "no such thing", "false configuration", "busy", "idle", "off the bus", "reading over",
           "unheard", "wrong put", "spent", "short", "false frame", "false votes", "too many sets", "out of hearing"]
DONE, UNHEARD, SPENT, SHORT, FALSE_FRAME = map(NUMBERS.index, ["done", "unheard", "spent", "short", "false frame"])

# The calls from code 1 on, with the bytes of their arguments.
CALLS = {
    "lay": {"n": 1, "m": 1, "value": 8, "configuration": 32},
    "open read": {"item": 1},
    "open write": {"item": 1, "value": 8},
    "open change": {"item": 1, "target": 32},
    "poll": {"station": 1},
    "put": {"station": 1, "sort": 1},
    "commit": {},
    "abandon": {},
    "link": {"station": 1, "state": 1},
    "reach": {"item": 1},
    "diagnose": {},
    "plan": {"item": 1},
}
NAMES = list(CALLS)
WORDS = {"sort": {1: "data", 2: "configuration"}, "state": {0: "off", 1: "on"}}
ROUNDS = [None, "read", "write", "change"]


FRAMES = load_tool("frames")


# ---- Bytes ----

Head = collections.namedtuple("Head", "n m off kind item polled data_puts configuration_puts value target")
Copy = collections.namedtuple("Copy", "version value generation configuration")


def little(data):
    return int.from_bytes(data, "little")


def stations_of(bits):
    return [station for station in range(16) if bits >> station & 1]


def sets_of(side):
    """The sets of 16 bytes, without the unused places at the end."""
    sets = [little(side[at:at + 2]) for at in range(0, 16, 2)]
    while sets and sets[-1] == 0:
        sets.pop()
    return sets


def head_of(table):
    off, polled, data_puts, configuration_puts = (little(table[at:at + 2]) for at in (2, 6, 8, 10))
    return Head(table[0], table[1], off, table[4], table[5], polled, data_puts, configuration_puts,
                little(table[16:24]), table[24:56])


def item_bytes(table, item):
    """All copies of the item."""
    length = 56 * table[0]
    return table[56 + length * item:56 + length * (item + 1)]


@functools.lru_cache(maxsize=1000)
def copies_of(data):
    copies = [data[at:at + 56] for at in range(0, len(data), 56)]
    return [Copy(little(one[:8]), little(one[8:16]), little(one[16:24]), one[24:]) for one in copies]


# ---- What the bytes mean ----

def holds(stations, side):
    """Whether the station set holds a set of the side."""
    return any(one and one & ~stations == 0 for one in sets_of(side))


def newest(copies, stations, counter):
    """The station of the set that has the highest counter; of equal ones the lowest."""
    return max(stations_of(stations), key=lambda station: (getattr(copies[station], counter), -station))


def found_sides(copies, stations):
    """The read side and the write side of the configuration that the stations give."""
    found = copies[newest(copies, stations, "generation")].configuration
    return found[:16], found[16:]


def heard(copies, stations):
    return stations != 0 and holds(stations, found_sides(copies, stations)[0])


def reach_of(copies, on):
    if not heard(copies, on):
        return 0
    return 3 if holds(on, found_sides(copies, on)[1]) else 1


def plan_of(copies, on):
    """Polls and puts in rising number of the stations on the bus; None if no polls are heard."""
    rising = stations_of(on)
    starts = [sum(1 << station for station in rising[:count]) for count in range(1, len(rising) + 1)]
    for polls, polled in enumerate(starts, 1):
        if heard(copies, polled):
            _, write = found_sides(copies, polled)
            enough = [puts for puts, stations in enumerate(starts, 1) if holds(stations, write)]
            return {"polls": polls, "puts": enough[0] if enough else 0}
    return None


def read_place(copies, polled):
    if not heard(copies, polled):
        return None
    return [one & ~polled for one in sets_of(found_sides(copies, polled)[0])].index(0)


def commit_number(head, copies):
    """What commit would get: the lowest number that applies."""
    if not heard(copies, head.polled):
        return UNHEARD
    _, write = found_sides(copies, head.polled)
    kind, short = ROUNDS[head.kind], False
    if kind == "write":
        raised = copies[newest(copies, head.polled, "version")].version
        short = not holds(head.data_puts, write)
    elif kind == "change":
        raised = copies[newest(copies, head.polled, "generation")].generation
        short = not (holds(head.data_puts, head.target[16:]) and holds(head.configuration_puts, write))
    if kind != "read" and raised == LAST:
        return SPENT
    return SHORT if short else DONE


# ---- The objects of a trace ----

def configuration_object(data):
    return {"read": [f"{one:04X}" for one in sets_of(data[:16])], "write": [f"{one:04X}" for one in sets_of(data[16:])]}


def found_object(copies, polled):
    if polled == 0:
        return None
    data, other = newest(copies, polled, "version"), newest(copies, polled, "generation")
    return {"version": str(copies[data].version), "value": str(copies[data].value), "version_station": data,
            "generation": str(copies[other].generation), "generation_station": other,
            "configuration": configuration_object(copies[other].configuration)}


def round_object(head, copies):
    kind = ROUNDS[head.kind]
    if kind is None:
        return None
    return {"kind": kind, "item": head.item, "value": str(head.value) if kind == "write" else None,
            "target": configuration_object(head.target) if kind == "change" else None,
            "polled": stations_of(head.polled), "data_puts": stations_of(head.data_puts),
            "configuration_puts": stations_of(head.configuration_puts), "found": found_object(copies, head.polled),
            "read_place": read_place(copies, head.polled), "commit": commit_number(head, copies)}


@functools.lru_cache(maxsize=1000)
def item_object(data, on):
    copies = copies_of(data)
    configurations = list(dict.fromkeys(copy.configuration for copy in copies))
    version, generation = max(copy.version for copy in copies), max(copy.generation for copy in copies)
    return {"reach": reach_of(copies, on), "plan": plan_of(copies, on),
            "configurations": [configuration_object(one) for one in configurations],
            "copies": [{"version": str(copy.version), "value": str(copy.value), "generation": str(copy.generation),
                        "configuration": configurations.index(copy.configuration),
                        "stale_data": copy.version < version, "stale_configuration": copy.generation < generation}
                       for copy in copies]}


def table_object(table):
    if not table:
        return None
    head = head_of(table)
    on = (1 << head.n) - 1 & ~head.off
    return {"n": head.n, "m": head.m, "on": stations_of(on), "off": stations_of(head.off),
            "round": round_object(head, copies_of(item_bytes(table, head.item))),
            "items": [item_object(item_bytes(table, item), on) for item in range(head.m)]}


def argument_object(name, data):
    if len(data) == 32:
        return configuration_object(data)
    return str(little(data)) if len(data) == 8 else WORDS.get(name, {}).get(data[0], data[0])


def call_object(line):
    """The call of a line, or None if it is no frame."""
    frame = bytes.fromhex(line.decode()) if len(line) % 2 == 0 and re.fullmatch(rb"[0-9A-F]+", line) else b"\0"
    name = NAMES[frame[0] - 1] if 1 <= frame[0] <= len(NAMES) else ""
    widths = CALLS.get(name, {})
    if not name or len(frame) != 1 + sum(widths.values()):
        return None
    call, at = {"code": f"{frame[0]:02X}", "name": name}, 1
    for argument, width in widths.items():
        call[argument] = argument_object(argument, frame[at:at + width])
        at += width
    return call


def reply_object(reply):
    """The text is what tools/frames has behind the call's name."""
    return {"number": reply[1], "word": NUMBERS[reply[1]],
            "figures": [str(little(reply[at:at + 8])) for at in (2, 10, 18)],
            "text": FRAMES.decode(reply.hex().upper()).split(": ", 1)[1]}


# A line, and what the reference had to say to it: the bytes of its reply, and of the table then.
Answer = collections.namedtuple("Answer", "line reply table")


def line_object(at, answer):
    """All of a line but its advice."""
    call = call_object(answer.line)
    frame = answer.line.decode() if call else None
    return {"at": at, "frame": frame, "call": call, "words": FRAMES.decode(frame) if call else "false frame",
            "reply": reply_object(answer.reply), "advice": None, "table": table_object(answer.table)}


def is_advised(line):
    """Whether the line's object has to have an advice."""
    diagnosed = line["call"] is not None and line["call"]["name"] == "diagnose" and line["reply"]["figures"][0] != "0"
    return line["reply"]["number"] != DONE or diagnosed


def difference(got, wanted, where):
    """Where two objects first differ, in words; nothing if they have the same keys, in the same order, and values."""
    if isinstance(got, dict) and isinstance(wanted, dict) and list(got) == list(wanted):
        pairs = [(f"{where}, {key}", got[key], wanted[key]) for key in wanted]
    elif isinstance(got, list) and isinstance(wanted, list) and len(got) == len(wanted):
        pairs = [(f"{where} {at}", one, other) for at, (one, other) in enumerate(zip(got, wanted))]
    else:
        same = type(got) is type(wanted) and got == wanted and not isinstance(got, dict)
        return "" if same else f"{where}: got {got!r:.500}, wanted {wanted!r:.500}"
    return next(filter(None, (difference(one, other, name) for name, one, other in pairs)), "")


# ---- Programs ----

def run(command, data=b""):
    return subprocess.run(command, input=data, capture_output=True, timeout=TIME_LIMIT, check=False)


def trace(data, *arguments):
    return run([OSPREYSCREEN, "trace", *arguments], data)


def joined(lines):
    return b"".join(line + b"\n" for line in lines)


def answers_to(data):
    """The reference's. Only byte 0A ends a line, and a last one without it counts."""
    result = run([REF_RUNNER, "--tables"], data)
    assert result.returncode == 0, result.stderr
    said = [line.split(b" ") for line in result.stdout.splitlines()]
    return [Answer(line, bytes.fromhex(reply.decode()), bytes.fromhex(table.decode()))
            for line, (reply, table) in zip(data.removesuffix(b"\n").split(b"\n") if data else [], said, strict=True)]


# ---- Lines of frames ----

def configuration(words):
    """The 32 bytes of "read 3 5 write 7"."""
    sides = [[int(word, 16) for word in side.split()] for side in words.removeprefix("read").split("write")]
    return b"".join(one.to_bytes(2, "little") for side in sides for one in side + [0] * (8 - len(side)))


def argument_bytes(kind, width, words):
    """The bytes of an argument, whose words are taken away."""
    if width == 32:
        return configuration(" ".join(words))
    word = words.pop(0)
    numbers = {text: str(number) for number, text in WORDS.get(kind, {}).items()}
    return int(numbers.get(word, word)).to_bytes(width, "little")


def frame(words):
    """The line of a call in words."""
    name = next(name for name in NAMES if words.startswith(name))
    left = words.removeprefix(name).split()
    data = b"".join(argument_bytes(kind, width, left) for kind, width in CALLS[name].items())
    return (bytes([NAMES.index(name) + 1]) + data).hex().upper().encode()


def script(text):
    """The lines of calls, with a comma or a line end between two."""
    return [frame(words.strip()) for words in re.split("[,\n]", text) if words.strip()]


PAIRS = "read 3 5 6 write 3 5 6"
LAY = frame(f"lay 3 1 500 {PAIRS}")

# The numbers that a call can be refused with by frames. A lay's 1 needs another length, and 10 a counter at its end.
REFUSALS = {
    "lay": {2, 3}, "open read": {1, 2, 4}, "open write": {1, 2, 4}, "open change": {1, 2, 3, 4},
    "poll": {1, 2, 5, 6, 7}, "put": {1, 2, 5, 6, 8, 9}, "commit": {1, 5, 8, 11}, "abandon": {1, 5}, "link": {1, 2},
    "reach": {1, 2}, "diagnose": {1, 5}, "plan": {1, 2, 15},
}

# Configurations that are false for three stations.
FALSE_ONES = ["read write 1", "read 1 write", "read write", "read 3 0 5 write 3", "read 3 write 3 0 5",
              "read 0 3 write 3", "read 8 write 8", "read 7 write F",
              "read FFFF FFFF FFFF FFFF FFFF FFFF FFFF FFFF write 1", "read 1 write 2", "read 3 5 write 5 2"]

NO_TABLE = """
open read 0, open write 0 7, open change 0 read 1 write 1, poll 0, put 0 data, commit, abandon, link 0 on, reach 0
diagnose, plan 0
"""

# Every call refused by each of its numbers.
REFUSED = script(f"""
{NO_TABLE}
lay 0 1 1 {PAIRS}, lay 17 1 1 {PAIRS}, lay 3 0 1 {PAIRS}, lay 3 33 1 {PAIRS}, lay 255 255 1 {PAIRS}, lay 0 0 1 {PAIRS}
{", ".join(f"lay 3 1 1 {one}" for one in FALSE_ONES)}
{NO_TABLE}
lay 3 2 500 {PAIRS}
open read 2, open write 2 1, open change 255 {PAIRS}, reach 2, plan 2, link 3 on, link 0 2, link 0 255
{", ".join(f"open change 0 {one}" for one in FALSE_ONES)}
poll 0, poll 3, poll 255, put 0 data, put 3 data, put 0 0, put 0 3, put 0 255, commit, abandon, diagnose
reach 0, plan 0

open write 1 {LAST}, open read 0, open write 0 1, open change 0 {PAIRS}, poll 0, put 0 data, put 0 configuration, commit
diagnose, link 2 on, poll 2, put 2 data, commit, diagnose, plan 1, link 1 on, poll 1, put 1 configuration, commit
put 1 data, poll 2, poll 0, commit, diagnose, link 1 off, commit, put 2 data, put 1 data, commit, link 1 on
put 1 data, diagnose, commit

open read 1, poll 0, poll 1, poll 2, put 1 data, put 1 configuration, abandon

link 0 on, open change 0 read 1 write 1, poll 0, diagnose, poll 1, put 0 configuration, put 1 configuration, commit
diagnose, link 0 off, link 0 on, put 0 data, commit, diagnose, put 0 configuration, commit, plan 0, link 0 off, plan 0

open write 1 3, lay 3 1 1 {FALSE_ONES[0]}, lay 0 1 1 {PAIRS}, diagnose, lay 3 1 500 {PAIRS}, diagnose
""")

# A house moves from 0 and 1 to reading at 2 and writing at 2 and 3: stale data, stale configurations, and both.
MOVED = script("""
lay 4 2 500 read 3 write 3, link 0 on, link 1 on, link 2 on, link 3 on
open change 1 read 4 write C, poll 0, poll 1, put 2 data, put 3 data, put 0 configuration, put 1 configuration
diagnose, commit
open write 1 510, poll 0, poll 2, put 2 data, diagnose, put 3 data, commit
plan 1, link 3 off, plan 1, reach 1, link 0 off, link 1 off, reach 1
open read 1, poll 2, poll 3, diagnose, link 0 on, poll 0, diagnose, commit
""")

SIZES = [(1, 1), (16, 32), (2, 5), (3, 1), (16, 1), (1, 32), (9, 4)]


def size_script(n, m):
    """A lay of that size with sets twice and in the wrong order; a write, a change and a read of its last item."""
    end, item, last, every = n - 1, m - 1, f"{1 << n - 1:X}", f"{(1 << n) - 1:X}"
    return script(f"""
    lay {n} {m} {LAST - n} read {every} {last} {last} write {last} {every} {last}, plan 0, open write {item} {LAST}
    {", ".join(f"link {station} on" for station in range(n))}
    poll {end}, put {end} data, commit, plan {item}
    open change {item} read 1 {every} write {every} 1 1, {", ".join(f"poll {station}" for station in range(n))}
    put 0 data, put {end} configuration, diagnose, commit, reach {item}, plan {item}, link {end} off, plan {item}
    link 0 off, link {end} on, reach {item}
    open read {item}, poll {end}, diagnose, link 0 on, poll 0, diagnose, commit
    """)


EVERY_SIZE = [line for size in SIZES for line in size_script(*size)]

# What the tables of these scripts have to show, so that nothing goes untried.
SHOWN = {
    "kind": {"read", "write", "change"}, "found": {True, False}, "read place": {None, 0, 2}, "commit": {0, 8, 11},
    "reach": {0, 1, 3}, "plan": {True, False}, "puts": {0, 1, 2, 16}, "configurations": {1, 2},
    "stale": {(False, False), (True, False), (False, True), (True, True)},
}


def shown_by(lines):
    """The same of these objects."""
    shown = collections.defaultdict(set)
    for table in (line["table"] for line in lines if line["table"]):
        if table["round"]:
            shown["kind"].add(table["round"]["kind"])
            shown["found"].add(table["round"]["found"] is not None)
            shown["read place"].add(table["round"]["read_place"])
            shown["commit"].add(table["round"]["commit"])
        for item in table["items"]:
            shown["reach"].add(item["reach"])
            shown["plan"].add(item["plan"] is not None)
            shown["puts"].add((item["plan"] or {"puts": 0})["puts"])
            shown["configurations"].add(len(item["configurations"]))
            shown["stale"].update((copy["stale_data"], copy["stale_configuration"]) for copy in item["copies"])
    return shown


def wrong_lengths():
    """Each call with a byte or a digit too many, and with one too few."""
    for code, widths in enumerate(CALLS.values(), 1):
        whole = b"%02X" % code + b"00" * sum(widths.values())
        yield from (whole + b"00", whole + b"0", whole[:-1], whole[:-2])


# Lines that are no frames.
FALSE_LINES = [
    *wrong_lengths(), b"", b"0", b"7", b"050", b"0a00", b"0A0g", b"GG", b"0x05", b" 07", b"07 ", b"05\t0", b"07\r",
    b"\r", b"00", b"0D", b"0D00", b"FF", b"F0F0", b"\0", b"07\0", b"0\x007", b"\0" * 86, b"\xff07", b"\x80\xfe",
    b"07\xc3\xa9", b"\xe2\x82\xac" * 20, b'"', b"\\", b'07"}', b"# 07", b"commit", LAY[:-1], LAY + b"0", LAY + b"\r",
    LAY.lower(), b"07" * 26, b"0" * 100000, b"07" * 50001, b"F" * 2 ** 20, b"\0" * 2 ** 20, b"\xff" * 2 ** 20,
]


# ---- Tables by hand ----

def head_bytes(n, m, kind=0, item=0, polled=0, value=0, target=bytes(32)):
    """The head of a table whose stations are all on the bus, without puts."""
    return (bytes([n, m, 0, 0, kind, item, polled, 0]) + bytes(8) + value.to_bytes(8, "little") + target)


def copy_bytes(version, value, generation, words):
    return b"".join(one.to_bytes(8, "little") for one in (version, value, generation)) + configuration(words)


def answer(words, number, figures, table):
    """What the reference would say."""
    line = frame(words)
    reply = bytes([int(line[:2], 16), number]) + b"".join(one.to_bytes(8, "little") for one in figures)
    return Answer(line, reply, table)


def spent_answers(kind, opening, put, spent, **opened):
    """A round of item 1 that finds a counter at its end, at station 1."""
    one_reads = "read 1 2 write 3"
    copies = (copy_bytes(3, 4, 5, one_reads) * 2 + copy_bytes(0, 0, 0, "read 3 write 3")
              + copy_bytes(*spent, one_reads))
    none, some = head_bytes(2, 2, kind, 1, **opened) + copies, head_bytes(2, 2, kind, 1, polled=2, **opened) + copies
    return [
        answer("reach 1", DONE, (3, 0, 0), head_bytes(2, 2) + copies),
        answer(opening, DONE, (0, 0, 0), none),
        answer("diagnose", DONE, (UNHEARD, 0, 0), none),
        answer("poll 1", DONE, (2, 0, 0), some),
        answer(put, SPENT, (0, 0, 0), some),
        answer("commit", SPENT, (0, 0, 0), some),
        answer("diagnose", DONE, (SPENT, 2, 2), some),
    ]


def older_answers():
    """A read of a table of version 0.6: sets in any order, twice, and beside sets that they contain."""
    older = "read 6 7 3 5 3 write 5 3 6"
    copies = copy_bytes(1, 510, 0, older) + copy_bytes(0, 500, 0, PAIRS) + copy_bytes(1, 510, 0, older)
    return [
        answer("plan 0", DONE, (2, 2, 0), head_bytes(3, 1) + copies),
        answer("open read 0", DONE, (0, 0, 0), head_bytes(3, 1, kind=1) + copies),
        answer("poll 1", DONE, (0, 0, 0), head_bytes(3, 1, kind=1, polled=2) + copies),
        answer("poll 2", DONE, (3, 0, 0), head_bytes(3, 1, kind=1, polled=6) + copies),
        answer("poll 0", DONE, (1, 0, 0), head_bytes(3, 1, kind=1, polled=7) + copies),
        answer("diagnose", DONE, (DONE, 1, 1), head_bytes(3, 1, kind=1, polled=7) + copies),
        answer("commit", DONE, (510, 1, 0), head_bytes(3, 1) + copies),
    ]


BY_HAND = {
    "version": spent_answers(2, "open write 1 8", "put 0 data", (LAST, LAST, 0), value=8),
    "generation": spent_answers(3, "open change 1 read 2 1 write 3 3", "put 0 configuration", (0, LAST, LAST),
                                target=configuration("read 1 2 write 3")),
    "older": older_answers(),
}


# ---- Tests ----

class Traced(unittest.TestCase):
    """What every trace is held to."""

    def lines_of(self, result):
        """The lines of a trace that went well: ASCII, each with its end."""
        self.assertEqual((result.returncode, result.stderr), (0, b""))
        lines = result.stdout.decode("ascii").split("\n")
        self.assertEqual(lines.pop(), "")
        return lines

    def hold_advice(self, line):
        advice, where = line["advice"], f"line {line['at']}, advice {line['advice']!r}"
        self.assertEqual(advice is not None, is_advised(line), where)
        if advice is not None:
            self.assertTrue(advice != "" and advice.isascii() and advice.isprintable(), where)

    def hold(self, answers, lines):
        """Holds the lines to the reference's answers, and gives the objects that they had to be."""
        wanted = [line_object(at, one) for at, one in enumerate(answers, 1)]
        for one, line in zip(wanted, lines):
            got, where = json.loads(line), f"line {one['at']}"
            one["advice"] = got.get("advice")
            if line != json.dumps(one, separators=(",", ":")):
                self.fail(difference(got, one, where) or f"{where} has these keys and values, and another text")
            self.hold_advice(got)
        self.assertEqual(len(lines), len(wanted))
        return wanted

    def hold_input(self, data):
        return self.hold(answers_to(data), self.lines_of(trace(data)))


class Lines(Traced):
    def test_random_lines(self):
        for seed in range(SEED, SEED + -(-LINES // SCRIPT_LINES)):
            with self.subTest(seed=seed):
                self.hold_input(run([RANDOM_FRAMES, "--lines", str(SCRIPT_LINES), "--seed", str(seed)]).stdout)

    def test_refusals(self):
        met = {name: set() for name in CALLS}
        for line in self.hold_input(joined(REFUSED)):
            met[line["call"]["name"]].add(line["reply"]["number"])
        self.assertEqual(met, {name: numbers | {DONE} for name, numbers in REFUSALS.items()})

    def test_several_lays(self):
        lays = [line["table"] for line in self.hold_input(joined(EVERY_SIZE)) if line["call"]["name"] == "lay"]
        self.assertEqual([(table["n"], table["m"]) for table in lays], SIZES)

    def test_what_tables_show(self):
        shown = shown_by(self.hold_input(joined([*REFUSED, *MOVED, *EVERY_SIZE])))
        self.assertEqual({key: values & shown[key] for key, values in SHOWN.items()}, SHOWN)

    def test_false_lines(self):
        """Before a lay and in a round: nothing changes."""
        for line in self.hold_input(joined(FALSE_LINES)):
            self.assertEqual((line["call"], line["reply"]["number"], line["table"]), (None, FALSE_FRAME, None))
        _, opened, *others = self.hold_input(joined([LAY, frame("open read 0"), *FALSE_LINES]))
        self.assertEqual([line["table"] for line in others], [opened["table"]] * len(FALSE_LINES))

    def test_ends_of_lines(self):
        for data in (b"", b"\n", b"07", b"07\n", b"\n\n0", b"\0", b"\n\xff", LAY, LAY + b"\n\n", LAY + b"\n07"):
            with self.subTest(data=data):
                self.hold_input(data)

    def test_bytes_of_sorts_and_states(self):
        self.hold_input(joined([LAY, *(frame(f"{call} 1 {byte}") for call in ("put", "link") for byte in range(256))]))


class Starts(Traced):
    """A trace that begins with a table."""

    def setUp(self):
        folder = tempfile.TemporaryDirectory()
        self.addCleanup(folder.cleanup)
        self.file = pathlib.Path(folder.name) / "house.table"

    def hold_start(self, table, answers):
        self.file.write_bytes(table)
        self.hold(answers, self.lines_of(trace(joined(one.line for one in answers), str(self.file))))
        self.assertEqual(self.file.read_bytes(), table)

    def test_scripts_cut_in_two(self):
        """The second part begins with the table that the first one left."""
        for lines in (REFUSED, MOVED, size_script(16, 32)):
            answers = answers_to(joined(lines))
            for cut in (len(lines) // 2, len(lines) - 9, len(lines)):
                self.hold_start(answers[cut - 1].table, answers[cut:])

    def test_tables_by_hand(self):
        """Counters at their end, which frames alone do not reach, and older spellings."""
        for name, answers in BY_HAND.items():
            with self.subTest(name):
                self.hold_start(answers[0].table, answers)

    def test_no_table(self):
        for name, data in (("missing", None), ("empty", b""), ("false", b"\x03\x01" + bytes(222))):
            with self.subTest(name):
                if data is not None:
                    self.file.write_bytes(data)
                result = trace(LAY, str(self.file))
                self.assertEqual((result.returncode, result.stdout), (TROUBLE, b""))
                self.assertRegex(result.stderr, rb"\Aospreyscreen: trace: .*house\.table: .*\n\Z")


# Runs a program and prints the most memory that it took. It is a process of its own and small, since what a process
# takes counts for those that it starts.
MEASURE = """
import resource, subprocess, sys
subprocess.run(sys.argv[1:], stdout=subprocess.DEVNULL, check=True)
print(resource.getrusage(resource.RUSAGE_CHILDREN).ru_maxrss)
"""


class Ends(Traced):
    """Input and output that fail, and how much memory is taken."""

    def in_shell(self, words, data=b""):
        """The trace with these words behind it in a shell."""
        return run(["sh", "-c", f'"$@" {words}', "sh", OSPREYSCREEN, "trace"], data)

    def hold_trouble(self, result, lines):
        """One line tells of it; so many lines were traced before."""
        self.assertEqual(result.returncode, TROUBLE)
        self.assertRegex(result.stderr, rb"\Aospreyscreen: trace: [^\n]+\n\Z")
        self.assertEqual(result.stdout.count(b"\n"), lines)

    def test_input_that_fails(self):
        for words in ("<&-", "< /"):
            with self.subTest(words):
                self.hold_trouble(self.in_shell(words), 0)

    def test_a_failed_read_drops_the_line_so_far(self):
        """As it does in the runner. The input is a terminal's master, which fails once the slave is closed."""
        for data, lines in ((b"07\n07", 1), (b"07\n07\n", 2), (b"07", 0)):
            with self.subTest(data=data):
                master, slave = pty.openpty()
                tty.setraw(slave)
                os.write(slave, data)
                os.close(slave)
                with open(master, "rb") as file:
                    self.hold_trouble(subprocess.run([OSPREYSCREEN, "trace"], stdin=file, capture_output=True,
                                                     timeout=TIME_LIMIT, check=False), lines)

    def test_output_that_fails(self):
        for words in ("> /dev/full", ">&-"):
            for data in (b"07\n", joined(MOVED * 20)):
                with self.subTest(words):
                    self.hold_trouble(self.in_shell(words, data), 0)

    def test_output_closed_early(self):
        result = self.in_shell("| head -1", joined(MOVED * 200))
        self.assertEqual((result.returncode, json.loads(result.stdout)["at"]), (0, 1))

    def peak(self, lines):
        """The most memory that the trace of the lines takes, in KiB."""
        with tempfile.TemporaryFile() as file:
            file.write(joined(lines))
            file.seek(0)
            result = subprocess.run([sys.executable, "-c", MEASURE, OSPREYSCREEN, "trace"], stdin=file,
                                    capture_output=True, timeout=TIME_LIMIT, check=True)
        return int(result.stdout)

    def test_memory(self):
        """It grows neither with the lines nor with the length of one."""
        few = self.peak(MOVED)
        self.assertLess(self.peak((MOVED * 1000)[:20000]), few + 4096)
        self.assertLess(self.peak([b"0" * 2 ** 25, *MOVED]), few + 4096)


if __name__ == "__main__":
    parser = argparse.ArgumentParser(description=__doc__, formatter_class=argparse.RawDescriptionHelpFormatter)
    parser.add_argument("programs", nargs=3)
    parser.add_argument("--lines", type=int, default=LINES)
    parser.add_argument("--seed", type=int, default=SEED)
    given = parser.parse_args()
    OSPREYSCREEN, REF_RUNNER, RANDOM_FRAMES = given.programs
    LINES, SEED = given.lines, given.seed
    unittest.main(argv=sys.argv[:1])
