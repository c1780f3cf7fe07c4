"""Tests of the program's commands: help, votes, form, show, and how every command ends.

usage: test_commands.py OSPREYSCREEN RUNNER

OSPREYSCREEN is the program. RUNNER is the frame runner, which is given the words
that votes prints. The tables that show is given are saved by the console, or
written here as docs/FORMAT.md has their bytes.
"""

import itertools
import pathlib
import re
import subprocess
import sys
import tempfile
import unittest

from test_votes_example import sets_in

ROOT = pathlib.Path(__file__).resolve().parents[2]
FRAMES = [sys.executable, str(ROOT / "tools" / "frames")]
OSPREYSCREEN, RUNNER = "", ""
COMMANDS = ["console", "show", "votes", "form", "trace"]
DONE, NO, TROUBLE = 0, 1, 2
TIME_LIMIT = 60
LAST = 2 ** 64 - 1
LONG = 100000


def run(*words, text=""):
    return subprocess.run([OSPREYSCREEN, *words], input=text, capture_output=True, text=True, timeout=TIME_LIMIT,
                          check=False)


class Program(unittest.TestCase):
    """What every command is held to."""

    def printed(self, *words, text="", status=DONE):
        """The lines that it prints, with nothing on standard error."""
        result = run(*words, text=text)
        self.assertEqual((result.returncode, result.stderr), (status, ""))
        self.assertTrue(result.stdout == "" or result.stdout.endswith("\n"))
        return result.stdout.splitlines()

    def told(self, *words, status=TROUBLE):
        """The lines on standard error of a command that prints nothing else."""
        result = run(*words)
        self.assertEqual((result.returncode, result.stdout), (status, ""))
        self.assertTrue(result.stderr.endswith("\n"))
        return result.stderr.splitlines()

    def hold_wrong(self, command, *words, said=""):
        """Wrong words: two lines, what is wrong and the usage."""
        what, usage = self.told(command, *words)
        self.assertTrue(what.startswith(f"ospreyscreen: {command}: "), what)
        self.assertTrue(usage.startswith(f"usage: ospreyscreen {command} "), usage)
        self.assertIn(said, what)
        self.assertLess(len(what), 300)


# ---- The program ----

class Main(Program):
    def test_help(self):
        for word in ("--help", "-h"):
            lines = self.printed(word)
            for command in COMMANDS:
                usages = [line for line in lines if line.startswith(f"  ospreyscreen {command} ")]
                self.assertEqual(len(usages), 1, command)
            self.assertTrue(all(len(line) <= 120 for line in lines))

    def test_version(self):
        header = (ROOT / "include" / "ospreyscreen.h").read_text()
        version = re.findall(r"^#define OSPREYSCREEN_VERSION_(?:MAJOR|MINOR|PATCH) (\d+)$", header, re.MULTILINE)
        self.assertEqual(self.printed("--version"), ["ospreyscreen " + ".".join(version)])

    def test_help_of_a_command(self):
        usages = {line.strip() for line in self.printed("--help")}
        for command in COMMANDS:
            for word in ("--help", "-h"):
                usage, about = self.printed(command, word)
                self.assertIn(usage.removeprefix("usage: "), usages)
                self.assertIn(about, usages)

    def test_no_command(self):
        usage, = self.told()
        self.assertTrue(usage.startswith("usage: ospreyscreen "), usage)
        for command in COMMANDS:
            self.assertIn(command, usage)

    def test_unknown_commands(self):
        usage, = self.told()
        for word in ("shows", "Show", "sho", "", "-", "--", "--Help", "--votes", "helps", "version", "x" * 1000):
            with self.subTest(word):
                self.assertEqual(self.told(word), [f"ospreyscreen: no command '{word}'", usage])

    def test_wrong_numbers_of_words(self):
        for words in ("console a b", "show", "show a b c", "trace a b", "votes", "form"):
            with self.subTest(words):
                self.hold_wrong(*words.split())


# ---- Votes ----

# What is printed for one sheet.
HOUSE_OF_FIVE = """\
5 stations, 6 votes
a read needs 3 votes: one of these sets of stations
  0003  0, 1: 3 votes
  0005  0, 2: 3 votes
  0009  0, 3: 3 votes
  000E  1, 2, 3: 3 votes
  0011  0, 4: 3 votes
  0016  1, 2, 4: 3 votes
  001A  1, 3, 4: 3 votes
  001C  2, 3, 4: 3 votes
a write needs 4 votes: one of these sets of stations
  0007  0, 1, 2: 4 votes
  000B  0, 1, 3: 4 votes
  000D  0, 2, 3: 4 votes
  0013  0, 1, 4: 4 votes
  0015  0, 2, 4: 4 votes
  0019  0, 3, 4: 4 votes
  001E  1, 2, 3, 4: 4 votes
the configuration, 32 bytes
0300050009000E00110016001A001C0007000B000D001300150019001E000000
to change item 0 of a table to these sets, type in the console
open change 0 read 0003 0005 0009 000E 0011 0016 001A 001C write 0007 000B 000D 0013 0015 0019 001E
to lay a new table of one item at 0 with them, and to link each station once it is wired
lay 5 1 0 read 0003 0005 0009 000E 0011 0016 001A 001C write 0007 000B 000D 0013 0015 0019 001E
link 0 on
link 1 on
link 2 on
link 3 on
link 4 on
"""

# The same sheet in other words.
SAME_HOUSE = [
    ("2", "1", "1", "1", "1", "read", "3", "write", "4"),
    ("2", "1", "1", "1", "1", "READ", "3", "Write", "4"),
    ("2 1 1 1 1", "read", "3", "write", "4"),
    ("2 1 1 1 1 read 3 write 4",),
    ("  2\t1 1", "1 1 rEaD", "3 WRITE\n", " 4 "),
    ("02", "001", "1", "1", "0" * 30 + "1", "read", "0003", "write", "4"),
]

# Sheets that are done, and the read and write sets: stations and votes.
DONE_SHEETS = {
    "1 read 1 write 1": (["0: 1 vote"], ["0: 1 vote"]),
    "1 1 1 read 2 write 2": (["0, 1: 2 votes", "0, 2: 2 votes", "1, 2: 2 votes"],) * 2,
    "2 1 1 read 2 write 3": (["0: 2 votes", "1, 2: 2 votes"], ["0, 1: 3 votes", "0, 2: 3 votes"]),
    " 1\t0 3  read  2 write 3 ": (["2: 3 votes"], ["2: 3 votes"]),
    "0 " * 15 + "255 read 1 write 255": (["15: 255 votes"],) * 2,
    "255 " * 8 + "read 2040 write 1":
        (["0, 1, 2, 3, 4, 5, 6, 7: 2040 votes"], [f"{station}: 255 votes" for station in range(8)]),
    f"007 1 read {8:030} write 1": (["0, 1: 8 votes"], ["0: 7 votes", "1: 1 vote"]),
}

# Sheets that are refused, and what is said of them.
TOGETHER = "; together they have to need more than all 3 votes"
MANY = "14 too many sets: more than 8 smallest sets have the "
MEND = "; give some stations more votes, or none"
REFUSED_SHEETS = {
    "1 1 1 read 1 write 1": "13 false votes: a read needs 1 and a write 1" + TOGETHER,
    "1 1 1 read 2 write 1": "13 false votes: a read needs 2 and a write 1" + TOGETHER,
    "1 read 0 write 1": "13 false votes: a read has to need a vote at least",
    "1 1 read 2 write 0": "13 false votes: a write has to need a vote at least",
    "1 read 70000 write 1": "13 false votes: a read needs 70000, of 1 vote in all",
    f"1 1 read 1 write {LAST}": f"13 false votes: a write needs {LAST}, of 2 votes in all",
    f"1 1 read {LAST} write {LAST}": f"13 false votes: a read needs {LAST}, of 2 votes in all",
    "0 0 read 1 write 1": "13 false votes: no station has a vote",
    "0" * 100 + " read 1 write 1": "13 false votes: no station has a vote",
    "1 " * 17 + "read 9 write 9": "13 false votes: 17 stations, and there may be 16",
    "1 " * 36 + "read 9 write 9": "13 false votes: 36 stations, and there may be 16",
    "1 " * 9 + "read 1 write 9": MANY + "1 vote that a read needs" + MEND,
    "1 " * 9 + "read 9 write 8": MANY + "8 votes that a write needs" + MEND,
    "1 " * 9 + "read 5 write 6": MANY + "5 votes that a read needs,"
                                 " and more than 8 smallest sets have the 6 votes that a write needs" + MEND,
    "255 " * 16 + "read 4080 write 1": MANY + "1 vote that a write needs" + MEND,
}

# Words that are no sheet, and a part of what is said of them.
NO_SHEETS = {
    (): "the votes are missing",
    ("", " "): "the votes are missing",
    ("read", "1", "write", "1"): "the votes are missing",
    ("1", "1"): "'read'",
    ("1", "1", "read"): "'read'",
    ("1", "1", "read", "2"): "'write'",
    ("1", "1", "read", "2", "write"): "'write'",
    ("1", "1", "write", "2", "read", "2"): "'write' stands where 'read' is needed",
    ("1", "read", "1", "write", "2", "2"): "'2' is left over",
    ("1", "read", "1", "write", "1", "read", "1"): "'read' is left over",
    ("1 x", "read", "1", "write", "1"): "'x' is no number",
    ("1,1", "read", "1", "write", "1"): "'1,1' is no number",
    ("-1", "read", "1", "write", "1"): "'-1' is no number",
    ("+1", "read", "1", "write", "1"): "'+1' is no number",
    ("0x1", "read", "1", "write", "1"): "'0x1' is no number",
    ("1\x1b[2J", "read", "1", "write", "1"): "'1?[2j' is no number",
    ("\xe9", "read", "1", "write", "1"): "' is no number",
    ("1", "256", "read", "1", "write", "1"): "'256' is above 255",
    ("9" * 100, "read", "1", "write", "1"): "is above 255",
    ("1 " * 37, "read", "1", "write", "1"): "stations",
    ("1 " * 65, "read", "1", "write", "1"): "stations",
    ("1", "read", "", "write", "1"): "'write' is no number",
    ("1", "read", "1.5", "write", "1"): "'1.5' is no number",
    ("1", "read", "1 1", "write", "1"): "'write'",
    ("1", "read", "1", "write", "18446744073709551616"): "'18446744073709551616' is above 18446744073709551615",
    ("1", "read", "1", "write", "one"): "'one' is no number",
    ("1",) * LONG: "",
    ("1 " * (LONG // 2),): "",
    ("1" * LONG, "read", "1", "write", "1"): "",
    ("x" * 1000, "read", "1", "write", "1"): "is no number",
    ("1", "read", "9" * 1000, "write", "1"): "is above 18446744073709551615",
}


def output_of(command, text):
    return subprocess.run(command, input=text, capture_output=True, text=True, timeout=TIME_LIMIT, check=True).stdout


def replies_to(lines):
    """The words of the runner's replies to calls in words."""
    frames = output_of([*FRAMES, "encode"], "".join(line + "\n" for line in lines))
    return output_of([*FRAMES, "decode"], output_of([RUNNER], frames)).splitlines()


class Votes(Program):
    def test_one_house(self):
        for words in SAME_HOUSE:
            with self.subTest(words):
                self.assertEqual(self.printed("votes", *words), HOUSE_OF_FIVE.splitlines())

    def test_done(self):
        """The words that are printed lay such a house, in the runner: it can be read and written."""
        for words, sets in DONE_SHEETS.items():
            with self.subTest(words):
                lines = self.printed("votes", *words.split(" "))
                n = len(words.split("read")[0].split())
                self.assertEqual(sets_in(lines), sets)
                digits, _, change, _, lay, *links = lines[-5 - n:]
                self.assertEqual(output_of([*FRAMES, "encode"], change), f"0400{digits}\n")
                self.assertEqual(output_of([*FRAMES, "encode"], lay)[-65:], digits + "\n")
                self.assertEqual(replies_to([lay, *links, "reach 0"]),
                                 ["lay: done", *["link: done"] * n, "reach: done, 3 read and write"])

    def test_refusals(self):
        for words, said in REFUSED_SHEETS.items():
            with self.subTest(words):
                self.assertEqual(self.told("votes", *words.split(), status=NO),
                                 [f"ospreyscreen: votes: refused, {said}"])

    def test_no_sheets(self):
        for words, said in NO_SHEETS.items():
            with self.subTest(words=" ".join(words)[:80]):
                self.hold_wrong("votes", *words, said=said)


# ---- Standard forms ----

def digits(*sides):
    """A configuration of these read sets and write sets, as digits."""
    return "".join("".join(f"{one & 255:02X}{one >> 8:02X}" for one in side) + "0000" * (8 - len(side))
                   for side in sides)


PAIRS = digits([3, 5, 6], [3, 5, 6])
SHUFFLED = digits([6, 7, 3, 5, 3], [5, 3, 6])
HIGHEST = digits([0x8000, 0xFFFF], [0x8001, 0x8000])

# One sheet, and what is printed for it.
ONE_SHEET = [
    (("3", SHUFFLED), ["SHEET: read 0006 0007 0003 0005 0003 write 0005 0003 0006",
                       "  standard form: read 0003 0005 0006 write 0003 0005 0006", PAIRS]),
    (("16", HIGHEST), ["SHEET: read 8000 FFFF write 8001 8000", "  standard form: read 8000 write 8000",
                       digits([0x8000], [0x8000])]),
    (("01", "read 1 write 1"), ["SHEET: read 0001 write 0001", "  standard form: read 0001 write 0001",
                                digits([1], [1])]),
]

# Two sheets for one house, and its standard form.
ONE_HOUSE = {
    ("3", PAIRS, PAIRS): PAIRS,
    ("3", PAIRS, SHUFFLED): PAIRS,
    ("16", SHUFFLED, PAIRS): PAIRS,
    ("16", HIGHEST, digits([0x8000], [0x8000] * 8)): digits([0x8000], [0x8000]),
    ("3", PAIRS, "read 0003 0005 0006 write 0003 0005 0006"): PAIRS,
    ("3", "READ 3 5 6 Write 6 5 3 3 7", SHUFFLED): PAIRS,
    ("3", " read\t0003 05 006  write 000003 5 6 ", PAIRS.lower()): PAIRS,
    ("16", "read abcd write ABCD", digits([0xABCD], [0xABCD]).lower()): digits([0xABCD], [0xABCD]),
}

# Two sheets for two houses, and what passes by one alone.
TWO_HOUSES = {
    ("3", PAIRS, digits([3, 5], [3, 5, 6])): ["0006 (1, 2) reads by SHEET alone"],
    ("3", digits([1], [1]), digits([3], [1])): ["0001 (0) reads by SHEET alone"],
    ("3", digits([3], [1]), digits([1], [3])): ["0001 (0) writes by SHEET alone", "0001 (0) reads by OTHER alone"],
    ("3", "read 3 write 1", "read 1 write 3"): ["0001 (0) writes by SHEET alone", "0001 (0) reads by OTHER alone"],
}

# Sheets that are refused, and what is said of them.
NO_STATIONS = "refused, 2 no such thing: N is 1 to 16"
FALSE = "refused, 3 false configuration: "
REFUSED_FORMS = {
    ("2", PAIRS, PAIRS): f"SHEET: {FALSE}the read set 0005 names a station above 1, the last",
    ("3", PAIRS, digits([3, 0, 5], [3])): f"OTHER: {FALSE}an unused place stands before the last read set",
    ("3", digits([3], [3, 0, 5])): f"SHEET: {FALSE}an unused place stands before the last write set",
    ("3", digits([0, 3], [3])): f"SHEET: {FALSE}an unused place stands before the last read set",
    ("3", digits([], [3])): f"SHEET: {FALSE}the read side has no set",
    ("3", PAIRS, digits([3], [])): f"OTHER: {FALSE}the write side has no set",
    ("3", "read write"): f"SHEET: {FALSE}the read side has no set",
    ("3", "read 0 write 1"): f"SHEET: {FALSE}the read side has no set",
    ("3", digits([3, 8], [3])): f"SHEET: {FALSE}the read set 0008 names a station above 2, the last",
    ("15", digits([1], [0xFFFF])): f"SHEET: {FALSE}the write set FFFF names a station above 14, the last",
    ("16", digits([1, 2], [3, 1])): f"SHEET: {FALSE}the read set 0002 (1) and the write set 0001 (0) share no station",
    ("3", PAIRS, "read 1 write 2"): f"OTHER: {FALSE}the read set 0001 (0) and the write set 0002 (1) share no station",
    ("0", PAIRS, PAIRS): NO_STATIONS,
    ("17", PAIRS, PAIRS): NO_STATIONS,
    ("17", PAIRS): NO_STATIONS,
    (str(LAST), PAIRS, PAIRS): NO_STATIONS,
    ("0", "read write"): NO_STATIONS,
}

# Words that are none, and a part of what is said of them.
NO_CONFIGURATION = "a configuration is 'read' and its sets, then 'write' and its sets, or 64 digits"
NO_FORMS = {
    (): "N and one or two configurations are needed",
    ("3",): "N and one or two configurations are needed",
    ("3", PAIRS, PAIRS, PAIRS): "N and one or two configurations are needed",
    ("3", *"read 0003 write 0003".split()): "N and one or two configurations are needed",
    ("", PAIRS, PAIRS): "'' is no number",
    ("-1", PAIRS, PAIRS): "'-1' is no number",
    ("3.0", PAIRS): "'3.0' is no number",
    ("18446744073709551616", PAIRS, PAIRS): "'18446744073709551616' is above 18446744073709551615",
    ("3", PAIRS[1:], PAIRS): f"SHEET: {NO_CONFIGURATION}",
    ("3", PAIRS, PAIRS + "0"): f"OTHER: {NO_CONFIGURATION}",
    ("3", PAIRS, ""): f"OTHER: {NO_CONFIGURATION}",
    ("3", " ", PAIRS): f"SHEET: {NO_CONFIGURATION}",
    ("3", f"{PAIRS} {PAIRS}"): f"SHEET: {NO_CONFIGURATION}",
    ("3", PAIRS, "x" + PAIRS[1:]): "OTHER: a configuration of 64 digits has 0 to 9 and A to F alone",
    ("3", "read 0003"): f"SHEET: {NO_CONFIGURATION}",
    ("3", "write 0003 read 0003"): f"SHEET: {NO_CONFIGURATION}",
    ("3", "read 0003 write 0003 read"): "SHEET: 'read' is no set",
    ("3", "read 0003 write write 0003"): "SHEET: 'write' is no set",
    ("3", PAIRS, "read 0x03 write 0003"): "OTHER: '0x03' is no set",
    ("3", "read 0,1 write 0003"): "SHEET: '0,1' is no set",
    ("3", "read 10000 write 0003"): "SHEET: a set has four digits",
    ("3", "read" + " 1" * 9 + " write 1"): "SHEET: there are more than 8 sets on the read side",
    ("3", "read 1 write" + " 1" * 9): "SHEET: there are more than 8 sets on the write side",
    ("3", "0" * LONG): "SHEET: ",
    ("3", "read " + "1 " * 100): "SHEET: ",
    ("3", "read " + "F" * 200 + " write 1"): "SHEET: ",
}


class Form(Program):
    def test_one_sheet(self):
        for words, lines in ONE_SHEET:
            with self.subTest(words):
                *sheet, form = lines
                self.assertEqual(self.printed("form", *words), [*sheet, "its standard form, 32 bytes", form])

    def test_one_house(self):
        for words, form in ONE_HOUSE.items():
            with self.subTest(words):
                lines = self.printed("form", *words)
                self.assertEqual(lines[-2:], ["one house; its standard form, 32 bytes", form])
                self.assertEqual(lines[1], lines[3])

    def test_two_houses(self):
        for words, alone in TWO_HOUSES.items():
            with self.subTest(words):
                lines = self.printed("form", *words, status=NO)
                self.assertEqual([line.strip() for line in lines[lines.index("two houses") + 1:]], alone)

    def test_refusals(self):
        for words, said in REFUSED_FORMS.items():
            with self.subTest(words):
                self.assertEqual(self.told("form", *words), [f"ospreyscreen: form: {said}"])

    def test_wrong_words(self):
        for words, said in NO_FORMS.items():
            with self.subTest(words=" ".join(words)[:80]):
                self.hold_wrong("form", *words, said=said)


# ---- Tables in words ----

def configuration(words):
    """The bytes of "read 0003 write 0003"."""
    sides = [[int(word, 16) for word in side.split()] for side in words.removeprefix("read").split("write")]
    return b"".join(one.to_bytes(2, "little") for side in sides for one in side + [0] * (8 - len(side)))


def head(n, m, off=0, kind=0, item=0, polled=0, data_puts=0, configuration_puts=0, value=0, target="read write"):
    sets = [one.to_bytes(2, "little") for one in (polled, data_puts, configuration_puts)]
    return (bytes([n, m]) + off.to_bytes(2, "little") + bytes([kind, item]) + b"".join(sets) + bytes(4)
            + value.to_bytes(8, "little") + configuration(target))


def copy(version, value, generation, words):
    return b"".join(one.to_bytes(8, "little") for one in (version, value, generation)) + configuration(words)


def dump():
    """The table of docs/FORMAT.md."""
    block, = re.findall(r"^```dump\n(.*?)^```$", (ROOT / "docs" / "FORMAT.md").read_text(), re.MULTILINE | re.DOTALL)
    return bytes.fromhex("".join(line[6:29] for line in block.splitlines()))


READ, WRITE, CHANGE = 1, 2, 3
PAIR_WORDS = "read 0003 0005 0006 write 0003 0005 0006"
LAID = f"lay 3 1 500 {PAIR_WORDS}\n"
LINKED = LAID + "link 0 on\nlink 1 on\nlink 2 on\n"
WRITTEN = LINKED + "open write 0 510\npoll 0\npoll 1\nput 0 data\nput 1 data\ncommit\n"
MOVED = """\
lay 4 2 500 read 0003 write 0003
link 0 on
link 1 on
link 2 on
link 3 on
open change 1 read 0004 write 000C
poll 0
poll 1
put 2 data
put 3 data
put 0 configuration
put 1 configuration
"""
MOVED_AND_WRITTEN = MOVED + "commit\nopen write 1 510\npoll 2\npoll 1\nput 2 data\nput 3 data\ncommit\n"



def found_sets(*lines):
    """Lines below what an open round has found."""
    return [" " * 21 + line for line in lines]


# Calls of the console, and the whole text of the table that it saves.
WHOLE = {
    LAID: """\
3 stations, 1 item
  on the bus         none
  off the bus        0, 1, 2 (0007)
no round is open
item 0: reach 0 nothing; a new round is out of hearing
  station  bus  version  generation  value
        0  off        0           0    500
        1  off        0           0    500
        2  off        0           0    500
  configuration at 0, 1, 2
    read 0003 0005 0006
    write 0003 0005 0006
""",
    WRITTEN + "open read 0\n": """\
3 stations, 1 item
  on the bus         0, 1, 2 (0007)
  off the bus        none
round: read of item 0
  polled             none
  found              nothing yet
  not heard
  commit would get   8 unheard
item 0: reach 3 read and write; in rising number a new round is heard after 2 polls, write set held by 2 puts
  station  bus  version  generation  value
        0  on         1           0    510
        1  on         1           0    510
        2  on         0           0    500  stale data
  configuration at 0, 1, 2
    read 0003 0005 0006
    write 0003 0005 0006
""",
    MOVED + "link 3 off\n": """\
4 stations, 2 items
  on the bus         0, 1, 2 (0007)
  off the bus        3 (0008)
round: change of item 1
  target             read 0004
                     write 000C
  polled             0, 1 (0003)
  data puts          2 (0004)
  configuration puts 0, 1 (0003)
  found              version 0, value 500, from station 0
                     generation 0, from station 0
                     read 0003
                     write 0003
  heard              by read place 0, the set 0003
  commit would get   11 short
item 0: reach 3 read and write; in rising number a new round is heard after 2 polls, write set held by 2 puts
  station  bus  version  generation  value
        0  on         0           0    500
        1  on         0           0    500
        2  on         0           0    500
        3  off        0           0    500
  configuration at 0, 1, 2, 3
    read 0003
    write 0003
item 1: reach 3 read and write; in rising number a new round is heard after 2 polls, write set held by 2 puts
  station  bus  version  generation  value
        0  on         0           0    500
        1  on         0           0    500
        2  on         0           0    500
        3  off        0           0    500
  configuration at 0, 1, 2, 3
    read 0003
    write 0003
""",
}

# What docs/FORMAT.md says of its dump.
DUMP_TEXT = """\
3 stations, 1 item
  on the bus         0, 1 (0003)
  off the bus        2 (0004)
round: write of item 0, value 520
  polled             0, 1 (0003)
  data puts          0 (0001)
  found              version 1, value 510, from station 0
                     generation 0, from station 0
                     read 0003 0005 0006
                     write 0003 0005 0006
  heard              by read place 0, the set 0003
  commit would get   11 short
item 0: reach 3 read and write; in rising number a new round is heard after 2 polls, write set held by 2 puts
  station  bus  version  generation  value
        0  on         1           0    510
        1  on         1           0    510
        2  off        0           0    500  stale data
  configuration at 0, 1, 2
    read 0003 0005 0006
    write 0003 0005 0006
"""

# Calls of the console, and lines of the text of the table that it saves.
SAVED = {
    WRITTEN + "open write 0 520\npoll 2\n": [
        "round: write of item 0, value 520", "  polled             2 (0004)", "  data puts          none",
        "  found              version 0, value 500, from station 2", "  not heard", "  commit would get   8 unheard"],
    WRITTEN + "open write 0 520\npoll 2\npoll 1\nlink 1 off\nput 0 data\nput 2 data\n": [
        "  on the bus         0, 2 (0005)", "  off the bus        1 (0002)", "  polled             1, 2 (0006)",
        "  data puts          0, 2 (0005)", "  found              version 1, value 510, from station 1",
        "  heard              by read place 2, the set 0006", "  commit would get   0 done",
        "        1  off        1           0    510"],
    WRITTEN + "open read 0\npoll 0\npoll 2\n": [
        "round: read of item 0", "  heard              by read place 1, the set 0005", "  commit would get   0 done"],
    WRITTEN + "link 0 off\nlink 1 off\n": ["item 0: reach 0 nothing; a new round is out of hearing"],
    MOVED_AND_WRITTEN: [
        "no round is open", "    read 0003", "    write 0003",
        "item 1: reach 3 read and write; in rising number a new round is heard after 3 polls, write set held by 4 puts",
        "        0  on         0           1    500  stale data",
        "        2  on         1           0    510  stale configuration",
        "  configuration at 0, 1", "    read 0004", "    write 000C", "  configuration at 2, 3", "    read 0003",
        "    write 0003"],
    MOVED_AND_WRITTEN + "open read 1\npoll 0\npoll 2\n": [
        "  polled             0, 2 (0005)", "  found              version 1, value 510, from station 2",
        *found_sets("generation 1, from station 0", "read 0004", "write 000C")],
    MOVED + "commit\nlink 3 off\nopen read 1\npoll 2\npoll 1\n": [
        "  found              version 0, value 500, from station 1",
        *found_sets("generation 1, from station 1", "read 0004", "write 000C"),
        "  heard              by read place 0, the set 0004",
        "item 1: reach 1 read; in rising number a new round is heard after 3 polls, no write set on the bus"],
    "lay 1 1 7 read 0001 write 0001\nlink 0 on\n": [
        "1 station, 1 item", "  on the bus         0 (0001)",
        "item 0: reach 3 read and write; in rising number a new round is heard after 1 poll, write set held by 1 put",
        "        0  on         0           0      7", "  configuration at 0", "    read 0001", "    write 0001"],
}

# Tables by hand, and lines of their text.
OLDER = "read 0006 0007 0003 0005 0003 write 0005 0003 0006"
EIGHT = "read 0001 0002 0004 0008 0010 0020 0040 8000 write FFFF"
FIRST = "read 0001 write 0001"
BY_HAND = {
    "highest numbers": (
        head(2, 1, kind=WRITE, polled=3, value=LAST) + copy(LAST, LAST, LAST, FIRST) + copy(0, 0, 0, FIRST),
        [f"round: write of item 0, value {LAST}", f"  found              version {LAST}, value {LAST}, from station 0",
         *found_sets(f"generation {LAST}, from station 0", "read 0001", "write 0001"),
         "  heard              by read place 0, the set 0001", "  commit would get   10 spent"]),
    "older spellings": (
        head(3, 1, off=2, kind=READ, polled=7) + copy(5, 1, 2, OLDER) + copy(5, 1, 1, PAIR_WORDS)
        + copy(4, 2, 2, OLDER),
        [*found_sets("generation 2, from station 0", "read 0006 0007 0003 0005 0003", "write 0005 0003 0006"),
         "  heard              by read place 0, the set 0006",
         "        0  on         5           2      1",
         "        1  off        5           1      1  stale configuration",
         "        2  on         4           2      2  stale data",
         "  configuration at 0, 2", "    read 0006 0007 0003 0005 0003", "    write 0005 0003 0006",
         "  configuration at 1", "    read 0003 0005 0006", "    write 0003 0005 0006"]),
    "both stale": (
        head(2, 1) + copy(1, 1, 1, FIRST) + copy(0, 0, 0, FIRST),
        ["        0  on         1           1      1",
         "        1  on         0           0      0  stale data and configuration"]),
    "all off in a round": (
        head(2, 1, off=3, kind=CHANGE, polled=1, target="read 0002 write 0002") + 2 * copy(0, 0, 0, FIRST),
        ["  on the bus         none", "  off the bus        0, 1 (0003)",
         "round: change of item 0", "  target             read 0002", "                     write 0002",
         "  polled             0 (0001)", "    off by now       0 (0001)",
         "  data puts          none", "  configuration puts none", "  heard              by read place 0, the set 0001",
         "  commit would get   11 short", "item 0: reach 0 nothing; a new round is out of hearing"]),
    "last read place": (
        head(16, 1, kind=READ, polled=0x8000) + 16 * copy(0, 0, 0, EIGHT),
        ["  polled             15 (8000)", "  found              version 0, value 0, from station 15",
         "  heard              by read place 7, the set 8000",
         "  configuration at 0, 1, 2, 3, 4, 5, 6, 7, 8, 9, 10, 11, 12, 13, 14, 15",
         "    read 0001 0002 0004 0008 0010 0020 0040 8000", "    write FFFF"]),
}
SMALLEST = head(1, 1) + copy(0, 0, 0, FIRST)
LARGEST = head(16, 32) + b"".join(copy(number, 10 * number, 0, "read FFFF write FFFF") for number in range(512))


def changed(at, *data):
    """The dump with other bytes there."""
    table = bytearray(dump())
    table[at:at + len(data)] = bytes(data)
    return bytes(table)


# Bytes that are no table, and what is told of them.
NO_TABLES = {
    "empty": (b"", "0 bytes"),
    "one byte": (b"\x03", "1 bytes"),
    "shorter than a head": (dump()[:55], "55 bytes"),
    "a head": (dump()[:56], "56 bytes"),
    "too short": (dump()[:-1], "223 bytes"),
    "a byte too many": (dump() + b"\0", "225 bytes"),
    "longer than any": (LARGEST + b"\0", "longer than any table"),
    "much longer": (bytes(10 ** 6), "longer than any table"),
    "text": (b"lay 3 1 500 read 0003 0005 0006 write 0003 0005 0006\n" * 3, "no table"),
    "no station": (changed(0, 0), "no table"),
    "17 stations": (head(17, 1) + 17 * copy(0, 0, 0, FIRST), "no table"),
    "32 stations": (changed(0, 32), "no table"),
    "255 stations": (changed(0, 255, 255), "no table"),
    "no item": (changed(1, 0), "no table"),
    "33 items": (head(1, 33) + 33 * copy(0, 0, 0, FIRST), "no table"),
    "another n": (changed(0, 2), "not sound"),
    "off set": (changed(2, 8), "not sound"),
    "round": (changed(4, 4), "not sound"),
    "item": (changed(5, 1), "not sound"),
    "polled set": (changed(7, 1), "not sound"),
    "a put off the bus": (changed(8, 4), "not sound"),
    "a configuration put in a write": (changed(10, 1), "not sound"),
    "zeros": (changed(12, 1), "not sound"),
    "a target in a write": (changed(24, 1), "not sound"),
    "a value without a round": (SMALLEST[:16] + b"\1" + SMALLEST[17:], "not sound"),
    "no read set": (changed(0x50, *bytes(6)), "not sound"),
    "a gap": (changed(0x60 + 2, 0, 0), "not sound"),
    "a set of station 3": (changed(0xD0, 11), "not sound"),
    "sets that do not meet": (changed(0x50, 1, 0, 2, 0, 4, 0), "not sound"),
}

NO_ITEMS = {"1": "1", "2": "2", "255": "255", "18446744073709551616": "18446744073709551616", "x": "'x' is no number",
            "-1": "'-1' is no number", "": "'' is no number", "0x0": "'0x0' is no number", "0 0": "'0 0' is no number",
            "9" * 1000: "999"}


class Show(Program):
    def setUp(self):
        folder = tempfile.TemporaryDirectory()
        self.addCleanup(folder.cleanup)
        self.folder = pathlib.Path(folder.name)
        self.file = self.folder / "house.table"

    def save(self, calls):
        """Has the console make the calls and save the table."""
        self.file.unlink(missing_ok=True)
        last = self.printed("console", text=f"{calls}save {self.file}\n")[-1]
        self.assertEqual(last, f"saved in {self.file}, {self.file.stat().st_size} bytes")

    def shown(self, *item):
        return self.printed("show", str(self.file), *item)

    def hold_lines(self, wanted):
        """They are there, in this order."""
        lines = self.shown()
        self.assertEqual([line for line in lines if line in wanted], wanted)

    def test_whole_texts(self):
        for calls, text in WHOLE.items():
            with self.subTest(calls):
                self.save(calls)
                self.assertEqual(self.shown(), text.splitlines())

    def test_dump_of_the_documents(self):
        self.file.write_bytes(dump())
        self.assertEqual(self.shown(), DUMP_TEXT.splitlines())

    def test_saved_tables(self):
        for calls, lines in SAVED.items():
            with self.subTest(calls):
                self.save(calls)
                self.hold_lines(lines)

    def test_tables_by_hand(self):
        for name, (table, lines) in BY_HAND.items():
            with self.subTest(name):
                self.file.write_bytes(table)
                self.hold_lines(lines)

    def test_as_the_console_shows_it(self):
        for table in (dump(), LARGEST, *(table for table, _ in BY_HAND.values())):
            self.file.write_bytes(table)
            self.assertEqual(self.printed("console", str(self.file), text="show\n"), self.shown())
            self.assertEqual(self.printed("console", str(self.file), text="show 0\n"), self.shown("0"))
            self.assertEqual(self.file.read_bytes(), table)

    def test_largest_table(self):
        """Copies count up through it, so that the last station's are the newest of each item."""
        self.file.write_bytes(LARGEST)
        lines = self.shown()
        self.assertEqual(lines[0], "16 stations, 32 items")
        self.assertEqual([line.split(":")[0] for line in lines if line.startswith("item")],
                         [f"item {item}" for item in range(32)])
        rows = [line.split() for line in lines if re.match(r" +\d+  on ", line)]
        self.assertEqual(rows, [[str(number % 16), "on", str(number), "0", str(10 * number),
                                 *(["stale", "data"] if number % 16 < 15 else [])] for number in range(512)])

    def test_one_item(self):
        self.file.write_bytes(LARGEST)
        whole = self.shown()
        starts = [at for at, line in enumerate(whole) if line.startswith("item")] + [len(whole)]
        for item in (0, 7, 31):
            part = whole[:starts[0]] + whole[starts[item]:starts[item + 1]]
            for word in (str(item), f"00{item}"):
                self.assertEqual(self.shown(word), part)

    def test_columns(self):
        """Numbers stand below the end of their word, however long they are."""
        for version, value, generation in itertools.product((7, LAST), repeat=3):
            self.file.write_bytes(head(2, 1) + copy(version, value, generation, FIRST) + copy(1, 2, 3, FIRST))
            names, *rows = [line for line in self.shown() if re.match(r" +(station|\d+) ", line)]
            self.assertEqual([row.split()[:5] for row in rows], [["0", "on", str(version), str(generation), str(value)],
                                                                 ["1", "on", "1", "3", "2"]])
            for end in (names.index(name) + len(name) for name in ("station", "version", "generation", "value")):
                for row in rows:
                    self.assertTrue(row[end - 1].isdigit() and row[end:end + 1] in ("", " "), (names, row))

    def hold_trouble(self, *words, said):
        """One line tells of it."""
        line, = self.told("show", *words)
        self.assertTrue(line.startswith("ospreyscreen: show: "), line)
        self.assertIn(said, line)
        self.assertLess(len(line), 500)

    def test_files_that_cannot_be_read(self):
        missing = str(self.folder / "missing")
        self.hold_trouble(missing, said=f"{missing}: No such file or directory")
        self.hold_trouble(str(self.folder), said=f"{self.folder}: Is a directory")
        self.hold_trouble("", said="No such file or directory")
        self.hold_trouble("/dev/null", said="/dev/null: 0 bytes")
        self.hold_trouble("/dev/zero", said="/dev/zero: longer than any table")
        self.hold_trouble("x" * 5000, said="File name too long")

    def test_files_that_are_no_table(self):
        for name, (data, said) in NO_TABLES.items():
            with self.subTest(name):
                self.file.write_bytes(data)
                self.hold_trouble(str(self.file), said=f"{self.file}: ")
                self.hold_trouble(str(self.file), "0", said=said)

    def test_words_that_are_no_item(self):
        self.file.write_bytes(dump())
        for word, said in NO_ITEMS.items():
            with self.subTest(word=word[:40]):
                self.hold_trouble(str(self.file), word, said=said)


# ---- Output that cannot be written ----

class Output(Program):
    """Each command with a full disk behind it, and with its output closed: one line tells of it."""

    def setUp(self):
        file = tempfile.NamedTemporaryFile()
        self.addCleanup(file.close)
        file.write(LARGEST)
        file.flush()
        self.table = file.name

    def commands(self):
        return [
            ["--help"], ["--version"], ["votes", "1", "read", "1", "write", "1"], ["form", "3", PAIRS],
            ["form", "3", PAIRS, SHUFFLED], ["form", "3", PAIRS, "read 1 write 1"], ["show", self.table],
            ["show", self.table, "0"], ["trace"], ["trace", self.table], ["console"], ["console", self.table],
            *([command, "--help"] for command in COMMANDS),
        ]

    def test_output(self):
        for words in self.commands():
            for output in ("> /dev/full", ">&-"):
                with self.subTest(words=words, output=output):
                    result = subprocess.run(["sh", "-c", f'"$@" {output}', "sh", OSPREYSCREEN, *words], text=True,
                                            input="commit\n", capture_output=True, timeout=TIME_LIMIT, check=False)
                    self.assertEqual(result.returncode, TROUBLE)
                    self.assertRegex(result.stderr, r"\Aospreyscreen: [^\n]+\n\Z")


if __name__ == "__main__":
    OSPREYSCREEN, RUNNER = sys.argv[1:3]
    unittest.main(argv=sys.argv[:1])
