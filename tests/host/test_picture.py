"""Tests of tools/picture: what it draws, what it refuses, and that no trace gets markup into a page.

usage: test_picture.py OSPREYSCREEN

OSPREYSCREEN makes the traces, of words that tools/frames encodes.
"""

import base64
import copy
import hashlib
import html.parser
import json
import os
import pathlib
import random
import re
import signal
import subprocess
import sys
import tempfile
import time
import unittest
import xml.etree.ElementTree as ElementTree

from tool_modules import load_tool

ROOT = pathlib.Path(__file__).resolve().parents[2]
TOOL, FRAMES = ROOT / "tools" / "picture", ROOT / "tools" / "frames"
OSPREYSCREEN = ""
SVG = "{http://www.w3.org/2000/svg}"
MOST_BYTES = 10 * 10**6

PAIRS = "read 0003 0005 0006 write 0003 0005 0006"
GRID = "read 000F 00F0 0F00 F000 write 1111 2222 4444 8888"

# A write through a drop that makes it short, a read, and a change at two of three stations.
SMALL = [f"lay 3 1 500 {PAIRS}", "link 0 on", "link 1 on", "link 2 on", "open write 0 510", "poll 0", "poll 1",
         "put 0 data", "put 1 data", "link 1 off", "commit", "put 2 data", "commit", "link 1 on", "open read 0",
         "poll 1", "poll 2", "commit", "open change 0 read 0001 0002 0004 write 0007", "poll 0", "poll 1",
         "put 0 data", "put 1 data", "put 2 data", "put 0 configuration", "put 1 configuration", "commit"]

# Several lays and items, false frames (as they are), all that can become of a round, refusals of many kinds.
LAST = 2**64 - 1
ODD = ["poll 0", f"lay 3 2 500 {PAIRS}", "link 0 on", "link 1 on", f"open write 1 {LAST}", "poll 0", "poll 2", "poll 7",
       "put 0 data", "poll 1", "put 0 data", "put 1 configuration", "put 1 3", "put 1 data", "link 9 on", "link 1 7",
       "commit", "open write 0 510", "poll 0", "poll 1", "put 0 data", "poll 2", "abandon", "open read 0", "poll 0",
       "lay 5 3 700 read 0003 0005 0009 000E write 0003 0005 0009 000E", "link 0 on", "link 1 on", "link 2 on",
       "reach 2", "plan 2", "open change 2 read 0001 write 0001", "poll 0", "poll 1", "put 0 data",
       "put 0 configuration", "diagnose", "commit", "put 2 configuration", "link 2 off", "link 2 on",
       "put 1 configuration", "commit", "lay 2 1 9 read 0001 write 0001", "lay 2 1 9 read 0001 write 0002",
       "link 0 on", "=zz", "=", "open write 0 10", "poll 0", "put 0 data"]

HOSTILE = ["</script><script>alert(1)</script>", "</script ", "</SCRIPT/", "<!--<script ", "<!--", "]]>",
           '"><img src=x onerror=alert(1)>', "' onclick='alert(1)", "&lt;b&gt;&amp;", "</style><b>",
           "</svg></title></text><iframe>", "\\u003cb\\u003e", "javascript:alert(1)"]


def trace(lines, first=0):
    """The trace of lines of words; behind a '=' a line stands as it is. The first ones may be left out."""
    words = [line for line in lines if not line.startswith("=")]
    encoded = subprocess.run([sys.executable, str(FRAMES), "encode"], input="\n".join(words), capture_output=True,
                             text=True, check=True).stdout.split("\n")
    frames = iter(encoded)
    text = "".join((line[1:] if line.startswith("=") else next(frames)) + "\n" for line in lines)
    told = subprocess.run([OSPREYSCREEN, "trace"], input=text.encode(), capture_output=True, check=True).stdout
    return b"".join(told.splitlines(keepends=True)[first:])


def objects(told):
    return [json.loads(line) for line in told.splitlines()]


def as_trace(lines):
    return "".join(json.dumps(line) + "\n" for line in lines).encode()


def run(*arguments, told=b"", environment=None):
    return subprocess.run([sys.executable, str(TOOL), *arguments], input=told, capture_output=True, check=False,
                          env={**os.environ, **(environment or {})})


def run_in_shell(script, *arguments, told=b""):
    """The tool in a shell's script, as "$@"."""
    return subprocess.run(["sh", "-c", script, "sh", sys.executable, str(TOOL), *arguments], input=told,
                          capture_output=True, check=False)


def house(calls, seed=1):
    """A session of sixteen stations and thirty-two items, with drops in the middle of rounds."""
    draw = random.Random(seed)
    words = [f"lay 16 32 500 {GRID}"] + [f"link {station} on" for station in range(16)]
    off = set()
    while len(words) < calls:
        item, row, column = draw.randrange(32), draw.randrange(4), draw.randrange(4)
        kind = draw.choice(["read", "write", "write", "change"])
        words.append({"read": f"open read {item}", "write": f"open write {item} {draw.getrandbits(64)}",
                      "change": f"open change {item} {GRID}"}[kind])
        words += [f"poll {4 * row + one}" for one in range(4)]
        if draw.random() < 0.5:
            station = draw.choice(sorted(off)) if len(off) > 2 else draw.randrange(16)
            words.append(f"link {station} {'on' if station in off else 'off'}")
            off ^= {station}
        if kind != "read":
            words += [f"put {4 * one + column} data" for one in range(4)]
        if kind == "change":
            words += [f"put {4 * one + column} configuration" for one in range(4)]
        words += ["diagnose", "commit", "abandon", f"plan {item}"]
    return words[:calls]


class Picture:
    """A drawing, read as XML."""

    def __init__(self, lines, *options, first=0):
        result = run("--svg", *options, told=trace(lines, first))
        if result.returncode != 0:
            raise AssertionError(result.stderr)
        self.root = ElementTree.fromstring(result.stdout)
        self.told = objects(trace(lines, first))

    def all(self, *classes):
        """The elements that have all these classes."""
        return [one for one in self.root.iter() if set(classes) <= set(one.get("class", "").split())]

    def title(self, one):
        return one.findtext(f"{SVG}title")

    def texts(self, one):
        return [text.text for text in one.iter(f"{SVG}text")]


class Usage(unittest.TestCase):
    def test_help(self):
        for option in ("--help", "-h"):
            for mode in ([], ["-OO"]):
                result = subprocess.run([sys.executable, *mode, str(TOOL), option], capture_output=True, check=False)
                self.assertEqual((result.returncode, result.stderr), (0, b""))
                self.assertIn(b"usage: picture [--item N] [TRACE.json] > page.html\n", result.stdout)

    def test_wrong_usage(self):
        wrong = [["--swg"], ["--svg=1"], ["--item"], ["--item", "x"], ["--item", "-1"], ["--item="], ["--item", "1 "],
                 ["a.json", "b.json"], ["-x"]]
        for arguments in wrong:
            with self.subTest(arguments=arguments):
                result = run(*arguments)
                self.assertEqual((result.returncode, result.stdout), (2, b""))
                self.assertRegex(result.stderr.decode(), r"\Apicture: .*\nusage: picture .*\n.*\n.*--help\n\Z")

    def test_names(self):
        """A name, a '-' and nothing give the same page; options may stand behind the name."""
        with tempfile.TemporaryDirectory() as folder:
            path = pathlib.Path(folder) / "a trace.json"
            path.write_bytes(trace(SMALL))
            pages = [run(str(path)), run("-", told=trace(SMALL)), run(told=trace(SMALL))]
            drawings = [run("--svg", str(path)), run(str(path), "--svg"), run("--svg", "--item", "0", "--", str(path))]
        for results in (pages, drawings):
            self.assertEqual({(result.returncode, result.stderr) for result in results}, {(0, b"")})
            self.assertEqual(len({result.stdout for result in results}), 1)
        self.assertTrue(pages[0].stdout.startswith(b"<!DOCTYPE html>\n"))
        self.assertTrue(drawings[0].stdout.startswith(b"<?xml "))

    def test_determinism(self):
        for option in ([], ["--svg"]):
            results = {run(*option, told=trace(ODD), environment={"PYTHONHASHSEED": seed}).stdout for seed in "012"}
            self.assertEqual(len(results), 1)


class Errors(unittest.TestCase):
    """One line on standard error, status 1, and nothing on standard output."""

    def refused(self, result, pattern):
        self.assertEqual((result.returncode, result.stdout), (1, b""))
        self.assertRegex(result.stderr.decode(), rf"\Apicture: {pattern}\n\Z")

    def test_files(self):
        with tempfile.TemporaryDirectory() as folder:
            self.refused(run(f"{folder}/none.json"), f"{folder}/none.json: No such file or directory")
            self.refused(run("--svg", folder), f"{folder}: Is a directory")
            empty = pathlib.Path(folder) / "empty.json"
            empty.write_bytes(b"")
            self.refused(run(str(empty)), f"{empty}: the trace is empty")

    def test_lines(self):
        good = trace(SMALL).splitlines(keepends=True)
        wrong = [b"{", b"", b"[]", b"1", b"null", b"{} {}", b"\xff", b"\xc3\xa4", b"[" * 100000, b"1" * 5000, b"NaN",
                 b'{"at":1}', good[2][:-2], good[2].replace(b"done", b"d\\u00e4ne"), good[2].replace(b"done", b"d\\n")]
        for text in wrong:
            with self.subTest(text=text[:40]):
                told = b"".join(good[:2]) + text.strip(b"\n") + b"\n" + b"".join(good[3:])
                self.refused(run(told=told), "standard input: line 3: .*")
        self.refused(run(told=good[0] + good[0]), "standard input: line 2: line.at is 1 after 1")
        self.refused(run(told=b"".join(good) + b"\n"), f"standard input: line {len(good) + 1}: no JSON in ASCII")

    def test_items(self):
        self.refused(run("--svg", "--item", "1", told=trace(SMALL)), "standard input: there is no item 1, .*")
        self.refused(run("--item", "999999999", told=trace(ODD)), "standard input: there is no item 999999999, .*")

    def test_full_disk(self):
        for option in ([], ["--svg"], ["--help"]):
            result = run_in_shell('"$@" > /dev/full', *option, told=trace(SMALL))
            self.refused(result, "standard output: No space left on device")
        result = run_in_shell('"$@" 2> /dev/full', told=b"")
        self.assertEqual((result.returncode, result.stdout, result.stderr), (1, b"", b""))

    def test_closed_streams(self):
        with tempfile.NamedTemporaryFile() as file:
            file.write(trace(SMALL))
            file.flush()
            self.refused(run_in_shell('"$@" >&-', file.name), "standard output: Bad file descriptor")
            self.assertEqual(run_in_shell('"$@" <&-', file.name).returncode, 0)
        self.refused(run_in_shell('"$@" <&-'), "standard input: Bad file descriptor")
        self.assertEqual(run_in_shell('"$@" 2>&-', told=b"").returncode, 1)
        self.assertEqual(run_in_shell('"$@" <&- >&- 2>&-').returncode, 1)

    def test_closed_pipe(self):
        result = run_in_shell('{ "$@"; echo $? >&2; } | true', told=trace(house(300)))
        self.assertIn(result.stderr, (b"141\n", f"{128 + signal.SIGPIPE}\n".encode()))

    def interrupted(self, action):
        """What the tool leaves if Ctrl-C comes while it reads, with what was set for Ctrl-C when it was started."""
        with subprocess.Popen([sys.executable, str(TOOL)], stdin=subprocess.PIPE, stdout=subprocess.PIPE,
                              stderr=subprocess.PIPE, preexec_fn=lambda: signal.signal(signal.SIGINT, action)) as tool:
            tool.stdin.write(trace(SMALL))
            tool.stdin.flush()
            time.sleep(0.5)
            tool.send_signal(signal.SIGINT)
            output, told = tool.communicate()
            return tool.returncode, output[:15], told

    def test_interrupt(self):
        self.assertEqual(self.interrupted(signal.SIG_DFL), (-signal.SIGINT, b"", b""))
        self.assertEqual(self.interrupted(signal.SIG_IGN), (0, b"<!DOCTYPE html>", b""))


class Shapes(unittest.TestCase):
    """Each key of a line is needed, and each value has its type."""

    WRONG = {int: ["1", 1.5, -1, 10**10, True, None, [], {}], str: [1, None, [], {}, "\u00e4", "\t"],
             bool: [0, None, "x"], list: [None, {}, "x", [None]], dict: [1, "x", [], {}]}
    NULLABLE = {"frame", "call", "advice", "table", "round", "value", "target", "found", "read_place", "plan"}

    @classmethod
    def setUpClass(cls):
        cls.tool = load_tool("picture")

    def read(self, line):
        return self.tool.read_trace([json.dumps(line).encode()])

    def assert_wrong(self, line, place):
        with self.subTest(place=place), self.assertRaises(self.tool.WrongTrace):
            self.read(line)

    def places(self, value, place=()):
        """The places of all values in a line."""
        parts = value.items() if isinstance(value, dict) else enumerate(value) if isinstance(value, list) else ()
        for key, part in parts:
            yield (*place, key)
            yield from self.places(part, (*place, key))

    def changed(self, line, place, value):
        line = copy.deepcopy(line)
        part = line
        for key in place[:-1]:
            part = part[key]
        if value is self:
            del part[place[-1]]
        else:
            part[place[-1]] = value
        return line

    def value_at(self, line, place):
        for key in place:
            line = line[key]
        return line

    def test_each_place(self):
        told = objects(trace(SMALL))
        for line in (told[10], told[22], told[4], told[0], told[1]):
            self.read(line)
            for place in self.places(line):
                value = self.value_at(line, place)
                if isinstance(place[-1], str):
                    self.assert_wrong(self.changed(line, place, self), place)
                for wrong in self.WRONG.get(type(value), []):
                    if wrong is None and place[-1] in self.NULLABLE or wrong == [] and isinstance(value, list):
                        continue
                    if place in (("call", "sort"), ("call", "state")) and wrong == 1:
                        continue
                    self.assert_wrong(self.changed(line, place, wrong), (place, wrong))

    def test_numbers_within_the_table(self):
        line = objects(trace(SMALL))[10]
        wrong = [(("at",), 0), (("call",), None), (("frame",), None), (("reply", "figures"), ["0", "0"]),
                 (("reply", "figures", 0), "01"), (("table", "n"), 4), (("table", "m"), 2), (("table", "on"), [0]),
                 (("table", "off"), [0, 1]), (("table", "round", "item"), 1), (("table", "round", "value"), None),
                 (("table", "round", "kind"), "change"), (("table", "round", "kind"), "swap"),
                 (("table", "round", "polled"), [16]), (("table", "round", "data_puts"), [3]),
                 (("table", "round", "found", "version_station"), 3), (("table", "round", "read_place"), 8),
                 (("table", "items", 0, "copies"), []), (("table", "items", 0, "copies", 0, "configuration"), 1),
                 (("table", "items", 0, "copies", 0, "version"), "1" * 21),
                 (("table", "items", 0, "configurations", 0, "read", 0), "3")]
        for place, value in wrong:
            self.assert_wrong(self.changed(line, place, value), (place, value))

    def test_more_keys(self):
        line = objects(trace(SMALL))[10]
        line["more"] = line["table"]["more"] = line["reply"]["more"] = {"any": [1]}
        line["call"]["name"] = "a later call"
        self.read(line)

    def test_a_wrong_item_behind_a_good_one(self):
        """Items that stay as they were are not checked again, others are."""
        told = objects(trace(SMALL))
        told[12]["table"]["items"][0]["copies"][2]["stale_data"] = "no"
        result = run(told=as_trace(told))
        self.assertEqual((result.returncode, result.stdout), (1, b""))
        self.assertIn(b"line 13: line.table.items[0].copies[2].stale_data is neither true nor false", result.stderr)


class Drawing(unittest.TestCase):
    @classmethod
    def setUpClass(cls):
        cls.small = Picture(SMALL)

    def test_frame(self):
        root = self.small.root
        self.assertEqual(root.tag, f"{SVG}svg")
        self.assertEqual(root.get("viewBox"), f"0 0 {root.get('width')} {root.get('height')}")
        self.assertIn("27 calls, 3 stations, 1 item, 3 rounds, 1 refusal", root.findtext(f"{SVG}title"))
        description = root.findtext(f"{SVG}desc")
        self.assertIn("Calls 5 to 13: write 510 to item 0: done, version 1.", description)
        self.assertIn("Refused: call 11, commit: refused, 11 short: the data puts 0001", description)
        background = root.find(f"{SVG}rect")
        self.assertEqual([background.get(key) for key in ("x", "y", "width", "height")],
                         ["0", "0", root.get("width"), root.get("height")])

    def test_lanes(self):
        self.assertEqual([lane.get("data-station") for lane in self.small.all("lane")], ["0", "1", "2"])
        names = [text.text for text in self.small.root.iter(f"{SVG}text") if text.get("class") == "name"]
        self.assertEqual(names, ["station 0", "station 1", "station 2"])

    def test_rounds(self):
        rounds = self.small.all("round")
        self.assertEqual([self.small.title(one) for one in rounds], [
            "write 510 to item 0: done, version 1", "read item 0: 510", "change of item 0: done, generation 1"])
        self.assertEqual([one.get("data-outcome") for one in rounds], ["done"] * 3)
        # From the column of the opening to that of the commit, across all lanes.
        column = load_tool("picture").COLUMN
        bands = [one.find(f"{SVG}rect[@class='band']") for one in rounds]
        self.assertEqual([int(band.get("width")) // column for band in bands], [9, 4, 9])

    def test_polls_and_puts(self):
        polls = [(one.get("data-at"), one.get("data-station"), "heard" in one.get("class"))
                 for one in self.small.all("poll") if one.get("data-at")]
        self.assertEqual(polls, [("6", "0", False), ("7", "1", True), ("16", "1", False), ("17", "2", True),
                                 ("20", "0", False), ("21", "1", True)])
        puts = [(one.get("data-at"), one.get("class")) for one in self.small.all("put") if one.get("data-at")]
        self.assertEqual(puts, [("8", "put data"), ("9", "put data"), ("12", "put data"), ("22", "put data"),
                                ("23", "put data"), ("24", "put data"), ("25", "put configuration"),
                                ("26", "put configuration")])

    def test_how_puts_end(self):
        ends = {}
        for stand in self.small.all("stand"):
            end = stand.find(f"{SVG}g")
            if stand.get("data-station"):
                ends.setdefault(end.get("class"), []).append((stand.get("data-station"), stand.get("class")))
        self.assertEqual(ends["end taken-back"], [("1", "stand data")])
        self.assertEqual(ends["end written"], [("0", "stand data"), ("2", "stand data"), ("0", "stand configuration"),
                                               ("0", "stand data"), ("1", "stand configuration"), ("1", "stand data"),
                                               ("2", "stand data")])

    def test_refusals(self):
        refusals = [one for one in self.small.all("refusal") if one.get("data-at")]
        self.assertEqual([(one.get("data-at"), one.get("data-number")) for one in refusals], [("11", "11")])
        self.assertEqual(self.small.texts(refusals[0]), ["11"])
        self.assertIn("commit \u2715 11 short", ["".join(text.itertext()) for text in self.small.all("words")][10])

    def test_off_times(self):
        """The hatched fields: from the lay to the links, and the drop of station 1."""
        tool = load_tool("picture")
        columns = []
        for one in self.small.all("off")[:-1]:  # the last is the legend's
            x, width = (int(one.find(f"{SVG}rect").get(key)) for key in ("x", "width"))
            columns.append((one.get("data-station"), (x - tool.GUTTER) // tool.COLUMN + 1, width // tool.COLUMN))
        self.assertEqual(columns, [("0", 1, 1), ("1", 1, 2), ("1", 10, 4), ("2", 1, 3)])

    def test_copies(self):
        """The bars: versions and generations where they change, stale ones by their class and word."""
        bars = [(one.get("class"), self.small.title(one)) for one in self.small.all("bar")]
        bars = bars[:-3]  # the legend's
        data = [(kind.split()[2], title) for kind, title in bars if "data" in kind]
        self.assertEqual(data, [("newest", "v0 \u00b7 500"), ("newest", "v1 \u00b7 510"), ("newest", "v0 \u00b7 500"),
                                ("stale", "v0 stale \u00b7 500"), ("newest", "v1 \u00b7 510"),
                                ("newest", "v0 \u00b7 500"), ("newest", "v1 \u00b7 510")])
        configurations = [(kind.split()[2], title) for kind, title in bars if "configuration" in kind]
        self.assertEqual(configurations, [("newest", "g0"), ("newest", "g1"), ("newest", "g0"), ("newest", "g1"),
                                          ("newest", "g0"), ("stale", "g0 stale")])

    def test_legend(self):
        """The marks that occur, and no others."""
        texts = [text.text for text in self.small.root.iter(f"{SVG}text")]
        self.assertIn("put taken back: station dropped", texts)
        for words in ("round on another item", "line that is no frame", "poll refused, put refused"):
            self.assertNotIn(words, texts)
        texts = [text.text for text in Picture(ODD).root.iter(f"{SVG}text")]
        for words in ("round on another item", "line that is no frame", "poll refused, put refused"):
            self.assertIn(words, texts)


class OddSessions(unittest.TestCase):
    def test_rounds(self):
        odd = Picture(ODD)
        rounds = [(odd.title(one), one.get("data-outcome"), one.get("data-item"), "other" in one.get("class").split())
                  for one in odd.all("round")]
        self.assertEqual(rounds, [
            (f"write {LAST} to item 1: done, version 1", "done", "1", False),
            ("write 510 to item 0: abandoned", "abandoned", "0", True),
            ("read item 0: cut off by a lay", "cut off", "0", True),
            ("change of item 2: done, generation 1", "done", "2", True),
            ("write 10 to item 0: open at the end", "open", "0", True)])

    def test_lanes_and_lays(self):
        odd = Picture(ODD)
        self.assertEqual({lane.get("data-station") for lane in odd.all("lane")}, set("01234"))
        self.assertEqual(len(odd.all("lay")), 3 + 1)  # and the legend's
        absent = {lane.get("data-station"): len([one for one in lane if one.get("class") == "absent"])
                  for lane in odd.all("lane")[:5]}
        self.assertGreater(absent["4"], 0)

    def test_refusals(self):
        odd = Picture(ODD)
        refused = [(str(line["at"]), str(line["reply"]["number"])) for line in odd.told if line["reply"]["number"]]
        marks = [(one.get("data-at"), one.get("data-number")) for one in odd.all("refusal") if one.get("data-at")]
        self.assertEqual(marks, refused)
        self.assertEqual([one.get("data-at") for one in odd.all("false-frame")], ["47", "48"])
        self.assertEqual(len(odd.all("no-frame")), 2 + 1)

    def test_refused_polls_and_puts(self):
        """A call at a station that no lane is for has its cross on the axis alone."""
        odd = Picture(ODD)
        refused = [(one.get("data-at"), one.get("class")) for one in odd.all("refused") if one.get("data-at")]
        self.assertEqual(refused, [("1", "poll refused"), ("7", "poll refused"), ("9", "put data refused"),
                                   ("12", "put configuration refused"), ("13", "put unknown refused"),
                                   ("22", "poll refused other")])

    def test_items(self):
        for item, versions in (("0", {"v0 \u00b7 500", "v0 \u00b7 700", "v0 \u00b7 9"}),
                               ("1", {"v0 \u00b7 500", f"v1 \u00b7 {LAST}", "v0 stale \u00b7 500", "v0 \u00b7 700"}),
                               ("2", {"v0 \u00b7 700"})):
            odd = Picture(ODD, "--item", item)
            bars = [odd.title(one) for one in odd.all("bar", "data")]
            legend = {"v1", "v0"}
            self.assertEqual(set(bars) - legend, versions)
            own = [one for one in odd.all("round") if one not in odd.all("other")]
            self.assertEqual({one.get("data-item") for one in own}, {item})

    def test_a_trace_that_begins_in_a_round(self):
        """As a trace from a saved table does, or the end of a trace."""
        cut = Picture(SMALL, first=8)
        rounds = [(cut.title(one), one.get("data-outcome")) for one in cut.all("round")]
        self.assertEqual(rounds[0], ("write 510 to item 0: done, version 1", "done"))
        self.assertEqual(len(rounds), 3)
        self.assertEqual(len(cut.all("taken-back")), 1 + 1)
        numbers = [text.text for text in cut.root.iter(f"{SVG}text") if text.get("class") == "small"]
        self.assertIn("9", numbers)
        self.assertNotIn("8", numbers)
        cut = Picture(SMALL, first=12)
        self.assertEqual([cut.title(one) for one in cut.all("round")][0], "round from before: done, version 1")

    def test_no_table_at_all(self):
        nothing = Picture(["poll 0", "=", "commit"])
        self.assertEqual(len(nothing.all("lane")), 1)
        self.assertEqual(len(nothing.all("refusal")), 3 + 1)
        self.assertEqual(len(nothing.all("round")), 0)
        self.assertEqual(run(told=trace(["=x"])).returncode, 0)

    def test_long_sessions(self):
        """Strips one below the other; each round begins once."""
        long = Picture(SMALL * 5)
        self.assertGreater(len(long.all("strip")), 3)
        self.assertEqual(len(long.all("round")), 15)
        self.assertEqual(len(long.all("lane")), 3 * len(long.all("strip")))
        self.assertEqual(len({one.get("data-round") for one in long.all("round")}), 15)


class Tags(html.parser.HTMLParser):
    """The elements of a page, the texts of its scripts and styles, and all other text."""

    def __init__(self, text):
        super().__init__(convert_charrefs=True)
        self.tags, self.attributes, self.raw, self.text, self.inside = [], [], [], [], None
        self.feed(text)
        self.close()

    def handle_starttag(self, tag, attrs):
        self.tags.append(tag)
        self.attributes += attrs
        self.inside = tag

    def handle_endtag(self, tag):
        self.inside = None

    def handle_data(self, data):
        (self.raw if self.inside in ("script", "style") else self.text).append(data)

    def handle_comment(self, data):
        self.tags.append("comment")


class Injection(unittest.TestCase):
    """Whatever the texts of a trace are, they stay texts."""

    PLACES = [("words",), ("advice",), ("frame",), ("reply", "text"), ("reply", "word"), ("call", "code"),
              ("call", "name"), ("call", "sort"), ("call", "state")]

    def hostile(self, text):
        told = objects(trace(SMALL))
        for line in told:
            for *path, key in self.PLACES:
                part = line[path[0]] if path else line
                if key in part and (key != "name" or line["at"] == 4):
                    part[key] = text
        return as_trace(told)

    def test_page(self):
        plain = Tags(run(told=trace(SMALL)).stdout.decode())
        names = {name for name, _ in plain.attributes}
        for text in HOSTILE:
            with self.subTest(text=text):
                result = run(told=self.hostile(text))
                self.assertEqual((result.returncode, result.stderr), (0, b""))
                page = Tags(result.stdout.decode())
                self.assertEqual(page.tags.count("script"), 2)
                self.assertLessEqual(set(page.tags), set(plain.tags))
                self.assertLessEqual({name for name, _ in page.attributes}, names)
                self.assertIn(text, "".join(page.text))
                told = json.loads(self.data(result.stdout.decode()))
                self.assertEqual([call["words"] for call in told["calls"]], [text] * len(SMALL))

    def data(self, page):
        """What the script is told, as it stands in the page. A browser ends a script at less than html.parser does,
        so no character of it may begin or end markup."""
        begin = page.index(">", page.index('<script id="session"')) + 1
        data = page[begin:page.index("</script>", begin)]
        self.assertNotRegex(data, "[<>&]")
        return data

    def test_elements(self):
        """Text in an attribute, though no text of a trace goes there now."""
        tool = load_tool("picture")
        self.assertEqual(tool.element("a", class_="\"<>&'"), '<a class="&quot;&lt;&gt;&amp;&#x27;"/>')
        self.assertEqual(tool.writing(1, 2, "\"<>&'"), '<text x="1" y="2">&quot;&lt;&gt;&amp;&#x27;</text>')

    def test_drawing(self):
        plain = ElementTree.fromstring(run("--svg", told=trace(SMALL)).stdout)
        tags = {one.tag for one in plain.iter()}
        for text in HOSTILE:
            with self.subTest(text=text):
                root = ElementTree.fromstring(run("--svg", told=self.hostile(text)).stdout)
                self.assertLessEqual({one.tag for one in root.iter()}, tags)
                self.assertIn(text, root.findtext(f"{SVG}desc"))

    def test_policy(self):
        """Nothing but the page's own style and script may be used."""
        page = Tags(run(told=trace(SMALL)).stdout.decode())
        attributes = dict(pair for pair in page.attributes if pair[0] == "content" and "default-src" in pair[1])
        hashes = [base64.b64encode(hashlib.sha256(text.encode()).digest()).decode() for text in page.raw]
        style, _, script = hashes
        self.assertEqual(attributes["content"], f"default-src 'none'; style-src 'sha256-{style}'; "
                         f"script-src 'sha256-{script}'; base-uri 'none'; form-action 'none'")
        self.assertFalse({name for name, _ in page.attributes} & {"src", "style", "srcset", "action", "onclick"})

    def test_no_references(self):
        for option in ([], ["--svg"]):
            text = run(*option, told=trace(ODD)).stdout.decode()
            self.assertEqual(set(re.findall(r"[a-z]+://[^\"' ]*", text)),
                             {"http://www.w3.org/2000/svg"} if option else set())
            self.assertNotRegex(text, r"url\(|@import|@font-face")
            self.assertEqual([one for one in re.findall(r'href="([^"]*)"', text) if not one.startswith("#bar-")], [])


class States(unittest.TestCase):
    """What the page's script is told: the table after each call, as differences."""

    def merged(self, old, change):
        if change is None or isinstance(change, list):
            return old if change is None else change[0]
        now = dict(old)
        for key, value in change.items():
            now[key] = self.merged(old[key], value) if isinstance(value, dict) else value
        return now

    def assert_told(self, told, state, table):
        texts = told["texts"]
        self.assertEqual((state["n"], state["m"], state["on"]), (table["n"], table["m"], table["on"]))
        self.assertEqual(len(state["items"]), table["m"])
        for number, item in enumerate(table["items"]):
            shown = state["items"][str(number)]
            self.assertEqual(texts[shown["reach"]].split()[0], str(item["reach"]))
            plan = item["plan"]
            self.assertEqual(re.findall("[0-9]+", texts[shown["plan"]]),
                             [str(one) for one in plan.values() if one] if plan else [])
            copies = [[one["value"], one["version"], one["generation"], int(one["stale_data"]),
                       int(one["stale_configuration"])] for one in item["copies"]]
            self.assertEqual([shown["copies"][str(station)] for station in range(table["n"])], copies)
            self.assertEqual(len(shown["configurations"]), len(item["configurations"]))
        self.assertEqual(state["round"] is None, table["round"] is None)
        if table["round"]:
            rows = {texts[word]: texts[text] for word, text in state["round"]}
            self.assertEqual(rows["commit would get"].split()[0], str(table["round"]["commit"]))
            self.assertEqual(rows["heard"] == "not heard", table["round"]["read_place"] is None)
            polled = ", ".join(map(str, table["round"]["polled"]))
            self.assertEqual(rows["polled"].split(" (")[0], polled or "none")

    def test_differences(self):
        for words in (SMALL, ODD, house(400), house(400, 2) + SMALL + house(100, 3)):
            lines = trace(words)
            told = json.loads(Tags(run(told=lines).stdout.decode()).raw[-2])
            self.assertEqual(len(told["calls"]), len(words))
            state = None
            for call, line in zip(told["calls"], objects(lines)):
                state = self.merged(state, call["change"])
                self.assertEqual((call["at"], call["words"], call["reply"], call["advice"]),
                                 (line["at"], line["words"], line["reply"]["text"], line["advice"]))
                self.assertEqual(call["refused"], line["reply"]["number"] != 0)
                if line["table"] is None:
                    self.assertIsNone(state)
                else:
                    self.assert_told(told, state, line["table"])

    def test_bars_of_every_item(self):
        """The drawing of an item's copies that the script may choose is the one that --item draws."""
        page = run(told=trace(ODD)).stdout.decode()
        told = json.loads(Tags(page).raw[-2])
        shapes = dict(re.findall(r'<g id="bar-([0-9]+)">(.*?)</g>(?=<g id="bar-|</defs>)', page))
        for item in range(3):
            drawing = run("--svg", "--item", str(item), told=trace(ODD)).stdout.decode()
            drawn = [shapes[str(number)] for strip in told["bars"][item] for number in strip]
            self.assertEqual([one for one in drawn if one and one not in drawing], [])
            strips = [one for one in ElementTree.fromstring(drawing).iter() if one.get("class") == "strip"]
            bars = [one for strip in strips for one in strip.iter() if one.get("class", "").startswith("bar ")]
            self.assertEqual(sum(one.count('class="bar') for one in drawn), len(bars))


class BigSession(unittest.TestCase):
    def test_size(self):
        lines = trace(house(2000))
        self.assertEqual(len(lines.splitlines()), 2000)
        for option in ([], ["--svg"]):
            result = run(*option, told=lines)
            self.assertEqual((result.returncode, result.stderr), (0, b""))
            self.assertLess(len(result.stdout), MOST_BYTES)
        root = ElementTree.fromstring(result.stdout)
        lanes = {one.get("data-station") for one in root.iter() if one.get("class") == "lane"}
        self.assertEqual(len(lanes), 16)


if __name__ == "__main__":
    if len(sys.argv) != 2:
        sys.exit(__doc__.strip())
    OSPREYSCREEN = str(pathlib.Path(sys.argv[1]).resolve())
    unittest.main(argv=sys.argv[:1])
