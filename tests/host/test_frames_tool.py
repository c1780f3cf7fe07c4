"""Tests of tools/frames: fixed words, round trips, wrong words, replies behind
their frames, and every way in which the tool ends.

usage: test_frames_tool.py PRINT_CALLS [RUNNER]

PRINT_CALLS prints the calls as the C tests have them. With the frame runner its
own replies are shown in words too.
"""

import contextlib
import errno
import os
import pathlib
import random
import signal
import subprocess
import sys
import tempfile
import threading
import unittest

from tool_modules import load_tool

TOOL = pathlib.Path(__file__).resolve().parents[2] / "tools" / "frames"
PRINT_CALLS, RUNNER = "", ""
LENGTHS = [43, 2, 10, 34, 2, 3, 1, 1, 3, 2, 1, 2]  # by code: document 01's, then document 02's
PAIRS = "030005000600" + "0" * 20

# Words and the frame that they stand for.
FRAMES = [
    ("lay 3 1 500 read 0003 0005 0006 write 0003 0005 0006",
     "010301F401000000000000" + PAIRS + PAIRS),
    ("open read 0", "0200"),
    ("open write 0 510", "0300FE01000000000000"),
    ("open write 31 18446744073709551615", "031FFFFFFFFFFFFFFFFF"),
    ("open change 0 read 0004 write 0004", "04000400" + "0" * 28 + "0400" + "0" * 28),
    ("open change 2 read 0001 0000 0002 write", "0402010000000200" + "0" * 20 + "0" * 32),
    ("poll 1", "0501"),
    ("poll 255", "05FF"),
    ("put 0 data", "060001"),
    ("put 1 configuration", "060102"),
    ("put 1 3", "060103"),
    ("commit", "07"),
    ("abandon", "08"),
    ("link 2 off", "090200"),
    ("link 2 on", "090201"),
    ("link 2 7", "090207"),
    ("reach 0", "0A00"),
    ("diagnose", "0B"),
    ("plan 0", "0C00"),
    ("plan 31", "0C1F"),
]

# Configurations as digits: words and the frame.
DIGITS = "03000500060009000A000C000000000007000B000D000E000000000000000000"
DIGIT_FRAMES = [
    (f"lay 4 1 0 {DIGITS}", "010401" + "0" * 16 + DIGITS),
    (f"open change 0 {DIGITS}", "0400" + DIGITS),
    (f"open change 0 {DIGITS.lower()}", "0400" + DIGITS),
    (f"open change 7 {'F' * 64}", "0407" + "F" * 64),
    (f"open change 7 {'0' * 64}", "0407" + "0" * 64),
]

ZEROS = "0" * 48


def figures(*numbers):
    """The digits of three figures."""
    return b"".join(number.to_bytes(8, "little") for number in numbers).hex().upper()


# Reply lines and the words that they are shown as.
REPLIES = [
    ("0100" + ZEROS, "lay: done"),
    ("0500" + ZEROS, "poll: done, not heard"),
    ("0500" + figures(1, 0, 0), "poll: done, heard, read place 0 held"),
    ("0500" + figures(8, 0, 0), "poll: done, heard, read place 7 held"),
    ("0500" + figures(9, 0, 0), "poll: done, figures 9 0 0"),
    ("0500" + figures(2, 3, 4), "poll: done, heard, read place 1 held, figures 0 3 4"),
    ("0500" + figures(0, 0, 5), "poll: done, not heard, figures 0 0 5"),
    ("0506" + ZEROS, "poll: refused, 6 off the bus"),
    ("0700FE01000000000000" + "0100000000000000" + "0" * 16,
     "commit: done, value 510, version 1, generation 0"),
    ("0700" + "F" * 48,
     "commit: done, value 18446744073709551615, version 18446744073709551615,"
     " generation 18446744073709551615"),
    ("070B" + ZEROS, "commit: refused, 11 short"),
    ("0A00" + ZEROS, "reach: done, 0 nothing"),
    ("0A0001" + ZEROS[2:], "reach: done, 1 read"),
    ("0A0003" + ZEROS[2:], "reach: done, 3 read and write"),
    ("0A0002" + ZEROS[2:], "reach: done, figures 2 0 0"),
    ("0B00" + figures(0, 1, 1), "diagnose: commit would get 0 done; version from station 0; read place 0 held"),
    ("0B00" + figures(11, 3, 2), "diagnose: commit would get 11 short; version from station 2; read place 1 held"),
    ("0B00" + figures(10, 16, 8), "diagnose: commit would get 10 spent; version from station 15; read place 7 held"),
    ("0B00" + figures(8, 3, 0), "diagnose: commit would get 8 unheard; version from station 2; no read place held"),
    ("0B00" + figures(8, 0, 0), "diagnose: commit would get 8 unheard; nothing polled; no read place held"),
    ("0B01" + ZEROS, "diagnose: refused, 1 unsound"),
    ("0B05" + ZEROS, "diagnose: refused, 5 idle"),
    ("0B0C" + ZEROS, "diagnose: refused, 12 false frame"),
    # what cannot come
    ("0B00" + figures(11, 17, 2), "diagnose: done, figures 11 17 2"),
    ("0B00" + figures(11, 3, 9), "diagnose: done, figures 11 3 9"),
    ("0B00" + figures(16, 3, 2), "diagnose: done, figures 16 3 2"),
    ("0B00" + "F" * 48, "diagnose: done, figures" + " 18446744073709551615" * 3),
    ("0B05" + figures(11, 3, 2), "diagnose: refused, 5 idle, figures 11 3 2"),
    ("0B63" + ZEROS, "diagnose: refused, 99 unknown number"),
    ("0C00" + figures(1, 1, 0), "plan: done, heard after 1 poll, write set held by 1 put"),
    ("0C00" + figures(2, 3, 0), "plan: done, heard after 2 polls, write set held by 3 puts"),
    ("0C00" + figures(16, 16, 0), "plan: done, heard after 16 polls, write set held by 16 puts"),
    ("0C00" + figures(2, 0, 0), "plan: done, heard after 2 polls, no write set on the bus"),
    ("0C01" + ZEROS, "plan: refused, 1 unsound"),
    ("0C02" + ZEROS, "plan: refused, 2 no such thing"),
    ("0C0F" + ZEROS, "plan: refused, 15 out of hearing"),
    ("0C0C" + ZEROS, "plan: refused, 12 false frame"),
    # what cannot come
    ("0C00" + ZEROS, "plan: done"),
    ("0C00" + figures(0, 2, 0), "plan: done, figures 0 2 0"),
    ("0C00" + figures(17, 2, 0), "plan: done, figures 17 2 0"),
    ("0C00" + figures(2, 17, 0), "plan: done, figures 2 17 0"),
    ("0C00" + figures(2, 2, 5), "plan: done, heard after 2 polls, write set held by 2 puts, figures 0 0 5"),
    ("0C0F" + figures(2, 2, 0), "plan: refused, 15 out of hearing, figures 2 2 0"),
    ("000C" + ZEROS, "call 00: refused, 12 false frame"),
    ("FF0C" + ZEROS, "call FF: refused, 12 false frame"),
    ("010D" + ZEROS, "lay: refused, 13 false votes"),
    ("010E" + ZEROS, "lay: refused, 14 too many sets"),
    ("010F" + ZEROS, "lay: refused, 15 out of hearing"),
    ("0110" + ZEROS, "lay: refused, 16 unknown number"),
    ("0801" + "0" * 46 + "80", "abandon: refused, 1 unsound, figures 0 0 9223372036854775808"),
]

# Words, and the runner's replies to them in words.
SESSION = [
    ("diagnose", "diagnose: refused, 1 unsound"),
    ("plan 0", "plan: refused, 1 unsound"),
    ("lay 3 1 500 read 0003 0005 0006 write 0003 0005 0006", "lay: done"),
    ("plan 0", "plan: refused, 15 out of hearing"),
    ("link 0 on", "link: done"),
    ("link 1 on", "link: done"),
    ("link 2 on", "link: done"),
    ("diagnose", "diagnose: refused, 5 idle"),
    ("plan 0", "plan: done, heard after 2 polls, write set held by 2 puts"),
    ("plan 1", "plan: refused, 2 no such thing"),
    ("open write 0 510", "open write: done"),
    ("diagnose", "diagnose: commit would get 8 unheard; nothing polled; no read place held"),
    ("poll 1", "poll: done, not heard"),
    ("diagnose", "diagnose: commit would get 8 unheard; version from station 1; no read place held"),
    ("poll 2", "poll: done, heard, read place 2 held"),
    ("put 1 data", "put: done"),
    ("put 2 data", "put: done"),
    ("diagnose", "diagnose: commit would get 0 done; version from station 1; read place 2 held"),
    ("commit", "commit: done, value 510, version 1, generation 0"),
    ("open write 0 520", "open write: done"),
    ("poll 0", "poll: done, not heard"),
    ("poll 2", "poll: done, heard, read place 1 held"),
    ("diagnose", "diagnose: commit would get 11 short; version from station 2; read place 1 held"),
]

FALSE_FRAMES = ["", "0", "07 ", "07\r", "0a00", "0700", "05", "0B00", "0C", "0C0000", "0D", "0D00", "00", "02GG", "5",
                "0" * 100, "0500" + "\0", "05 0", "0506" + ZEROS.replace("0", "g")]

WRONG_WORDS = [
    "pole 1", "open", "open shut 0", "poll", "poll 1 2", "poll 256", "poll -1", "poll x", "poll 1_0",
    "open write 0", "open write 0 18446744073709551616", "put 0", "put 0 datum", "put 0 256",
    "link 0 maybe", "commit now", "diagnose 0", "diagnose commit", "plan", "plan 0 1", "plan 256", "lay 3 1 500",
    "lay 3 1 500 read 0003", "lay 3 1 500 write 0003 read 0003", "open change 0 read 10000 write 0001",
    "open change 0 read 0x01 write 0001", "open change 0 read write write",
    "open change 0 read " + "0001 " * 9 + "write 0001",
    "open change 0", "open change 0 " + DIGITS[1:], "open change 0 " + DIGITS + "0",
    "open change 0 " + DIGITS[:-1] + "G", f"open change 0 {DIGITS} {DIGITS}", f"open change 0 read {DIGITS}",
    f"open change 0 {DIGITS[:32]} {DIGITS[32:]}", f"open change {DIGITS}", f"lay 4 1 {DIGITS}", f"poll 0 {DIGITS}",
    f"open change 0 {'_'.join((DIGITS[:31], DIGITS[32:]))}",
]

# Wrong words, and what is told of them.
BYTE = "a number from 0 to 255"
NO_CALL = ("is no call: lay, open read, open write, open change, poll, put, commit, abandon, link, reach, diagnose,"
           " plan")
NO_CONFIGURATION = "is no configuration: read and its sets, then write and its sets, or 64 hexadecimal digits"
LAY, CHANGE = "lay N M VALUE read SETS write SETS", "open change ITEM read SETS write SETS"
WRONG_TEXTS = [
    ("pole 1", f"'pole 1' {NO_CALL}"),
    ("open", f"'open' {NO_CALL}"),
    ("Open SHUT 0", f"'Open SHUT' {NO_CALL}"),
    ("openread 0", f"'openread 0' {NO_CALL}"),
    ("lay", f"lay: the n is missing: {LAY}"),
    ("lay 3", f"lay: the m is missing: {LAY}"),
    ("lay 3 1", f"lay: the value is missing: {LAY}"),
    ("lay 3 1 500", f"lay: the configuration is missing: {LAY}"),
    ("lay x 1 500", f"'x' is no n: {BYTE}"),
    ("lay 3 256 500", "'256' is above 255"),
    ("lay 3 1 read 0003 write 0003", "'read' is no value: a number from 0 to 18446744073709551615"),
    ("lay 3 1 500 read 0003", f"'read 0003' {NO_CONFIGURATION}"),
    ("lay 3 1 500 0003", f"'0003' {NO_CONFIGURATION}"),
    ("open read", "open read: the item is missing: open read ITEM"),
    ("open read -1", f"'-1' is no item: {BYTE}"),
    ("open write 0", "open write: the value is missing: open write ITEM VALUE"),
    ("open write 0 x", "'x' is no value: a number from 0 to 18446744073709551615"),
    ("open write 0 18446744073709551616", "'18446744073709551616' is above 18446744073709551615"),
    ("open write 0 1 2 3", "open write: too many words, '2 3': open write ITEM VALUE"),
    ("open change", f"open change: the item is missing: {CHANGE}"),
    ("open change 0", f"open change: the configuration is missing: {CHANGE}"),
    ("open change 0 read 10000 write", "'10000' is above FFFF"),
    ("open change 0 read 0x01 write", "'0x01' is no set: four hexadecimal digits"),
    ("open change 0 read write" + " 0001" * 9, "more than 8 sets on a side"),
    (f"open change 0 {DIGITS} {DIGITS}", f"'{DIGITS} {DIGITS}' {NO_CONFIGURATION}"),
    (f"open change 0 {DIGITS[:-1]}G", f"'{DIGITS[:-1]}G' {NO_CONFIGURATION}"),
    ("poll", "poll: the station is missing: poll STATION"),
    ("poll one", f"'one' is no station: {BYTE}"),
    ("poll 256", "'256' is above 255"),
    ("poll " + "9" * 5000, f"'{'9' * 5000}' is above 255"),
    ("poll 1 2", "poll: too many words, '2': poll STATION"),
    ("put", "put: the station is missing: put STATION data|configuration"),
    ("put 0", "put: the sort is missing: put STATION data|configuration"),
    ("put 0 datum", f"'datum' is no put sort: data, configuration, or {BYTE}"),
    ("put 0 256", "'256' is above 255"),
    ("commit now", "commit: too many words, 'now': commit"),
    ("abandon 0", "abandon: too many words, '0': abandon"),
    ("link 0", "link: the state is missing: link STATION off|on"),
    ("link 0 maybe", f"'maybe' is no link state: off, on, or {BYTE}"),
    ("LINK 0 Maybe", f"'Maybe' is no link state: off, on, or {BYTE}"),
    ("link 0 on 1", "link: too many words, '1': link STATION off|on"),
    ("reach", "reach: the item is missing: reach ITEM"),
    ("diagnose 0", "diagnose: too many words, '0': diagnose"),
    ("plan 0 1", "plan: too many words, '1': plan ITEM"),
]

# A line that the runner gets, its reply, and the words of both.
ANSWERS = [
    ("010301F401000000000000" + PAIRS + PAIRS, "0100" + ZEROS,
     "lay 3 1 500 read 0003 0005 0006 write 0003 0005 0006: done"),
    ("0300FE01000000000000", "0300" + ZEROS, "open write 0 510: done"),
    ("0501", "0500" + figures(1, 0, 0), "poll 1: done, heard, read place 0 held"),
    ("0502", "0506" + ZEROS, "poll 2: refused, 6 off the bus"),
    ("060102", "0609" + ZEROS, "put 1 configuration: refused, 9 wrong put"),
    ("07", "070B" + ZEROS, "commit: refused, 11 short"),
    ("0B", "0B00" + figures(8, 0, 0), "diagnose: commit would get 8 unheard; nothing polled; no read place held"),
    # what is no frame
    ("FF", "FF0C" + ZEROS, "call FF: refused, 12 false frame"),
    ("", "000C" + ZEROS, "call 00: refused, 12 false frame"),
    ("# 07", "000C" + ZEROS, "call 00: refused, 12 false frame"),
    ("050000", "050C" + ZEROS, "poll: refused, 12 false frame"),
    ("07\r", "070C" + ZEROS, "commit: refused, 12 false frame"),
    ("0a00", "000C" + ZEROS, "call 00: refused, 12 false frame"),
    ("090001", "0900" + ZEROS, "link 0 on: done"),
]

TIME_LIMIT = 60


def run(*arguments, text):
    return subprocess.run([sys.executable, str(TOOL), *arguments], input=text.encode("latin-1"),
                          capture_output=True, check=False, timeout=TIME_LIMIT)


def run_in_shell(script, *arguments, text=""):
    """The script, in which "$@" is the tool with the arguments."""
    return subprocess.run(["sh", "-c", script, "sh", sys.executable, str(TOOL), *arguments],
                          input=text.encode("latin-1"), capture_output=True, check=False, timeout=TIME_LIMIT)


@contextlib.contextmanager
def running(*arguments):
    """The tool with a pipe at each end, for a limited time."""
    pipe = subprocess.PIPE
    with subprocess.Popen([sys.executable, str(TOOL), *arguments], stdin=pipe, stdout=pipe, stderr=pipe) as process:
        limit = threading.Timer(TIME_LIMIT, process.kill)
        limit.start()
        try:
            yield process
        finally:
            limit.cancel()
            process.kill()


def ask(process, line):
    """The line that the running tool shows for the line."""
    process.stdin.write(line.encode("latin-1") + b"\n")
    process.stdin.flush()
    return process.stdout.readline().decode("latin-1").removesuffix("\n")


def output_lines(*arguments, lines):
    result = run(*arguments, text="".join(line + "\n" for line in lines))
    return result.stdout.decode("latin-1").splitlines(), result


class Calls(unittest.TestCase):
    """The calls of the tool, of the C tests and of document 01 are the same."""

    def rows(self):
        printed = subprocess.run([PRINT_CALLS], capture_output=True, text=True, check=True).stdout
        return [line.split("|") for line in printed.splitlines()]

    def test_codes_names_and_arguments(self):
        rows = [(int(code), name, tuple(kinds.split())) for code, name, _, kinds in self.rows()]
        self.assertEqual(rows, load_tool("frames").CALLS)

    def test_names_of_arguments(self):
        tool = load_tool("frames")
        counts = {name: len(kinds) for _, name, kinds in tool.CALLS}
        self.assertEqual({name: len(names) for name, names in tool.ARGUMENT_NAMES.items()}, counts)

    def test_lengths(self):
        self.assertEqual([int(length) for _, _, length, _ in self.rows()], LENGTHS)


class FramesTool(unittest.TestCase):
    def test_words_to_frames(self):
        got, result = output_lines("encode", lines=[words for words, _ in FRAMES])
        self.assertEqual(got, [frame for _, frame in FRAMES])
        self.assertEqual(result.returncode, 0)

    def test_digits_to_frames(self):
        got, result = output_lines("encode", lines=[words for words, _ in DIGIT_FRAMES])
        self.assertEqual(got, [frame for _, frame in DIGIT_FRAMES])
        self.assertEqual(result.returncode, 0)

    def test_digits_and_words(self):
        """A configuration is the same frame as digits and as the words that it is decoded to."""
        words, _ = output_lines("decode", lines=[frame for _, frame in DIGIT_FRAMES])
        got, _ = output_lines("encode", lines=words)
        self.assertEqual(got, [frame for _, frame in DIGIT_FRAMES])

    def test_frames_to_words(self):
        got, _ = output_lines("decode", lines=[frame for _, frame in FRAMES])
        self.assertEqual(got, [words for words, _ in FRAMES])

    def test_replies_to_words(self):
        got, _ = output_lines("decode", lines=[reply for reply, _ in REPLIES])
        self.assertEqual(got, [words for _, words in REPLIES])

    def test_session_of_the_runner(self):
        if not RUNNER:
            self.skipTest("no runner given")
        frames = run("encode", text="".join(words + "\n" for words, _ in SESSION)).stdout
        replies = subprocess.run([RUNNER], input=frames, capture_output=True, check=True).stdout
        got = run("decode", text=replies.decode("ascii")).stdout.decode("ascii").splitlines()
        self.assertEqual(got, [said for _, said in SESSION])

    def test_false_frames(self):
        got, result = output_lines("decode", lines=FALSE_FRAMES)
        self.assertEqual(got, ["false frame"] * len(FALSE_FRAMES))
        self.assertEqual(result.returncode, 0)

    def test_random_frames_there_and_back(self):
        source = random.Random(1)
        frames = []
        for _ in range(2000):
            code = source.randrange(len(LENGTHS))
            data = bytes([code + 1]) + source.randbytes(LENGTHS[code] - 1)
            frames.append(data.hex().upper())
        words, _ = output_lines("decode", lines=frames)
        self.assertNotIn("false frame", words)
        back, result = output_lines("encode", lines=words)
        self.assertEqual(back, frames)
        self.assertEqual(result.returncode, 0)

    def test_wrong_words(self):
        for words in WRONG_WORDS:
            with self.subTest(words=words):
                got, result = output_lines("encode", lines=["# a comment", "", "commit", words])
                self.assertEqual(got, ["07"])
                self.assertEqual(result.returncode, 1)
                self.assertIn(b"frames: line 4: ", result.stderr)

    def test_lines(self):
        self.assertEqual(run("decode", text="").stdout, b"")
        self.assertEqual(run("decode", text="07").stdout, b"commit\n")
        self.assertEqual(run("decode", text="\n07\n\n").stdout,
                         b"false frame\ncommit\nfalse frame\n")
        self.assertEqual(run("decode", "--beside", text="07\n\xff\n").stdout,
                         b"07  commit\n\xff  false frame\n")

    def test_comments(self):
        self.assertEqual(run("decode", "--beside", text="# 07\n07\n").stdout,
                         b"# 07\n07  commit\n")
        self.assertEqual(run("encode", text="# 07\ncommit\n").stdout, b"07\n")

    def test_usage(self):
        for arguments in ([], ["other"], ["encode", "--beside"]):
            result = run(*arguments, text="")
            self.assertEqual(result.returncode, 2)
            self.assertIn(b"usage: frames", result.stderr)

    def test_words_in_any_case(self):
        pairs = FRAMES + DIGIT_FRAMES
        upper = [words.upper() for words, _ in pairs]
        title = [words.title() for words, _ in pairs]
        mixed = ["".join(c.upper() if i % 2 else c.lower() for i, c in enumerate(words)) for words, _ in pairs]
        got, result = output_lines("encode", lines=upper + title + mixed)
        self.assertEqual(got, [frame for _, frame in pairs] * 3)
        self.assertEqual(result.returncode, 0)

    def test_texts_of_wrong_words(self):
        got, result = output_lines("encode", lines=[words for words, _ in WRONG_TEXTS])
        told = [f"frames: line {count}: {text}" for count, (_, text) in enumerate(WRONG_TEXTS, 1)]
        self.assertEqual(result.stderr.decode("latin-1").splitlines(), told)
        self.assertEqual(got, [])
        self.assertEqual(result.returncode, 1)

    def test_zeros_in_front(self):
        self.assertEqual(run("encode", text=f"poll {'0' * 5000}1\n").stdout, b"0501\n")

    def test_stop(self):
        text = "# a comment\ncommit\npoll 1\npoll x\nabandon\npoll y\n"
        result = run("encode", "--stop", text=text)
        self.assertEqual(result.stdout, b"07\n0501\n")
        self.assertEqual(result.stderr, f"frames: line 4: 'x' is no station: {BYTE}\n".encode())
        self.assertEqual(result.returncode, 1)
        result = run("encode", text=text)
        self.assertEqual(result.stdout, b"07\n0501\n08\n")
        self.assertEqual(len(result.stderr.splitlines()), 2)
        self.assertEqual(result.returncode, 1)
        result = run("encode", "--stop", text="commit\n\n# a comment\nabandon\n")
        self.assertEqual((result.stdout, result.stderr, result.returncode), (b"07\n08\n", b"", 0))

    def test_stop_does_not_wait(self):
        with running("encode", "--stop") as process:
            self.assertEqual(ask(process, "commit"), "07")
            self.assertEqual(ask(process, "comit"), "")
            self.assertEqual(process.wait(), 1)

    def test_random_lines(self):
        """Whatever stands in a line, the tool goes on to the next."""
        source = random.Random(2)
        some = ["lay", "open", "read", "WRITE", "change", "poll", "put", "link", "on", "0", "255", "256", "0003",
                "data", DIGITS, "#", "\0", "\xff", "\xb2", "\x85", "\r", "-1", "'", "{", "07", "0500" + ZEROS]
        lines = [" ".join(source.choices(some, k=source.randrange(8))) for _ in range(3000)] + ["", "commit 07"]
        got, result = output_lines("decode", lines=[line.replace("#", "") for line in lines])
        self.assertEqual((len(got), result.stderr, result.returncode), (len(lines), b"", 0))
        _, result = output_lines("encode", lines=lines)
        self.assertTrue(all(told.startswith(b"frames: line ") for told in result.stderr.split(b"\n")[:-1]))
        self.assertIn(f"frames: line {len(lines)}: commit: too many words".encode(), result.stderr)
        self.assertEqual(result.returncode, 1)


class Answers(unittest.TestCase):
    """decode --frames."""

    def setUp(self):
        folder = tempfile.TemporaryDirectory()
        self.addCleanup(folder.cleanup)
        self.file = pathlib.Path(folder.name) / "frames.hex"

    def give(self, frames):
        """Writes the file of frames."""
        self.file.write_bytes("".join(frame + "\n" for frame in frames).encode("latin-1"))

    def hold(self, frames, replies, words, told="", options=()):
        """Replies to the frames are shown as the words; what is told beside them makes the status 1."""
        self.give(frames)
        got, result = output_lines("decode", "--frames", str(self.file), *options, lines=replies)
        self.assertEqual(got, words)
        self.assertEqual(result.stderr.decode("latin-1"), told)
        self.assertEqual(result.returncode, 1 if told else 0)

    def test_answers(self):
        self.hold([frame for frame, _, _ in ANSWERS], [reply for _, reply, _ in ANSWERS],
                  [words for _, _, words in ANSWERS])
        self.hold([], [], [])

    def test_beside(self):
        self.hold([frame for frame, _, _ in ANSWERS], [reply for _, reply, _ in ANSWERS],
                  [f"{reply}  {words}" for _, reply, words in ANSWERS], options=["--beside"])

    def test_comments_are_no_replies(self):
        self.hold(["07", "08"], ["# one", "0700" + ZEROS, "# two", "0805" + ZEROS, "#"],
                  ["# one", "commit: done, value 0, version 0, generation 0", "# two", "abandon: refused, 5 idle", "#"])

    def test_file_without_a_last_newline(self):
        self.file.write_bytes(b"07\n0501")
        result = run("decode", f"--frames={self.file}", text=f"0705{ZEROS}\n0505{ZEROS}")
        self.assertEqual((result.stdout, result.stderr), (b"commit: refused, 5 idle\npoll 1: refused, 5 idle\n", b""))
        self.assertEqual(result.returncode, 0)

    def answers_of_the_runner(self, frames):
        if not RUNNER:
            self.skipTest("no runner given")
        self.give(frames)
        replies = subprocess.run([RUNNER], input=self.file.read_bytes(), capture_output=True, check=True).stdout
        return run("decode", "--frames", str(self.file), text=replies.decode("ascii"))

    def test_session_of_the_runner(self):
        frames, _ = output_lines("encode", lines=[words for words, _ in SESSION])
        result = self.answers_of_the_runner(frames)
        expected = [f"{words}: {said.split(': ', 1)[1]}" for words, said in SESSION]
        self.assertEqual(result.stdout.decode("ascii").splitlines(), expected)
        self.assertEqual((result.stderr, result.returncode), (b"", 0))

    def test_false_frames_of_the_runner(self):
        result = self.answers_of_the_runner(FALSE_FRAMES)
        got = result.stdout.decode("ascii").splitlines()
        self.assertEqual([words.split(": ")[1] for words in got], ["refused, 12 false frame"] * len(FALSE_FRAMES))
        self.assertEqual((result.stderr, result.returncode), (b"", 0))

    def test_mismatch(self):
        """Also where a line is no reply."""
        for line, own in (("070B" + ZEROS, "commit: refused, 11 short"), ("0502", "poll 2"), ("", "false frame")):
            with self.subTest(line=line):
                self.hold(["0500", "0501", "FF", "0502"],
                          ["0505" + ZEROS, "# a comment", line, "FF0C" + ZEROS, "0505" + ZEROS],
                          ["poll 0: refused, 5 idle", "# a comment", own, "call FF: refused, 12 false frame",
                           "poll 2: refused, 5 idle"],
                          f"frames: line 3: '{own}' does not answer 'poll 1', line 2 of {self.file}\n")
        self.hold(["050000"], ["0705" + ZEROS], ["commit: refused, 5 idle"],
                  f"frames: line 1: 'commit: refused, 5 idle' does not answer 'false frame', line 1 of {self.file}\n")

    def test_too_many_replies(self):
        self.hold(["0501"], ["0505" + ZEROS, "#", "0705" + ZEROS, "# end", "0805" + ZEROS],
                  ["poll 1: refused, 5 idle", "#", "commit: refused, 5 idle", "# end", "abandon: refused, 5 idle"],
                  f"frames: line 3: more replies than {self.file} has lines\n")

    def test_too_few_replies(self):
        self.hold(["0501", "0502", "07"], ["0505" + ZEROS], ["poll 1: refused, 5 idle"],
                  f"frames: no reply answers 'poll 2', line 2 of {self.file}\n")
        self.hold(["", "07"], [], [], f"frames: no reply answers 'false frame', line 1 of {self.file}\n")

    def test_file_that_cannot_be_read(self):
        for file, number in ((self.file, errno.ENOENT), (self.file.parent, errno.EISDIR)):
            result = run("decode", "--frames", str(file), text=f"0705{ZEROS}\n")
            self.assertEqual(result.stderr.decode(), f"frames: {file}: {os.strerror(number)}\n")
            self.assertEqual((result.stdout, result.returncode), (b"", 1))

    def test_each_reply_as_it_comes(self):
        self.give(frame for frame, _, _ in ANSWERS)
        with running("decode", "--frames", str(self.file)) as process:
            for _, reply, words in ANSWERS:
                self.assertEqual(ask(process, reply), words)
            self.assertEqual(process.communicate(), (b"", b""))
            self.assertEqual(process.returncode, 0)


class Usage(unittest.TestCase):
    def test_wrong_usage(self):
        tool = load_tool("frames")
        for arguments, wrong in (
                ([], "no command: decode or encode"),
                (["other"], "'other' is no command: decode or encode"),
                (["--beside", "decode"], "'--beside' is no command: decode or encode"),
                (["encode", "--beside"], "encode: option --beside not recognized"),
                (["decode", "--stop"], "decode: option --stop not recognized"),
                (["decode", "-x"], "decode: option -x not recognized"),
                (["decode", "--frames"], "decode: option --frames requires argument"),
                (["encode", "--stop=1"], "encode: option --stop must not have an argument"),
                (["decode", "file"], "decode takes no 'file'"),
                (["encode", "--stop", "file"], "encode takes no 'file'")):
            with self.subTest(arguments=arguments):
                result = run(*arguments, text="commit\n")
                self.assertEqual(result.stderr.decode(), f"frames: {wrong}\n{tool.USAGE}\n")
                self.assertEqual((result.stdout, result.returncode), (b"", 2))

    def test_help(self):
        text = load_tool("frames").__doc__.strip() + "\n"
        for arguments in (["--help"], ["-h"], ["encode", "--help"], ["encode", "-h"], ["decode", "--help"],
                          ["decode", "--beside", "-h"], ["encode", "--stop", "--help"], ["other", "--help"],
                          ["--help", "decode"]):
            with self.subTest(arguments=arguments):
                result = run(*arguments, text="commit\n")
                self.assertEqual((result.stdout.decode(), result.stderr, result.returncode), (text, b"", 0))

    def test_help_names_what_there_is(self):
        tool = load_tool("frames")
        for command, options in tool.OPTIONS.items():
            shown = " ".join(f"[--{option.replace('=', ' FILE')}]" for option in options)
            self.assertIn(f"frames {command} {shown}", tool.USAGE)
            self.assertIn(f"frames {command} {shown} <", tool.__doc__)
        for _, name, _ in tool.CALLS:
            self.assertIn(f"\n    {name}", tool.__doc__)

    def test_help_without_a_text(self):
        result = subprocess.run([sys.executable, "-OO", str(TOOL), "--help"], capture_output=True, check=True,
                                text=True, timeout=TIME_LIMIT)
        self.assertEqual((result.stdout, result.stderr), (load_tool("frames").USAGE + "\n", ""))


class Ends(unittest.TestCase):
    """How the tool ends where its streams end otherwise than with the input."""

    EACH = [(["decode"], "07\n"), (["decode", "--beside"], "# a comment\n"), (["encode"], "commit\n"),
            (["--help"], "")]

    def set_interrupt(self, action):
        """What the tool inherits: a handler as the default action, and the ignored signal as ignored."""
        self.addCleanup(signal.signal, signal.SIGINT, signal.signal(signal.SIGINT, action))

    def test_interrupt(self):
        self.set_interrupt(signal.default_int_handler)
        for command, line, shown in (("decode", "07", "commit"), ("encode", "commit", "07")):
            with self.subTest(command=command), running(command) as process:
                self.assertEqual(ask(process, line), shown)
                process.send_signal(signal.SIGINT)
                self.assertEqual(process.wait(), -signal.SIGINT)
                self.assertEqual((process.stdout.read(), process.stderr.read()), (b"", b""))

    def test_ignored_interrupt(self):
        self.set_interrupt(signal.SIG_IGN)
        with running("decode") as process:
            self.assertEqual(ask(process, "07"), "commit")
            process.send_signal(signal.SIGINT)
            self.assertEqual(ask(process, "08"), "abandon")
            self.assertEqual(process.communicate(), (b"", b""))
            self.assertEqual(process.returncode, 0)

    def test_closed_pipe(self):
        for arguments, text in self.EACH:
            with self.subTest(arguments=arguments):
                reading, writing = os.pipe()
                os.close(reading)
                with open(writing, "wb") as pipe:
                    result = subprocess.run([sys.executable, str(TOOL), *arguments], input=text.encode(), stdout=pipe,
                                            stderr=subprocess.PIPE, check=False, timeout=TIME_LIMIT)
                self.assertEqual((result.stderr, result.returncode), (b"", -signal.SIGPIPE))

    def test_head(self):
        result = run_in_shell('{ "$@"; echo $? >&2; } | head -1', "decode", text="07\n" * 100000)
        self.assertEqual((result.stdout, result.stderr), (b"commit\n", b"141\n"))

    @unittest.skipUnless(os.path.exists("/dev/full"), "no /dev/full here")
    def test_full_disk(self):
        told = f"frames: standard output: {os.strerror(errno.ENOSPC)}\n".encode()
        for arguments, text in self.EACH:
            with self.subTest(arguments=arguments):
                result = run_in_shell('"$@" > /dev/full', *arguments, text=text)
                self.assertEqual((result.stderr, result.returncode), (told, 1))
        result = run_in_shell('"$@" 2> /dev/full', "encode", text="comit\ncommit\npole\nabandon\n")
        self.assertEqual((result.stdout, result.returncode), (b"07\n08\n", 1))
        result = run_in_shell('"$@" > /dev/full 2>&1', "encode", text="commit\n")
        self.assertEqual(result.returncode, 1)

    def test_closed_streams(self):
        for arguments, text in self.EACH:
            with self.subTest(arguments=arguments):
                result = run_in_shell('"$@" >&-', *arguments, text=text)
                self.assertEqual((result.stderr, result.returncode), (b"frames: standard output is closed\n", 1))
        for arguments in (["decode"], ["encode"], ["decode", "--frames", str(TOOL)]):
            with self.subTest(arguments=arguments):
                result = run_in_shell('"$@" <&-', *arguments)
                self.assertEqual((result.stdout, result.stderr), (b"", b"frames: standard input is closed\n"))
                self.assertEqual(result.returncode, 1)
        result = run_in_shell('"$@" 2>&-', "encode", text="comit\ncommit\n")
        self.assertEqual((result.stdout, result.returncode), (b"07\n", 1))
        result = run_in_shell('"$@" <&- >&- 2>&-', "encode")
        self.assertEqual(result.returncode, 1)

    def test_streams_of_the_wrong_way(self):
        """An input that cannot be read, and an output that cannot be written."""
        told = os.strerror(errno.EBADF)
        result = run_in_shell('"$@" 0> /dev/null', "decode")
        self.assertEqual((result.stderr.decode(), result.returncode), (f"frames: standard input: {told}\n", 1))
        result = run_in_shell('"$@" 1< /dev/null', "decode", text="07\n")
        self.assertEqual((result.stderr.decode(), result.returncode), (f"frames: standard output: {told}\n", 1))


if __name__ == "__main__":
    os.environ.pop("PYTHONUNBUFFERED", None)  # the tool itself has to write line by line
    PRINT_CALLS, RUNNER = (sys.argv[1:] + [""])[:2]
    unittest.main(argv=sys.argv[:1])
