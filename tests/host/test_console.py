"""Tests of the console: at a terminal, from a pipe, its words and its files.

usage: test_console.py PLAIN CHECKED [TEST..]

PLAIN is the program, and CHECKED the same with the sanitizers. Without TEST, as
Keys or Keys.test_history, all tests are run.
"""

import json
import os
import pathlib
import re
import shutil
import signal
import stat
import subprocess
import sys
import termios
import time
import unittest

import terminals
import test_frames_tool
from terminals import ASKED, COLUMNS, configuration, copy, Folder, LAY, NEW, OLD, PATIENCE, ROWS, table, Terminal

PLAIN, CHECKED = "", ""
LEFT, RIGHT, UP, DOWN = "\x1b[D", "\x1b[C", "\x1b[A", "\x1b[B"
HOMES = ["\x01", "\x1b[H", "\x1bOH", "\x1b[1~", "\x1b[7~"]
ENDS = ["\x05", "\x1b[F", "\x1bOF", "\x1b[4~", "\x1b[8~"]
DELETE, BACK, KILL_BACK, KILL, KILL_WORD, CLEAR = "\x1b[3~", "\x7f", "\x15", "\x0b", "\x17", "\x0c"
HOME, INTERRUPT_KEY, END_KEY, STOP_KEY = HOMES[0], "\x03", "\x04", "\x1a"
UNSAVED = f"the table is not saved, and would be lost{ASKED}"
OVER = f"there is such a file already, and it would be lost{ASKED}"
CHANGED = f"the file has changed meanwhile, and that would be lost{ASKED}"
NO_TABLE = "there is no table yet; lay one, or load FILE"
NO_FILE = "No such file or directory"
KEPT = "; the table in hand is kept"
TROUBLE = 2


def drawn(printed, columns):
    """The rows that a terminal shows, and where the cursor stands in the last. Nothing may pass the last column."""
    rows, at = [""], 0
    for part in re.findall(r"\x1b\[[0-9;]*[A-Za-z]|[^\x1b]", printed):
        if part == "\r":
            at = 0
        elif part == "\n":
            rows.append("")
        elif part == "\x1b[K":
            rows[-1] = rows[-1][:at]
        elif part.startswith("\x1b[") and part.endswith("C"):
            at += int(part[2:-1])
        elif part in ("\x1b[H", "\x1b[2J"):
            rows, at = [""], 0
        else:
            assert at < columns and len(part) == 1, (part, at, columns)
            rows[-1] = rows[-1][:at].ljust(at) + part + rows[-1][at + 1:]
            at += 1
    return rows, at


# ---- At a terminal ----

# Keys, and the file that the line then says to load.
EDITED = {
    "load abc": "abc",
    "LOAD Abc": "Abc",
    "  load  a  b  ": "a  b",
    "load ac" + LEFT + "b": "abc",
    "load ac\x1bODb": "abc",
    "load ac\x02b": "abc",
    "load bc" + LEFT * 2 + "a" + RIGHT + "x": "abxc",
    "load bc" + LEFT * 2 + "a\x1bOCx": "abxc",
    "load bc" + LEFT * 2 + "a\x06x": "abxc",
    "load a" + RIGHT * 3 + "b": "ab",
    "oad a" + LEFT * 9 + "l": "a",
    "load abx" + BACK: "ab",
    "load abx\x08": "ab",
    "load axb" + LEFT + BACK: "ab",
    BACK + "load a": "a",
    "load axb" + LEFT * 2 + DELETE: "ab",
    "load axb" + LEFT * 2 + END_KEY: "ab",
    "load ab" + DELETE: "ab",
    "load ab" + END_KEY: "ab",
    "load abxyz" + LEFT * 3 + KILL: "ab",
    "load ab" + KILL: "ab",
    "xyzload ab" + LEFT * 7 + KILL_BACK: "ab",
    "xyz" + KILL_BACK + "load ab": "ab",
    "load ab xyz" + KILL_WORD: "ab",
    "load ab xyz  " + KILL_WORD + "c": "ab c",
    "load xyz ab" + LEFT * 2 + KILL_WORD: "ab",
    KILL_WORD + "load ab": "ab",
    "load abc" + CLEAR + "d": "abcd",
    "load ä": "ä",
    "load aä" + BACK + "b": "ab",
    "load äb" + LEFT * 2 + "a": "aäb",
    "load äb" + LEFT * 2 + DELETE: "b",
    "load äb" + LEFT * 2 + RIGHT + "a": "äab",
    "load €𝄞" + BACK * 2 + "a": "a",
    "load a" + DOWN + "b": "ab",
    "load a" + STOP_KEY + "b": "ab",  # nobody could bring this session back, so that it is not stopped
    **{"a" + home + "load ": "a" for home in HOMES},
    **{"load a" + HOME + end + "b": "ab" for end in ENDS},
}

# What keys send that have no meaning here: F1 to F12 of several terminals, Insert, Page Up and Down, Shift-Tab, Alt
# with a letter and with keys, the beginning and the end of a paste, reports of the terminal, a mouse, Ctrl with others.
UNKNOWN = ["\x1bOP", "\x1b[11~", "\x1b[15~", "\x1b[24~", "\x1b[[A", "\x1b[[E", "\x1b[1;5P", "\x1b[2~", "\x1b[5~",
           "\x1b[6~", "\x1b[Z", "\x1bb", "\x1b[5;3~", "\x1b[6;4~", "\x1b[2;3~", "\x1b[200~", "\x1b[201~",
           "\x1b[?1;2c", "\x1b[12;24R", "\x1b[<0;3;4M", "\x1b[I", "\0", "\x07", "\x0f", "\x11", "\x13", "\x1c",
           "\x1d", "\x1e", "\x1f"]


class Keys(Folder):
    """One session, and lines that are typed into it."""

    def setUp(self):
        super().setUp()
        self.at = self.terminal()
        self.at.wait_for_prompt()

    def assert_loads(self, keys, name):
        with self.subTest(ascii(keys)[:80]):
            self.assertEqual(self.at.say(keys), f"{name}: {NO_FILE}\n")

    def test_editing(self):
        for keys, name in EDITED.items():
            self.assert_loads(keys, name)

    def test_unknown_keys(self):
        for keys in UNKNOWN:
            self.assert_loads(f"load ab{LEFT}{keys}c", "acb")

    def test_keys_with_control_and_shift(self):
        """They move as they do without."""
        for keys in ("\x1b[1;5D", "\x1b[1;2D"):
            self.assert_loads(f"load ac{keys}b", "abc")
        self.assert_loads(f"load axb{LEFT * 2}\x1b[3;5~", "ab")

    def test_tab_is_a_blank(self):
        self.assert_loads("load\tab", "ab")

    def test_history(self):
        for name in "abc":
            self.at.say(f"load {name}")
        self.assert_loads(UP * 3, "a")
        self.assert_loads(UP * 2 + DOWN, "a")
        self.assert_loads(UP * 2, "c")
        self.assert_loads("\x10" * 9, "a")
        self.assert_loads("\x10\x10\x0e" + BACK + "d", "d")
        self.assert_loads("load un" + UP * 2 + DOWN * 5 + "finished", "unfinished")

    def test_same_line_is_kept_once(self):
        for name in "abbb":
            self.at.say(f"load {name}")
        self.at.say("")
        self.assert_loads(UP * 2, "a")

    def test_long_history(self):
        self.at.type("".join(f"load {i}\r" for i in range(1100)))
        self.at.wait_for(f"1099: {NO_FILE}")
        self.at.wait_for_prompt()
        self.assert_loads(UP * 999, "101")
        self.assert_loads(UP * 5000, "101")

    def test_drop_the_line(self):
        self.at.type("load abc" + LEFT + INTERRUPT_KEY)
        self.at.wait_for("^C\r\n")
        self.at.wait_for_prompt()
        self.assert_loads("load d", "d")
        self.assert_loads(UP * 2, "d")

    def test_clear(self):
        self.at.type("load a" + CLEAR)
        self.at.wait_for("\x1b[H\x1b[2J")
        self.at.wait_for("\r> load a\x1b[K\r\x1b[8C")

    def test_long_line(self):
        """It scrolls in its row, and is taken whole."""
        columns = 20
        self.at.resize(columns)
        name = "".join(chr(ord("a") + i % 26) for i in range(100)) + "äöü"
        self.at.type(f"load {name}{LEFT * 70}{HOME}{RIGHT * 30}#{LEFT}")
        shown = self.at.wait_for("wxy#\x1b[K\r\x1b[19C")
        self.assertEqual(drawn("> " + shown, columns), (["> jklmnopqrstuvwxy#"], 19))
        self.assertEqual(self.at.say(DELETE), f"{name}: {NO_FILE}\n")

    def test_narrow_window(self):
        for columns in (1, 2, 3, 4, 0xFFFF, 0):
            self.at.resize(columns)
            self.assert_loads("load abc" + LEFT * 2 + "d", "adbc")

    def test_longest_line(self):
        """It is given up, and told; one that is emptied is a new one."""
        self.assertEqual(self.at.say("x" * 5000), "the line is too long, and is given up\n")
        self.assert_loads("load a", "a")
        self.assert_loads("x" * 5000 + KILL_BACK + "load b", "b")
        self.assertTrue(self.at.say("x" * 4095).startswith("no call 'xxxx"))
        self.assert_loads(UP + BACK * 5000 + "load c", "c")

    def test_false_utf8(self):
        self.at.type(b"\x80\xbf\xc3 \xff\x1b[D\x1b[D\x1b[D\x1b[D" + BACK.encode() * 3 + b"\xe2\x82\r")
        self.at.wait_for("no call '")
        self.at.wait_for_prompt()

    def test_escape_alone(self):
        """The key behind it may be lost, and no more."""
        self.assert_loads("\x1bxload a", "a")


class Session(Folder):
    def test_greeting(self):
        version = subprocess.run([CHECKED, "--version"], capture_output=True, text=True, check=True).stdout.split()[1]
        greeting = f"Ospreyscreen {version}; help lists the words, quit leaves\n"
        self.assertEqual(self.terminal().wait_for_prompt(), f"{greeting}{NO_TABLE}\n")
        self.path("t", OLD)
        self.assertEqual(self.terminal("t").wait_for_prompt(), f"{greeting}the table is in hand; show prints it\n")

    def test_prompts_and_replies(self):
        at = self.terminal()
        at.wait_for_prompt()
        self.assertEqual(at.say("Lay 3 2 500 READ 3 write 0003"), "lay 3 2 500 read 0003 write 0003: done\n")
        self.assertEqual(at.say("oPEN wRITE 0 510", "write 0> "), "open write 0 510: done\n")
        self.assertEqual(at.say("", "write 0> "), "")
        self.assertEqual(at.say("# a remark", "write 0> "), "")
        self.assertEqual(at.say("poll 0", "write 0> "),
                         "poll 0: refused, 6 off the bus\n  link 0 on once it answers\n")
        self.assertEqual(at.say("nonsense", "write 0> ")[:18], "no call 'nonsense'")
        self.assertEqual(at.say("ABANDON"), "abandon: done\n")
        self.assertEqual(at.say("open read 1", "read 1> "), "open read 1: done\n")
        at.say("abandon")
        self.assertEqual(at.say("open change 0 read 0001 write 0001", "change 0> "),
                         "open change 0 read 0001 write 0001: done\n")

    def test_advice_is_broken_between_words(self):
        """At a terminal; from a pipe it is one line."""
        whole = self.run_script(f"{LAY}\nplan 0\n").printed.splitlines()[-1]
        at = self.terminal()
        at.wait_for_prompt()
        at.say(LAY)
        for columns in (12, 30, len(whole), len(whole) + 1):
            at.resize(columns)
            rows = [row for row in at.say("plan 0").splitlines() if row.startswith("  ")]
            self.assertEqual("  " + " ".join(row.strip() for row in rows), whole)
            self.assertLessEqual(max(len(row) for row in rows), columns)
            self.assertEqual(len(rows) == 1, columns >= len(whole))

    def test_paste(self):
        """All the lines are carried out, in order, whatever ends them, and however early they come."""
        lines = [f"open write 0 {i}\rpoll 0\nput 0 data\r\ncommit\r" for i in range(200)]
        at = self.terminal()
        at.type("lay 1 1 0 read 0001 write 0001\rlink 0 on\r" + "".join(lines) + "show\r")
        printed = at.wait_for("configuration at 0")
        values = re.findall(r"commit: done, value (\d+), version (\d+)", printed)
        self.assertEqual(values, [(str(i), str(i + 1)) for i in range(200)])
        self.assertNotIn("refused", printed)

    def test_file_with_an_umlaut(self):
        at = self.terminal()
        at.wait_for_prompt()
        at.say(LAY)
        self.assertEqual(at.say("save Gewächshäu" + BACK * 2 + "äuser"), "saved in Gewächshäuser, 224 bytes\n")
        self.assertEqual(self.names(), ["Gewächshäuser"])

    def test_output_elsewhere(self):
        """A prompt all the same: somebody types."""
        at = self.dialogue()
        self.assertIn(NO_TABLE, at.greeting)
        self.assertEqual((at.say(LAY), at.prompt), (LAY + ": done\n", "> "))
        self.assertEqual((at.say("open read 0"), at.prompt), ("open read 0: done\n", "read 0> "))


class Leaving(Folder):
    def start(self, lay=True):
        at = self.terminal()
        at.wait_for_prompt()
        self.assertFalse(termios.tcgetattr(at.slave)[3] & termios.ICANON)
        if lay:
            at.say(LAY)
        return at

    def assert_left(self, at, status=0):
        self.assertEqual(at.end(), status, at.printed)
        self.assertEqual(termios.tcgetattr(at.slave), at.modes)

    def test_quit_and_end(self):
        for keys in ("quit\r", END_KEY, "QUIT\r"):
            with self.subTest(ascii(keys)):
                at = self.start(lay=False)
                at.type(keys)
                self.assert_left(at)

    def test_unsaved(self):
        for keys in ("quit\r", END_KEY):
            for again in ("quit\r", END_KEY):
                with self.subTest(ascii((keys, again))):
                    at = self.start()
                    at.type(keys)
                    at.wait_for("\r\n")
                    self.assertEqual(at.wait_for_prompt(), UNSAVED)
                    at.type(again)
                    self.assert_left(at)

    def test_warned_again_after_another_line(self):
        at = self.start()
        for line in ("reach 0", "nonsense", "save"):
            self.assertEqual(at.say("quit"), UNSAVED)
            at.say(line)
        self.assertEqual(at.say("quit"), UNSAVED)
        at.say("save t")
        at.type("quit\r")
        self.assert_left(at)

    def test_load_and_lay_over_unsaved(self):
        """Only the same line is an answer."""
        self.path("t", OLD)
        at = self.start()
        for line in ("load t", "load  t", LAY, "quit", "load t"):
            self.assertEqual(at.say(line), UNSAVED)
        self.assertEqual(at.say("load t"), "loaded t, 224 bytes\n")
        self.assertEqual(at.say("load t"), "loaded t, 224 bytes\n")
        self.assertEqual(at.say(LAY), f"{LAY}: done\n")
        self.assertEqual(at.say(LAY), UNSAVED)
        self.assertEqual(at.say(LAY), f"{LAY}: done\n")

    def test_save_over_a_file(self):
        """One that this console has not loaded or saved is asked about."""
        self.path("t", OLD)
        at = self.start()
        for line in ("save u", "save u", "link 0 on", "save"):
            self.assertNotEqual(at.say(line), OVER)
        self.assertEqual(at.say("save t"), OVER)
        self.assertEqual(self.path("t").read_bytes(), OLD)
        self.assertEqual(at.say("save t"), "saved in t, 224 bytes\n")
        self.assertEqual(at.say("save t"), "saved in t, 224 bytes\n")
        self.assertEqual(at.say("save u"), OVER)

    def test_save_over_a_change_of_others(self):
        """A file that somebody else has written since is asked about."""
        at = self.start()
        at.say("save t")
        self.path("t", NEW)
        self.assertEqual(at.say("save"), CHANGED)
        self.assertEqual(self.path("t").read_bytes(), NEW)
        self.assertEqual([at.say(" save  "), at.say("save")], ["saved in t, 224 bytes\n"] * 2)

    def test_given_up(self):
        """Whoever gives a line up has not said it again."""
        at = self.start()
        self.assertEqual(at.say("quit"), UNSAVED)
        at.type("quit" + INTERRUPT_KEY)
        at.wait_for("^C\r\n")
        at.wait_for_prompt()
        self.assertEqual(at.say("quit"), UNSAVED)

    def test_signals(self):
        for number in (signal.SIGTERM, signal.SIGHUP, signal.SIGINT, signal.SIGQUIT):
            with self.subTest(number):
                at = self.start()
                at.type("unfinished")
                at.wait_for("unfinished\x1b[K")
                at.process.send_signal(number)
                self.assert_left(at, -number)

    def test_hung_up(self):
        """The terminal ends the session with a signal; where it is not the session's own, by the end of the input."""
        for controlling in (True, False):
            with self.subTest(controlling):
                at = self.terminal(controlling=controlling)
                at.wait_for_prompt()
                at.say(LAY)
                at.hang_up()
                self.assertIn(at.process.wait(PATIENCE), [-signal.SIGHUP] if controlling else [0, TROUBLE])


# A shell that has jobs: it goes on when the program stops, and prints its process first.
JOBS = """set -m
"$0" console
jobs -p
read line
fg
echo "left with $?"
"""


def state_of(process):
    """As ps has it: "T" is stopped; "Z" has ended, and so has what is not there."""
    try:
        return pathlib.Path(f"/proc/{process}/stat").read_text().rpartition(")")[2].split()[0]
    except FileNotFoundError:
        return "Z"


class Stopping(Folder):
    def start(self):
        """The shell's terminal, and the program's process, which is stopped in the middle of a line."""
        at = Terminal(["sh", "-c", JOBS, CHECKED], self.folder)
        self.addCleanup(at.close)
        at.wait_for_prompt()
        at.type("load a" + STOP_KEY)
        at.wait_for("load a\x1b[K")
        return at, self.process_of(at)

    def process_of(self, at):
        while not (found := re.search(rb"(\d+)\r\n", at.printed)):
            at.transfer(b"", PATIENCE)
        at.printed = at.printed[found.end():]
        return int(found.group(1))

    def test_stop_and_continue(self):
        at, process = self.start()
        self.assertEqual(state_of(process), "T")
        self.assertEqual(termios.tcgetattr(at.slave), at.modes)
        at.type("\n")
        at.wait_for("\r> load a\x1b[K")
        self.assertEqual(at.say(LEFT + "b"), f"ba: {NO_FILE}\n")
        at.type("quit\r")
        at.wait_for("left with 0")
        self.assertEqual(termios.tcgetattr(at.slave), at.modes)

    def test_ended_while_stopped(self):
        """The terminal is the shell's then, and its modes are."""
        at, process = self.start()
        os.kill(process, signal.SIGTERM)
        os.kill(process, signal.SIGCONT)
        end = time.monotonic() + 2
        while state_of(process) != "Z" and time.monotonic() < end:
            time.sleep(0.01)
        self.assertEqual(state_of(process), "Z")
        self.assertEqual(termios.tcgetattr(at.slave), at.modes)


class OtherTerminals(Folder):
    def test_without_a_cursor(self):
        """The terminal edits its lines itself."""
        for kind in ("dumb", None):
            with self.subTest(kind):
                at = self.terminal(kind=kind)
                at.wait_for(f"{NO_TABLE}\r\n> ")
                self.assertEqual(termios.tcgetattr(at.slave), at.modes)
                at.type("load ax\x7fb\n")
                self.assertNotIn("\x1b", at.wait_for(f"ab: {NO_FILE}\r\n> "))
                at.type(LAY + "\n")
                at.wait_for(": done\r\n> ")
                at.type(END_KEY)
                at.wait_for(UNSAVED.replace("\n", "\r\n> "))
                at.type(END_KEY)
                self.assertEqual(at.end(), 0)

    @unittest.skipUnless(shutil.which("rlwrap"), "rlwrap is not installed")
    def test_rlwrap(self):
        at = Terminal(["rlwrap", CHECKED, "console"], self.folder, RLWRAP_HOME=str(self.folder))
        self.addCleanup(at.close)
        at.wait_for(NO_TABLE)
        at.type("load ac" + LEFT + "b\r")
        at.wait_for(f"abc: {NO_FILE}")
        at.type(LAY + "\r")
        at.wait_for("0006: done")
        at.type("save t\r")
        at.wait_for("saved in t, 224 bytes")
        at.type("quit\r")
        self.assertEqual(at.end(), 0)
        self.assertEqual(termios.tcgetattr(at.slave), at.modes)


# ---- From a pipe ----

# Lines that mean nothing, and a part of what is said of them.
WRONG = {
    "nonsense": "no call 'nonsense': the calls are lay, open read,",
    "?": "no call '?'",
    "open": "a round is opened by open read, open write or open change",
    "open door": "a round is opened by",
    "read 0": "a round is opened by",
    "poll": "the station is missing: poll STATION",
    "poll x": "'x' is no station: poll STATION",
    "poll -1": "'-1' is no station",
    "poll 256": "'256' is above 255",
    "poll 0 1": "'1' is left over: poll STATION",
    "put 0": "the sort is missing: put STATION data|configuration",
    "put 0 dat": "'dat' is no sort: put STATION data|configuration",
    "link 0": "the state is missing",
    "link 0 up": "'up' is no state: link STATION on|off",
    "commit now": "'now' is left over: commit",
    "open write 0": "the value is missing: open write ITEM VALUE",
    "open write 0 18446744073709551616": "'18446744073709551616' is above 18446744073709551615",
    "open change 0": "the target is missing",
    "lay 3 1 500": "the configuration is missing: lay N M VALUE read SETS write SETS",
    "lay 3 1 500 read 3": "a configuration is 'read' and its sets, then 'write' and its sets, or 64 digits",
    "lay 3 1 500 write 3 read 3": "a configuration is 'read' and its sets",
    "lay 3 1 500 read 3 write x": "'x' is no set",
    "lay 3 1 500 read 10003 write 3": "a set has four digits",
    "lay 3 1 500 read" + " 1" * 9 + " write 1": "there are more than 8 sets on the read side",
    "lay 3 1 500 " + "0" * 63 + "x": "0 to 9 and A to F alone",
    "lay" + " 1" * 100: "no call has so many words",
    "lay\x01 3": "no call 'lay?'",
    "poll \x1b[A": "'?[a' is no station",
    "poll ä": "'??' is no station",
    "x" * (1 << 20): "no call '" + "x" * 40 + "'",
    "x " * (1 << 19): "no call has so many words",
    "save": NO_TABLE,
    "load": "the file is missing: load FILE",
    "load none": f"none: {NO_FILE}",
    "trace": "the file is missing: trace FILE",
    "help me": "nothing begins with 'me'; help lists every word",
    "quit now": "'now' is left over: quit",
    "show": NO_TABLE,
    "show 0 0": "'0' is left over: show [ITEM]",
    "votes": "the votes are missing, one number for each station",
    "votes 1 x read 1 write 1": "'x' is no number",
    "votes 1 256 read 1 write 1": "'256' is above 255",
    "votes 1 1 read 2": "'write' and the votes that a write needs are missing",
    "votes 1 1 read 2 write 1 1": "'1' is left over",
    "votes" + " 1" * 100: "stations",
}


class Pipe(Folder):
    def assert_done(self, script, printed):
        result = self.run_script(script)
        self.assertEqual((result.returncode, result.said, result.printed), (0, "", printed))

    def test_no_prompt_and_no_greeting(self):
        self.assert_done(f"{LAY}\nopen write 0 510\n\ncommit\nquit\nopen read 0\n",
                         f"{LAY}: done\nopen write 0 510: done\ncommit: refused, 8 unheard\n  nothing is polled; "
                         "too few stations are on the bus; link 0 and 1 on, and poll 0 and 1\n")

    def test_remarks_and_empty_lines(self):
        self.assert_done("# one\n\n   \t\n  # two \0 \x01\n#\n" + "#" * (1 << 20) + "\nreach 0\n",
                         "reach 0: refused, 1 unsound\n  there is no table yet; begin with a lay\n")

    def test_ends_of_lines(self):
        printed = f"{LAY}: done\nlink 0 on: done\n"
        for script in (f"{LAY}\r\nlink 0 on\r\n", f"{LAY}\nlink 0 on", f"\t{LAY}\v\nlink\t0\fon\r",
                       " " * (1 << 20) + LAY + " " * (1 << 20) + "\nlink 0 on\n"):
            with self.subTest(ascii(script)[:80]):
                self.assert_done(script, printed)

    def test_no_lines(self):
        for script in ("", "\n", "\n\n", " "):
            self.assert_done(script, "")

    def test_many_lines(self):
        result = self.run_script("lay 1 1 0 read 1 write 1\n" + "link 0 on\nreach 0\n" * 5000 + "wrong\n")
        self.assertEqual(result.printed.count("reach 0: done, 3 read and write\n"), 5000)
        self.assertEqual(result.said[:41], "ospreyscreen: console: line 10002: no cal")

    def test_wrong_lines(self):
        """What comes after them is not carried out."""
        for line, said in WRONG.items():
            with self.subTest(ascii(line)[:80]):
                result = self.run_script(f"# one\n\nreach 0\n{line}\n{LAY}\nsave t\n", program=PLAIN)
                self.assertEqual(result.returncode, TROUBLE)
                self.assertEqual(result.printed.splitlines()[0], "reach 0: refused, 1 unsound")
                self.assertEqual(len(result.printed.splitlines()), 2)
                self.assertTrue(result.said.startswith("ospreyscreen: console: line 4: "), result.said)
                self.assertIn(said, result.said)
                self.assertEqual(self.names(), [])

    def test_wrong_lines_with_the_sanitizers(self):
        for line, said in WRONG.items():
            with self.subTest(ascii(line)[:80]):
                self.assertIn(said, self.run_script(line).said)

    def test_bytes_that_nobody_types(self):
        for line in (b"show\0", b"\0", b"\xff\xfe", b"poll \0", b"quit\0now", b"\x7f", bytes(range(1, 10)) + b"x"):
            with self.subTest(line):
                result = self.run_script(b"reach 0\n" + line + b"\n")
                self.assertEqual((result.returncode, result.said[:31]), (TROUBLE, "ospreyscreen: console: line 2: "))

    def test_a_name_with_a_zero_byte(self):
        """No file has it, so that none is written."""
        result = self.run_script(LAY.encode() + b"\nsave a\0b\n")
        self.assertEqual((result.returncode, self.names()), (TROUBLE, []))

    def test_refusals_go_on(self):
        script = f"reach 0\n{LAY}\n{LAY} 0008\npoll 9\ncommit\nvotes 1 1 read 1 write 1\nlink 9 on\nplan 0\nlink 0 on\n"
        result = self.run_script(script)
        self.assertEqual(result.returncode, 0)
        self.assertEqual(re.findall(r"^[a-z 0-9A-F]+: refused, (\d+)", result.printed, re.MULTILINE),
                         ["1", "3", "2", "5", "2", "15"])
        self.assertIn("\nrefused, 13 false votes: ", result.printed)
        self.assertTrue(result.printed.endswith("link 0 on: done\n"))

    def test_unsaved_is_no_matter(self):
        """Scripts are taken at their word."""
        self.path("t", OLD)
        for last in ("", "quit\n", "load t\n"):
            result = self.run_script(f"{LAY}\n{last}")
            self.assertEqual((result.returncode, result.said), (0, ""))
            self.assertNotIn(UNSAVED, result.printed)

    def test_no_output(self):
        with open("/dev/full", "wb") as full:
            result = self.run_script("help\n" * 100, stdout=full)
        self.assertEqual(result.returncode, TROUBLE)
        self.assertRegex(result.said, r"\Aospreyscreen: console: .+\n\Z")
        result = self.run_script(f"{LAY}\nsave t\n", stdout=None, preexec_fn=lambda: os.close(1))
        self.assertEqual((result.returncode, result.said), (TROUBLE, "ospreyscreen: console: Bad file descriptor\n"))
        self.assertEqual(self.path("t").read_bytes(), table(off=7))

    def test_input_that_cannot_be_read(self):
        folder = os.open(self.folder, os.O_RDONLY)
        self.addCleanup(os.close, folder)
        result = subprocess.run([CHECKED, "console"], stdin=folder, capture_output=True, text=True, check=False)
        self.assertEqual((result.returncode, result.stderr), (TROUBLE, "ospreyscreen: console: Is a directory\n"))

    def test_wrong_usage(self):
        result = self.run_script("", "one", "two")
        self.assertEqual((result.returncode, result.printed), (TROUBLE, ""))
        self.assertIn("usage: ospreyscreen console [TABLE]", result.said)


# ---- Words of the console ----

# Files that hold no sound table, and a part of what is said of them.
UNSOUND = {
    "empty": (b"", "0 bytes, and the shortest table has 112"),
    "a byte": (b"\3", "1 bytes, and the shortest table has 112"),
    "too short for a head": (OLD[:55], "55 bytes, and the shortest table has 112"),
    "a head alone": (OLD[:56], "not sound: 56 bytes, and 3 stations"),
    "cut": (OLD[:-1], "not sound: 223 bytes, and 3 stations"),
    "a byte more": (OLD + b"\0", "not sound: 225 bytes, and 3 stations"),
    "a copy more": (OLD + copy(), "not sound: 280 bytes, and 3 stations"),
    "longer than any": (table(n=16, m=32, copies=copy() * 512) + b"\0", "longer than any table"),
    "much longer": (bytes(1 << 20), "longer than any table"),
    "text": (LAY.encode() * 4, "no table"),
    "no stations": (table(n=0, copies=b""), "no table"),
    "17 stations": (table(n=17), "no table"),
    "no items": (table(m=0), "no table"),
    "33 items": (table(m=33), "no table"),
    "station 3 off": (table(off=8), "not sound: bytes of its head or of a configuration are false"),
    "round 4": (table(kind=4), "not sound"),
    "item 1 open": (table(kind=1, item=1), "not sound"),
    "station 3 polled": (table(kind=1, polled=8), "not sound"),
    "polled without a round": (table(polled=1), "not sound"),
    "a put off the bus": (table(kind=2, off=1, polled=7, data=1), "not sound"),
    "a put in a read": (table(kind=1, polled=7, data=1), "not sound"),
    "a change without a target": (table(kind=3), "not sound"),
    "bytes that are zero": (table(zero=1), "not sound"),
    "no sets": (table(copies=copy() * 2 + copy(config=bytes(32))), "not sound"),
    "sets that do not meet": (table(copies=copy() * 2 + copy(config=configuration([1], [2]))), "not sound"),
    "a set of station 3": (table(copies=copy() * 2 + copy(config=configuration([8], [8]))), "not sound"),
}

NAMES = ["t", "./t", "My Table.TAB", "a  b", "ÄÖÜ €", "'quoted'", "-x", "#1", "read", "a" * 200, "%s%n", "a\\b", "*"]


class SameWords(Folder):
    """The console takes the words that tools/frames takes, for the same calls, and no others."""

    def test_good_words(self):
        frames = test_frames_tool.FRAMES + test_frames_tool.DIGIT_FRAMES
        for change in (str, str.upper, str.title):
            script = "".join(change(words) + "\n" for words, _ in frames)
            self.assertEqual(self.run_script(f"{script}trace t.json\n").said, "")
            traced = [json.loads(line)["frame"] for line in self.path("t.json").read_text().splitlines()]
            self.assertEqual(traced, [frame for _, frame in frames])

    def test_wrong_words(self):
        for words in test_frames_tool.WRONG_WORDS:
            with self.subTest(words):
                self.assertEqual(self.run_script(f"{words}\n").returncode, TROUBLE)


class Words(Folder):
    def test_show(self):
        at = self.dialogue()
        self.assertEqual(at.say("show"), NO_TABLE + "\n")
        at.say("lay 2 3 500 read 0001 write 0001")
        every = at.say("SHOW")
        self.assertEqual(re.findall(r"^item (\d)", every, re.MULTILINE), ["0", "1", "2"])
        self.assertEqual(re.findall(r"^item (\d)", at.say("show 1"), re.MULTILINE), ["1"])
        self.assertEqual(at.say("show 3"), "there is no item 3: the items are 0 to 2\n")
        self.assertEqual(at.say("show x"), "'x' is no number\n")
        self.assertEqual(at.say("show 0 1"), "'1' is left over: show [ITEM]\n")

    def test_help(self):
        at = self.dialogue()
        every = at.say("help").splitlines()
        self.assertLess(len(every), ROWS)
        self.assertEqual([line for line in every if len(line) > COLUMNS], [])
        for name in ("lay", "open read", "open write", "open change", "poll", "put", "commit", "abandon", "link",
                     "reach", "diagnose", "plan", "show", "votes", "save", "load", "trace", "help", "quit"):
            self.assertTrue(any(line.startswith(name) for line in every), name)
        for asked, names in {"p": "poll put plan", "OPEN": "open open open", "l": "lay link load"}.items():
            lines = at.say(f"help {asked}").splitlines()
            self.assertEqual([line.split()[0] for line in lines if line[0].islower()], names.split())
        self.assertEqual(at.say("help x"), "nothing begins with 'x'; help lists every word\n")

    def test_votes(self):
        """A sheet prints the words that lay it; the table in hand stays as it is."""
        at = self.dialogue()
        sheet = at.say("VOTES 2 1 1 read 2 WRITE 3")
        self.assertIn("\na write needs 3 votes: one of these sets of stations\n  0003  0, 1: 3 votes\n", sheet)
        words = sheet[sheet.index("\nlay ") + 1:].splitlines()
        self.assertEqual(words, ["lay 3 1 0 read 0001 0006 write 0003 0005", "link 0 on", "link 1 on", "link 2 on"])
        self.assertEqual(at.say("show"), NO_TABLE + "\n")
        self.assertEqual([at.say(line) for line in words], [f"{line}: done\n" for line in words])
        self.assertIn("refused, 13 false votes: ", at.say("votes 0 read 1 write 1"))
        self.assertIn("refused, 14 too many sets", at.say("votes" + " 1" * 5 + " read 3 write 3"))
        self.assertEqual(at.say("votes 1"), "'read' and the votes that a read needs are missing\n")

    def test_trace(self):
        at = self.dialogue()
        self.assertEqual(at.say("trace"), "the file is missing: trace FILE\n")
        self.assertEqual(at.say("trace My Trace"), "there are no calls yet; nothing is written\n")
        for line in ("reach 0", LAY, "nonsense", "show", "poll 0", "link 0 on"):
            at.say(line)
        for count in (4, 4):
            self.assertEqual(at.say("trace My Trace"), f"traced in My Trace, {count} calls\n")
        text = self.path("My Trace").read_text()
        self.assertEqual(re.findall(r'"words":"(\w+)', text), ["reach", "lay", "poll", "link"])
        self.assertEqual(at.be_sure("save My Trace"), "My Trace: there is another sort of file; it is left as it is\n")
        self.assertEqual(at.say("save"), "the file is missing: save FILE\n")
        at.say("save t")
        self.assertEqual(at.be_sure("trace t"), "t: there is another sort of file; it is left as it is\n")
        self.assertEqual(self.path("t").read_bytes(), table(off=6))
        self.assertEqual(self.path("My Trace").read_text(), text)
        at.say("load t")
        self.assertEqual(at.say("trace My Trace"), "there are no calls yet; nothing is written\n")
        at.say("reach 0")
        self.assertEqual(at.say("trace My Trace"), OVER)
        self.assertEqual(at.say("trace My Trace"), "traced in My Trace, 1 call\n")
        self.assertEqual(at.say("trace none/t"), f"none/t: {NO_FILE}\n")
        self.assertEqual(at.be_sure("trace ."), ".: no ordinary file; it is left as it is\n")
        self.path("other", text.encode())
        self.assertEqual(at.say("trace other"), OVER)
        self.assertEqual(at.say("trace other"), "traced in other, 1 call\n")

    def test_errors_go_on(self):
        at = self.dialogue()
        for line, said in WRONG.items():
            if len(line) < 4000 and "\x1b" not in line and "\x01" not in line:
                with self.subTest(line[:80]):
                    self.assertIn(said, at.say(line))
        self.assertEqual(at.say(LAY), f"{LAY}: done\n")


class Files(Folder):
    def laid(self, *words):
        """A dialogue with a table of its own, which is saved nowhere."""
        at = self.dialogue(*words)
        at.say(LAY)
        return at

    def test_names_are_kept_as_typed(self):
        at = self.laid()
        for name in NAMES:
            with self.subTest(name):
                self.assertEqual(at.be_sure(f"SAVE   {name}  "), f"saved in {name}, 224 bytes\n")
                self.assertEqual(at.say(f"Load {name}"), f"loaded {name}, 224 bytes\n")
        self.assertEqual(self.names(), sorted(set(NAMES) - {"./t"}))

    def test_save_without_a_name(self):
        """To the file of the last load or save that was done."""
        self.path("a", OLD)
        at = self.dialogue("a")
        steps = {"link 0 off": "", "save": "a", "save b": "b", "save none/c": "", "trace d": "", "link 1 off": "",
                 "SAVE": "b", "load a": "a", "load none": "", "link 2 off": "", "save ": "a"}
        for line, name in steps.items():
            said = at.say(line)
            if line.strip().lower() == "save":
                self.assertEqual(said, f"saved in {name}, 224 bytes\n")
        self.assertEqual(self.path("a").read_bytes(), table(off=5))
        self.assertEqual(self.path("b").read_bytes(), table(off=3))
        self.assertEqual(self.laid().say("save"), "the file is missing: save FILE\n")

    def test_round_is_saved(self):
        at = self.laid()
        for line in ("link 0 on", "open write 0 510", "poll 0", "save t"):
            at.say(line)
        shown = at.say("show")
        again = self.dialogue("t")
        self.assertEqual((again.prompt, again.say("show")), ("write 0> ", shown))

    def test_unsound(self):
        """They are refused, and the table in hand is kept."""
        for name, (contents, _) in UNSOUND.items():
            self.path(name, contents)
        at = self.laid()
        at.say("save t")
        shown = at.say("show")
        for name, (contents, said) in UNSOUND.items():
            with self.subTest(name):
                answer = at.say(f"load {name}")
                self.assertTrue(answer.startswith(f"{name}: {said}") and answer.endswith(f"{KEPT}\n"), answer)
                self.assertEqual(at.say("show"), shown)
                self.assertEqual(self.path(name).read_bytes(), contents)
        self.assertEqual(at.say("save"), "saved in t, 224 bytes\n")

    def test_unsound_at_the_start(self):
        for name, (contents, said) in UNSOUND.items():
            with self.subTest(name):
                self.path(name, contents)
                result = self.run_script("show\n", name)
                self.assertEqual((result.returncode, result.printed), (TROUBLE, ""))
                self.assertTrue(result.said.startswith(f"ospreyscreen: console: {name}: {said}"), result.said)

    def test_load_what_is_no_file(self):
        at = self.laid()
        at.say("save t")
        self.path("loop").symlink_to("loop")
        for name, said in {"none": NO_FILE, "none/t": NO_FILE, "t/t": "Not a directory", ".": "Is a directory",
                           "loop": "Too many levels of symbolic links", "/dev/null": "0 bytes",
                           "a" * 300: "File name too long", "/dev/zero": "longer than any table"}.items():
            with self.subTest(name[:80]):
                self.assertTrue(at.say(f"load {name}").startswith(f"{name}: {said}"))
                self.assertTrue(self.run_script("", name).said.startswith(f"ospreyscreen: console: {name}: {said}"))
        self.assertEqual(at.say("load /proc/self/mem")[:16], "/proc/self/mem: ")

    def test_load_from_a_pipe_that_nobody_writes(self):
        """It would wait for ever."""
        os.mkfifo(self.path("pipe"))
        result = self.run_script(f"{LAY}\nload pipe\n", timeout=2)
        self.assertEqual(result.returncode, TROUBLE)

    def test_no_table_is_kept_if_there_was_none(self):
        self.assertEqual(self.dialogue().say("load none"), f"none: {NO_FILE}\n")

    def picture(self):
        """The folder, to be compared with itself later."""
        return {path.name: (path.lstat().st_mode, path.lstat().st_ino, path.is_file() and path.read_bytes())
                for path in self.folder.iterdir()}

    def assert_not_saved(self, at, name, said):
        """Nothing changes in the folder, and the table is still not saved."""
        before = self.picture()
        with self.subTest(name[:80]):
            self.assertEqual(at.be_sure(f"save {name}"), f"{name}: {said}\n")
            self.assertEqual(self.picture(), before)
            self.assertEqual(at.say("quit"), UNSAVED)

    def test_save_over_other_files(self):
        at = self.laid()
        for name, (contents, _) in UNSOUND.items():
            if contents:
                self.path(name, contents)
                self.assert_not_saved(at, name, "there is another sort of file; it is left as it is")

    def test_save_where_no_file_can_be(self):
        at = self.laid()
        self.path("t", OLD)
        self.path("folder").mkdir()
        self.path("loop").symlink_to("loop")
        os.mkfifo(self.path("pipe"))
        for name in ("folder", "folder/", ".", "pipe", "/dev/null", "/dev/full", "/"):
            self.assert_not_saved(at, name, "no ordinary file; it is left as it is")
        for name, said in {"none/t": NO_FILE, "none/": NO_FILE, "t/t": "Not a directory", "t/": "Not a directory",
                           "loop": "Too many levels of symbolic links", "a" * 300: "File name too long"}.items():
            self.assert_not_saved(at, name, said)

    def test_save_over_tables(self):
        at = self.laid()
        self.path("other", table(n=1, copies=copy(config=configuration([1], [1]))))
        self.path("empty", b"")
        self.path("t", NEW)
        for name in ("other", "empty", "t"):
            self.assertEqual(at.be_sure(f"save {name}"), f"saved in {name}, 224 bytes\n")
            self.assertEqual(self.path(name).read_bytes(), table(off=7))
        self.assertEqual(self.names(), ["empty", "other", "t"])

    def test_links(self):
        """What a link leads to is replaced, and the link stays."""
        at = self.laid()
        self.path("folder").mkdir()
        self.path("folder/t", OLD)
        for name, target in {"link": "folder/t", "link to link": "link"}.items():
            self.path(name).symlink_to(target)
            self.assertEqual(at.be_sure(f"save {name}"), f"saved in {name}, 224 bytes\n")
            self.assertTrue(self.path(name).is_symlink())
            self.assertEqual(self.path("folder/t").read_bytes(), table(off=7))
        self.assertEqual([path.name for path in self.path("folder").iterdir()], ["t"])

    def test_link_to_nothing(self):
        self.path("link").symlink_to("t")
        self.assert_not_saved(self.laid(), "link", "a link that leads to nothing; it is left as it is")

    def test_permissions(self):
        """An existing file keeps its own, a new one gets those that the mask leaves."""
        for mask, mode in {0o022: 0o644, 0o077: 0o600, 0o002: 0o664, 0: 0o666}.items():
            name = f"mask {mask:o}"
            result = self.run_script(f"{LAY}\nsave {name}\n", program=PLAIN, preexec_fn=lambda: os.umask(mask))
            self.assertEqual((result.said, stat.S_IMODE(self.path(name).stat().st_mode)), ("", mode))
        for mode in (0o600, 0o640, 0o666, 0o755):
            self.path("t", OLD).chmod(mode)
            self.run_script(f"{LAY}\nsave t\n", program=PLAIN)
            self.assertEqual(stat.S_IMODE(self.path("t").stat().st_mode), mode)

    def run_as_somebody(self, script):
        """A script of somebody who is not root."""
        root = os.geteuid() == 0
        try:
            return self.run_script(script, program=PLAIN, **({"user": 65534, "group": 65534} if root else {}))
        except PermissionError:
            self.skipTest(f"{PLAIN} cannot be run by others")

    def test_no_permission(self):
        self.folder.chmod(0o777)
        self.path("secret", OLD).chmod(0)
        self.path("fixed", OLD).chmod(0o444)
        self.path("folder").mkdir()
        self.path("folder/t", OLD)
        self.path("folder").chmod(0o555)
        for line in ("load secret", "save secret", "save fixed", "save folder/new", "save folder/t"):
            with self.subTest(line):
                result = self.run_as_somebody(f"{LAY}\n{line}\n")
                name = line.split()[1]
                self.assertEqual(result.returncode, TROUBLE)
                self.assertTrue(result.said.startswith(f"ospreyscreen: console: line 2: {name}: Permission denied"))
        self.path("secret").chmod(0o600)
        for name in ("secret", "fixed", "folder/t"):
            self.assertEqual(self.path(name).read_bytes(), OLD)
        self.assertEqual(self.names(), ["fixed", "folder", "secret"])


if __name__ == "__main__":
    PLAIN, CHECKED = (os.path.abspath(name) for name in sys.argv[1:3])
    terminals.CHECKED = CHECKED
    unittest.main(argv=sys.argv[:1] + sys.argv[3:])
