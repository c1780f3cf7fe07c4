"""Tests of saves that are cut off: the file is the old table or the new one.

usage: test_save.py PLAIN INTERRUPT [TEST..]

PLAIN is the program. INTERRUPT is made of interrupt.c; it is loaded into the
program, and cuts a save off at one of its steps. The sanitizers cannot be loaded
beside it.
"""

import itertools
import os
import resource
import shutil
import signal
import subprocess
import sys
import termios
import unittest

import terminals
from terminals import ASKED, environment, Folder, LAY, OLD, table

PLAIN, INTERRUPT = "", ""
UNSAVED = f"the table is not saved, and would be lost{ASKED}"
TROUBLE = 2


# The system calls of a save; the last three are those of its folder.
STEPS = ["mkstemp", "write", "fsync", "fchmod", "close", "rename", "open", "fsync", "close"]
RENAME = STEPS.index("rename") + 1
ERRORS = {"ENOSPC": "No space left on device", "EIO": "Input/output error"}
CHANGED = table(off=1)
CHANGE = "link 0 off\nsave\n"

# On a disk of a few pages of its own: a save when it is full, and one when there is room again.
FULL_DISK = """mkdir disk && mount -t tmpfs -o size=16k none disk || exit 77
cp t disk/t
head -c 1000000 /dev/zero > disk/filler 2> /dev/null
printf 'link 0 off\\nsave\\n' | "$0" console disk/t
echo "status $?"
cmp t disk/t && ls -A disk
rm disk/filler
printf 'link 0 off\\nsave\\n' | "$0" console disk/t
ls -A disk
cp disk/t t
"""


class CutOff(Folder):
    def setUp(self):
        super().setUp()
        self.path("t", OLD)

    def interrupted(self, ways, *words, script=CHANGE):
        """A script whose save is interrupted."""
        given = {"LD_PRELOAD": INTERRUPT, "INTERRUPT": ways}
        return self.run_script(script, *words, program=PLAIN, env=environment(None, given))

    def assert_table(self, contents, name="t"):
        """It is there, it loads, and nothing is beside it."""
        self.assertEqual(self.path(name).read_bytes(), contents)
        self.assertEqual(self.run_script("", name, program=PLAIN).said, "")
        self.assertEqual(self.names(), sorted({"t", name}))

    def test_steps(self):
        """Those that are interrupted below are all that there are."""
        steps = self.folder.parent / f"{self.folder.name}.steps"
        self.addCleanup(steps.unlink)
        self.run_script(CHANGE, "t", program=PLAIN,
                        env=environment(None, {"LD_PRELOAD": INTERRUPT, "INTERRUPT_STEPS": str(steps)}))
        self.assertEqual(steps.read_text().split(), STEPS)
        self.assert_table(CHANGED)

    def test_errors(self):
        """Somebody types: the console goes on, with its table in hand, and the next save is done."""
        for step, (error, text) in itertools.product(range(1, len(STEPS) + 1), ERRORS.items()):
            with self.subTest(f"{error} at {step} {STEPS[step - 1]}"):
                self.path("t", OLD)
                at = self.dialogue("t", program=PLAIN, LD_PRELOAD=INTERRUPT, INTERRUPT=f"{step}={error}")
                at.say("link 0 off")
                shown = at.say("show")
                done = step > RENAME
                self.assertRegex(at.say("save"), r"\Asaved in t, 224 bytes\n" if done else rf"\A(.*/)?t: {text}\n\Z")
                self.assert_table(CHANGED if done else OLD)
                self.assertEqual(at.say("show"), shown)
                if not done:
                    self.assertEqual(at.say("quit"), UNSAVED)
                self.assertEqual(at.say("save"), "saved in t, 224 bytes\n")
                self.assert_table(CHANGED)

    def test_errors_in_a_script(self):
        for step in range(1, RENAME + 1):
            result = self.interrupted(f"{step}=EIO", "t")
            self.assertEqual(result.returncode, TROUBLE)
            self.assertRegex(result.said, r"\Aospreyscreen: console: line 2: (.*/)?t: Input/output error\b")
            self.assert_table(OLD)

    def test_errors_at_a_new_file(self):
        for step in range(1, RENAME + 1):
            result = self.interrupted(f"{step}=ENOSPC", script=f"{LAY}\nsave new\n")
            self.assertEqual((result.returncode, self.names()), (TROUBLE, ["t"]))

    def test_short_writes(self):
        for ways, done in {"2=short": True, "2=short 3=short 4=short": True, "2=EINTR": True, "2=EINTR 3=short": True,
                           "2=short 3=ENOSPC": False, "2=short 3=EIO": False}.items():
            with self.subTest(ways):
                self.path("t", OLD)
                self.assertEqual(self.interrupted(ways, "t").returncode, 0 if done else TROUBLE)
                self.assert_table(CHANGED if done else OLD)

    def test_killed(self):
        """One file may be left beside the table. The next save is done all the same."""
        ways = {f"{step}=SIGKILL": step > RENAME for step in range(1, len(STEPS) + 1)}
        for way, done in {**ways, "2=short 3=SIGKILL": False}.items():
            with self.subTest(way):
                self.path("t", OLD)
                self.assertEqual(self.interrupted(way, "t").returncode, -signal.SIGKILL)
                self.assertEqual(self.path("t").read_bytes(), CHANGED if done else OLD)
                left = [name for name in self.names() if name != "t"]
                self.assertLessEqual(len(left), 0 if done else 1)
                self.assertEqual(self.run_script("link 0 off\nsave\n", "t", program=PLAIN).said, "")
                for name in left:
                    self.assertTrue(name.startswith("t."))
                    self.path(name).unlink()
                self.assert_table(CHANGED)

    def test_ended(self):
        """A signal waits until the save is whole."""
        for step, number in itertools.product(range(1, len(STEPS) + 1), (signal.SIGTERM, signal.SIGINT, signal.SIGHUP)):
            with self.subTest(f"{number.name} at {step} {STEPS[step - 1]}"):
                self.path("t", OLD)
                self.assertEqual(self.interrupted(f"{step}={number.name}", "t").returncode, -number)
                self.assert_table(CHANGED)

    def test_ended_at_a_terminal(self):
        for step in (1, 3, RENAME, len(STEPS)):
            with self.subTest(step):
                self.path("t", OLD)
                at = self.terminal("t", program=PLAIN, LD_PRELOAD=INTERRUPT, INTERRUPT=f"{step}=SIGTERM")
                at.type("link 0 off\rsave\r")
                self.assertEqual(at.end(), -signal.SIGTERM)
                self.assertEqual(termios.tcgetattr(at.slave), at.modes)
                self.assert_table(CHANGED)

    def test_trace(self):
        """It is written as a table is."""
        for way in ("1=EIO", "2=ENOSPC", "2=short 3=ENOSPC", f"{RENAME}=EIO"):
            self.assertEqual(self.interrupted(way, "t", script="reach 0\ntrace new\n").returncode, TROUBLE)
            self.assert_table(OLD)

    def test_file_size_limit(self):
        limit = lambda: resource.setrlimit(resource.RLIMIT_FSIZE, (100, 100))
        result = self.run_script(CHANGE, "t", program=PLAIN, preexec_fn=limit)
        self.assertEqual(result.returncode, TROUBLE)
        self.assertRegex(result.said, r"\Aospreyscreen: console: line 2: (.*/)?t: File too large\b")
        self.assert_table(OLD)

    @unittest.skipUnless(shutil.which("unshare"), "unshare is not installed")
    def test_full_disk(self):
        result = subprocess.run(["unshare", "--user", "--map-root-user", "--mount", "sh", "-c", FULL_DISK, PLAIN],
                                cwd=self.folder, capture_output=True, text=True, check=False)
        if "status" not in result.stdout:
            self.skipTest(f"no disk can be mounted: {result.stderr.strip()}")
        self.assertRegex(result.stderr, r"\Aospreyscreen: console: line 2: (.*/)?disk/t: No space left on device\b")
        self.assertEqual(result.stdout.splitlines(),
                         ["link 0 off: done", "status 2", "filler", "t",
                          "link 0 off: done", "saved in disk/t, 224 bytes", "t"])
        self.assertEqual(self.path("t").read_bytes(), CHANGED)


if __name__ == "__main__":
    PLAIN, INTERRUPT = (os.path.abspath(name) for name in sys.argv[1:3])
    terminals.CHECKED = PLAIN
    unittest.main(argv=sys.argv[:1] + sys.argv[3:])
