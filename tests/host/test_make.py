"""Tests of the makefiles, in copies of the tree that have an rt of their own.

usage: test_make.py

That rt proves nothing: it writes a runner and an archive, each in the folder of
its crate, and records when it starts and ends. The copies' folders have a space
in their names.
"""

import os
import pathlib
import re
import shlex
import shutil
import subprocess
import tempfile
import time
import unittest

ROOT = pathlib.Path(__file__).resolve().parents[2]
NEEDED = ["Makefile", "README.md", "crates.txt", "ospreyscreen.pc.in", ".ci", "bench", "cli", "examples", "include",
          "tests", "tools"]
HOST = ["-f", "tests/host/host.mk"]
CC = shlex.split(os.environ.get("CC", "gcc"))

HERE = ["lib", "run", "tool", "tool-votes", "tool-form", "picture", "example", "votes", "standard-form", "stack",
        "install", "uninstall", "install-tool", "uninstall-tool", "test", "clean", "help"]
FORWARDED = ["test-host", "test-page", "test-faults", "test-machine", "soak", "season", "bench"]

RT = """#!/bin/sh
echo "start $*" >> "$RECORD"
sleep 0.1
if [ -z "$NOTHING" ]; then
    mkdir -p out
    case "$(basename "$PWD"): $*" in
    "frame_runner: run --cpu=x86-64") cp "$FAKES/runner" out/frame_runner ;;
    "ospreyscreen_c: lib --cpu=x86-64") cp "$FAKES/library.a" out/libospreyscreen_c.a ;;
    esac
fi
[ -z "$SAYS" ] || echo "$SAYS"
echo "end $*" >> "$RECORD"
exit "${STATUS:-0}"
"""

# Answers each line alike, up to one that it fails at.
RUNNER = """#!/bin/sh
while read -r line; do
    [ "$line" != FAIL ] || exit 3
    echo 0705%048d
done
""" % 0
REPLY = "commit: refused, 5 idle"

# A compiler whose programs print the words that they are given, and fail if one is "refused".
COMPILER = '#!/bin/sh\nwhile [ "$1" != -o ]; do shift; done\ncp "$FAKES/program" "$2"\n'
PROGRAM = '#!/bin/sh\nprintf "<%s>" "$@"\ncase "$*" in *refused*) exit 1 ;; esac\n'

# What the host tests are where only the top makefile is tested. One and two wait for each other.
STUB = """
.PHONY: bench
test-host: one two
test-page test-faults test-machine soak season bench:
	@echo "$@: $(LIB) $(RUNNER) $(SEED) $(CALLS) $(FRAME_LINES) $(SAMPLES)" >> "$(RECORD)"
one two:
	@touch $@; for i in 1 2 3 4 5 6 7 8 9 10; do test -e one -a -e two || sleep 0.1; done
	@test -e one -a -e two
"""


def write_script(path, text):
    path.parent.mkdir(exist_ok=True)
    path.write_text(text)
    path.chmod(0o755)


def copy_needed(tree):
    for name in NEEDED:
        if (ROOT / name).is_dir():
            shutil.copytree(ROOT / name, tree / name, ignore=shutil.ignore_patterns("__pycache__"))
        else:
            shutil.copy2(ROOT / name, tree / name)
    for crate in ("frame_runner", "ospreyscreen_c"):
        (tree / "crates" / crate / "src").mkdir(parents=True)
        (tree / "crates" / crate / "src" / "one.rt").touch()


def files_in(folder):
    return {path: path.lstat().st_mtime_ns for path in folder.rglob("*") if not path.is_dir()}


class MakeTest(unittest.TestCase):
    """A tree of its own for each test, and make in it."""

    def setUp(self):
        folder = tempfile.TemporaryDirectory()
        self.addCleanup(folder.cleanup)
        self.folder = pathlib.Path(folder.name)
        self.tree = self.folder / "a tree"
        self.fakes = self.folder / "fakes"
        self.record = self.folder / "record"
        self.tree.mkdir()
        copy_needed(self.tree)
        write_script(self.fakes / "rt", RT)
        write_script(self.fakes / "runner", RUNNER)
        (self.fakes / "library.a").write_bytes(b"!<arch>\n")

    def environment(self, given):
        """Nothing of the make that runs these tests, and what is given."""
        kept = {name: os.environ[name] for name in ("HOME", "TMPDIR", "CC", "CXX") if name in os.environ}
        return {**kept, "LC_ALL": "C", "PATH": f"{self.fakes}:{os.environ['PATH']}", "FAKES": str(self.fakes),
                "RECORD": str(self.record), **given}

    def start(self, *arguments, **given):
        return subprocess.Popen(["make", *arguments], cwd=self.tree, env=self.environment(given),
                                stdout=subprocess.PIPE, stderr=subprocess.STDOUT, text=True)

    def make(self, *arguments, status=0, **given):
        """What make prints; its status has to be this one."""
        process = self.start(*arguments, **given)
        text = process.communicate()[0]
        self.assertEqual(process.returncode, status, text)
        return text

    def use_compiler(self):
        """The word that has make take the compiler above."""
        write_script(self.fakes / "program", PROGRAM)
        write_script(self.fakes / "mycc", COMPILER)
        return "CC=mycc"

    def recorded(self):
        return self.record.read_text().splitlines() if self.record.exists() else []

    def use_stub(self):
        (self.tree / "tests" / "host" / "host.mk").write_text(STUB)

    def host_targets(self):
        """The targets that the host tests' makefile has."""
        text = (self.tree / "tests" / "host" / "host.mk").read_text().replace("\\\n", "")
        lists = re.findall(r"^(?:\.PHONY|TESTS)\s*:=?(.*)$", text, re.MULTILINE)
        return [name for names in lists for name in names.split() if "$" not in name]


class Run(MakeTest):
    def script(self, name, text):
        (self.tree / name).write_text(text)
        return f"SCRIPT={name}"

    def test_example(self):
        frames = (ROOT / "examples" / "first-reading.hex").read_text().splitlines()
        self.assertEqual(self.make("run").count(REPLY), len(frames))

    def test_script(self):
        script = self.script("it's a script.hex", "07\n07\n")
        self.assertEqual(self.make("run", script).count(REPLY), 2)

    def test_script_of_the_environment_is_not_ours(self):
        self.assertIn(REPLY, self.make("run", SCRIPT="typescript"))

    def test_runner_fails(self):
        script = self.script("bad.hex", "07\n07\nFAIL\n07\n")
        self.assertEqual(self.make("run", script, status=2).count(REPLY), 2)
        self.make("run")

    def test_script_is_missing(self):
        self.make("run")
        text = self.make("run", "SCRIPT=no script", status=2)
        self.assertIn("no script", text)
        self.assertNotIn(REPLY, text)


class Words(MakeTest):
    """The examples and the program's commands that are given words, with a compiler whose programs print them."""

    def words(self, target, *given, status=0, **environment):
        return self.make(target, self.use_compiler(), *given, status=status, **environment)

    def test_votes(self):
        self.assertIn("<2 1 1 1 1><3><4>", self.words("votes"))
        self.assertIn("<1 it's><a b><>", self.words("votes", "VOTES=1 it's", "READ=a b", "WRITE="))

    def test_standard_form(self):
        self.assertRegex(self.words("standard-form"), r"<3><[0-9A-F]{64}><[0-9A-F]{64}>")
        self.assertIn("<it's><a b><>", self.words("standard-form", "N=it's", "ONE=a b", "OTHER="))

    def test_words_of_the_environment_are_not_ours(self):
        self.assertIn("<2 1 1 1 1><3><4>", self.words("votes", VOTES="9", READ="9", WRITE="9"))
        self.assertIn("<3><0", self.words("standard-form", N="9", ONE="9", OTHER="9"))

    def test_refused(self):
        self.words("votes", "VOTES=refused", status=2)
        self.words("standard-form", "N=refused", status=2)

    def test_votes_of_the_tool(self):
        self.assertIn("<votes><2 1 1 1 1><read><3><write><4>", self.words("tool-votes"))
        self.assertIn("<1 it's><read><a b><write><>", self.words("tool-votes", "VOTES=1 it's", "READ=a b", "WRITE="))

    def test_form_of_the_tool(self):
        self.assertRegex(self.words("tool-form"), r"<form><3><[0-9A-F]{64}><[0-9A-F]{64}>")
        self.assertIn("<it's><a b><>", self.words("tool-form", "N=it's", "ONE=a b", "OTHER="))

    def test_words_of_the_environment_are_not_the_tools(self):
        self.assertIn("<2 1 1 1 1><read><3><write><4>", self.words("tool-votes", VOTES="9", READ="9", WRITE="9"))
        self.assertIn("<form><3><0", self.words("tool-form", N="9", ONE="9", OTHER="9"))

    def test_refused_by_the_tool(self):
        self.words("tool-votes", "VOTES=refused", status=2)
        self.words("tool-form", "N=refused", status=2)


class Rt(MakeTest):
    def assert_one_at_a_time(self, count):
        lines = [line for line in self.recorded() if line.startswith(("start", "end"))]
        self.assertEqual(len(lines), 2 * count)
        for start, end in zip(lines[::2], lines[1::2]):
            self.assertEqual(end, start.replace("start", "end"))

    def test_nothing_made(self):
        for made in ("build/frame_runner", "build/libospreyscreen.a"):
            with self.subTest(made):
                self.make(made, status=2, NOTHING="1")
                self.assertFalse((self.tree / made).exists())
                self.make(made)
                self.assertTrue((self.tree / made).stat().st_size)

    def test_once(self):
        self.make("lib", "build/frame_runner")
        self.make("lib", "build/frame_runner")
        self.assert_one_at_a_time(2)

    def test_parallel(self):
        self.make("-j2", "lib", "build/frame_runner")
        self.assert_one_at_a_time(2)

    def test_two_makes(self):
        makes = [self.start("lib"), self.start("build/frame_runner")]
        for process in makes:
            text = process.communicate()[0]
            self.assertEqual(process.returncode, 0, text)
        self.assert_one_at_a_time(2)

    def test_clean_waits(self):
        with self.start("lib") as process:
            while not self.recorded() and process.poll() is None:
                time.sleep(0.01)
            self.make("clean")
            self.assert_one_at_a_time(1)
            process.communicate()
        self.make("clean")
        left = [*(self.tree / "build").rglob("*"), *(self.tree / "crates").glob("*/out")]
        self.assertEqual(left, [self.tree / "build" / "rt.lock"])

    def test_gate_comes_first(self):
        """The host tests themselves may run several recipes at once."""
        self.use_stub()
        self.assertNotIn("jobserver", self.make("-j2", "test"))
        self.assert_one_at_a_time(3)
        self.assertEqual(self.recorded()[:2], ["start ci", "end ci"])
        self.assertTrue(self.recorded()[-1].startswith("test-faults:"))
        self.assertTrue((self.tree / "two").exists())


    def gate(self, **given):
        """The status of .ci/run, and what it prints."""
        ran = subprocess.run([self.tree / ".ci" / "run"], env=self.environment(given), capture_output=True, text=True,
                             check=False)
        return ran.returncode, ran.stdout

    def test_gate(self):
        """It is rt's status, but that a bad edit fails too."""
        good, bad = (f"rt: ok; handles allowed: none; must-fail edits: {edits}; every proof\n5 passed, 0 failed\n"
                     for edits in ("7 refused", "7 refused, 12 bad"))
        self.assertEqual(self.gate(SAYS=good.strip()), (0, good))
        self.assertEqual(self.gate(SAYS=bad.strip()), (1, bad))
        self.assertEqual(self.gate(SAYS="4 passed, 1 failed", STATUS="3"), (3, "4 passed, 1 failed\n"))
        self.assertEqual(self.recorded(), ["start ci", "end ci"] * 3)


class Dry(MakeTest):
    """make -n runs nothing and fails nowhere, in a tree where nothing is built."""

    def setUp(self):
        super().setUp()
        for name in ("cc", "gcc", "g++", "python3"):
            write_script(self.fakes / name, f'#!/bin/sh\necho "{name} $*" >> "$RECORD"\n')

    def assert_dry(self, *arguments):
        before = files_in(self.tree)
        with self.subTest(arguments):
            text = self.make("-n", *arguments, CC="gcc", CXX="g++")
            self.assertEqual(files_in(self.tree), before)
            self.assertEqual(set(self.recorded()) - {"gcc --version", "g++ --version"}, set())
            return text

    def test_host_tests(self):
        for target in self.host_targets():
            self.assert_dry(*HOST, target)
            self.assert_dry(*HOST, target, "LIB=no library.a")

    def test_all(self):
        real = set(self.host_targets())
        for target in FORWARDED:
            if target in real:
                self.assert_dry(target)
        self.use_stub()
        for target in HERE + FORWARDED:
            self.assert_dry(target)

    def test_help(self):
        named = re.findall(r"^make (\S+)", self.make("help"), re.MULTILINE)
        self.assertEqual(sorted(named), sorted(HERE + FORWARDED))

    def test_alone(self):
        self.assertEqual(self.assert_dry(), self.assert_dry("lib"))


class Install(MakeTest):
    FILES = ["include/ospreyscreen.h", "lib/libospreyscreen.a", "lib/pkgconfig/ospreyscreen.pc"]
    PROGRAM, PAGE = OF_THE_TOOL = ["bin/ospreyscreen", "share/man/man1/ospreyscreen.1"]
    PREFIX = "/opt/a b&c|d\\e'f"

    def setUp(self):
        super().setUp()
        self.image = self.folder / "an image"
        self.where = [f"PREFIX={self.PREFIX}", f"DESTDIR={self.image}"]
        self.root = pathlib.Path(str(self.image) + self.PREFIX)

    def installed(self):
        return sorted(str(path.relative_to(self.root)) for path in files_in(self.root))

    def test_install_and_uninstall(self):
        self.make("install", *self.where)
        self.assertEqual(self.installed(), self.FILES)
        self.assertEqual((self.root / self.FILES[0]).read_bytes(),
                         (ROOT / "include" / "ospreyscreen.h").read_bytes())
        (self.root / "lib" / "other.a").touch()
        self.make("uninstall", *self.where)
        self.assertEqual(self.installed(), ["lib/other.a"])

    def test_install_and_uninstall_the_tool(self):
        self.make("install", *self.where)
        self.make("install-tool", *self.where, self.use_compiler())
        self.assertEqual(self.installed(), sorted(self.FILES + self.OF_THE_TOOL))
        self.assertTrue(os.access(self.root / self.PROGRAM, os.X_OK))
        self.assertRegex((self.root / self.PAGE).read_text(), r'^\.TH OSPREYSCREEN 1 "" "ospreyscreen \d+\.\d+\.\d+"')
        self.make("uninstall-tool", *self.where)
        self.assertEqual(self.installed(), self.FILES)

    def test_uninstall_makes_nothing(self):
        self.make("uninstall", *self.where)
        self.make("uninstall-tool", *self.where)
        self.assertEqual(self.recorded(), [])

    def test_pkg_config(self):
        self.make("install", *self.where, "PREFIX=/opt/a b&c|d\\e")
        text = (self.image / "opt" / "a b&c|d\\e" / self.FILES[2]).read_text()
        self.assertEqual(shlex.split(text.splitlines()[0]), ["prefix=/opt/a b&c|d\\e"])
        self.assertRegex(text, r"(?m)^Version: \d+\.\d+\.\d+$")
        self.assertNotIn("@", text)


class Given(MakeTest):
    """What is given on the command line or in the environment."""

    def both(self, *arguments, **given):
        yield self.make(*arguments, *(f"{name}={value}" for name, value in given.items()))
        yield self.make(*arguments, **given)

    def test_forwarded(self):
        self.use_stub()
        given = {"SEED": "7", "CALLS": "9", "FRAME_LINES": "5", "SAMPLES": "3"}
        for target in FORWARDED[1:]:
            for _ in self.both(target, **given):
                said = self.recorded()[-1]
                self.assertEqual(said, f"{target}: build/libospreyscreen.a build/frame_runner 7 9 5 3")

    def test_used(self):
        for text in self.both("-n", *HOST, "soak", SEED="7", CALLS="9", FRAME_LINES="5"):
            self.assertEqual(set(re.findall(r"seed (\d+)", text)), {"7"})
            self.assertEqual(set(re.findall(r"--calls (\d+)", text)), {"9"})
            self.assertEqual(set(re.findall(r"--lines (\d+)", text)), {"5"})
        for text in self.both("-n", *HOST, "bench", SAMPLES="3"):
            self.assertEqual(set(re.findall(r"--samples (\d+)", text)), {"3"})

    def test_terminal(self):
        plain = self.make("-n", *HOST, "test-host")
        self.assertEqual(self.make("-n", *HOST, "test-host", LINES="24", COLUMNS="80"), plain)

    def seed(self, target):
        """The one seed of all that make would run."""
        seeds = set(re.findall(r"seed (\d+)", self.make("-n", *HOST, target)))
        self.assertEqual(len(seeds), 1)
        return int(seeds.pop())

    def test_seeds(self):
        self.assertEqual(self.seed("test-host"), 1)
        seeds = {self.seed("soak") for _ in range(4)}
        self.assertGreater(len(seeds), 1)
        self.assertLess(max(seeds), 2 ** 32)

    def test_seed_is_said(self):
        text = self.make("-n", *HOST, "test-calls", "test-frames")
        self.assertEqual(re.findall(r'^echo "(.*): seed 1"$', text, re.MULTILINE), ["test-calls", "test-frames"])

    def test_flags(self):
        given = ["CC=mycc", "CFLAGS=-DC", "LDFLAGS=-LL", "LDLIBS=-lx"]
        text = self.make("-n", "example", *given)
        self.assertEqual(len(re.findall(r"mycc -std=.* -DC -LL examples/.* -lx -o build/", text)), 2)
        text = self.make("-n", "tool", *given).replace("\\\n", "")
        self.assertRegex(text, r"mycc -std=.* -DC -LL +cli/.*\.c build/libospreyscreen.a -lx -o build/ospreyscreen")
        text = self.make("-n", *HOST, "build", *given)
        self.assertEqual(set(re.findall(r"mycc -std=.*( -\S+ -c) .*", text)), {" -DC -c"})
        linked = re.findall(r"^mycc (?!-std).*", text, re.MULTILINE)
        self.assertGreater(len(linked), 10)
        for line in linked:
            self.assertRegex(line, r" ?-DC -LL build/\S+.* -lx -o ")

    def test_each_file_is_made_once(self):
        made = re.findall(r" -o (\S+)$", self.make("-n", *HOST, "build", "test-example"), re.MULTILINE)
        self.assertGreater(len(made), 40)
        self.assertEqual(len(set(made)), len(made))

    def test_paths_with_spaces(self):
        text = self.make("-n", *HOST, "test-host", "RUNNER=a runner", "LIB=a library.a")
        for name in ("a runner", "a library.a"):
            self.assertEqual(text.count(f"'{name}'"), text.count(name))


# ---- Keys ----

QUESTION = '#include <stdio.h>\nint answer(void);\nint main(void) { printf("%d", answer()); return 0; }\n'


class Keys(MakeTest):
    """A program is linked with the archive that is there, whatever the times of the files."""

    def archive(self, answer):
        """An archive with a time long past."""
        source, compiled, archive = (self.folder / f"answer{suffix}" for suffix in (".c", ".o", " of ours.a"))
        source.write_text(f"int answer(void);\nint answer(void) {{ return {answer}; }}\n")
        archive.unlink(missing_ok=True)
        subprocess.run([*CC, "-c", source, "-o", compiled], check=True)
        subprocess.run(["ar", "rcs", archive, compiled], check=True)
        os.utime(archive, (1, 1))
        return archive

    def program(self, *given):
        """Where the first example is linked."""
        text = self.make("-n", *HOST, "--always-make", "build", *given)
        return re.search(r"-o (build/host/\S+/plain/examples/first_reading)$", text, re.MULTILINE).group(1)

    def answer(self, *given):
        program = self.program(*given)
        self.make(*HOST, program, *given)
        return subprocess.run([self.tree / program], capture_output=True, text=True, check=True).stdout

    def test_archive(self):
        (self.tree / "examples" / "first_reading.c").write_text(QUESTION)
        for answer in (1, 2, 1, 3):
            archive = self.archive(answer)
            self.assertEqual(self.answer(f"LIB={archive}"), str(answer))

    def test_flags(self):
        given = ["CC=gcc -DX", "CXX=g++ -DX", "CFLAGS=-DX", "LDFLAGS=-LX", "LDLIBS=-lX", "CFLAGS=-DX='\"x y\"'"]
        programs = [self.program(), *(self.program(word) for word in given)]
        self.assertEqual(len({program.split("/")[2] for program in programs}), len(programs))
        self.assertEqual(self.program(), programs[0])

    def test_compiler(self):
        compiler = self.folder / "compiler"
        compilers = []
        for version in ("one", "two"):
            write_script(compiler, f"#!/bin/sh\necho {version}\n")
            compilers.append(self.program(f"CC={compiler}"))
        self.assertNotEqual(*compilers)

    def test_missing_library(self):
        text = self.make(*HOST, "test-archive", "LIB=no library.a", status=2)
        self.assertIn("no library at no library.a", text)


if __name__ == "__main__":
    unittest.main()
