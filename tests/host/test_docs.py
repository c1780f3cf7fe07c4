"""Holds the documents to the programs and the files that they speak of.

usage: test_docs.py RUNNER FORMAT_DUMP VOTES STANDARD_FORM OSPREYSCREEN

- Blocks that begin with ```frames: words of tools/frames, each followed by a
  line with # and the reply. The runner has to give these replies. A block that
  does not begin with a lay goes on from the block before it.
- Blocks that begin with ```configuration: what a configuration of n stations
  survives, its words and its bytes. The runner has to find it valid, and is
  asked for the reach with every set of stations off the bus.
- The block that begins with ```dump: FORMAT_DUMP has to print the same bytes.
- Blocks that begin with ```votes or ```sheets: a make command and a line. The
  example, VOTES or STANDARD_FORM, has to print that line.
- Blocks that begin with ```console: what stands on a terminal in a session of
  OSPREYSCREEN's console, prompts and what is typed behind them included. A
  block that does not begin with a lay goes on from the block before it.
- Blocks that begin with ```command: a command of OSPREYSCREEN and a line that it
  has to print.
- docs/tray.svg: tools/picture has to draw the same of examples/tray.txt.
- Tables of frames: their calls and lengths are those that the runner knows.
- Names of files and folders: each has to be there.
- Names of definitions in docs/CLAIMS.md and docs/PROOFS.md: each has to stand
  in some file of the crates.
"""

import functools
import itertools
import math
import os
import pathlib
import pty
import re
import shlex
import subprocess
import sys
import tempfile
import unittest

ROOT = pathlib.Path(__file__).resolve().parents[2]
FRAMES = [sys.executable, str(ROOT / "tools" / "frames")]
DOCUMENTS = [ROOT / "README.md", *sorted((ROOT / "docs").glob("*.md"))]
RUNNER, FORMAT_DUMP, VOTES, STANDARD_FORM, OSPREYSCREEN = "", "", "", "", ""

PROMPT = re.compile(r"(?:(?:read|write|change) \d+)?> ")
SURVIVES = re.compile(r"(?:reads|writes) survive (?:no|any (\d+)) drops?(?:, and (\d+) of (\d+) choices of (\d+))?")
FRAME_ROW = re.compile(r"^\| ([0-9A-F]{2}) \| ([a-z ]+) \|.*\| (\d+) \|$", re.MULTILINE)
PATH = re.compile(r"`([\w.-]+(?:/[\w.-]+)*/?)`")
DEFINED = re.compile(r"`(?:\w+::)*([A-Za-z][\w-]*)`")
MADE = ("build/", "target/")
ANY_CRATE = ("specs/", "proofs/")
NOTHING, READ = 0, 1
LONGEST_FRAME, FALSE_FRAME = 43, "0C"


def output_of(command, text=""):
    result = subprocess.run(command, input=text, capture_output=True, text=True, check=True)
    return result.stdout


def replies_to(words):
    """The words of the runner's replies to the words of frames."""
    frames = output_of([*FRAMES, "encode"], "\n".join(words) + "\n")
    return output_of([*FRAMES, "decode"], output_of([RUNNER], frames)).splitlines()


def blocks(document, kind):
    """The blocks of the kind, each a list of lines that are not empty."""
    found = re.findall(rf"^```{kind}\n(.*?)^```$", document.read_text(), re.MULTILINE | re.DOTALL)
    return [[line for line in block.splitlines() if line.strip()] for block in found]


def all_blocks(kind):
    return [(document.name, block) for document in DOCUMENTS for block in blocks(document, kind)]


# ---- The console ----

def read_until(terminal, text):
    """What a terminal shows until it ends so, or until the program has gone."""
    shown = ""
    while not text.search(shown):
        try:
            shown += os.read(terminal, 65536).decode()
        except OSError:
            break
    return shown


def transcript(typed):
    """All that a plain terminal shows of a console in which these lines are typed, but for the greeting."""
    waiting = re.compile(rf"(?:^|\n){PROMPT.pattern}$")
    with tempfile.TemporaryDirectory() as folder:
        process, terminal = pty.fork()
        if process == 0:
            os.chdir(folder)
            os.execvpe(OSPREYSCREEN, [OSPREYSCREEN, "console"], {**os.environ, "TERM": "dumb"})
        shown = read_until(terminal, waiting).splitlines()[-1]
        for line in typed:
            os.write(terminal, line.encode() + b"\n")
            shown += read_until(terminal, waiting)
        os.close(terminal)
        os.waitpid(process, 0)
    return shown.replace("\r", "").splitlines()


# ---- What a configuration survives ----

@functools.lru_cache(maxsize=None)
def reaches(n, words, drops):
    """The reach of an item with each choice of so many stations off."""
    script, choices = [], list(itertools.combinations(range(n), drops))
    for choice in choices:
        script.append(f"lay {n} 1 0 {words}")
        script += [f"link {station} on" for station in range(n) if station not in choice]
        script.append("reach 0")
    replies = [reply for reply in replies_to(script) if reply.startswith("reach: done")]
    assert len(replies) == len(choices), f"not valid: {words}"
    return [int(reply.split()[2]) for reply in replies]


def survives(n, words, above):
    """How many drops any choice of survives, and the choices of one more."""
    for drops in range(n + 1):
        good = sum(reach > above for reach in reaches(n, words, drops))
        if good < math.comb(n, drops):
            return drops - 1, good, math.comb(n, drops), drops
    return None


class Documents(unittest.TestCase):
    def test_sessions(self):
        session = []
        for name, block in all_blocks("frames"):
            words = [line for line in block if not line.startswith("#")]
            expected = [line.lstrip("# ") for line in block if line.startswith("#")]
            session = words if words[0].startswith("lay") else session + words
            with self.subTest(document=name, words=words[:2]):
                self.assertEqual(replies_to(session)[-len(words):], expected)

    def test_configurations(self):
        for name, block in all_blocks("configuration"):
            stations, *claims, words, digits = block
            with self.subTest(document=name, words=words):
                n = int(stations.split()[0])
                frame = output_of([*FRAMES, "encode"], f"open change 0 {words}\n").strip()
                self.assertEqual(frame, "0400" + digits)
                for claim, above in zip(claims, (NOTHING, READ), strict=True):
                    said = [int(number or 0) for number in SURVIVES.fullmatch(claim).groups()]
                    any_drops, good, choices, drops = survives(n, words, above)
                    more = [good, choices, drops] if good else [0, 0, 0]
                    self.assertEqual(said, [any_drops, *more], claim)

    def hold_examples(self, kind, example, words):
        sheets = all_blocks(kind)
        self.assertNotEqual(sheets, [])
        for name, (command, line) in sheets:
            with self.subTest(document=name, command=command):
                make, target, *given = shlex.split(command)
                given = [word.split("=", 1) for word in given]
                self.assertEqual([make, target, *(word for word, _ in given)], ["make", *words])
                printed = subprocess.run([example, *(text for _, text in given)], capture_output=True, text=True).stdout
                self.assertIn(line, printed.splitlines())

    def test_votes(self):
        self.hold_examples("votes", VOTES, ["votes", "VOTES", "READ", "WRITE"])

    def test_sheets(self):
        self.hold_examples("sheets", STANDARD_FORM, ["standard-form", "N", "ONE", "OTHER"])

    def test_consoles(self):
        typed = []
        for name, block in all_blocks("console"):
            lines = [PROMPT.sub("", line, count=1) for line in block if PROMPT.match(line)]
            typed = lines if lines[0].startswith("lay") else typed + lines
            with self.subTest(document=name, typed=lines[:2]):
                shown = [line for line in transcript(typed) if not PROMPT.fullmatch(line)]
                self.assertEqual(shown[-len(block):], block)

    def test_commands(self):
        commands = all_blocks("command")
        self.assertNotEqual(commands, [])
        for name, (command, line) in commands:
            with self.subTest(document=name, command=command):
                program, *given = shlex.split(command)
                self.assertEqual(program, "ospreyscreen")
                said = subprocess.run([OSPREYSCREEN, *given], capture_output=True, text=True, check=False)
                self.assertIn(line, (said.stdout + said.stderr).splitlines())

    def test_picture(self):
        words = (ROOT / "examples" / "tray.txt").read_text()
        trace = output_of([OSPREYSCREEN, "trace"], output_of([*FRAMES, "encode", "--stop"], words))
        drawn = output_of([sys.executable, str(ROOT / "tools" / "picture"), "--svg"], trace)
        self.assertEqual((ROOT / "docs" / "tray.svg").read_text(), drawn)

    def test_dump(self):
        printed = output_of([FORMAT_DUMP]).splitlines()
        (_, shown), = all_blocks("dump")
        self.assertEqual([line[:len(printed[0])].rstrip() for line in shown], printed)


class FrameTables(unittest.TestCase):
    def known(self):
        """Code, name and length of every frame that the runner knows."""
        frames = [f"{code:02X}" + "00" * more for code in range(256) for more in range(LONGEST_FRAME + 1)]
        replies = output_of([RUNNER], "\n".join(frames) + "\n").splitlines()
        good = [(frame, reply) for frame, reply in zip(frames, replies, strict=True) if reply[2:4] != FALSE_FRAME]
        names = output_of([*FRAMES, "decode"], "\n".join(reply for _, reply in good) + "\n").splitlines()
        return [(frame[:2], name.split(":")[0], str(len(frame) // 2)) for (frame, _), name in zip(good, names)]

    def test_frame_tables(self):
        known = self.known()
        for name in ("README.md", "docs/FORMAT.md"):
            with self.subTest(document=name):
                self.assertEqual(FRAME_ROW.findall((ROOT / name).read_text()), known)


# ---- Names ----

def places_of(name, folder):
    """Where a name may stand: from the root, from crates/, or beside the last."""
    return [ROOT / name, ROOT / "crates" / name, *([folder / name] if folder else [])]


def missing_names(document):
    """The names of files and folders in the document that are nowhere."""
    missing, folder = [], None
    for line in document.read_text().splitlines():
        for name in PATH.findall(line):
            is_file = re.search(r"\.(antt|rt|md|c|h|py|mk|hex|txt|in|svg|expected)$", name)
            if not (is_file or "/" in name) or name in ANY_CRATE or name.startswith(MADE):
                continue
            found = [place for place in places_of(name, folder) if place.exists()]
            if not found:
                missing.append(name)
            elif "/" in name:
                folder = found[0] if found[0].is_dir() else found[0].parent
    return missing


def words_of_crates():
    """Every word in the files of the crates, and the names of the crates."""
    words = {crate.name for crate in (ROOT / "crates").iterdir()}
    for path in (ROOT / "crates").rglob("*"):
        if path.suffix in (".antt", ".rt") and "out" not in path.parts:
            words.update(re.findall(r"[A-Za-z][\w-]*", path.read_text()))
    return words


class Names(unittest.TestCase):
    def test_definitions(self):
        words = words_of_crates()
        for name in ("CLAIMS.md", "PROOFS.md"):
            with self.subTest(document=name):
                cited = DEFINED.findall((ROOT / "docs" / name).read_text())
                self.assertEqual([word for word in cited if word not in words], [])

    def test_files(self):
        # These two tell of names that there were.
        for document in [it for it in DOCUMENTS if it.name not in ("PORT.md", "DESIGN-PASS.md")]:
            with self.subTest(document=document.name):
                self.assertEqual(missing_names(document), [])


if __name__ == "__main__":
    RUNNER, FORMAT_DUMP, VOTES, STANDARD_FORM = sys.argv[1:5]
    OSPREYSCREEN = str(pathlib.Path(sys.argv[5]).resolve())
    unittest.main(argv=sys.argv[:1])
