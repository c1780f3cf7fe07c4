"""Tests of the library's archive: what it calls, what it exports, what it holds.

usage: test_archive.py [ARCHIVE HEADER]

- It calls memmove and nothing else outside itself.
- Its global symbols are the functions that HEADER declares, and no others.
- Its other symbols are local functions and local constants.
- No section that a program could write to has a byte in it.

Without ARCHIVE only planted archives are looked at: a good one, and others that
are bad in one way each. CC compiles them, gcc if the environment has none.
"""

import os
import pathlib
import re
import shlex
import subprocess
import sys
import tempfile
import unittest

ARCHIVE, HEADER = "", ""
CC = shlex.split(os.environ.get("CC", "gcc"))

CALLED = {"memmove"}
COMMENT = re.compile(r"/\*.*?\*/", re.DOTALL)
DECLARED = re.compile(r"\b(ospreyscreen_\w+)\s*\(")
SYMBOL = re.compile(r"^[0-9a-f ]{16} (\S) (.+)$", re.MULTILINE)
SECTION = re.compile(r"^ +\d+ (\S+) +([0-9a-f]+) .* 2\*\*\d+ +(.+)$", re.MULTILINE)


def output_of(command):
    return subprocess.run(command, capture_output=True, text=True, check=True).stdout


def declared(header):
    """The functions that a header's text declares."""
    return set(DECLARED.findall(COMMENT.sub("", header)))


def wrong_symbols(archive, functions):
    """What is wrong with the symbols, each of which has a kind (a letter of nm) and a name."""
    symbols = SYMBOL.findall(output_of(["nm", str(archive)]))
    called = {name for kind, name in symbols if kind == "U"}
    exported = {name for kind, name in symbols if kind == "T"}
    wrong = {f"calls {name}" for name in called - CALLED}
    wrong |= {f"does not call {name}" for name in CALLED - called}
    wrong |= {f"exports {name}" for name in exported - functions}
    wrong |= {f"does not export {name}" for name in functions - exported}
    return wrong | {f"has {name} of kind {kind}" for kind, name in symbols if kind not in "UTtr"}


def wrong_sections(archive):
    """The sections that are in memory, can be written to and are not empty."""
    sections = SECTION.findall(output_of(["objdump", "-h", "-w", str(archive)]))
    return {f"has data in {name}" for name, size, flags in sections
            if int(size, 16) and "ALLOC" in flags and "READONLY" not in flags}


def wrong(archive, header):
    return wrong_symbols(archive, declared(header)) | wrong_sections(archive)


class Archive(unittest.TestCase):
    def test_archive(self):
        if not ARCHIVE:
            self.skipTest("no archive given")
        header = pathlib.Path(HEADER).read_text()
        self.assertNotEqual(declared(header), set())
        self.assertEqual(wrong(ARCHIVE, header), set())


# ---- Planted archives ----

PLANTED_HEADER = """
/* Not ospreyscreen_never(void). */
int ospreyscreen_one(char *to, const char *from, unsigned long size);
int ospreyscreen_two (int number);
"""

ONE = """
void *memmove(void *to, const void *from, unsigned long size);
static __attribute__((noinline)) int local(int number) { return number * number; }
int ospreyscreen_one(char *to, const char *from, unsigned long size)
{
    memmove(to, from, size);
    return local(to[0]);
}
"""
TWO = "int ospreyscreen_two(int number) { return number + 2; }\n"

# What is put in TWO's place, and a part of what has to be found wrong.
BAD = {
    "a call": ("void *malloc(unsigned long);\nint ospreyscreen_two(int n) { return malloc(n) != 0; }", "calls malloc"),
    "a function too few": ("", "does not export ospreyscreen_two"),
    "a function too many": (TWO + "int ospreyscreen_three(void) { return 3; }", "exports ospreyscreen_three"),
    "another name": (TWO + "int helper(void) { return 3; }", "exports helper"),
    "a weak function": (TWO + "__attribute__((weak)) int helper(void) { return 3; }", "has helper of kind W"),
    "a local function": ("static __attribute__((used)) int ospreyscreen_two(int n) { return n; }",
                         "does not export ospreyscreen_two"),
    "a static variable": ("int ospreyscreen_two(int n) { static int sum; return sum += n; }", "has data in .bss"),
    "a static value": ("int ospreyscreen_two(int n) { static int sum = 1; return sum += n; }", "has data in .data"),
    "a global variable": (TWO + "int shared;", "has shared of kind B"),
    "a common variable": (TWO + "__attribute__((common)) int shared;", "has shared of kind C"),
    "a thread's variable": ("int ospreyscreen_two(int n) { static __thread int sum; return sum += n; }",
                            "has data in .tbss"),
    "a global constant": (TWO + "extern const int three; const int three = 3;", "has three of kind R"),
}


def archive_of(folder, text):
    source, compiled, archive = (folder / f"planted{suffix}" for suffix in (".c", ".o", ".a"))
    source.write_text(text)
    archive.unlink(missing_ok=True)
    output_of([*CC, "-O1", "-fno-builtin", "-fno-stack-protector", "-c", str(source), "-o", str(compiled)])
    output_of(["ar", "rcs", str(archive), str(compiled)])
    return archive


class Planted(unittest.TestCase):
    def setUp(self):
        folder = tempfile.TemporaryDirectory()
        self.addCleanup(folder.cleanup)
        self.folder = pathlib.Path(folder.name)

    def test_header(self):
        self.assertEqual(declared(PLANTED_HEADER), {"ospreyscreen_one", "ospreyscreen_two"})

    def test_good(self):
        self.assertEqual(wrong(archive_of(self.folder, ONE + TWO), PLANTED_HEADER), set())

    def test_local_constant(self):
        text = ONE + "int ospreyscreen_two(int n) { static const int odd[] = {1, 3, 7}; return odd[n]; }"
        self.assertEqual(wrong(archive_of(self.folder, text), PLANTED_HEADER), set())

    def test_bad(self):
        for name, (text, found) in BAD.items():
            with self.subTest(name):
                self.assertIn(found, wrong(archive_of(self.folder, ONE + text), PLANTED_HEADER))

    def test_no_call(self):
        text = ONE.replace("memmove(to, from, size);", "to[0] = from[size];") + TWO
        self.assertEqual(wrong(archive_of(self.folder, text), PLANTED_HEADER), {"does not call memmove"})


if __name__ == "__main__":
    if len(sys.argv) > 1:
        ARCHIVE, HEADER = sys.argv[1:3]
    unittest.main(argv=sys.argv[:1])
