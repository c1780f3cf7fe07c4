"""Tests of examples/votes.c: what it prints, and how it ends.

usage: test_votes_example.py PROGRAM RUNNER

PROGRAM is the example. RUNNER is the frame runner, which is given the frames
that it prints.
"""

import subprocess
import sys
import unittest

PROGRAM, RUNNER = "", ""
REFUSED, NOT_READ = 1, 2
LAID = "01" + "0" * 50
LINKED = "09" + "0" * 50
REACHED = "0A0003" + "0" * 46

# Sheets that are done, and the read and write sets: stations and votes.
DONE = {
    ("1", "1", "1"): (["0: 1 vote"], ["0: 1 vote"]),
    ("1 1 1", "2", "2"): (["0, 1: 2 votes", "0, 2: 2 votes", "1, 2: 2 votes"],) * 2,
    (" 1\t0 3 ", " 2", "3 "): (["2: 3 votes"], ["2: 3 votes"]),
    ("0 " * 15 + "255", "1", "255"): (["15: 255 votes"],) * 2,
    ("007 1", "000000000000000000000000000008", "1"): (["0, 1: 8 votes"], ["0: 7 votes", "1: 1 vote"]),
}

# Sheets that are refused, and what is said of them.
REFUSALS = {
    ("1 1 1", "1", "1"): "13 false votes: the thresholds together, 2, do not exceed the 3 votes",
    ("1 1 1", "2", "1"): "13 false votes: the thresholds together, 3, do not exceed the 3 votes",
    ("1", "0", "1"): "13 false votes: the read threshold is 0",
    ("1 1", "2", "0"): "13 false votes: the write threshold is 0",
    ("1", "70000", "1"): "13 false votes: the read threshold, 70000, is above the 1 vote",
    ("1 1", "1", "18446744073709551615"):
        "13 false votes: the write threshold, 18446744073709551615, is above the 2 votes",
    ("0 0", "1", "1"): "13 false votes: no station has a vote",
    ("1 " * 17, "9", "9"): "13 false votes: 17 stations, and there may be 16",
    ("1 " * 64, "9", "9"): "13 false votes: 64 stations, and there may be 16",
    ("1 " * 9, "1", "9"): "14 too many sets: more than 8 smallest sets reach the read threshold, 1",
    ("1 " * 9, "9", "8"): "14 too many sets: more than 8 smallest sets reach the write threshold, 8",
    ("1 " * 9, "5", "6"): "14 too many sets: more than 8 smallest sets reach the read threshold, 5,"
                          " and more than 8 smallest sets reach the write threshold, 6",
}

# Words that are no sheet, and a part of what is said of them.
WRONG = {
    (): "usage: votes VOTES READ WRITE",
    ("1 1", "2"): "usage: votes VOTES READ WRITE",
    ("1", "1", "2", "2"): "usage: votes VOTES READ WRITE",
    ("", "1", "1"): "VOTES: '' has no number in it",
    (" ", "1", "1"): "VOTES: ' ' has no number in it",
    ("1 x", "1", "1"): "VOTES: 'x' is no number",
    ("1,1", "1", "1"): "VOTES: '1,1' is no number",
    ("-1", "1", "1"): "VOTES: '-1' is no number",
    ("+1", "1", "1"): "VOTES: '+1' is no number",
    ("0x1", "1", "1"): "VOTES: '0x1' is no number",
    ("1 256", "1", "1"): "VOTES: '256' is above 255",
    ("9" * 100, "1", "1"): "is above 255",
    ("0" * 100, "1", "1"): "is above 255",
    ("1 " * 65, "1", "1"): "VOTES: '1 ' is left over",
    ("1", "", "1"): "READ: '' has no number in it",
    ("1", "1.5", "1"): "READ: '1.5' is no number",
    ("1", "1 1", "1"): "READ: '1 1' is more than one number",
    ("1", "1", "18446744073709551616"): "WRITE: '18446744073709551616' is too large",
    ("1", "1", "one"): "WRITE: 'one' is no number",
}


def run(words):
    return subprocess.run([PROGRAM, *words], capture_output=True, text=True, check=False)


def frames_in(lines):
    """The configuration's digits, the lay frame, and the frames of the links."""
    lay, = (i for i, line in enumerate(lines) if line.startswith("the frame that lays"))
    return lines[lay - 1], lines[lay + 1], lines[lay + 3:]


def sets_in(lines):
    """The sets of the read side and of the write side, without their digits."""
    sides = []
    for line in lines:
        if line.startswith("a "):
            sides.append([])
        elif line.startswith("  "):
            sides[-1].append(line[8:])
    return tuple(sides)


class VotesExample(unittest.TestCase):
    def test_done(self):
        for words, sets in DONE.items():
            with self.subTest(words):
                result = run(words)
                lines = result.stdout.splitlines()
                self.assertEqual((result.returncode, result.stderr), (0, ""))
                self.assertEqual(sets_in(lines), sets)
                digits, lay, links = frames_in(lines)
                self.assertEqual(len(digits), 64)
                self.assertTrue(lay.endswith(digits))
                self.assertEqual(len(links), len(words[0].split()))
                script = "\n".join([lay, *links, "0A00"])
                replies = subprocess.run([RUNNER], input=script, capture_output=True, text=True, check=True)
                self.assertEqual(replies.stdout.split(), [LAID, *[LINKED] * len(links), REACHED])

    def test_refusals(self):
        for words, said in REFUSALS.items():
            with self.subTest(words):
                result = run(words)
                self.assertEqual((result.returncode, result.stderr), (REFUSED, ""))
                self.assertEqual(result.stdout, f"refused, {said}\n")

    def test_wrong_words(self):
        for words, said in WRONG.items():
            with self.subTest(words):
                result = run(words)
                self.assertEqual((result.returncode, result.stdout), (NOT_READ, ""))
                self.assertIn(said, result.stderr)


if __name__ == "__main__":
    PROGRAM, RUNNER = sys.argv[1:3]
    unittest.main(argv=sys.argv[:1])
