"""Tests of examples/standard_form.c: what it prints, and how it ends.

usage: test_form_example.py PROGRAM

PROGRAM is the example.
"""

import subprocess
import sys
import unittest

PROGRAM = ""
ONE_HOUSE, TWO_HOUSES, TROUBLE = 0, 1, 2


def digits(*sides):
    """A configuration of these read sets and write sets, as digits."""
    return "".join("".join(f"{s & 255:02X}{s >> 8:02X}" for s in side) + "0000" * (8 - len(side)) for side in sides)


PAIRS = digits([3, 5, 6], [3, 5, 6])
SHUFFLED = digits([6, 7, 3, 5, 3], [5, 3, 6])
LAST = digits([0x8000, 0xFFFF], [0x8001, 0x8000])

# Two sheets for one house, and its standard form.
ONE = {
    ("3", PAIRS, PAIRS): PAIRS,
    ("3", PAIRS, SHUFFLED): PAIRS,
    ("16", SHUFFLED, PAIRS): PAIRS,
    ("16", LAST, digits([0x8000], [0x8000] * 8)): digits([0x8000], [0x8000]),
}

# Two sheets for two houses, and what passes by one alone.
TWO = {
    ("3", PAIRS, digits([3, 5], [3, 5, 6])): ["0006 reads by ONE alone"],
    ("3", digits([1], [1]), digits([3], [1])): ["0001 reads by ONE alone"],
    ("3", digits([3], [1]), digits([1], [3])): ["0001 writes by ONE alone", "0001 reads by OTHER alone"],
}

# Sheets that are refused, and what is said of them.
REFUSALS = {
    ("2", PAIRS, PAIRS): "refused, 3 false configuration",
    ("3", PAIRS, digits([3, 0, 5], [3])): "refused, 3 false configuration",
    ("0", PAIRS, PAIRS): "refused, 2 no such number of stations",
    ("17", PAIRS, PAIRS): "refused, 2 no such number of stations",
    ("18446744073709551615", PAIRS, PAIRS): "refused, 2 no such number of stations",
}

# Words that are none, and a part of what is said of them.
WRONG = {
    (): "usage: standard_form N ONE OTHER",
    ("3", PAIRS): "usage: standard_form N ONE OTHER",
    ("", PAIRS, PAIRS): "N: '' is no number of stations",
    ("-1", PAIRS, PAIRS): "N: '-1' is no number of stations",
    ("18446744073709551616", PAIRS, PAIRS): "is no number of stations",
    ("3", PAIRS[1:], PAIRS): "ONE: '300",
    ("3", PAIRS, PAIRS + "0"): "OTHER: '0300",
    ("3", PAIRS, ""): "OTHER: '' is not 64 digits",
    ("3", PAIRS, "x" + PAIRS[1:]): "is not 64 digits",
    ("3", PAIRS, PAIRS.replace("0", "a")): "is not 64 digits",
}


def run(words):
    return subprocess.run([PROGRAM, *words], capture_output=True, text=True, check=False)


class FormExample(unittest.TestCase):
    def printed(self, words, status):
        """The lines that are printed."""
        result = run(words)
        self.assertEqual((result.returncode, result.stderr), (status, ""))
        return result.stdout.splitlines()

    def test_one_house(self):
        for words, form in ONE.items():
            with self.subTest(words):
                self.assertEqual(self.printed(words, ONE_HOUSE)[-1], form)

    def test_two_houses(self):
        for words, alone in TWO.items():
            with self.subTest(words):
                lines = self.printed(words, TWO_HOUSES)
                self.assertEqual([line.strip() for line in lines[lines.index("two houses") + 1:]], alone)

    def test_refusals(self):
        for words, said in REFUSALS.items():
            with self.subTest(words):
                self.assertEqual(self.printed(words, TROUBLE)[-1], said)

    def test_wrong_words(self):
        for words, said in WRONG.items():
            with self.subTest(words):
                result = run(words)
                self.assertEqual(result.returncode, TROUBLE)
                self.assertIn(said, result.stderr)


if __name__ == "__main__":
    PROGRAM = sys.argv[1]
    unittest.main(argv=sys.argv[:1])
