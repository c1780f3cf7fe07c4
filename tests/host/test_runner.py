"""Tests of a frame runner; expected lines are document 01's or derived by hand.

usage: test_runner.py RUNNER
"""

import os
import pathlib
import pty
import select
import subprocess
import sys
import tty
import unittest

RUNNER = ""
EXAMPLE = pathlib.Path(__file__).resolve().parents[2] / "examples" / "first-reading.hex"

PAIRS = "030005000600" + "0" * 20
LAY = "010301F401000000000000" + PAIRS + PAIRS
LINKS = ["090001", "090101", "090201"]

READ_500 = "0700F40100000000000000000000000000000000000000000000"

# The frame case of document 01 after a link of each station, then a write of
# 510 through stations 0 and 1 and a read through stations 1 and 2, which are
# read place 2.
EXAMPLE_REPLIES = [
    "01" + "0" * 50,
    "09" + "0" * 50,
    "09" + "0" * 50,
    "09" + "0" * 50,
    "0200000000000000000000000000000000000000000000000000",
    "0502000000000000000000000000000000000000000000000000",
    "0500000000000000000000000000000000000000000000000000",
    "0500010000000000000000000000000000000000000000000000",
    READ_500,
    "0300" + "0" * 48,
    "0500" + "0" * 48,
    "050001" + "0" * 46,
    "0600" + "0" * 48,
    "0600" + "0" * 48,
    "0700FE010000000000000100000000000000" + "0" * 16,
    "0200" + "0" * 48,
    "0500" + "0" * 48,
    "050003" + "0" * 46,
    "0700FE010000000000000100000000000000" + "0" * 16,
]

# Lines that are no frames, with the call byte that their reply shows.
FALSE_LINES = [
    (b"", "00"), (b"0", "00"), (b"7", "00"), (b" 07", "00"), (b"07 ", "07"), (b"07\r", "07"),
    (b"\r", "00"), (b"\0", "00"), (b"07\0", "07"), (b"0700", "07"), (b"0", "00"), (b"05", "05"),
    (b"0500F", "05"), (b"050", "05"), (b"050001", "05"), (b"0a00", "00"), (b"0A0g", "0A"),
    (b"0A", "0A"), (b"0B00", "0B"), (b"0C", "0C"), (b"0C0000", "0C"), (b"0D", "0D"), (b"0D00", "0D"), (b"00", "00"),
    (b"FF", "FF"), (b"fF", "00"), (b"F0F0", "F0"),
    (b"GG", "00"), (b"0x05", "00"), (b"05\t0", "05"), (b"\xff07", "00"), (LAY.encode()[:-2], "01"),
    (LAY.encode() + b"00", "01"), (LAY.encode() + b"0", "01"), (LAY.encode().lower(), "01"),
    (b"0" * 100000, "00"), (b"07" * 50001, "07"), (b"F" * 65536, "FF"), (b"A" * 65537, "AA"),
]

# One frame of each call but lay.
OTHER_CALLS = ["0200", "0300" + "0" * 16, "0400" + PAIRS + PAIRS, "0500", "060001", "07", "08",
               "090001", "0A00", "0B", "0C00"]


def done(code, first=0, second=0, third=0):
    return f"{code}00" + "".join(f"{figure:02X}" + "0" * 14 for figure in (first, second, third))


def refused(code, number):
    return f"{code}{number:02X}" + "0" * 48


def run(data):
    result = subprocess.run([RUNNER], input=data, capture_output=True, check=True, timeout=60)
    return result.stdout


def replies(lines):
    output = run("".join(line + "\n" for line in lines).encode())
    return output.decode().splitlines()


def failing_input(data):
    """A descriptor that gives these bytes, and whose next read then fails with EIO.

    It is a pseudo-terminal's master: its slave is in raw mode, writes the bytes and is closed.
    """
    master, slave = pty.openpty()
    tty.setraw(slave)
    os.write(slave, data)
    os.close(slave)
    return master


def run_on(descriptor):
    """What the runner prints; its exit status is its own affair where a read fails."""
    try:
        result = subprocess.run([RUNNER], stdin=descriptor, capture_output=True, check=False,
                                timeout=60)
    finally:
        os.close(descriptor)
    return result.stdout


class Runner(unittest.TestCase):
    def test_example(self):
        self.assertEqual(replies(EXAMPLE.read_text().splitlines()), EXAMPLE_REPLIES)

    def test_false_lines(self):
        output = run(b"".join(line + b"\n" for line, _ in FALSE_LINES))
        expected = [refused(code, 12) for _, code in FALSE_LINES]
        self.assertEqual(output.decode().splitlines(), expected)

    def test_ends_of_lines(self):
        self.assertEqual(run(b""), b"")
        self.assertEqual(run(b"\n"), refused("00", 12).encode() + b"\n")
        self.assertEqual(run(b"07"), refused("07", 1).encode() + b"\n")
        self.assertEqual(run(b"07\n"), refused("07", 1).encode() + b"\n")
        self.assertEqual(run(b"\n\n0"), 3 * (refused("00", 12).encode() + b"\n"))

    def test_no_table_before_a_lay(self):
        got = replies(OTHER_CALLS + ["01" + "00" * 42] + OTHER_CALLS)
        unsound = [refused(line[:2], 1) for line in OTHER_CALLS]
        self.assertEqual(got, unsound + [refused("01", 2)] + unsound)

    def test_refused_lay_keeps_the_table(self):
        """With its round, and with station 1 alone off."""
        too_many = "0111" + LAY[4:]
        no_items = LAY[:4] + "00" + LAY[6:]
        false = LAY[:22] + "0" * 64
        got = replies([LAY, LINKS[0], LINKS[2], "0200", too_many, no_items, false, "0500", "0501", "0502", "07"])
        self.assertEqual(got[4:7], [refused("01", 2), refused("01", 2), refused("01", 3)])
        self.assertEqual(got[7:], [done("05"), refused("05", 6), done("05", 2), READ_500])

    def test_new_stations_are_off_until_their_link(self):
        off = [refused("05", 6), refused("06", 6)]
        got = replies([LAY, "0A00", "0200", "0500", "060001", "0501", "060102", "0502", "060201"])
        self.assertEqual(got, [done("01"), done("0A"), done("02"), *off, *off, *off])
        got = replies([LAY, "0200", LINKS[1], "0500", "0501", "0502", "0A00", LINKS[2], "0500", "0502", "0A00", "07"])
        self.assertEqual(got[2:7], [done("09"), refused("05", 6), done("05"), refused("05", 6), done("0A")])
        self.assertEqual(got[7:], [done("09"), refused("05", 6), done("05", 3), done("0A", 3), READ_500])

    def test_another_lay_takes_all_off_again(self):
        got = replies([LAY, *LINKS, "0A00", "0200", "0500", LAY, "0A00", "0500", "0200", "0500", "0501", "0502"])
        self.assertEqual(got[4:7], [done("0A", 3), done("02"), done("05")])
        self.assertEqual(got[7:], [done("01"), done("0A"), refused("05", 5), done("02"), *3 * [refused("05", 6)]])

    def test_diagnose_tells_what_the_next_commit_gets(self):
        """Of a write that is not heard, then short, then short of a dropped station's put, then whole."""
        got = replies([LAY, *LINKS, "0B", "0300FE01000000000000", "0B", "07", "0502", "0B", "07", "0501", "0B", "07",
                       "060101", "060201", "090200", "0B", "07", "090201", "060201", "0B", "07", "0B"])
        self.assertEqual(got[4:8], [refused("0B", 5), done("03"), done("0B", 8), refused("07", 8)])
        self.assertEqual(got[8:11], [done("05"), done("0B", 8, 3), refused("07", 8)])
        self.assertEqual(got[11:14], [done("05", 3), done("0B", 11, 2, 3), refused("07", 11)])
        self.assertEqual(got[14:19], [done("06"), done("06"), done("09"), done("0B", 11, 2, 3), refused("07", 11)])
        self.assertEqual(got[19:22], [done("09"), done("06"), done("0B", 0, 2, 3)])
        self.assertEqual(got[22:], ["0700FE010000000000000100000000000000" + "0" * 16, refused("0B", 5)])

    def test_plan_by_the_stations_on_the_bus(self):
        """Round or no round; an item that is none comes before nobody to hear."""
        got = replies([LAY, "0C00", "0C01", LINKS[0], "0C00", LINKS[2], "0C00", LINKS[1], "0C00", "0C01", "0200",
                       "0C00", "0500", "0502", "0C00", "07"])
        self.assertEqual(got[1:5], [refused("0C", 15), refused("0C", 2), done("09"), refused("0C", 15)])
        self.assertEqual(got[5:10], [done("09"), done("0C", 2, 2), done("09"), done("0C", 2, 2), refused("0C", 2)])
        self.assertEqual(got[10:], [done("02"), done("0C", 2, 2), done("05"), done("05", 2), done("0C", 2, 2), READ_500])

    def test_plan_after_a_move(self):
        """The house of request 2026-03: from read and write {0, 1} to read {2}, write {2, 3}; the polls of 0 and 1 find
        that. Without 0 there is one poll and one put less, without 3 no write set, and without 0 and 1 nobody knows."""
        lay = "010401F401000000000000" + 2 * ("0300" + "0" * 28)
        move = "0400" + "0400" + "0" * 28 + "0C00" + "0" * 28
        links = [*LINKS, "090301"]
        got = replies([lay, *links, "0C00", move, "0C00", "0500", "0501", "060201", "060301", "060002", "060102", "07",
                       "0C00", "090000", "0C00", "090300", "0C00", "090301", "090100", "0C00"])
        self.assertEqual([got[5], got[7]], 2 * [done("0C", 2, 2)])
        self.assertEqual(got[14:16], ["0700F4010000000000000000000000000000" + "01" + "0" * 14, done("0C", 3, 4)])
        self.assertEqual(got[16:20], [done("09"), done("0C", 2, 3), done("09"), done("0C", 2)])
        self.assertEqual(got[20:], [done("09"), done("09"), refused("0C", 15)])

    def test_largest_table(self):
        lay = "0110200A00000000000000" + "FFFF" + "0" * 28 + "FFFF" + "0" * 28
        got = replies([lay, "021F", "0200", "022000", "0220", "0900FF", "0910FF", "050F", "090F01", "050F", "050E"])
        self.assertEqual(got, [done("01"), done("02"), refused("02", 4), refused("02", 12), refused("02", 2),
                               refused("09", 2), refused("09", 2), refused("05", 6), done("09"), done("05"),
                               refused("05", 6)])

    def test_replies_come_at_once(self):
        with subprocess.Popen([RUNNER], stdin=subprocess.PIPE, stdout=subprocess.PIPE,
                              bufsize=0) as process:
            for sent, expected in [(b"0", b""), (b"7\n0", refused("07", 1).encode() + b"\n"),
                                   (b"8\n", refused("08", 1).encode() + b"\n")]:
                process.stdin.write(sent)
                wait = 10 if expected else 0.2
                ready, _, _ = select.select([process.stdout], [], [], wait)
                self.assertEqual(process.stdout.read(1000) if ready else b"", expected)
            process.stdin.close()
            self.assertEqual(process.wait(timeout=10), 0)

    def test_failing_input_fails(self):
        master = failing_input(b"07\n07")
        self.assertEqual(os.read(master, 1000), b"07\n07")
        with self.assertRaises(OSError):
            os.read(master, 1000)
        os.close(master)

    def test_a_failed_read_drops_the_line_so_far(self):
        reply = refused("07", 1).encode() + b"\n"
        self.assertEqual(run_on(failing_input(b"07\n07")), reply)
        self.assertEqual(run_on(failing_input(b"07\n07\n")), 2 * reply)
        self.assertEqual(run_on(failing_input(b"07")), b"")
        self.assertEqual(run(b"07\n07"), 2 * reply)

    def test_a_first_read_that_fails(self):
        self.assertEqual(run_on(os.open("/", os.O_RDONLY)), b"")

    def test_closed_output_ends_the_runner(self):
        with subprocess.Popen([RUNNER], stdin=subprocess.PIPE, stdout=subprocess.PIPE) as process:
            process.stdout.close()
            try:
                process.stdin.write(b"07\n" * 100000)
                process.stdin.close()
            except BrokenPipeError:
                pass
            process.wait(timeout=10)


if __name__ == "__main__":
    RUNNER = sys.argv.pop(1)
    unittest.main()
