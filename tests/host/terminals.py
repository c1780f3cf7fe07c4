"""What the tests of the console share: tables, and programs at a terminal or on a pipe."""

import fcntl
import os
import pathlib
import pty
import re
import select
import struct
import subprocess
import tempfile
import termios
import time
import unittest

CHECKED = ""  # the program with the sanitizers; who runs the tests sets it
PATIENCE = 20  # seconds for what comes at once
ROWS, COLUMNS = 24, 80
LAY = "lay 3 1 500 read 0003 0005 0006 write 0003 0005 0006"
ASKED = "; say it again to go on\n"


# ---- Tables ----

def configuration(read, write):
    return struct.pack("<16H", *(read + [0] * 8)[:8], *(write + [0] * 8)[:8])


PAIRS = configuration([3, 5, 6], [3, 5, 6])


def copy(version=0, value=500, generation=0, config=PAIRS):
    return struct.pack("<QQQ", version, value, generation) + config


def table(n=3, m=1, off=0, kind=0, item=0, polled=0, data=0, config=0, zero=0, value=0, target=bytes(32), copies=None):
    head = struct.pack("<BBHBBHHHIQ", n, m, off, kind, item, polled, data, config, zero, value) + target
    return head + (copy() * (n * m) if copies is None else copies)


OLD = table()
NEW = table(off=7, copies=copy(version=1, value=510) * 2 + copy())


# ---- Programs ----

class Folder(unittest.TestCase):
    """An empty folder for each test; programs run in it."""

    def setUp(self):
        folder = tempfile.TemporaryDirectory()
        self.addCleanup(folder.cleanup)
        self.folder = pathlib.Path(folder.name)

    def path(self, name, contents=None):
        """A file of the folder, with these contents if there are any."""
        path = self.folder / name
        if contents is not None:
            path.write_bytes(contents)
        return path

    def names(self):
        return sorted(path.name for path in self.folder.iterdir())

    def terminal(self, *words, program=None, **given):
        terminal = Terminal([program or CHECKED, "console", *words], self.folder, **given)
        self.addCleanup(terminal.close)
        return terminal

    def dialogue(self, *words, program=None, **given):
        dialogue = Dialogue([program or CHECKED, "console", *words], self.folder, **given)
        self.addCleanup(dialogue.close)
        return dialogue

    def run_script(self, script, *words, program=None, **given):
        """What comes of a script on a pipe: text, or bytes."""
        text = script if isinstance(script, bytes) else script.encode()
        given = {"stdout": subprocess.PIPE, "timeout": PATIENCE, **given}
        result = subprocess.run([program or CHECKED, "console", *words], input=text, stderr=subprocess.PIPE,
                                cwd=self.folder, check=False, **given)
        result.printed = (result.stdout or b"").decode(errors="replace")
        result.said = result.stderr.decode(errors="replace")
        return result


def environment(kind, given):
    """That of the tests without a kind of terminal, and what is given."""
    kept = {name: value for name, value in os.environ.items() if name not in ("TERM", "LD_PRELOAD", "INTERRUPT")}
    return {**kept, **({} if kind is None else {"TERM": kind}), **given}


def take_terminal():
    """Standard input becomes the terminal of the new session."""
    fcntl.ioctl(0, termios.TIOCSCTTY, 0)


class Terminal:
    """A program at a terminal; what it prints is noted as it comes."""

    def __init__(self, command, folder, kind="xterm", columns=COLUMNS, controlling=True, **given):
        self.master, self.slave = pty.openpty()
        self.resize(columns)
        self.modes = termios.tcgetattr(self.slave)
        self.printed = b""
        self.process = subprocess.Popen(
            command, stdin=self.slave, stdout=self.slave, stderr=self.slave, cwd=folder, env=environment(kind, given),
            start_new_session=True, preexec_fn=take_terminal if controlling else None)

    def resize(self, columns):
        fcntl.ioctl(self.slave, termios.TIOCSWINSZ, struct.pack("4H", ROWS, columns, 0, 0))

    def hang_up(self):
        """Nobody is at the terminal any more."""
        for end in ("master", "slave"):
            if getattr(self, end) is not None:
                os.close(getattr(self, end))
                setattr(self, end, None)

    def close(self):
        if self.process.poll() is None:
            self.process.kill()
        self.process.wait()
        self.hang_up()

    def transfer(self, keys, seconds):
        """Takes what is printed, and types some of the keys if there is room; gives those that are left."""
        reads, writes, _ = select.select([self.master], [self.master] if keys else [], [], seconds)
        if reads:
            self.printed += os.read(self.master, 1 << 16)
        if writes:
            return keys[os.write(self.master, keys[:256]):]
        if not reads:
            raise TimeoutError
        return keys

    def type(self, keys):
        keys = keys.encode() if isinstance(keys, str) else keys
        try:
            while keys:
                keys = self.transfer(keys, PATIENCE)
        except TimeoutError:
            raise AssertionError(f"{len(keys)} keys are not taken after {self.printed[-400:]!r}") from None

    def wait_for(self, text, seconds=PATIENCE):
        """What is printed up to the text, and with it."""
        text = text.encode() if isinstance(text, str) else text
        end = time.monotonic() + seconds
        try:
            while text not in self.printed:
                self.transfer(b"", max(0, end - time.monotonic()))
        except (TimeoutError, OSError):
            raise AssertionError(f"{text!r} does not come after {self.printed[-400:]!r}") from None
        before, _, self.printed = self.printed.partition(text)
        return (before + text).decode(errors="replace")

    def wait_for_prompt(self, prompt="> "):
        """What is printed up to an empty line of the editor."""
        empty = f"\r{prompt}\x1b[K\r\x1b[{len(prompt)}C"
        return self.wait_for(empty)[:-len(empty)].replace("\r\n", "\n")

    def say(self, keys, prompt="> "):
        """Types the keys and enter; gives what is printed then."""
        self.type(keys + "\r")
        self.wait_for("\r\n")
        return self.wait_for_prompt(prompt)

    def end(self):
        """The status; what is printed meanwhile is taken."""
        end = time.monotonic() + PATIENCE
        while self.process.poll() is None and time.monotonic() < end:
            try:
                self.transfer(b"", 0.01)
            except (TimeoutError, OSError):
                pass
        return self.process.wait(0.01)


class Dialogue:
    """A program that is typed to and prints to a pipe: a prompt ends what it prints."""

    PROMPT = re.compile(r"(?:\A|(?<=\n)|(?<=> ))((?:(?:read|write|change) \d+)?> )")

    def __init__(self, command, folder, **given):
        master, slave = pty.openpty()
        modes = termios.tcgetattr(slave)
        modes[3] &= ~termios.ECHO
        termios.tcsetattr(slave, termios.TCSANOW, modes)
        self.process = subprocess.Popen(command, stdin=slave, stdout=subprocess.PIPE, stderr=subprocess.STDOUT,
                                        cwd=folder, env=environment("dumb", given))
        os.close(slave)
        self.master = master
        self.prompt = ""
        self.greeting, = self.hear(1)

    def hear(self, count):
        """What is printed up to each of the next prompts, or up to the end."""
        heard, pipe, self.prompt = b"", self.process.stdout.fileno(), None
        while True:
            assert select.select([pipe], [], [], PATIENCE)[0], f"nothing comes after {heard[-400:]!r}"
            more = os.read(pipe, 1 << 16)
            heard += more
            if not more or heard.endswith(b"> "):
                texts = self.PROMPT.split(heard.decode(errors="replace"))
                if not more or len(texts) > 2 * count:
                    self.prompt = texts[-2] if more else None
                    return texts[:2 * count:2]

    def say_all(self, lines):
        """What is printed for each of the lines, which are typed at once; the terminal takes 4,095 bytes."""
        assert self.prompt is not None, "the program has ended, or hangs"
        os.write(self.master, "".join(line + "\n" for line in lines).encode())
        return self.hear(len(lines))

    def say(self, line):
        return self.say_all([line])[0]

    def be_sure(self, line):
        """The same, and once more if it is asked about."""
        printed = self.say(line)
        return self.say(line) if printed.endswith(ASKED) else printed

    def close(self):
        self.process.kill()
        self.process.wait()
        self.process.stdout.close()
        os.close(self.master)
