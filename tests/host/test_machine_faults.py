"""Shows which faults in the archive's machine code a test of calls finds.

usage: test_machine_faults.py PROGRAM ARCHIVE --out DIR [--functions PATTERN] [--seed 1]
                              [--calls 200000] [--jobs 2] [--only ADDRESS_OR_SUBSTRING]
                              [--sample N] [--most PERCENT]

PROGRAM is `differential` linked with ARCHIVE, or `votes_trial`, or `form_trial`. Each fault is
put into a copy of it, in one instruction of the archive's functions, of those
alone whose names have the PATTERN in them if there is one:

- a condition inverted;
- a condition that holds at equality where it did not, or the other way round;
- an immediate operand plus one, and minus one too where it is compared with;
- a displacement plus one.

The directed form runs first, and the random one if that finds nothing. A run
catches a fault if it ends with status 1 and says FAILED. It has hung if it
takes far more processor time than PROGRAM itself, which runs before all and
has to pass, and it has died if a signal ends it: the fault is caught then too.

Each fault that survives gets a line, and its program stays in DIR. One that
changes no reply and no byte on any input cannot be caught; which these are has
to be read from the code. So the exit status is 1 only if more than PERCENT of
the faults survive, or if something else goes wrong. --only takes the faults of
one address, or those whose line has the text in it; --sample takes N of them,
chosen by the seed.
"""

import argparse
import collections
import concurrent.futures
import functools
import pathlib
import random
import re
import resource
import signal
import subprocess
import sys
import time

FORMS = ("directed", "random")
HUNG, DIED, SURVIVED = "hung", "died", "survived"
ENDS = (*FORMS, HUNG, DIED, SURVIVED)

INVERTED, MOVED, IMMEDIATE, DISPLACEMENT = "condition inverted", "condition moved", "immediate", "displacement"
KINDS = (INVERTED, MOVED, IMMEDIATE, DISPLACEMENT)

CONDITIONS = "o no b ae e ne be a s ns p np l ge le g".split()
# What a condition's number differs in from that of the one that holds at equality too, or does not.
EQUALITY = {**dict.fromkeys((0x2, 0x3, 0x6, 0x7), 0x4), **dict.fromkeys((0xC, 0xD, 0xE, 0xF), 0x2)}

PREFIXES = bytes.fromhex("26 2E 36 3E 64 65 66 67 F0 F2 F3")
# Instructions of other sets, whose parts stand elsewhere.
UNREAD = bytes.fromhex("62 C4 C5")
# Opcodes of one byte that an immediate follows at once.
SHORT = {*range(0xB0, 0xC0), 0x68, 0x6A, 0xA8, 0xA9, *(op for op in range(0x40) if op & 7 in (4, 5))}

SYMBOL = re.compile(r"^([0-9a-f]+) ([0-9a-f]+) [Tt] (.+)$", re.MULTILINE)
LOADED = re.compile(r"^ +LOAD +0x([0-9a-f]+) 0x([0-9a-f]+) 0x[0-9a-f]+ 0x([0-9a-f]+) ", re.MULTILINE)
LINE = re.compile(r"^ +([0-9a-f]+):\t((?:[0-9a-f]{2} )+) *\t(.+)$", re.MULTILINE)
PADDING = re.compile(r"\b(?:nop[wl]?|int3|ud2|xchg +%ax,%ax)\b")
SHOWN_IMMEDIATE = re.compile(r"\$(0x[0-9a-f]+)")
SHOWN_DISPLACEMENT = re.compile(r"(-?0x[0-9a-f]+)\(")
FAILED = re.compile(r"^FAILED", re.MULTILINE)

# A program under a limit of processor time, which ends it by a signal, and without a core.
LIMITED = 'ulimit -c 0 && ulimit -S -t "$0" && exec "$@"'
CONTROL_SECONDS = 600

Function = collections.namedtuple("Function", "name start end")
Instruction = collections.namedtuple("Instruction", "function address code text")
# The bytes that stand in an instruction from a place on, and the change in words.
Fault = collections.namedtuple("Fault", "kind instruction at new words")


class Wrong(Exception):
    """Anything that goes wrong but a fault that survives."""


def output_of(*command):
    done = subprocess.run(list(map(str, command)), capture_output=True, text=True)
    if done.returncode != 0:
        raise Wrong(f"{command[0]}: {done.stderr.strip()}")
    return done.stdout


# ---- The instructions ----

def functions_of(program, archive):
    """The archive's functions as they stand in the program."""
    sizes = {name: int(size, 16) for _, size, name in SYMBOL.findall(output_of("nm", "-S", archive))}
    placed = collections.defaultdict(list)
    for start, size, name in SYMBOL.findall(output_of("nm", "-S", program)):
        placed[name].append(Function(name, int(start, 16), int(start, 16) + int(size, 16)))
    for name, size in sizes.items():
        if [function.end - function.start for function in placed[name]] != [size]:
            raise Wrong(f"{name} does not stand in the program once, with the size that it has in the archive")
    if not sizes:
        raise Wrong("the archive has no functions")
    return [placed[name][0] for name in sizes]


def instructions_of(program, function):
    """The instructions of a function, without those that only fill space."""
    lines = LINE.findall(output_of("objdump", "-d", "-w", f"--start-address={function.start}",
                                   f"--stop-address={function.end}", program))
    found = [Instruction(function, int(address, 16), bytes.fromhex(code), " ".join(text.split()))
             for address, code, text in lines]
    if sum(len(instruction.code) for instruction in found) != function.end - function.start:
        raise Wrong(f"{function.name} is not read as a whole")
    return [instruction for instruction in found if not PADDING.search(instruction.text)]


def opcode_at(code):
    """Where the opcode starts: behind the prefixes."""
    at = 0
    while code[at] in PREFIXES:
        at += 1
    return at + (code[at] & 0xF0 == 0x40)


def condition_at(code):
    """Where the byte stands that has a condition in its low half, or None."""
    at = opcode_at(code)
    if code[at] & 0xF0 == 0x70:
        return at
    if code[at] == 0x0F and code[at + 1] & 0xF0 in (0x40, 0x80, 0x90):
        return at + 1
    return None


def numbers_at(code):
    """Where the displacement and the immediate start; the one ends where the other starts."""
    at = opcode_at(code)
    if code[at] in UNREAD:
        raise Wrong("an instruction that is not read: " + code.hex(" "))
    if code[at] in SHORT:
        return at + 1, at + 1
    if code[at] == 0x0F:
        at += 2 if code[at + 1] in (0x38, 0x3A) else 1
    mode, low = code[at + 1] >> 6, code[at + 1] & 7
    scaled = mode != 3 and low == 4
    start = at + 2 + scaled
    based = (code[at + 2] & 7 if scaled else low) != 5
    size = (0 if based else 4, 1, 4, 0)[mode]
    return start, start + size


# ---- The faults ----

def condition_fault(kind, instruction, at, difference):
    old = instruction.code[at]
    name, other = CONDITIONS[old & 0xF], CONDITIONS[(old ^ difference) & 0xF]
    verb = instruction.text.split()[0]
    if not verb.endswith(name):
        raise Wrong(f"no condition {name} in {instruction.text}")
    words = f"{verb.removesuffix(name)}{other} for {verb}"
    return Fault(kind, instruction, at, bytes([old ^ difference]), words)


def condition_faults(instruction):
    at = condition_at(instruction.code)
    if at is None:
        return
    yield condition_fault(INVERTED, instruction, at, 1)
    if difference := EQUALITY.get(instruction.code[at] & 0xF):
        yield condition_fault(MOVED, instruction, at, difference)


def number_faults(kind, instruction, start, end, shown, steps):
    """One fault for each step, if the number between the places is the one shown."""
    old = int.from_bytes(instruction.code[start:end], "little")
    limit = 256 ** (end - start)
    if start == end or (old - int(shown, 16)) % limit != 0:
        raise Wrong(f"no {kind} {shown} in {instruction.code.hex(' ')}")
    for step in steps:
        new = ((old + step) % limit).to_bytes(end - start, "little")
        yield Fault(kind, instruction, start, new, f"{shown} {step:+}")


def operand_faults(instruction):
    text, code = instruction.text, instruction.code
    if match := SHOWN_IMMEDIATE.search(text):
        steps = (1, -1) if text.startswith("cmp") else (1,)
        yield from number_faults(IMMEDIATE, instruction, numbers_at(code)[1], len(code), match[1], steps)
    if match := SHOWN_DISPLACEMENT.search(text):
        yield from number_faults(DISPLACEMENT, instruction, *numbers_at(code), match[1], (1,))


def faults_of(program, archive, pattern):
    return [fault for function in functions_of(program, archive) if re.search(pattern, function.name)
            for instruction in instructions_of(program, function)
            for fault in (*condition_faults(instruction), *operand_faults(instruction))]


def line_of(fault):
    function, address, _, text = fault.instruction
    return f"{function.name}+0x{address - function.start:x} {address:x}: {text}; {fault.kind}: {fault.words}"


def chosen(options, faults):
    if options.only:
        faults = [fault for fault in faults
                  if options.only == f"{fault.instruction.address:x}" or options.only in line_of(fault)]
    if options.sample is not None and options.sample < len(faults):
        picked = random.Random(options.seed).sample(range(len(faults)), options.sample)
        faults = [faults[index] for index in sorted(picked)]
    if not faults:
        raise Wrong("no such fault")
    return faults


# ---- The runs ----

class Image:
    """The bytes of the program, and where its addresses stand in them."""

    def __init__(self, program):
        self.content = program.read_bytes()
        self.parts = [tuple(int(number, 16) for number in numbers)
                      for numbers in LOADED.findall(output_of("readelf", "-lW", program))]

    def offset(self, instruction):
        for offset, address, size in self.parts:
            start = instruction.address - address
            if 0 <= start <= size - len(instruction.code):
                return offset + start
        raise Wrong(f"{instruction.address:x} stands nowhere in the file")

    def with_fault(self, fault):
        start = self.offset(fault.instruction)
        if not self.content.startswith(fault.instruction.code, start):
            raise Wrong(f"other bytes than those of {fault.instruction.text} stand in the file")
        content = bytearray(self.content)
        content[start + fault.at:start + fault.at + len(fault.new)] = fault.new
        return content


def run(options, program, form, seconds):
    """How a run ends: the form if it catches, or hung, died or survived. The seconds are its limit."""
    command = ["sh", "-c", LIMITED, seconds, program, "--form", form, "--seed", options.seed]
    if form == "random":
        command += ["--calls", options.calls]
    try:
        done = subprocess.run(list(map(str, command)), stdin=subprocess.DEVNULL, capture_output=True, text=True,
                              errors="replace", timeout=10 * seconds)
    except subprocess.TimeoutExpired:
        return HUNG
    if done.returncode == 1 and FAILED.search(done.stdout):
        return form
    if done.returncode in (0, 2):
        return SURVIVED
    if done.returncode < 0:
        return HUNG if done.returncode == -signal.SIGXCPU else DIED
    raise Wrong(f"{program}, form {form}: status {done.returncode}\n{done.stdout}{done.stderr}")


def run_forms(options, program, seconds):
    """How the first run ends that does not pass."""
    for form in FORMS:
        end = run(options, program, form, seconds)
        if end != SURVIVED:
            return end
    return SURVIVED


def processor_seconds():
    return resource.getrusage(resource.RUSAGE_CHILDREN).ru_utime


def limit_of(options):
    """Runs the program without a fault; gives the limit for those with one."""
    start = processor_seconds()
    end = run_forms(options, options.program, CONTROL_SECONDS)
    if end != SURVIVED:
        raise Wrong(f"the program without a fault does not pass: {end}")
    return 10 + 3 * int(processor_seconds() - start)


def end_of(options, image, limit, fault):
    program = options.out / f"{fault.instruction.address:x}.{fault.at}.{fault.new.hex()}"
    program.write_bytes(image.with_fault(fault))
    program.chmod(0o755)
    end = run_forms(options, program, limit)
    if end != SURVIVED:
        program.unlink()
    return end


def ends_of(options, faults):
    end_of_one = functools.partial(end_of, options, Image(options.program), limit_of(options))
    # Processes, not threads: a program cannot start while a process that is about to start another has it open.
    with concurrent.futures.ProcessPoolExecutor(options.jobs) as pool:
        yield from pool.map(end_of_one, faults)


# ---- The report ----

def tell(faults, counts):
    print(f"{'kind':20}{'faults':>10}" + "".join(f"{end:>10}" for end in ENDS))
    for kind in (*KINDS, "all"):
        row = [sum(counts[one, end] for one in KINDS if kind in (one, "all")) for end in ENDS]
        print(f"{kind:20}{sum(row):10}" + "".join(f"{count:10}" for count in row))
    survived = sum(counts[kind, SURVIVED] for kind in KINDS)
    share = 100 * survived / len(faults)
    print(f"{survived} of {len(faults)} faults survive, {share:.1f} percent")
    return share


def path(text):
    return pathlib.Path(text).resolve()


def read_options():
    parser = argparse.ArgumentParser()
    parser.add_argument("program", type=path)
    parser.add_argument("archive", type=path)
    parser.add_argument("--out", type=path, required=True)
    parser.add_argument("--functions", default="")
    parser.add_argument("--seed", type=int, default=1)
    parser.add_argument("--calls", type=int, default=200000)
    parser.add_argument("--jobs", type=int, default=2)
    parser.add_argument("--only")
    parser.add_argument("--sample", type=int)
    parser.add_argument("--most", type=float)
    return parser.parse_args()


def main():
    options = read_options()
    options.out.mkdir(parents=True, exist_ok=True)
    faults = chosen(options, faults_of(options.program, options.archive, options.functions))
    start = time.monotonic()
    counts = collections.Counter()
    for fault, end in zip(faults, ends_of(options, faults)):
        counts[fault.kind, end] += 1
        if end == SURVIVED:
            print("SURVIVED:", line_of(fault), flush=True)
    share = tell(faults, counts)
    print(f"{time.monotonic() - start:.0f} seconds")
    return 1 if options.most is not None and share > options.most else 0


if __name__ == "__main__":
    try:
        sys.exit(main())
    except Wrong as wrong:
        sys.exit(f"test_machine_faults.py: {wrong}")
