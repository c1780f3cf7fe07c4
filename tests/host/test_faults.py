"""Shows that a test of calls catches every fault of a folder.

usage: test_faults.py --cc CC --cflags FLAGS --ldflags FLAGS --objects "A.o B.o ..." --out DIR
                      [--reference reference] [--faults faults] [--seeds 1,2,3,4,5] [--calls 200000]
                      [--jobs 2] [--only NAME] [--forms directed,random] [--both]

A fault is one edit of the reference, reference.c or another:

    == name
    # what is wrong
    old:
    text that stands once in the reference
    new:
    what stands there in its place

A line that begins with # is no part of the edit, nor is a blank line after it.

The faulty copy is compiled under the library's names and linked with the
objects of a test program (`differential` or `form_trial`, or `votes_trial` for
ref_votes.c), which have the true reference and not the library's calls that it
stands for: so the fault is what is tested. The second form runs if the first
finds nothing, or with --both in any case.
A seed catches a fault if a run ends with status 1 and says FAILED. A crash or
a run without end is an error and no catch. First of all, a copy without a
fault has to pass each form with each seed.

Each fault gets a line: for each seed the form that caught it and the steps of
the shrunk list, if there are lists. The exit status is 1 if a fault survives a seed, or if
anything else goes wrong.
"""

import argparse
import collections
import concurrent.futures
import pathlib
import re
import shlex
import subprocess
import sys

HERE = pathlib.Path(__file__).resolve().parent
INCLUDE = HERE.parents[1] / "include"

DECLARED = re.compile(r"^(\w+) ref_(\w+)\(", re.MULTILINE)
SECONDS = 120
CAUGHT, PASSED, NOT_MET = "caught", "passed", "not met"

BLOCK = re.compile(r"(?P<name>\w+)\n# .+?\nold:\n(?P<old>.+?)\nnew:\n(?P<new>.*)", re.DOTALL)
FAILED = re.compile(r"^FAILED", re.MULTILINE)
STEPS = re.compile(r", in step \d+ of (\d+)$", re.MULTILINE)

Fault = collections.namedtuple("Fault", "name old new")
# How a run ended; the steps, as words, of the list that it caught the fault with.
Run = collections.namedtuple("Run", "form end steps")
# The runs of each seed; or else what went wrong.
Result = collections.namedtuple("Result", "name runs wrong")


class Wrong(Exception):
    """Anything that goes wrong but a fault that survives."""


# ---- The faults ----

def read_block(text):
    """The fault of a block. Further lines that begin with # belong to the file and not to the edit."""
    name, words, *edit = text.splitlines()
    block = BLOCK.fullmatch("\n".join([name, words] + [line for line in edit if not line.startswith("#")]))
    if block is None:
        raise Wrong(f"the block of {name} has not its form")
    return Fault(block["name"], block["old"], block["new"].rstrip("\n"))


def read_faults(text):
    faults = [read_block(block) for block in re.split(r"^== ", text, flags=re.MULTILINE)[1:]]
    if len({fault.name for fault in faults}) < len(faults):
        raise Wrong("two faults have one name")
    return faults


def plant(source, fault):
    times = source.count(fault.old)
    if times != 1:
        raise Wrong(f"the old text of {fault.name} stands {times} times in the reference")
    return source.replace(fault.old, fault.new)


# ---- One program ----

def build(options, name, source):
    """The test program with this source in the library's place."""
    file, program = options.out / f"{name}.c", options.out / name
    file.write_text(source)
    declared = DECLARED.findall(options.reference.with_suffix(".h").read_text())
    names = [f"-Dref_{name}={'ospreyscreen' if kind == 'ospreyscreen_reply' else 'fault'}_{name}"
             for kind, name in declared]
    command = [*options.cc, *options.cflags, "-O1", f"-I{INCLUDE}", f"-I{HERE}", *names, *options.ldflags, file,
               *options.objects, "-o", program]
    done = subprocess.run(list(map(str, command)), capture_output=True, text=True)
    if done.returncode != 0:
        raise Wrong("it does not compile\n" + done.stdout + done.stderr)
    return program


def run(options, program, form, seed):
    command = [program, "--form", form, "--seed", seed]
    if form == "random":
        command += ["--calls", options.calls]
    try:
        done = subprocess.run(list(map(str, command)), capture_output=True, text=True, timeout=SECONDS)
    except subprocess.TimeoutExpired:
        raise Wrong(f"form {form}, seed {seed}: no end in {SECONDS} s") from None
    if done.returncode == 1 and FAILED.search(done.stdout):
        steps = STEPS.search(done.stdout)
        return Run(form, CAUGHT, steps[1] if steps else CAUGHT)
    if done.returncode in (0, 2):
        return Run(form, NOT_MET if done.returncode else PASSED, "")
    raise Wrong(f"form {form}, seed {seed}: status {done.returncode}\n{done.stdout}{done.stderr}")


def runs_of_seed(options, program, seed):
    runs = []
    for form in options.forms:
        runs.append(run(options, program, form, seed))
        if runs[-1].end == CAUGHT and not options.both:
            break
    return runs


def result_of(options, name, source):
    try:
        program = build(options, name, source)
        return Result(name, {seed: runs_of_seed(options, program, seed) for seed in options.seeds}, "")
    except Wrong as wrong:
        return Result(name, {}, str(wrong))


# ---- All of them ----

def words_of(one):
    return f"{one.form} {one.steps if one.end == CAUGHT else one.end}"


def print_result(result):
    seeds = [f"{seed}: " + ", ".join(map(words_of, runs)) for seed, runs in result.runs.items()]
    print(f"{result.name:40}", "; ".join(seeds) or "ERROR: " + result.wrong, flush=True)


def control_passes(options, source):
    control = result_of(options, "control", source)
    print_result(control)
    return bool(control.runs) and all(one.end == PASSED for runs in control.runs.values() for one in runs)


def try_all(options, sources):
    results = []
    with concurrent.futures.ThreadPoolExecutor(options.jobs) as pool:
        for result in pool.map(lambda item: result_of(options, *item), sources.items()):
            print_result(result)
            results.append(result)
    return results


def catching(result, forms):
    """The seeds that catch the fault by one of the forms."""
    return {seed for seed, runs in result.runs.items()
            if any(one.form in forms and one.end == CAUGHT for one in runs)}


def tell_forms(options, results):
    for form in options.forms:
        counts = [sum(seed in catching(result, [form]) for result in results) for seed in options.seeds]
        print(f"form {form} alone catches, by seed, {', '.join(map(str, counts))} of {len(results)} faults")


def tell(options, results):
    """Tells the end; gives whether every seed catches every fault."""
    all_caught = True
    for result in results:
        missed = [str(seed) for seed in options.seeds if seed not in catching(result, options.forms)]
        if missed:
            all_caught = False
            print("ERROR:" if result.wrong else "SURVIVED:", result.name, "with seeds", ", ".join(missed))
    if all_caught:
        print(f"{len(results)} faults, all caught by seeds {', '.join(map(str, options.seeds))}")
    return all_caught


def read_options():
    parser = argparse.ArgumentParser()
    parser.add_argument("--cc", type=shlex.split, required=True)
    parser.add_argument("--cflags", type=shlex.split, default=[])
    parser.add_argument("--ldflags", type=shlex.split, default=[])
    parser.add_argument("--objects", type=shlex.split, required=True)
    parser.add_argument("--out", type=lambda text: pathlib.Path(text).resolve(), required=True)
    parser.add_argument("--reference", type=lambda name: (HERE / name).with_suffix(".c"), default="reference")
    parser.add_argument("--faults", type=lambda name: sorted((HERE / name).glob("*.txt")), default="faults")
    parser.add_argument("--seeds", type=lambda text: list(map(int, text.split(","))), default=[1, 2, 3, 4, 5])
    parser.add_argument("--calls", type=int, default=200000)
    parser.add_argument("--jobs", type=int, default=2)
    parser.add_argument("--forms", type=lambda text: text.split(","), default=["directed", "random"])
    parser.add_argument("--both", action="store_true")
    parser.add_argument("--only")
    return parser.parse_args()


def main():
    options = read_options()
    options.out.mkdir(parents=True, exist_ok=True)
    source = options.reference.read_text()
    faults = [fault for fault in read_faults("\n".join(path.read_text() for path in options.faults))
              if options.only in (None, fault.name)]
    sources = {fault.name: plant(source, fault) for fault in faults}
    if not sources:
        raise Wrong("there is no such fault")
    if not control_passes(options, source):
        raise Wrong("the copy without a fault does not pass")
    results = try_all(options, sources)
    if options.both:
        tell_forms(options, results)
    return 0 if tell(options, results) else 1


if __name__ == "__main__":
    try:
        sys.exit(main())
    except Wrong as wrong:
        sys.exit(f"test_faults.py: {wrong}")
