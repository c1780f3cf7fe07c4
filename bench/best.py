#!/usr/bin/env python3
"""Several outputs of the benchmark as one: of each row the least minimum and
the least median of either side, and their ratios.

usage: best.py FILE.. > bench.md

A run's addresses are chosen anew by the system, and some choices cost a short
call several nanoseconds on one side only (stores and loads 4 KiB apart look
alike to the processor). The least of several runs is free of that.
"""

import sys


def rows_of(path):
    """The rows of one output: (table, configurations, call) and six figures."""
    with open(path, encoding="ascii") as lines:
        for line in lines:
            cells = [cell.strip() for cell in line.strip().strip("|").split("|")]
            if len(cells) == 9 and cells[3][:1].isdigit():
                yield tuple(cells[:3]), [float(cell) for cell in cells[3:]]


def main(paths):
    best = {}
    for path in paths:
        for name, (lib_min, c_min, _, lib_mid, c_mid, _) in rows_of(path):
            now = (lib_min, c_min, lib_mid, c_mid)
            best[name] = tuple(map(min, best.get(name, now), now))
    if not best:
        sys.exit("best.py: no rows")
    print(f"Nanoseconds; least minimum and least median of {len(paths)} runs.\n")
    print("| table | configurations | call | library min | C min | ratio | library median | C median | ratio |")
    print("|---|---|---|---|---|---|---|---|---|")
    ratios = []
    for name, (lib_min, c_min, lib_mid, c_mid) in best.items():
        ratios.append((lib_min / c_min, lib_mid / c_mid, ", ".join(name)))
        print(f"| {' | '.join(name)} | {lib_min:.1f} | {c_min:.1f} | {lib_min / c_min:.2f} "
              f"| {lib_mid:.1f} | {c_mid:.1f} | {lib_mid / c_mid:.2f} |")
    print()
    for which, word in ((0, "minima"), (1, "medians")):
        top = max(ratios, key=lambda row: row[which])
        print(f"Highest ratio of {word}: {top[which]:.2f} ({top[2]}).")
    above = sum(row[0] >= 1.105 for row in ratios)
    print(f"Rows with a ratio of minima above 1.10: {above} of {len(ratios)}.")


if __name__ == "__main__":
    main(sys.argv[1:])
