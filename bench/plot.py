#!/usr/bin/env python3
"""Draws the growth table of `bench --growth` as an SVG picture.

usage: plot.py < growth.csv > growth.svg

Both axes are logarithmic: nanoseconds a call against the number of copies.
The library's lines are drawn through, the C's are dashed.
"""

import csv
import math
import sys

WIDTH, HEIGHT = 780, 440
LEFT, RIGHT, TOP, BOTTOM = 70, 230, 30, 50
COLOURS = ["#1f6fb4", "#c8502d", "#3a8a3d", "#7a4fa3"]
SIDES = [("library_ns", "library", ""), ("c_ns", "C", ' stroke-dasharray="5 4"')]


def scale(low, high, start, end):
    """A function from numbers between low and high to places on a log axis."""
    span = math.log(high) - math.log(low)
    return lambda number: start + (math.log(number) - math.log(low)) / span * (end - start)


def text(x, y, words, anchor="middle"):
    return f'<text x="{x:.1f}" y="{y:.1f}" text-anchor="{anchor}">{words}</text>'


def line(x1, y1, x2, y2, colour, more=""):
    return (f'<line x1="{x1:.1f}" y1="{y1:.1f}" x2="{x2:.1f}" y2="{y2:.1f}"'
            f' stroke="{colour}"{more}/>')


def axes(x, y, copies, low, high):
    """The grid, the numbers beside it and the titles."""
    right, bottom = WIDTH - RIGHT, HEIGHT - BOTTOM
    parts = []
    for number in copies:
        parts.append(line(x(number), TOP, x(number), bottom, "#e4e4e4"))
        parts.append(text(x(number), bottom + 18, number))
    power = low
    while power <= high:
        parts.append(line(LEFT, y(power), right, y(power), "#e4e4e4"))
        parts.append(text(LEFT - 8, y(power) + 4, f"{power:,}", "end"))
        power *= 10
    parts.append(text((LEFT + right) / 2, HEIGHT - 10, "copies in the table (n × m)"))
    parts.append(text(LEFT, TOP - 12, "nanoseconds a call", "start"))
    return parts


def curve(rows, column, x, y, colour, dash):
    """One line with a dot at each measured size."""
    points = [(x(int(row["copies"])), y(float(row[column]))) for row in rows]
    path = " ".join(f"{px:.1f},{py:.1f}" for px, py in points)
    parts = [f'<polyline points="{path}" fill="none" stroke="{colour}" stroke-width="2"{dash}/>']
    parts += [f'<circle cx="{px:.1f}" cy="{py:.1f}" r="2.5" fill="{colour}"/>' for px, py in points]
    return parts


def draw(rows):
    calls = list(dict.fromkeys(row["call"] for row in rows))
    copies = sorted({int(row["copies"]) for row in rows})
    times = [float(row[column]) for row in rows for column, _, _ in SIDES]
    low = 10 ** math.floor(math.log10(min(times)))
    high = 10 ** math.ceil(math.log10(max(times)))
    x = scale(copies[0], copies[-1], LEFT, WIDTH - RIGHT)
    y = scale(low, high, HEIGHT - BOTTOM, TOP)
    parts = axes(x, y, copies, low, high)
    key = TOP + 10
    for call, colour in zip(calls, COLOURS):
        of_call = [row for row in rows if row["call"] == call]
        for column, side, dash in SIDES:
            parts += curve(of_call, column, x, y, colour, dash)
            start = WIDTH - RIGHT + 15
            parts.append(line(start, key, start + 25, key, colour, f' stroke-width="2"{dash}'))
            parts.append(text(start + 32, key + 4, f"{call}, {side}", "start"))
            key += 20
    return "\n".join(
        [f'<svg xmlns="http://www.w3.org/2000/svg" viewBox="0 0 {WIDTH} {HEIGHT}"'
         f' width="{WIDTH}" height="{HEIGHT}" font-family="sans-serif" font-size="12">',
         f'<rect width="{WIDTH}" height="{HEIGHT}" fill="white"/>', *parts, "</svg>"])


if __name__ == "__main__":
    print(draw(list(csv.DictReader(sys.stdin))))
