#!/usr/bin/env python3
"""Draws contours before and after cleaning: text in, SVG out.

Contours are read from standard input, one a line, as `x y x y ..`. Each is a
row of the picture: at first as given, and then what each COMMAND of
i_shape_tool prints for it. So every cleaned contour is the program's own
answer, and nothing is cleaned here.

    draw.py [--label TEXT].. [--aspect NUMBER] [--program PATH] COMMAND..

Python's own library is all that it needs: the gate needs a Python anyway, and
a drawing proves nothing.
"""

from __future__ import annotations

import argparse
import subprocess
import sys
from html import escape
from pathlib import Path
from typing import Iterable, NamedTuple

PROGRAM = Path(__file__).resolve().parents[2] / "i_shape_tool"
WIDTH, HEIGHT, MARGIN, LINE = 210, 240, 22, 17
STYLE = """
text { font: 12px sans-serif; fill: #333 }
.title { font-weight: bold }
.land { fill: #e6ecdf; stroke: #4a6a45; stroke-width: 1.2; stroke-linejoin: round }
.given { fill: none; stroke: #bbb; stroke-width: 1 }
.kept { fill: #2f4a2c }
.removed { fill: #fff; stroke: #e07b00; stroke-width: 1.4 }
.spike { fill: #d0202e }
.start { fill: none; stroke: #1560bd; stroke-width: 1.8 }
"""
MARKS = (("kept", 1.9, "stays"), ("removed", 2.4, "goes"),
         ("spike", 3.2, "tip of a spike"), ("start", 5.5, "first point"))

Point = tuple[int, int]
Contour = list[Point]


class Frame(NamedTuple):
    """Where the points of a row are within its panels."""

    left: int
    top: int
    across: float
    up: float

    @classmethod
    def around(cls, contour: Contour, aspect: float) -> Frame:
        """The frame that a contour fills, y upwards."""
        xs, ys = zip(*contour)
        up = min((WIDTH - 2 * MARGIN) / max(1, max(xs) - min(xs)) / aspect,
                 (HEIGHT - 2 * MARGIN) / max(1, max(ys) - min(ys)))
        return cls(min(xs), max(ys), up * aspect, up)

    def place(self, point: Point) -> tuple[float, float]:
        return (MARGIN + (point[0] - self.left) * self.across,
                MARGIN + (self.top - point[1]) * self.up)

    def height(self, contour: Contour) -> float:
        lowest = min(y for _, y in contour)
        return 2 * MARGIN + (self.top - lowest) * self.up


def answer(program: Path, command: str, contour: Contour) -> Contour | None:
    """What the program returns for a contour: none where it collapses."""
    line = " ".join(f"{x} {y}" for x, y in contour) + "\n"
    told = subprocess.run([program.absolute(), command], input=line,
                          text=True, stdout=subprocess.PIPE,
                          check=True).stdout
    return None if told == "none\n" else read(told)


def read(line: str) -> Contour:
    """The points of a line."""
    numbers = [int(word) for word in line.split()]
    if len(numbers) % 2:
        raise SystemExit("draw.py: a line has an odd number of words")
    return list(zip(numbers[::2], numbers[1::2]))


def spikes(contour: Contour) -> Contour:
    """The points at which the contour turns back, repeated points skipped."""
    moving = [point for place, point in enumerate(contour)
              if point != contour[place - 1]]
    tips = []
    for place, (x, y) in enumerate(moving):
        before, after = moving[place - 1], moving[(place + 1) % len(moving)]
        v, w = (x - before[0], y - before[1]), (after[0] - x, after[1] - y)
        if v[0] * w[1] == v[1] * w[0] and v[0] * w[0] + v[1] * w[1] < 0:
            tips.append((x, y))
    return tips


def dots(points: Iterable[Point], mark: str, frame: Frame) -> str:
    """A mark at each of the points, one where several coincide."""
    radius = next(size for name, size, _ in MARKS if name == mark)
    places = (frame.place(point) for point in sorted(set(points)))
    return "".join(f'<circle class="{mark}" cx="{x:.1f}" cy="{y:.1f}"'
                   f' r="{radius}"/>\n' for x, y in places)


def outline(contour: Contour, kind: str, frame: Frame) -> str:
    way = " ".join("{:.1f},{:.1f}".format(*frame.place(point))
                   for point in contour)
    return f'<polygon class="{kind}" fill-rule="evenodd" points="{way}"/>\n'


def count(contour: Contour | None) -> str:
    """How many points a contour has, and at how many places they are."""
    if contour is None:
        return "none: it collapses"
    places = len(set(contour))
    if places == len(contour):
        return f"{places} points"
    return f"{len(contour)} points at {places} places"


def panel(title: str, contour: Contour | None, given: Contour, frame: Frame,
          left: Contour) -> str:
    """One contour over the outline of the given one; of `left` are the
    points that stay where it is simplified."""
    drawn = (f'<text class="title" x="{MARGIN}" y="{LINE}">{escape(title)}'
             f'</text>\n<text x="{MARGIN}" y="{2 * LINE}">{count(contour)}'
             f'</text>\n<g transform="translate(0 {2 * LINE})">\n')
    drawn += outline(given, "given", frame)
    if contour is not None:
        drawn += outline(contour, "land", frame)
        drawn += dots(set(contour) - set(left), "removed", frame)
        drawn += dots(spikes(contour), "spike", frame)
        drawn += dots(set(contour) & set(left), "kept", frame)
        drawn += dots(contour[:1], "start", frame)
    return drawn + "</g>\n"


def row(label: str | None, given: Contour, words) -> tuple[str, float]:
    """The panels of a contour side by side, and how high they are."""
    frame = Frame.around(given, words.aspect)
    answers = [(command, answer(words.program, command, given))
               for command in words.command]
    panels = ""
    for place, (title, contour) in enumerate(
            [(label or "given", given), *answers]):
        left = contour and answer(words.program, "simplify", contour)
        panels += (f'<g transform="translate({place * WIDTH} 0)">\n'
                   f'{panel(title, contour, given, frame, left or [])}</g>\n')
    return panels, frame.height(given) + 2 * LINE


def legend() -> str:
    """What the marks mean, in one line."""
    drawn = ""
    across = MARGIN
    for name, radius, meaning in MARKS:
        drawn += (f'<circle class="{name}" cx="{across}" cy="0"'
                  f' r="{radius}"/>\n'
                  f'<text x="{across + 9}" y="4">{meaning}</text>\n')
        across += 30 + 6 * len(meaning)
    return drawn


def picture(contours: list[Contour], words) -> str:
    """All rows one below the other, and what the marks mean."""
    drawn, high = "", 6.0
    for place, contour in enumerate(contours):
        label = words.label[place] if place < len(words.label) else None
        panels, height = row(label, contour, words)
        drawn += f'<g transform="translate(0 {high:.1f})">\n{panels}</g>\n'
        high += height
    wide = max(WIDTH * (1 + len(words.command)), 2 * WIDTH)
    whole = high + LINE
    return ("<!-- Generated by examples/draw/draw.py of Raspochre. -->\n"
            f'<svg xmlns="http://www.w3.org/2000/svg" width="{wide}"'
            f' height="{whole:.0f}" viewBox="0 0 {wide} {whole:.0f}">\n'
            f"<style>{STYLE}</style>\n"
            f'<rect width="100%" height="100%" fill="#fff"/>\n{drawn}'
            f'<g transform="translate(0 {high:.1f})">\n{legend()}</g>\n'
            "</svg>\n")


def main() -> None:
    words = argparse.ArgumentParser(
        description="Draws contours before and after cleaning.")
    words.add_argument("--label", action="append", default=[],
                       help="the title of a row's first panel, row by row")
    words.add_argument("--aspect", type=float, default=1.0,
                       help="how wide a unit of x is, in units of y")
    words.add_argument("--program", type=Path, default=PROGRAM)
    words.add_argument("command", nargs="+")
    contours = [read(line) for line in sys.stdin]
    if not all(contours):
        raise SystemExit("draw.py: a line has no point")
    sys.stdout.write(picture(contours, words.parse_args()))


if __name__ == "__main__":
    main()
