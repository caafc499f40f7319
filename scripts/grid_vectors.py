#!/usr/bin/env python3
"""Prints bindings/grid.txt: what the rule of docs/DATA.md, "Keys", makes of coordinates, by which the test of each language goes.

An operation of binary64 is that of fractions, rounded to the nearest float, ties to even; and so is a whole number the nearest one to a fraction.
"""
import math
import sys
from fractions import Fraction

STEPS = ("1", "0.25", "0.1", "1e-7", "0.3", "0.4", "3", "0.3333333333333333", "7e22", "2.5e-200", "1e-310", "5e-324", "1.1e300")
WIDTHS = (16, 32, 64)
SQL_LIMIT = 2 ** 49
HALVES = [Fraction(k, 2) for k in (1, -1, 3, -5, 7)]
BOUNDS = [sign * (bound + less) for bound in (2 ** 14, 2 ** 30, SQL_LIMIT, 2 ** 62) for sign in (1, -1) for less in (0, Fraction(-1, 2), -1)]
HEAD = """\
# What becomes of a coordinate x on a grid, by docs/DATA.md, "Keys". scripts/grid_vectors.py works it out by fractions.
# Between tabs: the step, x, the number of steps, the float that it becomes on the way back, the least width in bits whose safe range has the number,
# and whether SQL takes it. A hyphen is for no such number, float or width.
"""


def nearest(exact):
    """The float next to a fraction, as a fraction, or None beyond the floats: Python divides whole numbers so."""
    try:
        return Fraction(exact.numerator / exact.denominator)
    except OverflowError:
        return None


def steps_to_one(step):
    one = nearest(1 / step)
    whole = one and round(one)
    return whole if whole and nearest(1 / Fraction(whole)) == step else None


def row(text, x):
    step = Fraction(float(text))
    parts = steps_to_one(step)
    steps = nearest(Fraction(x) * parts if parts else Fraction(x) / step)
    k = None if steps is None else round(steps)
    back = None if k is None else nearest(Fraction(k, parts) if parts else k * step)
    width = next((bits for bits in WIDTHS if k is not None and abs(k) < 2 ** (bits - 2)), None)
    limit = nearest(Fraction(sys.float_info.max) / step)
    is_taken = k is not None and abs(k) < SQL_LIMIT and (limit is None or abs(k) < limit)
    shown = [text, repr(x), k, None if back is None else repr(float(back)), width]
    return "\t".join("-" if it is None else str(it) for it in shown) + "\t" + "ft"[is_taken]


def coordinates(text):
    """Zeros, halves of a step with their neighbours among the floats, and what lies at the bounds of each width."""
    written = Fraction(text)
    for half in HALVES:
        middle = float(half * written)
        yield from (middle, math.nextafter(middle, -math.inf), math.nextafter(middle, math.inf))
    for count in BOUNDS:
        if nearest(count * written) is not None:
            yield float(count * written)
    yield from (0.0, -0.0, 1e-320, -1e-320, sys.float_info.max, -sys.float_info.max)


def main():
    print(HEAD, end="")
    for text in STEPS:
        print(*dict.fromkeys(row(text, x) for x in coordinates(text)), sep="\n")


if __name__ == "__main__":
    main()
