#!/usr/bin/env python3
"""Compares on shorelines, parcels and a layout which polygons are valid here
and for GEOS, and says why where the two differ.

    real.py [--only WORD]

--only picks the data in whose names WORD is. Each polygon is asked about as
rounded onto the grid, and after despike and after simplify. A row counts those
with the same verdicts, by this library's first fault, with how its two edges
meet, and GEOS's reason.

Plain Python finds by fractions the contacts of each polygon, and from these
each verdict: here, with the very edges or rings of the first fault, and by
OGC's rules. Where a call returns another one, the row says that it isn't
expected, and the program fails and shows the smallest such polygon.

The library is that of `make c`, or of the folder I_SHAPE_C_DIR. Debian has the
others in python3-shapely, klayout, netcdf-bin, gmt-gshhg-low and
gmt-gshhg-high; data that aren't at hand are left out.
"""

from __future__ import annotations

import argparse
import json
import logging
import os
import random
import subprocess
import sys
import tempfile
from collections import defaultdict
from pathlib import Path
from typing import Iterable, Iterator, NamedTuple

import numpy as np
from shapely.geos import geos_version_string
from shapely.validation import explain_validity

HERE = Path(__file__).resolve().parent
TOP = HERE.parents[1]
FOLDERS = [str(TOP / "bindings/python" / name) for name in ("src", "tests")]
FOLDERS.append(str(TOP / "examples"))
os.environ.setdefault("I_SHAPE_C_DIR", str(TOP / "bindings/c/out"))
sys.path[:0] = FOLDERS
import coastlines  # noqa: E402
import i_shape  # noqa: E402
import plain  # noqa: E402
from i_shape import Fault, Polygons, io  # noqa: E402
from parcels import GRID, cadastre  # noqa: E402
from validity import spiked  # noqa: E402

GSHHG = "/usr/share/gmt-gshhg/binned_GSHHS_{}.nc"
UNEXPECTED = "not expected"
EDGES = 4096  # whose boxes are compared at once
WAYS = {"as rounded": lambda *polygons: Polygons(*polygons),
        "despike": i_shape.despike_polygons,
        "simplify": i_shape.simplify_polygons}

logging.getLogger("shapely").setLevel(logging.ERROR)

Point = tuple[int, int]


class Contact(NamedTuple):
    """Two edges that meet, by the points from which they lead, and how."""

    first: int
    second: int
    kind: str
    at: Point  # one of the points that they share


class FirstFault(NamedTuple):
    """The first fault of a polygon, as polygon_validity has it."""

    kind: Fault
    first: int = 0
    second: int = 0


def cross(u: np.ndarray, v: np.ndarray) -> np.ndarray:
    """The cross product of each two vectors."""
    return u[:, 0] * v[:, 1] - u[:, 1] * v[:, 0]


def kind_of(edge: tuple[Point, Point], other: tuple[Point, Point],
            shared: tuple[Point, Point]) -> str:
    if shared[0] != shared[1]:
        return "overlap"
    return "touch" if shared[0] in edge + other else "crossing"


class Edges:
    """The edges of polygons, each by the point from which it leads."""

    def __init__(self, polygons: Polygons) -> None:
        self.points = polygons.points.astype(np.int64)
        self.rings = polygons.ring_offsets
        self.parts = polygons.polygon_offsets
        counts = np.diff(self.rings)
        self.ring = np.repeat(np.arange(len(counts)), counts)
        self.polygon = np.repeat(np.arange(len(self.parts) - 1),
                                 np.diff(self.parts))[self.ring]
        self.next = np.arange(1, len(self.points) + 1)
        self.next[self.rings[1:] - 1] = self.rings[:-1]

    def ring_points(self, ring: int) -> np.ndarray:
        return self.points[self.rings[ring]:self.rings[ring + 1]]

    def rings_of(self, polygon: int) -> range:
        return range(*self.parts[polygon:polygon + 2].tolist())

    def are_repeated(self) -> np.ndarray:
        """Which points equal the next one."""
        return (self.points == self.points[self.next]).all(1)

    def boxes_that_meet(self) -> Iterator[tuple[np.ndarray, np.ndarray]]:
        """All pairs of edges of a polygon whose boxes meet, in parts."""
        ends = self.points[self.next]
        low = np.minimum(self.points, ends)
        high = np.maximum(self.points, ends)
        # Each polygon lies in a strip of its own.
        strip = self.polygon * (np.ptp(self.points[:, 0]) + 1)
        order = np.argsort(low[:, 0] + strip, kind="stable")
        reach = np.searchsorted((low[:, 0] + strip)[order],
                                (high[:, 0] + strip)[order], side="right")
        for start in range(0, len(order), EDGES):
            places = np.arange(start, min(start + EDGES, len(order)))
            counts = reach[places] - places - 1
            before = np.repeat(np.cumsum(counts) - counts, counts)
            one = np.repeat(places, counts)
            other = order[one + 1 + np.arange(counts.sum()) - before]
            one = order[one]
            meet = ((low[one, 1] <= high[other, 1])
                    & (low[other, 1] <= high[one, 1]))
            yield (np.minimum(one, other)[meet],
                   np.maximum(one, other)[meet])

    def may_meet(self, one: np.ndarray, other: np.ndarray) -> np.ndarray:
        """Which pairs aren't parted by the line of either edge, and don't
        only follow one another around a corner."""
        a, b, c, d = (self.points[its] for its in (
            one, self.next[one], other, self.next[other]))
        corners = (((self.next[one] == other) | (self.next[other] == one))
                   & (cross(b - a, d - c) != 0))
        sides = [np.sign(cross(v, w)) for v, w in (
            (b - a, c - a), (b - a, d - a), (d - c, a - c), (d - c, b - c))]
        return ((sides[0] * sides[1] <= 0) & (sides[2] * sides[3] <= 0)
                & ~corners)

    def edge(self, start: int) -> tuple[Point, Point]:
        a, b = self.points[[start, self.next[start]]].tolist()
        return tuple(a), tuple(b)

    def contact(self, first: int, second: int) -> Contact | None:
        one, other = self.edge(first), self.edge(second)
        shared = plain.shared(*one, *other)
        if not shared:
            return None
        is_followed = (
            (self.next[first] == second and shared == (other[0], other[0]))
            or (self.next[second] == first and shared == (one[0], one[0])))
        if is_followed:
            return None
        return Contact(first, second, kind_of(one, other, shared), shared[0])

    def contacts(self) -> dict[int, list[Contact]]:
        """The contacts of each polygon that has one."""
        found = defaultdict(list)
        for pairs in self.boxes_that_meet():
            may_meet = self.may_meet(*pairs)
            for first, second in zip(*(its[may_meet].tolist()
                                       for its in pairs)):
                contact = self.contact(first, second)
                if contact:
                    found[int(self.polygon[first])].append(contact)
        return found

    def is_around(self, ring: int, inner: int, shared: set[Point]) -> bool:
        """Whether a ring is around another one, which shares these points
        with it and doesn't cross it."""
        point = next(point for point in self.ring_points(inner).tolist()
                     if tuple(point) not in shared)
        a = self.ring_points(ring) - point
        b = np.roll(a, -1, 0)
        turns = cross(a, b)
        up = (a[:, 1] <= 0) & (b[:, 1] > 0) & (turns > 0)
        down = (b[:, 1] <= 0) & (a[:, 1] > 0) & (turns < 0)
        return int(up.sum()) != int(down.sum())

    def misplaced_hole(self, polygon: int,
                       touches: dict[int, set[Point]]) -> FirstFault:
        """The first hole outside the outer ring or within another hole.

        Rings only touch one another, each at its points of touches.
        """
        outer, *holes = self.rings_of(polygon)
        for hole in holes:
            if not self.is_around(outer, hole, touches[outer]):
                return FirstFault(Fault.HOLE_OUTSIDE, hole)
        its = [self.ring_points(hole) for hole in holes]
        low = np.array([points.min(0) for points in its])
        high = np.array([points.max(0) for points in its])
        for place, hole in enumerate(holes):
            wider = (low <= low[place]).all(1) & (high >= high[place]).all(1)
            for other in np.flatnonzero(wider).tolist():
                if other != place and self.is_around(holes[other], hole,
                                                     touches[holes[other]]):
                    return FirstFault(Fault.HOLE_WITHIN, hole, holes[other])
        return FirstFault(Fault.VALID)


def are_forest(links: Iterable[tuple[object, object]]) -> bool:
    """Whether no links lead around."""
    above: dict[object, object] = {}

    def top(node: object) -> object:
        while node in above:
            node = above[node]
        return node

    for one, other in links:
        if top(one) == top(other):
            return False
        above[top(one)] = top(other)
    return True


def without_repeated(polygons: Polygons, are_repeated: np.ndarray) -> Polygons:
    """The polygons without repeated points; a point of each ring stays."""
    stay = ~are_repeated
    begins = polygons.ring_offsets[:-1]
    stay[begins] |= ~np.logical_or.reduceat(stay, begins)
    counts = np.concatenate([[0], np.cumsum(stay)])
    return polygons._replace(points=polygons.points[stay],
                             ring_offsets=counts[polygons.ring_offsets])


class Verdicts:
    """What is to be expected of polygons, whose rings have three points."""

    def __init__(self, polygons: Polygons) -> None:
        self.given = Edges(polygons)
        self.contacts = self.given.contacts()
        repeated = self.given.are_repeated()
        self.bare, self.bare_contacts = self.given, self.contacts
        if repeated.any():
            self.bare = Edges(without_repeated(polygons, repeated))
            self.bare_contacts = self.bare.contacts()
        self.repeating = set(self.given.polygon[repeated].tolist())
        self.lengths = np.diff(self.bare.rings)

    def here(self, polygon: int) -> FirstFault:
        for ring in self.given.rings_of(polygon):
            if self.lengths[ring] == 1:  # all points are equal
                return FirstFault(Fault.TOO_FEW_POINTS, ring)
        if polygon in self.contacts:
            first, second, *_ = min(self.contacts[polygon])
            return FirstFault(Fault.CONTACT, first, second)
        return self.given.misplaced_hole(polygon, defaultdict(set))

    def how_first_meet(self, polygon: int) -> str:
        its = self.contacts.get(polygon)
        return f", {min(its).kind}" if its else ""

    def is_valid_by_ogc(self, polygon: int) -> bool:
        """Whether rings at most touch one another, and so that the inside
        stays in one piece."""
        bare, contacts = self.bare, self.bare_contacts.get(polygon, [])
        if any(self.lengths[ring] < 3 for ring in bare.rings_of(polygon)):
            return False
        touches: dict[int, set[Point]] = defaultdict(set)
        for contact in contacts:
            rings = [int(bare.ring[start]) for start in contact[:2]]
            if contact.kind != "touch" or rings[0] == rings[1]:
                return False
            for ring in rings:
                touches[ring].add(contact.at)
        # Links lead around too where rings cross: they do so at two touches.
        return (are_forest((ring, point) for ring, points in touches.items()
                           for point in points)
                and bare.misplaced_hole(polygon, touches).kind == Fault.VALID)

    def why(self, polygon: int, fault: FirstFault, reason: str) -> str:
        """Why the two verdicts differ, nothing where they don't."""
        is_valid, is_theirs = fault.kind == Fault.VALID, reason == ""
        if (fault != self.here(polygon)
                or is_theirs != self.is_valid_by_ogc(polygon)):
            return UNEXPECTED
        if is_valid == is_theirs:
            return ""
        whys = (["a point is repeated"] * (polygon in self.repeating)
                + ["rings touch"] * (polygon in self.bare_contacts))
        return "; ".join(whys) if is_theirs and whys else UNEXPECTED


def faults_here(polygons: Polygons) -> list[FirstFault]:
    """The first faults, if all calls of this library agree on them."""
    faults = [FirstFault(Fault(kind), first, second) for kind, first, second
              in i_shape.polygon_validity(*polygons).tolist()]
    told = io.explain_validity(io.features_of(polygons), 1)
    kinds = [fault.kind if fault else Fault.VALID for fault in told]
    assert kinds == [fault.kind for fault in faults]
    if len(polygons.ring_offsets) == len(polygons.polygon_offsets):
        are_simple = i_shape.are_simple_polygons(*polygons[:2]).tolist()
        assert are_simple == [kind == Fault.VALID for kind in kinds]
    return faults


def reasons_of_geos(polygons: Polygons) -> list[str]:
    """Why GEOS says that each isn't valid, nothing if it says that it is."""
    return ["" if shape.is_valid else explain_validity(shape).split("[")[0]
            for shape in io.to_shapely(io.features_of(polygons))]


class Row:
    def __init__(self) -> None:
        self.count = 0
        self.least: tuple[int, str] | None = None

    def add(self, polygons: Polygons, polygon: int) -> None:
        self.count += 1
        start, end = polygons.polygon_offsets[polygon:polygon + 2]
        size = int(np.diff(polygons.ring_offsets[[start, end]])[0])
        if self.least is None or size < self.least[0]:
            one = polygons._replace(
                polygon_offsets=polygons.polygon_offsets[polygon:polygon + 2])
            self.least = size, io.to_wkt(io.features_of(one))[0]

    def smallest(self, is_whole: bool) -> str:
        size, text = self.least
        return text if is_whole or size <= 12 else f"{size} points"


class Data(NamedTuple):
    name: str
    step: str
    polygons: Polygons


def rows_of(polygons: Polygons) -> dict[tuple[str, str, str], Row]:
    """The polygons by their verdicts, and why these differ."""
    verdicts = Verdicts(polygons)
    rows: dict[tuple[str, str, str], Row] = defaultdict(Row)
    for polygon, (fault, reason) in enumerate(zip(
            faults_here(polygons), reasons_of_geos(polygons))):
        here = fault.kind.name.lower().replace("_", " ")
        if fault.kind == Fault.CONTACT:
            here += verdicts.how_first_meet(polygon)
        rows[here, reason or "valid",
             verdicts.why(polygon, fault, reason)].add(polygons, polygon)
    return rows


def summary(rows: dict[tuple[str, str, str], Row]) -> list[int]:
    """How many polygons; valid for both, for neither, for GEOS alone as a
    point is repeated, as rings touch and as both, and here alone."""
    counts = [0] * 7
    for (here, theirs, why), row in rows.items():
        are_valid = here == "valid", theirs == "valid"
        place = {(True, True): 1, (False, False): 2, (True, False): 6}.get(
            are_valid, 3 + ("repeated" not in why) + 2 * (";" in why))
        counts[0] += row.count
        counts[place] += row.count
    return counts


def flat(polygons: Iterable[list[list[Point]]]) -> Polygons:
    polygons = list(polygons)
    rings = [ring for polygon in polygons for ring in polygon]
    points, offsets = plain.flat(rings, np.int32)
    return Polygons(points, offsets,
                    np.cumsum([0, *map(len, polygons)]).astype(np.int64))


def alone(rings: Iterable[list[Point]]) -> Polygons:
    return flat([ring] for ring in rings)


def moved_within(ring: np.ndarray, outer: np.ndarray,
                 around: int) -> np.ndarray:
    """The ring, by the turn of the earth that brings it near another one."""
    middle = (outer[:, 0].min() + outer[:, 0].max() - 2 * ring[0, 0]) / 2
    return ring + [around * round(middle / around), 0]


def shorelines(scale: str) -> Iterator[Data]:
    """Each shoreline, and those that have others directly within."""
    path = GSHHG.format(scale)
    os.stat(path)  # ncdump wouldn't raise that it isn't there
    side, = coastlines.read(path, "Bin_size_in_minutes")[0].tolist()
    parents, = coastlines.read(path, "Id_of_parent_polygons")
    around = 360 * 60 // side * coastlines.SIDE
    shores = {number: ring for number, ring in coastlines.shores(path)
              if len(ring) > 2}
    polygons = defaultdict(list)
    for number in sorted(shores):
        parent = int(parents[number])
        if parent >= 0:
            if not polygons[parent]:
                polygons[parent].append(shores[parent])
            polygons[parent].append(
                moved_within(shores[number], shores[parent], around))
    grid = io.Grid(side / 60 / coastlines.SIDE)
    for kind, its in (("", [[ring] for ring in shores.values()]),
                      (", with holes", list(polygons.values()))):
        whole = flat(its)
        given = io.features_from_grid(io.features_of(whole), grid)
        for step, onto in ((f"{grid.step:.2g} degrees", grid),
                           ("0.01 degrees", io.Grid(0.01))):
            rounded = io.features_to_grid(given, onto).polygons
            assert onto is not grid or (rounded.points == whole.points).all()
            yield Data(f"shorelines {scale}{kind}", step, rounded)


def parcels() -> Iterator[Data]:
    numbers = random.Random(1)
    rings = cadastre(160, numbers)
    yield Data("parcels", f"{GRID.step} m", alone(rings))
    yield Data("parcels with spikes", f"{GRID.step} m",
               alone(spiked(ring, numbers) if place % 20 else ring
                     for place, ring in enumerate(rings)))


def run_klayout(folder: str, script: Path, **words: object) -> None:
    subprocess.run(
        ["klayout", "-b", "-r", script,
         *(word for name, value in words.items()
           for word in ("-rd", f"{name}={value}"))],
        env={**os.environ, "PYTHONPATH": os.pathsep.join(FOLDERS),
             "HOME": folder, "QT_QPA_PLATFORM": "offscreen"},
        check=True, stdout=subprocess.DEVNULL)


def layout() -> Iterator[Data]:
    """The random layout of examples/layout.py, as EXAMPLES.md makes it."""
    with tempfile.TemporaryDirectory() as folder:
        given, told = (Path(folder, name) for name in ("a.gds", "a.json"))
        run_klayout(folder, TOP / "bindings/python/tests/layouts.py",
                    made=given, rings=told, polygons=5000)
        run_klayout(folder, HERE / "klayout_polygons.py", given=given,
                    told=told)
        polygons = json.loads(told.read_text())
    for name, its in polygons.items():
        yield Data(f"layout, {name}", "1", flat(
            polygon for polygon in its if min(map(len, polygon)) > 2))


SOURCES = {"shorelines i": lambda: shorelines("i"),
           "shorelines h": lambda: shorelines("h"),
           "parcels": parcels, "layout": layout}


def all_data(word: str) -> Iterator[Data]:
    for name, source in SOURCES.items():
        if word in name:
            try:
                yield from source()
            except FileNotFoundError as error:
                print(f"left out: {name}: {error}", file=sys.stderr)


def main() -> int:
    words = argparse.ArgumentParser(
        description="Compares verdicts on real polygons with GEOS.")
    words.add_argument("--only", metavar="WORD", default="")
    lines, unexpected = [], []
    for name, step, polygons in all_data(words.parse_args().only):
        for way, call in WAYS.items():
            rows = rows_of(call(*polygons))
            place = f"{name}, {step} | {way}"
            lines.append(f"| {place} | {' | '.join(map(str, summary(rows)))}"
                         " |")
            print(f"\n{place}\n\n| here | GEOS | count | why they differ"
                  " | the smallest |\n|---|---|---|---|---|")
            for key, row in sorted(rows.items()):
                here, theirs, why = key
                is_odd = why == UNEXPECTED
                print(f"| {here} | {theirs} | {row.count} | {why}"
                      f" | {row.smallest(is_odd)} |", flush=True)
                unexpected += [key] * is_odd
    print(f"\nGEOS {geos_version_string}\n\n| polygons, step | cleaned by"
          " | polygons | valid for both | for neither | GEOS alone: a point is"
          " repeated | rings touch | both | here alone |\n"
          "|---|---|---|---|---|---|---|---|---|", *lines, sep="\n")
    return 1 if unexpected else 0


if __name__ == "__main__":
    sys.exit(main())
