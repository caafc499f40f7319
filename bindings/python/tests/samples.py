"""Random features, as lists, and the arrays of them."""

import os
import signal
import unittest

import numpy as np

from i_shape import Polygons
from i_shape.io import Features

# For a test, or a case of tests, that takes seconds.
is_long = bool(os.environ.get("LONG_TESTS"))
takes_long = unittest.skipUnless(is_long, "LONG_TESTS is not set")
SQUARE = [(0, 0), (4, 0), (4, 4), (0, 4)]


def random_number(numbers):
    """A float of a kind that is easily written wrong."""
    kind = numbers.randrange(6)
    if kind == 0:
        return float(numbers.randint(-9, 9))
    if kind == 1:
        return numbers.choice([0.1, -0.0, 1e-7, 5e-324, 1e22, -1e300, 1 / 3])
    return numbers.uniform(-180, 180)


def random_ring(numbers, fewest):
    count = fewest + numbers.randrange(6)
    ring = [(random_number(numbers), random_number(numbers))
            for _ in range(count)]
    if count > 3 and numbers.random() < 0.2:
        ring[-1] = ring[0]  # its first point repeats, though it is open
    return ring


def random_features(numbers, count, fewest=0, least=0, number=random_ring):
    """Features, each a pair: whether it is multi, and its polygons.

    A ring has at least ``fewest`` points, and a polygon of a multipolygon
    at least ``least`` rings.
    """
    features = []
    for _ in range(count):
        is_multi = numbers.random() < 0.7
        parts = numbers.randrange(least, 4) if is_multi else min(
            1, numbers.randrange(least, 4))
        features.append((is_multi, [
            [number(numbers, fewest)
             for _ in range(max(least if is_multi else 1,
                                numbers.randrange(4)))]
            for _ in range(parts)]))
    return features


def arrays(features, dtype=np.float64):
    """The features of :func:`random_features` as the package has them."""
    polygons = [polygon for _, parts in features for polygon in parts]
    rings = [ring for polygon in polygons for ring in polygon]
    points = [point for ring in rings for point in ring]

    def ends(lists):
        return np.cumsum([0, *map(len, lists)], dtype=np.int64)

    return Features(
        Polygons(np.array(points, dtype).reshape(-1, 2), ends(rings),
                 ends(polygons)),
        ends([parts for _, parts in features]),
        np.array([is_multi for is_multi, _ in features], np.bool_))


def lists(features):
    """The features as lists again."""
    (points, ends, parts), offsets, are_multi = features
    points = [tuple(point) for point in points.tolist()]
    rings = [points[a:b] for a, b in zip(ends, ends[1:])]
    polygons = [rings[a:b] for a, b in zip(parts, parts[1:])]
    return list(zip(are_multi.tolist(),
                    [polygons[a:b] for a, b in zip(offsets, offsets[1:])]))


def geojson(*geometries):
    """A collection of the geometries."""
    return {"type": "FeatureCollection", "features": [
        {"type": "Feature", "properties": {"id": place}, "geometry": geometry}
        for place, geometry in enumerate(geometries)]}


def polygon(*rings):
    return {"type": "Polygon", "coordinates": [
        [list(point) for point in [*ring, *ring[:1]]] for ring in rings]}


def heed_interrupts(test):
    """Let programs that a test starts end by SIGINT and SIGHUP.

    A background job of a script ignores the first, and one of nohup the
    second, and so do its children.
    """
    for each, handler in ((signal.SIGINT, signal.default_int_handler),
                          (signal.SIGHUP, signal.SIG_DFL)):
        test.addCleanup(signal.signal, each, signal.signal(each, handler))
