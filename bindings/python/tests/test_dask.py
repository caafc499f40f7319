"""Rings that two worker processes of Dask clean in parts.

DASK_SCHEDULER is the address of a scheduler of two workers; without it they
are started here."""

import os
import random
import socket
import sys
import tempfile
import unittest
from pathlib import Path

import numpy as np

import i_shape
import plain

EXAMPLES = Path(__file__).resolve().parents[3] / "examples"


def why_not():
    """Why there is no Dask here, or None."""
    try:
        import distributed  # noqa: F401
    except ImportError as error:
        return f"Dask is not tested: {error}"
    try:
        socket.create_server(("127.0.0.1", 0)).close()
    except OSError as error:
        return f"Dask is not tested: no port of this machine is open: {error}"
    return None


WHY_NOT = why_not()
if WHY_NOT:
    print(WHY_NOT)


@unittest.skipIf(WHY_NOT, WHY_NOT)
class Workers(unittest.TestCase):

    @classmethod
    def setUpClass(cls):
        from distributed import Client, LocalCluster
        sys.path.insert(0, str(EXAMPLES))
        cls.addClassCleanup(sys.path.remove, str(EXAMPLES))
        cluster = os.environ.get("DASK_SCHEDULER")
        if not cluster:
            folder = cls.entered(tempfile.TemporaryDirectory())
            cluster = cls.entered(LocalCluster(
                n_workers=2, threads_per_worker=1, dashboard_address=None,
                local_directory=folder))
        cls.client = cls.entered(Client(cluster))
        cls.client.wait_for_workers(2, timeout=60)

    @classmethod
    def entered(cls, manager):
        value = manager.__enter__()
        cls.addClassCleanup(manager.__exit__, None, None, None)
        return value

    def assert_parts_are_the_whole(self, points, offsets, parts=2):
        import coastlines_dask
        whole = i_shape.simplify_rings(points, offsets)
        left = coastlines_dask.clean(self.client, points, offsets, parts)
        self.assertTrue(coastlines_dask.are_same(whole, left))
        return left

    def test_the_workers_are_two_other_processes(self):
        places = list(self.client.scheduler_info()["workers"])
        ids = self.client.gather([
            self.client.submit(os.getpid, workers=[place], pure=False)
            for place in places])
        self.assertEqual(len(set(ids) | {os.getpid()}), 3)

    def test_parts_joined_are_the_answer_of_one_call(self):
        for dtype in plain.DTYPES:
            numbers = random.Random(6)
            rings = [plain.random_ring(numbers, dtype) for _ in range(3000)]
            points, offsets = plain.flat(rings, dtype)
            left = self.assert_parts_are_the_whole(points, offsets)
            self.assertGreater(len(left.points), 1000)
            self.assertLess(len(left.points), len(points))

    def test_other_rings_are_told_apart(self):
        import coastlines_dask
        one = i_shape.Rings(np.zeros((3, 2), np.int32), np.array([0, 3]))
        others = [one._replace(points=one.points + 1),
                  one._replace(points=one.points.astype(np.int64)),
                  one._replace(points=one.points[:2]),
                  one._replace(offsets=one.offsets + 1)]
        for other in others:
            self.assertFalse(coastlines_dask.are_same(one, other))

    def test_each_worker_has_a_part(self):
        import coastlines_dask
        numbers = random.Random(8)
        rings = [plain.random_ring(numbers, np.int32) for _ in range(100)]
        points, offsets = plain.flat(rings, np.int32)
        called = []
        submit = self.client.submit

        def noted(*words, workers, **others):
            called.extend(workers)
            return submit(*words, workers=workers, **others)

        self.client.submit = noted
        self.addCleanup(delattr, self.client, "submit")
        coastlines_dask.clean(self.client, points, offsets, 2)
        self.assertEqual(len(set(called)), 2)

    def test_few_rings(self):
        numbers = random.Random(7)
        for count in range(4):
            rings = [plain.random_ring(numbers, np.int32)
                     for _ in range(count)]
            points, offsets = plain.flat(rings, np.int32)
            self.assert_parts_are_the_whole(points, offsets, 3)

    def test_an_error_of_a_part(self):
        import coastlines_dask
        points = np.array([(0, 0), (4, 0), (4, 4), (0, 0), (9, 0), (2**30, 9)],
                          np.int32)
        with self.assertRaises(i_shape.UnsafePointError) as told:
            coastlines_dask.clean(self.client, points, np.array([0, 3, 6]), 2)
        # The ring and the point are those of the part.
        self.assertEqual((told.exception.ring, told.exception.point), (0, 2))


if __name__ == "__main__":
    unittest.main()
