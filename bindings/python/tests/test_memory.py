"""Memory: none is lost over many calls, and where none is left calls fail."""

import gc
import os
import resource
import subprocess
import sys
import textwrap
import tracemalloc
import unittest

import numpy as np

import i_shape

CALLS = 10000


def resident():
    """How many bytes of memory the process holds."""
    with open("/proc/self/statm") as file:
        return int(file.read().split()[1]) * resource.getpagesize()


class Leaks(unittest.TestCase):

    def assert_no_leak(self, call, times):
        gc.collect()  # Python then keeps no memory of freed tuples either
        for _ in range(100):
            call()
        tracemalloc.start()
        try:
            for _ in range(50):
                call()
            before, _ = tracemalloc.get_traced_memory()
            for _ in range(200):
                call()
            after, _ = tracemalloc.get_traced_memory()
        finally:
            tracemalloc.stop()
        # Threads keep some 5 kB, however many calls there are.
        self.assertLess(after - before, 20000)
        before = resident()
        for _ in range(times):
            call()
        # An array of points lost by each call would be 16 MB and more.
        self.assertLess(resident() - before, 8 * 10 ** 6)

    def setUp(self):
        self.points = np.random.default_rng(1).integers(
            -9, 9, (1000, 2), np.int64)
        self.unsafe = self.points.copy()
        self.unsafe[-1] = 2 ** 62

    def test_calls_on_a_contour(self):
        calls = [i_shape.simplify, i_shape.despike, i_shape.canonical,
                 i_shape.is_simple, i_shape.has_no_spikes, i_shape.is_convex,
                 i_shape.is_safe, i_shape.area_two,
                 lambda points: i_shape.canonical(points, oriented=True),
                 lambda points: i_shape.contains(points, (1, 1))]
        count = 0

        def one_of_them():
            nonlocal count
            count += 1
            calls[count % len(calls)](self.points)

        self.assert_no_leak(one_of_them, CALLS)

    def test_batch_calls(self):
        offsets = np.arange(0, 1001, 10)
        calls = [i_shape.simplify_rings, i_shape.despike_rings,
                 i_shape.canonical_rings,
                 lambda *given: i_shape.canonical_rings(*given,
                                                        oriented=True)]
        count = 0

        def one_of_them():
            nonlocal count
            count += 1
            calls[count % len(calls)](self.points, offsets)

        self.assert_no_leak(one_of_them, CALLS)
        self.assert_no_leak(
            lambda: i_shape.simplify_rings(self.points, offsets, threads=2),
            CALLS // 10)

    def test_calls_that_fail(self):
        def fails():
            for given in ((self.unsafe, [0, 500, 1000]),
                          (self.points, [0, 500, 400])):
                try:
                    i_shape.simplify_rings(*given)
                except ValueError:
                    pass
                else:
                    self.fail("it returns")

        self.assert_no_leak(fails, CALLS // 2)


class FailedAllocations(unittest.TestCase):

    def test_a_failed_allocation_is_an_error(self):
        # The room for the answer is there, that of the library isn't.
        program = textwrap.dedent("""
            import resource
            import numpy as np
            import i_shape
            points = np.zeros((10 ** 6, 2), np.int64)
            points[::2, 0] = points[::3, 1] = 1
            offsets = np.array([0, len(points)])
            calls = [lambda: i_shape.simplify(points),
                     lambda: i_shape.canonical(points),
                     lambda: i_shape.canonical(points, oriented=True),
                     lambda: i_shape.simplify_rings(points, offsets),
                     lambda: i_shape.canonical_rings(points, offsets,
                                                     oriented=True)]
            right = [call() for call in calls]
            soft, hard = resource.getrlimit(resource.RLIMIT_AS)
            for call, answer in zip(calls, right):
                with open("/proc/self/statm") as file:
                    held = int(file.read().split()[0])
                room = held * resource.getpagesize() + points.nbytes + 10 ** 6
                resource.setrlimit(resource.RLIMIT_AS, (room, hard))
                try:
                    call()
                except MemoryError as error:
                    print(error)
                resource.setrlimit(resource.RLIMIT_AS, (soft, hard))
                for part, other in zip(call(), answer):
                    assert np.array_equal(part, other)
        """)
        # So that blocks of this size are given back when they are freed.
        mapped = {**os.environ, "MALLOC_MMAP_THRESHOLD_": "65536"}
        told = subprocess.run([sys.executable, "-c", program], env=mapped,
                              capture_output=True, text=True, check=False)
        self.assertEqual((told.returncode, told.stderr), (0, ""))
        word = "libi_shape is out of memory\n"
        if told.stdout in [word * count for count in range(5)]:
            self.skipTest("the system gave memory beyond the limit")
        self.assertEqual(told.stdout, word * 5)

    def test_no_memory_for_contacts(self):
        # Each two of these edges overlap.
        program = textwrap.dedent("""
            import resource
            import numpy as np
            import i_shape
            points = np.tile(np.array([(0, 0), (4, 0)]), (2000, 1))
            polygons = points, [0, 2, len(points)], [0, 1, 2]
            _, hard = resource.getrlimit(resource.RLIMIT_AS)
            with open("/proc/self/statm") as file:
                held = int(file.read().split()[0])
            room = held * resource.getpagesize() + 10 ** 7
            resource.setrlimit(resource.RLIMIT_AS, (room, hard))
            for call in (lambda: i_shape.contacts(points),
                         lambda: i_shape.polygon_validity(*polygons,
                                                          touching=True)):
                try:
                    call()
                except MemoryError:
                    print("refused")
            print(i_shape.contacts(points[:3]).tolist())
            print(i_shape.polygon_validity(*polygons).tolist())
        """)
        told = subprocess.run([sys.executable, "-c", program],
                              capture_output=True, text=True, check=False)
        self.assertEqual(
            (told.stdout, told.stderr),
            ("refused\nrefused\n[[0, 1]]\n[(1, 0, 0), (2, 2, 3)]\n", ""))


if __name__ == "__main__":
    unittest.main()
