"""The example of a layout beside KLayout's own Polygon.compress(true)."""

import json
import os
import re
import shutil
import subprocess
import tempfile
import unittest
from pathlib import Path

import numpy as np

import i_shape
import plain
import samples

HERE = Path(__file__).resolve().parent
EXAMPLE = HERE.parents[2] / "examples" / "layout.py"
KLAYOUT = shutil.which("klayout")
WHY_NOT = "a layout is not tested: there is no klayout"
if not KLAYOUT:
    print(WHY_NOT)


def form(ring):
    """The ring from one certain start, whichever way it is read."""
    return i_shape.canonical(np.array(ring, np.int64)).tolist()


def is_clean(ring):
    return i_shape.is_simple(np.array(ring, np.int64))


def counted(left):
    """What the example says of equal polygons and of invalid ones."""
    equal = sum(len(rings) - len({str(form(ring)) for ring in rings})
                for rings in left.values())
    invalid = sum(any(plain.contacts([ring]))
                  for rings in left.values() for ring in rings)
    return f"\n{equal} repeat an earlier one, {invalid} aren't valid\n"


@samples.takes_long
@unittest.skipUnless(KLAYOUT, WHY_NOT)
class Layout(unittest.TestCase):

    def setUp(self):
        folder = tempfile.TemporaryDirectory()
        self.addCleanup(folder.cleanup)
        self.folder = Path(folder.name)

    def run_klayout(self, script, **words):
        folders = [str(Path(i_shape.__file__).parents[1]), str(HERE)]
        run = subprocess.run(
            [KLAYOUT, "-b", "-r", script,
             *(word for name, value in words.items()
               for word in ("-rd", f"{name}={value}"))],
            env={**os.environ, "PYTHONPATH": os.pathsep.join(folders),
                 "HOME": str(self.folder), "QT_QPA_PLATFORM": "offscreen"},
            capture_output=True, text=True, check=False)
        self.assertEqual(run.returncode, 0, run.stdout + run.stderr)
        return run.stdout

    def rings(self, **words):
        path = self.folder / "rings.json"
        self.run_klayout(HERE / "layouts.py", rings=path, **words)
        return json.loads(path.read_text())

    def test_each_ring_is_that_of_compress(self):
        for kind in ("gds", "oas"):
            given = self.folder / f"given.{kind}"
            out = self.folder / f"out.{kind}"
            compressed = self.rings(made=given)
            told = self.run_klayout(EXAMPLE, given=given, out=out,
                                    times="yes")
            for words in ("polygons of .* points: .* are left",
                          "simplify_rings: .* million points a second",
                          "Polygon.compress: .* million points a second"):
                self.assertRegex(told, words)
            left = self.rings(told=out)
            self.assertEqual(set(left), set(compressed))
            if kind == "gds":  # which keeps equal polygons
                self.assertIn(counted(left), told)
            gone = re.findall(r"^gone: cell (\S+), layer (\d+)/0, box (.*)$",
                              told, re.MULTILINE)
            for place, rings in compressed.items():
                kept = [ring for ring in rings if isinstance(ring, list)]
                boxes = [box for box in rings if isinstance(box, str)]
                self.assertTrue(boxes)
                self.assertEqual(
                    sorted(box for cell, layer, box in gone
                           if f"{cell} {layer}" == place), sorted(boxes))
                self.assertTrue(all(map(is_clean, left[place])))
                forms = sorted(map(form, left[place]))
                wanted = sorted(map(form, kept))
                if kind == "oas":  # KLayout writes one of equal polygons
                    wanted = [one for place, one in enumerate(wanted)
                              if one not in wanted[:place]]
                self.assertEqual(forms, wanted)


if __name__ == "__main__":
    unittest.main()
