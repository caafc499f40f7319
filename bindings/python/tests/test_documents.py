"""The examples of the docstrings and of the page, and the package itself."""

import doctest
import inspect
import re
import unittest
from importlib import metadata
from pathlib import Path

import i_shape
from i_shape import (_contacts, _contours, _keys, _measures, _polygons,
                     _rings, _windings, io)
from i_shape.io import (_cleaners, _closing, _conditions, _features,
                        _geojson, _geoseries, _grid, _keys_of_features,
                        _locating, _shapely, _validity, _wkb, _wkt)

TOP = Path(__file__).resolve().parents[3]
PAGE = TOP / "docs" / "PYTHON.md"
VALIDITY = TOP / "docs" / "VALIDITY.md"
FAQ = TOP / "docs" / "FAQ.md"
README = TOP / "README.md"


class Documents(unittest.TestCase):

    def test_the_examples_of_the_docstrings(self):
        for module in (_contacts, _contours, _rings, _polygons, _measures,
                       _keys, _windings):
            faults, count = doctest.testmod(module)
            self.assertEqual(faults, 0)
            self.assertGreater(count, 10)
        for module in (_cleaners, _closing, _conditions, _features, _geojson,
                       _geoseries, _grid, _keys_of_features, _locating,
                       _shapely, _validity, _wkb, _wkt):
            faults, count = doctest.testmod(module)
            self.assertEqual(faults, 0)
            self.assertGreater(count, 1)

    def test_each_call_has_an_example_and_its_parts(self):
        for module in (i_shape, io):
            for name in module.__all__:
                item = getattr(module, name)
                text = inspect.getdoc(item)
                self.assertTrue(text, name)
                if inspect.isfunction(item):
                    for part in ("Parameters", "Returns", "Raises",
                                 "Examples"):
                        self.assertIn(f"\n{part}\n-----", text, name)
                    self.assertIn("return", item.__annotations__, name)

    def test_options_are_named(self):
        for module in (i_shape, io):
            for name in module.__all__:
                item = getattr(module, name)
                if inspect.isfunction(item):
                    for its in inspect.signature(item).parameters.values():
                        self.assertEqual(
                            its.kind is its.KEYWORD_ONLY,
                            its.name in ("collapsed", "halves", "others", "oriented",
                                         "rule", "threads", "touching"),
                            (name, its.name))

    def test_the_examples_of_the_pages(self):
        for path, fewest in ((PAGE, 9), (README, 5), (VALIDITY, 5),
                             (FAQ, 3)):
            # A fence would be read as a line of the output before it.
            text = re.sub("^```.*$", "", path.read_text(), flags=re.MULTILINE)
            page = doctest.DocTestParser().get_doctest(
                text, {}, path.name, str(path), 0)
            faults, count = doctest.DocTestRunner().run(page)
            self.assertEqual(faults, 0)
            self.assertGreaterEqual(count, fewest)

    def test_the_page_names_each_call(self):
        page = PAGE.read_text()
        for name in (*i_shape.__all__, *io.__all__):
            self.assertRegex(page, rf"`{name}\b[^`]*`")

    def test_the_version_is_that_of_the_header(self):
        header = (TOP / "include" / "i_shape.h").read_text()
        number = int(re.search(r"I_SHAPE_VERSION (0x\w+)", header)[1], 16)
        version = f"{number >> 16}.{number >> 8 & 255}.{number & 255}"
        self.assertEqual(i_shape.__version__, version)
        self.assertEqual(metadata.version("i_shape"), version)

    def test_the_package_is_typed(self):
        folder = Path(i_shape.__file__).parent
        self.assertTrue((folder / "py.typed").is_file())
        self.assertTrue((folder / "libi_shape.so").is_file())


if __name__ == "__main__":
    unittest.main()
