"""mypy accepts the type hints of the package, and the samples of the page.

Skipped where there is no mypy."""

import doctest
import importlib.util
import subprocess
import sys
import tempfile
import unittest
from pathlib import Path

import samples

TOP = Path(__file__).resolve().parents[3]
PAGE = TOP / "docs" / "PYTHON.md"
CONFIG = TOP / "bindings" / "python" / "pyproject.toml"


@samples.takes_long
class Types(unittest.TestCase):

    @classmethod
    def setUpClass(cls):
        if importlib.util.find_spec("mypy") is None:
            why_not = "there is no mypy"
            print(f"typing is not tested: {why_not}")
            raise unittest.SkipTest(why_not)
        folder = tempfile.TemporaryDirectory()
        cls.addClassCleanup(folder.cleanup)
        cls.folder = Path(folder.name)

    def checked(self, *words):
        """Whether mypy finds no fault, and what it prints."""
        ran = subprocess.run(
            [sys.executable, "-m", "mypy", "--config-file", str(CONFIG),
             "--cache-dir", str(self.folder / "cache"), *words],
            cwd=self.folder, capture_output=True, text=True, check=False)
        return ran.returncode == 0, ran.stdout + ran.stderr

    def checked_text(self, text):
        """The same of a module with this text, as a session may have it."""
        module = self.folder / "session.py"
        module.write_text(text)
        return self.checked("--allow-redefinition", "--allow-untyped-defs",
                            str(module))

    def test_package(self):
        is_typed, printed = self.checked("-p", "i_shape")
        self.assertTrue(is_typed, printed)

    def test_samples_of_the_page(self):
        samples = doctest.DocTestParser().get_examples(PAGE.read_text())
        self.assertTrue(samples)
        is_typed, printed = self.checked_text(
            "".join(sample.source for sample in samples))
        self.assertTrue(is_typed, printed)

    def test_wrong_type_is_found(self):
        text = "from i_shape import io\nio.Grid(step='wide')\n"
        is_typed, printed = self.checked_text(text)
        self.assertFalse(is_typed)
        self.assertIn('expected "float"', printed)


if __name__ == "__main__":
    unittest.main()
