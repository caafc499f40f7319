"""The name of the C library, by the system that Python says it runs on."""

import ctypes
import os
import shutil
import subprocess
import sys
import tempfile
import unittest
from pathlib import Path
from unittest import mock

from i_shape import _library

# numpy is imported before, since it asks for the system too
PROGRAM = """
import sys, numpy.typing
sys.platform = sys.argv[1]
import i_shape
print(i_shape._library._library._name, i_shape.area_two([(0, 0), (1, 0), (0, 1)]))
"""

NAMES = {"linux": "libi_shape.so", "freebsd14": "libi_shape.so",
         "darwin": "libi_shape.dylib", "win32": "i_shape.dll"}


class Names(unittest.TestCase):

    def test_the_library_of_each_system(self):
        for system, name in NAMES.items():
            with self.subTest(system), tempfile.TemporaryDirectory() as folder:
                file = Path(folder).resolve() / name
                shutil.copyfile(_library._library._name, file)
                told = subprocess.run(
                    [sys.executable, "-c", PROGRAM, system], check=True,
                    env={**os.environ, "I_SHAPE_C_DIR": folder},
                    stdout=subprocess.PIPE, text=True).stdout
                self.assertEqual(told, f"{file} 1\n")

    def test_a_python_of_32_bits(self):
        with mock.patch.object(ctypes, "sizeof", lambda _: 4), \
                self.assertRaisesRegex(ImportError, "64 bits"):
            _library._load()
