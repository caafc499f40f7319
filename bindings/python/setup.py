"""The package holds a library, so its wheel is of one platform, and of no
certain Python, since the library knows nothing of Python.

In a source distribution cargo builds the library, of the folder rust, or it
is taken from the folder I_SHAPE_C_DIR. It is called here, since a build tool
for Rust would have to be fetched. Elsewhere it lies in the package
already: the wheel is then of the machine that it was built for, and of the
system that WHEEL_SYSTEM names. The version is that of the header.
"""

import json
import os
import platform
import re
import shutil
import subprocess
import sys
from pathlib import Path

from setuptools import Distribution, setup
from setuptools.command.build_py import build_py

try:
    from setuptools.command.bdist_wheel import bdist_wheel
except ImportError:  # before setuptools 70.1
    from wheel.bdist_wheel import bdist_wheel

HERE = Path(__file__).resolve().parent
CRATE = HERE / "rust" / "Cargo.toml"
OLDEST = (1, 85)

# The numbers of machines in the head of an ELF file.
MACHINES = {62: "x86_64", 183: "aarch64"}

# As src/i_shape/_library.py has it, which can't be imported without numpy.
NAME = {"darwin": "libi_shape.dylib",
        "win32": "i_shape.dll"}.get(sys.platform, "libi_shape.so")

WAYS_OUT = ("Install Rust from https://rustup.rs, or set I_SHAPE_C_DIR to a"
            f" folder with {NAME}.")


class PlatformDistribution(Distribution):

    def has_ext_modules(self):
        return True


class PlatformWheel(bdist_wheel):

    def get_tag(self):
        its = platform_of_library() or super().get_tag()[2]
        # cargo builds for one machine
        return "py3", "none", its.replace("universal2", platform.machine())


class Build(build_py):

    def run(self):
        super().run()
        if CRATE.exists():
            is_editable = getattr(self, "editable_mode", False)
            folder = HERE / "src" if is_editable else Path(self.build_lib)
            shutil.copyfile(library(), folder / "i_shape" / NAME)


def platform_of_library():
    """That of a library which lies in the package, for Linux; or None."""
    file = HERE / "src" / "i_shape" / "libi_shape.so"
    if CRATE.exists() or not file.exists():
        return None
    machine = int.from_bytes(file.read_bytes()[18:20], "little")
    system = os.environ.get("WHEEL_SYSTEM", "linux")
    return f"{system}_{MACHINES[machine]}"


def library():
    """The library for the package."""
    folder = os.environ.get("I_SHAPE_C_DIR")
    if not folder:
        return built_by_cargo()
    file = Path(folder, NAME)
    if not file.exists():
        raise SystemExit(f"i_shape: I_SHAPE_C_DIR is {folder}, and there is"
                         f" no {NAME} in it.")
    return file


def built_by_cargo():
    check_cargo()
    words = ["cargo", "build", "--release", "--offline", "--locked",
             "--target-dir", str(HERE / "build" / "cargo"),
             "--message-format", "json-render-diagnostics"]
    # in the folder of the crate, whose .cargo has words for musl
    built = subprocess.run(words, cwd=CRATE.parent, stdout=subprocess.PIPE)
    if built.returncode:
        raise SystemExit(f"i_shape: `{' '.join(words)}` in {CRATE.parent}"
                         f" failed with status {built.returncode}.")
    files = [Path(file) for line in built.stdout.splitlines()
             for file in json.loads(line).get("filenames", ())]
    file = next((file for file in files if file.name == NAME), None)
    if not file:
        raise SystemExit(f"i_shape: cargo has built no {NAME}, which this"
                         f" Python needs, but {[*map(str, files)]}.")
    check_loads(file)
    return file


def check_cargo():
    needed = f"cargo {'.'.join(map(str, OLDEST))} or later builds its library"
    try:
        told = subprocess.run(["cargo", "--version"], stdout=subprocess.PIPE,
                              check=True).stdout.decode().strip()
    except (OSError, subprocess.CalledProcessError) as error:
        raise SystemExit(f"i_shape: {needed}, and there is none that runs:"
                         f" {error}. {WAYS_OUT}") from None
    found = re.match(r"cargo (\d+)\.(\d+)", told)
    if not found or tuple(map(int, found.groups())) < OLDEST:
        raise SystemExit(f"i_shape: {needed}, and the one on the path is"
                         f" {told}. {WAYS_OUT}")


def check_loads(file):
    """Cargo may build for another processor than that of this Python."""
    if "CARGO_BUILD_TARGET" in os.environ:
        return
    load = "import ctypes, sys; ctypes.CDLL(sys.argv[1]).i_shape_version()"
    told = subprocess.run([sys.executable, "-c", load, str(file)],
                          stderr=subprocess.PIPE)
    if told.returncode:
        *_, fault = [b"", *told.stderr.splitlines()]
        raise SystemExit(f"i_shape: this Python, for {platform.machine()}, "
                         "can't load what cargo has built for its default "
                         "target: set CARGO_BUILD_TARGET to another one. "
                         + fault.decode(errors="replace"))


def version():
    """The version as the header says it: two digits a part, to base 16."""
    header = (HERE / "i_shape.h").read_text(encoding="utf-8")
    parts = re.search("I_SHAPE_VERSION 0x(..)(..)(..)$", header, re.M).groups()
    return ".".join(str(int(part, 16)) for part in parts)


setup(version=version(), distclass=PlatformDistribution,
      cmdclass={"bdist_wheel": PlatformWheel, "build_py": Build})
