"""The calls of the C library, and the arrays that are handed to them.

Nothing here trusts an array: each is tested for its dtype and shape. Points
are copied where the library could not read them as they lie, offsets always.
"""

from __future__ import annotations

import ctypes
import operator
import os
import sys
from concurrent.futures import ThreadPoolExecutor
from pathlib import Path
from typing import (Any, Callable, Literal, NamedTuple, NoReturn, Optional,
                    TypeVar)

import numpy as np
import numpy.typing as npt

from ._errors import OffsetsError, UnsafePointError

Array = npt.NDArray[Any]
Part = TypeVar("Part")
FillRule = Literal["evenodd", "nonzero", "positive", "negative"]

# In the order of their codes in C.
_RULES = ("evenodd", "nonzero", "positive", "negative")

UNSAFE, NO_MEMORY = -1, -3
NO_WINDING = -(1 << 8 * ctypes.sizeof(ctypes.c_ssize_t) - 1)
_VERSION = 0x0002  # the major and minor version of the library's header


class Halves(ctypes.Structure):
    """The two halves of a whole number of 128 bits."""

    _fields_ = [("low", ctypes.c_uint64), ("high", ctypes.c_uint64)]


def _has_v2() -> bool:
    """Whether Linux says that the processor has all of x86-64-v2."""
    try:
        with open("/proc/cpuinfo") as lines:
            flags = next((line for line in lines if line.startswith("flags")),
                         "")
    except OSError:
        return False
    return {"cx16", "lahf_lm", "popcnt", "sse4_2", "ssse3"} <= {*flags.split()}


def _name() -> str:
    """The name of the file, as cargo gives it on this system."""
    names = {"darwin": "libi_shape.dylib", "win32": "i_shape.dll"}
    return names.get(sys.platform, "libi_shape.so")


def _path() -> Path:
    folder = os.environ.get("I_SHAPE_C_DIR")
    faster = Path(__file__).with_name("libi_shape-v2.so")
    if not folder and faster.exists() and _has_v2():
        return faster
    return Path(folder or faster.parent, _name()).resolve()


def _load() -> ctypes.CDLL:
    # Offsets are arrays of int64, which the library reads as size_t.
    if ctypes.sizeof(ctypes.c_size_t) != 8:
        raise ImportError("i_shape needs a Python of 64 bits")
    # CDLL, and not PyDLL: the interpreter's lock is off during a call.
    library = ctypes.CDLL(str(_path()))
    library.i_shape_version.restype = ctypes.c_uint32
    library.i_shape_version.argtypes = []
    if library.i_shape_version() >> 8 != _VERSION:
        raise ImportError(f"{library._name} has version "
                          f"{library.i_shape_version():#08x}")
    return library


_library = _load()


def version() -> str:
    number = _library.i_shape_version()
    return f"{number >> 16}.{number >> 8 & 255}.{number & 255}"


class Calls(NamedTuple):
    """The calls at one width."""

    one: dict[str, Any]
    many: dict[str, Any]
    polygons: dict[str, Any]
    forms: dict[str, Any]
    features: dict[str, Any]
    test: dict[str, Any]
    test_many: dict[str, Any]
    first_unsafe: Any
    contains: Any
    winding: Any
    windings: Any
    contains_points: Any
    locate: Any
    locate_in_shapes: Any
    first_contact: Any
    first_contact_of_rings: Any
    contacts: Any
    contacts_of_rings: Any
    kinds_of_contacts: Any
    validity_shapes: Any
    touching_validity_shapes: Any
    area_two: Any
    areas: Any
    area: Any


def _call(name: str, answer: Any, *takes: Any) -> Any:
    call = getattr(_library, name)
    call.restype = answer
    call.argtypes = takes
    return call


def _calls(bits: int, number: Any, area: Any) -> Calls:
    array = (ctypes.c_void_p, ctypes.c_size_t)
    cleaners = ("simplify", "despike", "canonical", "canonical_unoriented")
    tests = ("is_simple", "has_no_spikes", "is_convex", "is_safe")
    return Calls(
        one={name: _call(f"i_shape_{name}_i{bits}", ctypes.c_ssize_t,
                         *array, *array) for name in cleaners},
        many={name: _call(f"i_shape_{name}_contours_i{bits}",
                          ctypes.c_ssize_t, *array, *array, *array, *array)
              for name in cleaners},
        polygons={name: _call(f"i_shape_{name}_shapes_i{bits}",
                              ctypes.c_ssize_t, *array * 6)
                  for name in cleaners},
        forms={name: _call(f"i_shape_{name}_polygons_i{bits}",
                           ctypes.c_ssize_t, *array * 5)
               for name in ("canonical", "canonical_unoriented")},
        features={name: _call(f"i_shape_{name}_features_i{bits}",
                              ctypes.c_ssize_t, *array * 7)
                  for name in ("canonical", "canonical_unoriented")},
        test={name: _call(f"i_shape_{name}_i{bits}", ctypes.c_int32, *array)
              for name in (*tests, "is_simple_polygon")},
        test_many={name: _call(f"i_shape_{many}_i{bits}", ctypes.c_int32,
                               *array * 3)
                   for name, many in (
                       *((name, f"{name}_contours") for name in tests),
                       ("is_simple_polygon", "are_simple_polygons"))},
        first_unsafe=_call(f"i_shape_first_unsafe_i{bits}", ctypes.c_size_t,
                           *array),
        contains=_call(f"i_shape_contains_by_i{bits}", ctypes.c_int32, *array,
                       number, number, ctypes.c_int32),
        winding=_call(f"i_shape_winding_i{bits}", ctypes.c_ssize_t, *array,
                      number, number),
        windings=_call(f"i_shape_windings_i{bits}", ctypes.c_int32,
                       *array * 4),
        contains_points=_call(f"i_shape_contains_points_i{bits}",
                              ctypes.c_int32, *array * 3, ctypes.c_int32,
                              *array),
        locate=_call(f"i_shape_locate_i{bits}", ctypes.c_int32, *array * 3,
                     ctypes.c_int32, *array),
        locate_in_shapes=_call(f"i_shape_locate_in_shapes_i{bits}",
                               ctypes.c_int32, *array * 4, ctypes.c_int32,
                               *array),
        first_contact=_call(f"i_shape_first_contact_i{bits}",
                            ctypes.c_int32, *array * 2),
        first_contact_of_rings=_call(
            f"i_shape_first_contact_of_rings_i{bits}", ctypes.c_int32,
            *array * 3),
        contacts=_call(f"i_shape_contacts_i{bits}", ctypes.c_ssize_t,
                       *array * 2),
        contacts_of_rings=_call(f"i_shape_contacts_of_rings_i{bits}",
                                ctypes.c_ssize_t, *array * 3),
        kinds_of_contacts=_call(f"i_shape_kinds_of_contacts_i{bits}",
                                ctypes.c_int32, *array * 2),
        validity_shapes=_call(f"i_shape_validity_shapes_i{bits}",
                              ctypes.c_int32, *array * 4),
        touching_validity_shapes=_call(
            f"i_shape_touching_validity_shapes_i{bits}", ctypes.c_int32,
            *array * 4),
        area_two=_call(f"i_shape_area_two_i{bits}", ctypes.c_bool, *array,
                       ctypes.POINTER(area)),
        areas=_call(f"i_shape_area_two_contours_i{bits}", ctypes.c_int32,
                    *array * 3),
        area=area)


_first_bad_offset = _call("i_shape_first_bad_offset", ctypes.c_size_t,
                          ctypes.c_size_t, ctypes.c_void_p, ctypes.c_size_t)

COMPACT_SHAPES = _call("i_shape_compact_shapes", ctypes.c_ssize_t,
                       *(ctypes.c_void_p, ctypes.c_size_t) * 5)

# By the size of a coordinate in bytes.
CALLS = {
    2: _calls(16, ctypes.c_int16, ctypes.c_int32),
    4: _calls(32, ctypes.c_int32, ctypes.c_int64),
    8: _calls(64, ctypes.c_int64, Halves),
}

# No pointer of a call may be null or unaligned, even at a count of 0, and
# that of an empty array may be either.
_nothing = ctypes.create_string_buffer(64)
_NOTHING = (ctypes.addressof(_nothing) + 15) & ~15


def address(array: Array) -> int:
    """Where the items lie. The array has to outlive the use of it."""
    return array.ctypes.data if array.size else _NOTHING


def words(*arrays: Array) -> list[int]:
    """Of each array what a call takes: its address and its length.

    Of a generator, Python would make a tuple of another length first, and
    keep one more of those with each call, up to 2,000.
    """
    return [word for array in arrays for word in (address(array), len(array))]


def _as_it_lies(array: Array) -> bool:
    return array.flags.c_contiguous and array.flags.aligned


def as_pairs(pairs: Any, name: str = "points") -> Array:
    """The pairs of numbers, without a copy where they lie as the library
    reads."""
    if isinstance(pairs, np.ma.MaskedArray):
        raise TypeError(f"{name} are a masked array: fill it first")
    array: Array = np.asarray(pairs)
    if not array.size and not isinstance(pairs, np.ndarray):
        array = np.empty((0, 2), np.int64)  # of no number numpy makes floats
    dtype = array.dtype
    if dtype.kind != "i" or not dtype.isnative or dtype.itemsize not in CALLS:
        raise TypeError(
            f"{name} have dtype {dtype.str if dtype.kind in 'iu' else dtype},"
            " not int16, int32 or int64 in native byte order")
    if array.ndim != 2 or array.shape[1] != 2:
        raise ValueError(f"{name} have shape {array.shape}, not (n, 2)")
    return array if _as_it_lies(array) else array.copy(order="C")


def as_points(points: Any) -> Array:
    """The points, without a copy where they lie as the library reads."""
    return as_pairs(points)


def as_offsets(offsets: Any, name: str = "offsets") -> Array:
    """A copy of the offsets, as int64.

    What the library has tested can't change before it is used: the array
    may be mapped from a file, or shared with another thread.
    """
    if isinstance(offsets, np.ma.MaskedArray):
        raise TypeError(f"{name} are a masked array: fill it first")
    array: Array = np.asarray(offsets)
    if not array.size and not isinstance(offsets, np.ndarray):
        array = array.astype(np.int64)  # of no number numpy makes floats
    if array.dtype.kind not in "iu":
        raise TypeError(f"{name} have dtype {array.dtype}, not one of whole"
                        " numbers")
    if array.ndim != 1:
        raise ValueError(f"{name} have shape {array.shape}, not (m + 1,)")
    if not array.size:
        raise OffsetsError(f"{name} are empty: no ring has the offsets [0]")
    copied: Array = array.astype(np.int64, order="C")
    if array.dtype.kind == "u" and (copied < 0).any():
        place = int((copied < 0).argmax())
        raise OffsetsError(f"{name}[{place}] is {int(copied[place]) + 2**64}:"
                           " no array has so many items", place)
    return copied


def as_rule(rule: str) -> int:
    """The code of the fill rule in C."""
    if rule not in _RULES:
        raise ValueError(f"rule is {rule!r}, not one of {', '.join(_RULES)}")
    return _RULES.index(rule)


def as_threads(threads: Any) -> int:
    number: int = operator.index(threads)
    if number < 1:
        raise ValueError(f"threads is {number}, not at least 1")
    return number


def processors() -> int:
    """How many processors this process may use."""
    if hasattr(os, "sched_getaffinity"):
        return len(os.sched_getaffinity(0))
    return os.cpu_count() or 1


def as_parts(threads: Any, items: int) -> int:
    """How many threads share so many items: at most ``threads``."""
    return max(min(as_threads(threads), items, processors()), 1)


def run_parts(run: Callable[[int], Part], parts: int) -> list[Part]:
    """What each part returns. Several parts run in a thread each."""
    if parts == 1:
        return [run(0)]
    with ThreadPoolExecutor(parts) as pool:
        try:
            answers = pool.map(run, range(parts))
        except RuntimeError as error:
            raise MemoryError("a thread could not be started") from error
        return list(answers)


def bound(dtype: Any) -> int:
    """What a safe coordinate is below, and above the negative of."""
    size: int = dtype.itemsize
    return 1 << (8 * size - 2)


def unsafe_text(name: str, point: Any, dtype: Any) -> str:
    """What is said of a point that isn't safe for the dtype."""
    x, y = (int(number) for number in point)
    power = 8 * dtype.itemsize - 2
    text = (f"{name} is ({x}, {y}), and not strictly between -2**{power} and"
            f" 2**{power}, the safe range of {dtype}")
    wider = (np.dtype(f"i{size}") for size in CALLS if size > dtype.itemsize)
    fit = [one for one in wider if max(abs(x), abs(y)) < bound(one)]
    return f"{text}: {fit[0]} has room for it" if fit else text


def as_safe_point(point: Any, dtype: Any) -> tuple[int, int]:
    """The coordinates of a point that is safe for the dtype."""
    x, y = (operator.index(number) for number in point)
    limit = bound(dtype)
    if not (-limit < x < limit and -limit < y < limit):
        raise UnsafePointError(unsafe_text("the point", (x, y), dtype))
    return x, y


def first_unsafe(points: Array) -> Optional[int]:
    place: int = CALLS[points.itemsize].first_unsafe(address(points),
                                                     len(points))
    return place if place < len(points) else None


def raise_code(code: int, points: Array) -> NoReturn:
    """Raises what a code of a call on one contour stands for."""
    if code == NO_MEMORY:
        raise MemoryError("libi_shape is out of memory")
    assert code == UNSAFE, code
    point = first_unsafe(points)
    if point is None:
        raise UnsafePointError("a point was not in the safe range, and was"
                               " changed during the call")
    raise UnsafePointError(
        unsafe_text(f"point {point}", points[point], points.dtype),
        point=point)


def check_offsets(offsets: Array, limit: int, name: str = "offsets",
                  of: str = "points", before: int = 0) -> None:
    """Raise an error for the first offset that doesn't divide so many items.

    The first of the offsets is at the place ``before``.
    """
    place = _first_bad_offset(limit, address(offsets), len(offsets))
    if place == len(offsets):
        return
    offset = int(offsets[place])
    if offset < 0:
        fault = "below 0"
    elif place and offset < offsets[place - 1]:
        fault = f"below {offsets[place - 1]}, the one before it"
    else:
        fault = f"above the number of {of}, {limit}"
    raise OffsetsError(f"{name}[{before + place}] is {offset}, {fault}",
                       before + place)
