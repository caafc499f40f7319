"""Floats rounded onto a grid of whole numbers, and brought back."""

from __future__ import annotations

import math
from dataclasses import dataclass
from typing import Any, NamedTuple, Optional, Tuple

import numpy as np
import numpy.typing as npt

from .._errors import UnsafePointError
from .._library import CALLS, Array, as_points, bound
from ._builder import short
from ._features import (Checked, FeatureError, Features, as_features,
                        as_finite, as_plane_points)


def _is_finite(number: float) -> bool:
    try:
        return math.isfinite(number)
    except OverflowError:  # of a whole number beyond the floats
        return False


@dataclass(frozen=True)
class Grid:
    """The position of whole numbers among floats: k means origin + k * step.

    Attributes
    ----------
    step : float
        How far neighbours are apart, in x and in y: finite and above 0.
    origin : pair of float
        Where (0, 0) lies.

    Raises
    ------
    ValueError
        ``step`` isn't finite and above 0, or ``origin`` isn't two finite
        numbers.

    Examples
    --------
    >>> from i_shape.io import Grid
    >>> Grid(step=0.25, origin=(10.0, 50.0))
    Grid(step=0.25, origin=(10.0, 50.0))
    """

    step: float
    origin: Tuple[float, float] = (0.0, 0.0)

    def __post_init__(self) -> None:
        if not (_is_finite(self.step) and self.step > 0):
            raise ValueError(f"step is {short(self.step)}, not a finite number"
                             " above 0")
        if len(self.origin) != 2 or not all(map(_is_finite, self.origin)):
            raise ValueError(f"origin is {short(self.origin)}, not two finite"
                             " numbers")

    def _float_origin(self) -> Array:
        return np.array(self.origin, np.float64)

    def _steps_to_one(self) -> Optional[float]:
        """How many steps make 1, where they are a whole number.

        3 / 10 is the float that is written 0.3, and 3 * 0.1 isn't.
        """
        number = 1 / self.step
        whole = float(round(number)) if math.isfinite(number) else 0.0
        return whole if whole and 1 / whole == self.step else None


def _unsafe_text(points: Array, steps: Array, grid: Grid,
                 dtype: np.dtype[Any]) -> str:
    """What is said of a point, and its steps, that aren't safe."""
    limit, power = bound(dtype), 8 * dtype.itemsize - 2
    axis = 1 if abs(steps[0]) < limit else 0
    text = (f"{'xy'[axis]} is {float(points[axis])!r}, {steps[axis]:.17g}"
            f" steps of {grid.step!r} from the origin, and not strictly"
            f" between -2**{power} and 2**{power}, the safe range of {dtype}")
    wider = (np.dtype(f"i{size}") for size in CALLS if size > dtype.itemsize)
    fit = [one for one in wider if np.abs(steps).max() < bound(one)]
    return f"{text}: {fit[0]} has room for it" if fit else text


class Rounded(NamedTuple):
    """Whole numbers, or the first row that isn't safe and what is said."""

    points: Array
    row: Optional[int] = None
    text: str = ""


def rounded(points: Array, grid: Grid, dtype: Any) -> Rounded:
    """The points on the grid, or the first that isn't safe there."""
    dtype = np.dtype(dtype)
    if dtype.kind != "i" or not dtype.isnative or dtype.itemsize not in CALLS:
        raise TypeError(f"dtype is {dtype}, not int16, int32 or int64 in"
                        " native byte order")
    parts = grid._steps_to_one()
    with np.errstate(over="ignore", invalid="ignore"):
        moved = points.astype(np.float64, copy=False) - grid._float_origin()
        steps = np.rint(moved * parts if parts else moved / float(grid.step))
        safe = np.abs(steps) < bound(dtype)
    if safe.all():
        return Rounded(steps.astype(dtype))
    row = int(safe.all(axis=1).argmin())
    return Rounded(points, row,
                    _unsafe_text(points[row], steps[row], grid, dtype))


def to_grid(points: npt.ArrayLike, grid: Grid,
            dtype: npt.DTypeLike = np.int64) -> npt.NDArray[Any]:
    """Round points onto a grid.

    Each coordinate becomes the number of steps from the origin, rounded to
    the nearest one, and halves to the even one, as float64 counts them.

    What the cleaners promise then holds for the rounded polygon, and not
    for the one in floats. Each coordinate moves by up to half a step, as
    float64 counts it. So the area may change; points may get onto a line
    that were beside it, or leave it; edges may come to touch or cross; and a
    ring as thin as a step may collapse.

    Parameters
    ----------
    points : array of shape (n, 2), of floats or whole numbers
    grid : Grid
    dtype : int16, int32 or int64
        That of the answer.

    Returns
    -------
    array of shape (n, 2)
        In ``dtype``. Each of the points is safe.

    Raises
    ------
    UnsafePointError
        A coordinate would not be safe for ``dtype``, or isn't finite.
        ``point`` is the first such row; the message names the value, the
        bound and the next wider dtype that has room for it, if there is
        one.
    TypeError
        ``points`` aren't whole numbers or floats, or ``dtype`` is another
        one.
    ValueError
        The shape isn't (n, 2).

    See also
    --------
    from_grid : the way back.

    Examples
    --------
    >>> from i_shape.io import Grid, to_grid
    >>> to_grid([(10.26, 50.0), (9.0, 51.13)], Grid(0.25, (10, 50))).tolist()
    [[1, 0], [-4, 5]]
    """
    whole = rounded(as_plane_points(points), grid, dtype)
    if whole.row is not None:
        raise UnsafePointError(f"point {whole.row}: {whole.text}",
                               point=whole.row)
    return whole.points


def from_grid(points: npt.NDArray[Any],
              grid: Grid) -> npt.NDArray[np.float64]:
    """Bring points of a grid back to floats: origin + k * step.

    What a call promised holds for the whole numbers. The floats are these
    exactly where the step is a power of two, the origin a multiple of the
    step, and no number of steps, nor the origin's and it together, above
    2**53. Otherwise float64 rounds them, and points that lie on one line of
    the grid may miss it by the last digits. Where no number of steps, nor
    the origin's, is above 2**49, :func:`to_grid` leads back to the same
    whole numbers. All this holds unless a float overflows.

    Parameters
    ----------
    points : array of shape (n, 2), int16, int32 or int64
    grid : Grid
        The one that they were rounded onto.

    Returns
    -------
    array of shape (n, 2) and dtype float64

    Raises
    ------
    TypeError
        The dtype is another one.
    ValueError
        The shape isn't (n, 2).

    Examples
    --------
    >>> import numpy as np
    >>> from i_shape.io import Grid, from_grid
    >>> from_grid(np.array([(123456789, -3)]), Grid(1e-7)).tolist()
    [[12.3456789, -3e-07]]
    """
    return brought_back(as_points(points), grid)


def brought_back(points: Array, grid: Grid) -> npt.NDArray[np.float64]:
    """The coordinates of numbers of steps, which need not be whole."""
    counts = points.astype(np.float64)
    parts = grid._steps_to_one()
    moved = counts / parts if parts else counts * float(grid.step)
    there: npt.NDArray[np.float64] = moved + grid._float_origin()
    return there


def features_to_grid(features: Features, grid: Grid,
                     dtype: npt.DTypeLike = np.int64) -> Features:
    """Round the points of features onto a grid, as :func:`to_grid` does.

    What the cleaners promise then holds for the rounded features.

    Parameters
    ----------
    features : Features
    grid : Grid
    dtype : int16, int32 or int64
        As for :func:`to_grid`.

    Returns
    -------
    Features
        In ``dtype``.

    Raises
    ------
    FeatureError
        A coordinate would not be safe for ``dtype``, or isn't finite. It
        names the feature, polygon, ring and point, and says what
        :func:`to_grid` does. Also as :func:`to_wkt` does.
    OffsetsError, TypeError, ValueError
        As :func:`to_wkt` and :func:`to_grid` do.

    Examples
    --------
    >>> from i_shape.io import Grid, features_to_grid, from_wkt, to_wkt
    >>> features = from_wkt(["POLYGON ((0 0, 4.2 0, 4 3.9, 0 0))"])
    >>> to_wkt(features_to_grid(features, Grid(0.5)))
    ['POLYGON ((0 0, 8 0, 8 8, 0 0))']
    """
    return rounded_features(as_features(features), grid, dtype)


def rounded_features(features: Checked, grid: Grid,
                     dtype: npt.DTypeLike = np.int64) -> Checked:
    """Round the points, or raise an error that names the first unsafe one."""
    whole = rounded(features.polygons.points, grid, dtype)
    if whole.row is not None:
        raise FeatureError(whole.text, *features.place(whole.row))
    return Checked(features.with_points(whole.points))


def features_from_grid(features: Features, grid: Grid) -> Features:
    """Bring features of a grid back to floats, as :func:`from_grid` does.

    What a call promised holds for the whole numbers, and for the floats
    where these are exact.

    Parameters
    ----------
    features : Features
        Of whole numbers.
    grid : Grid
        The one that they were rounded onto.

    Returns
    -------
    Features
        In float64.

    Raises
    ------
    FeatureError
        A float overflows. Also as :func:`to_wkt` does.
    TypeError, ValueError
        As :func:`from_grid` does.
    OffsetsError
        As :func:`to_wkt` does.

    Examples
    --------
    >>> from i_shape.io import (Grid, features_from_grid, features_of,
    ...                         to_wkt)
    >>> left = features_of(([(0, 0), (8, 0), (8, 8)], [0, 3], [0, 1]))
    >>> to_wkt(features_from_grid(left, Grid(0.1)))
    ['POLYGON ((0 0, 0.8 0, 0.8 0.8, 0 0))']
    """
    features = as_features(features)
    as_points(features.polygons.points)
    return floats_of(features, grid)


def floats_of(features: Checked, grid: Grid) -> Checked:
    """Bring features of whole numbers back to floats.

    An error names the first point that overflows.
    """
    with np.errstate(over="ignore"):
        points = brought_back(features.polygons.points, grid)
    return as_finite(features.with_points(points))
