"""What a call raises."""

from __future__ import annotations

from typing import Optional


class UnsafePointError(ValueError):
    """A point that a call reads is not safe.

    A point is safe where both coordinates lie strictly between
    ``-2**(W-2)`` and ``2**(W-2)``, where ``W`` is the number of bits of the
    dtype: 16, 32 or 64. Nothing has been returned.

    Attributes
    ----------
    ring : int or None
        Index of the first ring that has an unsafe point. One contour given
        to :func:`i_shape.winding_numbers`, :func:`i_shape.contains_points` or
        :func:`i_shape.locate` is ring 0. None for other calls on one contour
        or on points alone, and where it is a point that a call is asked about.
    point : int or None
        Row of the first unsafe point in ``points``; None where it is a
        point that a call is asked about, as :func:`i_shape.contains` is.
    """

    def __init__(self, message: str, ring: Optional[int] = None,
                 point: Optional[int] = None) -> None:
        super().__init__(message)
        self.ring = ring
        self.point = point


class OffsetsError(ValueError):
    """The offsets do not divide the points, or the rings.

    There is no offset, or one is below 0, below the one before it, or
    above the number of points (of rings, for polygons; of polygons, for
    features). :func:`i_shape.io.narrow_offsets` raises it where an offset is
    below 0 or has no room in 32 bits.

    Attributes
    ----------
    offset : int or None
        Index of the first such offset, or of the first from 2**63 on, if
        there is one; None if there is no offset.
    """

    def __init__(self, message: str, offset: Optional[int] = None) -> None:
        super().__init__(message)
        self.offset = offset
