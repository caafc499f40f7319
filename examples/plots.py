"""What the examples that plot share."""

from __future__ import annotations

import matplotlib
from matplotlib.figure import Figure


def save(figure: Figure, path: str) -> None:
    """Write a plot: the same bytes for the same plot."""
    with matplotlib.rc_context({"svg.hashsalt": "i_shape"}):
        figure.savefig(path, metadata={"Date": None})
