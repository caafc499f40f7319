"""How far a long stage is: at most a line a second on standard error."""

from __future__ import annotations

import sys
import time
from contextlib import suppress
from types import TracebackType
from typing import Any, Iterable, Iterator, Optional, Type, TypeVar

Item = TypeVar("Item")


class Lines:
    """At most a line a second, after the first one; as tqdm is used."""

    def __init__(self, stage: str, total: Optional[int] = None) -> None:
        self._stage = stage
        self._of = "" if total is None else f" of {total}"
        self._done = 0
        self._told = time.monotonic()

    def update(self) -> None:
        self._done += 1
        now = time.monotonic()
        if now - self._told >= 1:
            self._told = now
            self._tell()

    def _tell(self) -> None:
        """Print it where that can be read."""
        if sys.stderr is not None:  # as where it was closed from the start
            with suppress(OSError):
                print(f"{self._stage}: {self._done}{self._of}",
                      file=sys.stderr)

    def __enter__(self) -> Lines:
        return self

    def __exit__(self, kind: Optional[Type[BaseException]],
                 error: Optional[BaseException],
                 trace: Optional[TracebackType]) -> None:
        return None


def bar(stage: str, total: Optional[int] = None) -> Any:
    """What shows a stage: tqdm's where it is there."""
    if sys.stderr is None:  # where tqdm fails
        return Lines(stage, total)
    try:
        from tqdm import tqdm
    except ImportError:
        return Lines(stage, total)
    return tqdm(desc=stage, total=total, delay=1, mininterval=1,
                file=sys.stderr)


def track(items: Iterable[Item], stage: str,
          total: Optional[int] = None) -> Iterator[Item]:
    """The items, while the stage is shown."""
    with bar(stage, total) as shown:
        for item in items:
            yield item
            shown.update()
