"""Texts of JSON that are read in pieces, by the standard library's json.

What an object holds keeps its text, so that it can be written as it was.
"""

from __future__ import annotations

import json
import re
from typing import (Any, Callable, Dict, Iterator, NamedTuple, NoReturn,
                    TextIO, Tuple, TypeVar)

from ..io._builder import NumberText

Item = TypeVar("Item")
Parse = Callable[[str, int], Tuple[Item, int]]

_PIECE = 1 << 20  # characters
_LONGEST = 600  # digits of a whole number; Python converts no thousands
_UNSURE = 16  # characters at the end that what follows may give a meaning
_SPACE = re.compile(r"[ \t\n\r]*").match
_NAME = re.compile(
    r'[ \t\n\r]*("([^"\\\x00-\x1f]*)"[ \t\n\r]*:[ \t\n\r]*)').match
_COLON = re.compile(r"[ \t\n\r]*:[ \t\n\r]*").match
_NEXT = re.compile(r"[ \t\n\r]*([,}])").match
_NO_NUMBER = re.compile(r'"(?:[^"\\]|\\.)*"|(NaN|Infinity)')


class _NoNumberError(ValueError):
    """A word stands for a number, and isn't JSON."""


def _raise_constant(word: str) -> NoReturn:
    raise _NoNumberError(word)


def _whole_number(text: str) -> Any:
    return int(text) if len(text) < _LONGEST else NumberText(text)


_decoder: Any = json.JSONDecoder(parse_int=_whole_number,
                                 parse_constant=_raise_constant)
_scan = _decoder.scan_once


def scan(text: str, at: int) -> tuple[Any, int]:
    """A value that begins at a place, and where it ends."""
    try:
        value, end = _scan(text, at)
    except StopIteration as stop:
        raise json.JSONDecodeError("Expecting value", text,
                                   stop.value) from None
    return value, end


class Member(NamedTuple):
    """A member of an object: its text, in which the value begins at a place,
    and the value."""

    text: str
    begin: int
    value: Any


class Members(Dict[str, Member]):
    """The members of an object by their names."""

    def value(self, name: str) -> Any:
        """The value of a member, and None where there is none."""
        return self[name].value if name in self else None

    def text(self) -> str:
        texts = ", ".join(member.text for member in self.values())
        return f"{{{texts}}}"

    def plain(self) -> dict[str, Any]:
        """The values by their names."""
        return {name: member.value.plain()
                if isinstance(member.value, Members) else member.value
                for name, member in self.items()}

    def _texts(self) -> list[str]:
        """The texts of the members but for ``bbox``, which may not fit."""
        return [member.text for name, member in self.items()
                if name != "bbox"]

    def opening(self, name: str) -> str:
        """The text of an object up to the value of a last member."""
        return "{" + "".join(f"{text}, " for text in self._texts()) + (
            f'"{name}": ')

    def closing(self) -> str:
        """The text of an object behind the value of a first member."""
        return "".join(f", {text}" for text in self._texts()) + "}"

    def around(self, name: str) -> tuple[str, str]:
        """The text before the value of a member and behind it."""
        before: list[str] = []
        behind: list[str] = []
        texts = before
        for its, member in self.items():
            if its == name:
                before.append(member.text[:member.begin])
                texts = behind
            elif its != "bbox":
                texts.append(member.text)
        return ("{" + ", ".join(before),
                "".join(f", {text}" for text in behind) + "}")


def skip(text: str, at: int) -> int:
    found = _SPACE(text, at)
    assert found
    return found.end()


def _strange_name(text: str, at: int) -> tuple[str, int, int]:
    """A name with escapes, where it begins, and where its value does."""
    start = skip(text, at)
    if text[start:start + 1] != '"':
        raise json.JSONDecodeError(
            "Expecting property name enclosed in double quotes", text, start)
    name, at = scan(text, start)
    colon = _COLON(text, at)
    if not colon:
        raise json.JSONDecodeError("Expecting ':' delimiter", text,
                                   skip(text, at))
    return name, start, colon.end()


def member_at(text: str, at: int) -> tuple[tuple[str, Member], int]:
    """A member, its name, and where it ends.

    A geometry that is an object is given as :class:`Members`.
    """
    found = _NAME(text, at)
    if found:
        name, start, begin = found[2], found.start(1), found.end()
    else:
        name, start, begin = _strange_name(text, at)
    if name == "geometry" and text[begin:begin + 1] == "{":
        value, end = object_at(text, begin)
    else:
        value, end = scan(text, begin)
    return (name, Member(text[start:end], begin - start, value)), end


def mark_at(end: str) -> Parse[bool]:
    """Whether a list or an object ends, and not a comma comes."""
    def parse(text: str, at: int) -> tuple[bool, int]:
        at = skip(text, at)
        mark = text[at:at + 1]
        if mark != "," and mark != end:
            raise json.JSONDecodeError("Expecting ',' delimiter", text, at)
        return mark == end, at + 1
    return parse


def object_at(text: str, at: int) -> tuple[Members, int]:
    """The members of an object, and where it ends."""
    members = Members()
    at += 1
    end = skip(text, at)
    if text[end:end + 1] == "}":
        return members, end + 1
    while True:
        (name, member), end = member_at(text, at)
        members[name] = member
        found = _NEXT(text, end)
        if not found:
            raise json.JSONDecodeError("Expecting ',' delimiter", text,
                                       skip(text, end))
        at = found.end()
        if found[1] == "}":
            return members, at


def value_at(text: str, at: int) -> tuple[Any, int]:
    """A value, which is :class:`Members` of an object, and where it ends."""
    at = skip(text, at)
    if text[at:at + 1] == "{":
        return object_at(text, at)
    return scan(text, at)


def is_next(mark: str) -> Parse[bool]:
    """Whether a mark comes, which is then read."""
    def parse(text: str, at: int) -> tuple[bool, int]:
        at = skip(text, at)
        found = text[at:at + 1] == mark
        return found, at + found
    return parse


def end_at(text: str, at: int) -> tuple[None, int]:
    at = skip(text, at)
    if at < len(text):
        raise json.JSONDecodeError("Extra data", text, at)
    return None, at


def _constant_error(text: str, at: int, word: str) -> json.JSONDecodeError:
    """What is said of a word for a number, with its place."""
    place = next((found.start(1) for found in _NO_NUMBER.finditer(text, at)
                  if found[1]), at)
    return json.JSONDecodeError(f"{word} isn't a number of JSON", text, place)


def parsed(parse: Parse[Item], text: str, at: int) -> tuple[Item, int]:
    """What a function returns, whose errors are those of JSON or a depth."""
    try:
        return parse(text, at)
    except _NoNumberError as error:
        raise _constant_error(text, at, str(error)) from None
    except RecursionError:
        raise ValueError("it is nested too deeply") from None


class Pieces:
    """A text of JSON, of which only what is needed next is held."""

    def __init__(self, file: TextIO) -> None:
        self._file = file
        self._text = ""
        self._at = 0
        self._left_out = 0  # characters, and the lines that end in them
        self._lines = 0
        self._column = 0

    def _more(self) -> bool:
        """Read a piece that is as long as what is held, at least."""
        held = len(self._text) - self._at
        piece = self._file.read(max(_PIECE, held))
        if not piece:
            return False
        lines = self._text.count("\n", 0, self._at)
        last = self._text.rfind("\n", 0, self._at)
        self._column = self._at - last - 1 if lines else (
            self._column + self._at)
        self._lines += lines
        self._left_out += self._at
        self._text = self._text[self._at:] + piece
        self._at = 0
        return True

    def _is_sure(self, place: int) -> bool:
        """Whether what follows can't change what ends here.

        A number may go on behind the end of what is held.
        """
        return place < len(self._text) - _UNSURE

    def _is_fault(self, error: json.JSONDecodeError) -> bool:
        """Whether what follows can't mend an error."""
        return (not error.msg.startswith("Unterminated")
                and self._is_sure(error.pos))

    def _placed(self, error: json.JSONDecodeError) -> ValueError:
        """The error with its place in the whole text."""
        column = error.colno + (self._column if error.lineno == 1 else 0)
        return ValueError(
            f"{error.msg}: line {self._lines + error.lineno} column {column}"
            f" (char {self._left_out + error.pos})")

    def take(self, parse: Parse[Item]) -> Item:
        """What the function makes of what comes next."""
        while True:
            try:
                item, end = parsed(parse, self._text, self._at)
            except json.JSONDecodeError as error:
                if self._is_fault(error) or not self._more():
                    raise self._placed(error) from None
            else:
                if self._is_sure(end) or not self._more():
                    self._at = end
                    return item

    def items(self, end: str, parse: Parse[Item]) -> Iterator[Item]:
        """The items of a list or an object whose begin has been read."""
        is_end = self.take(is_next(end))
        mark = mark_at(end)
        while not is_end:
            yield self.take(parse)
            is_end = self.take(mark)
