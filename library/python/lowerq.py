"""Lowers queries to typed plans by a proved library.

>>> query = '{"tables":[{"name":"t","columns":[["a","Int8"]]}],"plan":{"scan":"t"}}'
>>> for node in lower(query).nodes:
...     print(node.path, node.name, [(column.name, str(column.type)) for column in node.schema])
. df [('a', 'Int8')]

The repository's docs/library.md says what is proved of the library, and how much stack a call needs: its end is a
segmentation fault. Of this module nothing is proved; it is tested.
"""

from __future__ import annotations

import ctypes
import functools
import json
import os
import pathlib
import re
from collections.abc import Callable
from dataclasses import dataclass

__all__ = ["lower", "Report", "Node", "Column", "Type", "NotLowered", "Refused", "BadQuery", "TooLong", "OutOfMemory"]

LONGEST = 1 << 24
"""The most bytes that a query may have."""

_SPARE_ROOM = 4096
_LOWERED, _REFUSED, _BAD_QUERY, _OUT_OF_MEMORY, _TOO_LONG = 0, 1, 3, 6, 7
_UNITS = ("ns", "us", "ms")


class NotLowered(Exception):
    """A query wasn't lowered. Its text is the line that the program prints, without the newline."""


class Refused(NotLowered):
    """The plan breaks the rule `kind`, at the node whose place is `place`: `.` for the top, `.0` for its only input."""

    def __init__(self, kind: str, place: str) -> None:
        super().__init__(kind, place)
        self.kind = kind
        self.place = place

    def __str__(self) -> str:
        return f"refused {self.kind} {self.place}"


class BadQuery(NotLowered):
    """The text is no query, by the fault `kind` at the JSON pointer `path`, which is None of what is no JSON."""

    def __init__(self, kind: str, path: str | None) -> None:
        super().__init__(kind, path)
        self.kind = kind
        self.path = path

    def __str__(self) -> str:
        return f"bad query {self.kind}" if self.path is None else f"bad query {self.kind} {self.path}"


class TooLong(NotLowered):
    """The query has more than LONGEST bytes."""

    def __str__(self) -> str:
        return "too long"


class OutOfMemory(NotLowered, MemoryError):
    """There was too little memory."""

    def __str__(self) -> str:
        return "out of memory"


@dataclass(frozen=True)
class Type:
    """A type: its name, and of a Datetime or a Duration the unit, of a List the items' type, of a Struct the fields."""

    name: str
    unit: str | None = None
    item: Type | None = None
    fields: tuple[Column, ...] | None = None

    def __str__(self) -> str:
        if self.fields is not None:
            return f"{self.name}({', '.join(f'{_quoted(field.name)} {field.type}' for field in self.fields)})"
        inner = self.unit or self.item
        return self.name if inner is None else f"{self.name}({inner})"


@dataclass(frozen=True)
class Column:
    """A column, or a field of a struct."""

    name: str
    type: Type


@dataclass(frozen=True)
class Node:
    """A node of a lowered plan: its place, its name and the schema of its frame."""

    path: str
    name: str
    schema: tuple[Column, ...]


@dataclass(frozen=True)
class Report:
    """A lowered plan: its nodes, each before those below it, and the number of its casts. `text` is the whole text."""

    nodes: tuple[Node, ...]
    casts: int
    text: str

    @staticmethod
    def parse(text: str) -> Report:
        """Reads a report's text; a ValueError where it is none."""
        *lines, casts, end = text.split("\n")
        if end or not re.fullmatch(r"casts [0-9]+", casts):
            raise ValueError(f"no number of casts: {casts!r}")
        return Report(tuple(map(_read_node, lines)), int(casts[len("casts "):]), text)


def _quoted(name: str) -> str:
    """A name as a report has it."""
    return json.dumps(name, ensure_ascii=False)


_WORD = re.compile(r"\w+")
_DECODER = json.JSONDecoder()


# A node's place, its name, which may have spaces, and its schema, which begins before the first column, if there is one.
_NODE = re.compile(r'(\S+) (.*?) (\((?:\)|").*)')


def _read_node(line: str) -> Node:
    node = _NODE.fullmatch(line)
    if node is None:
        raise ValueError(f"no node: {line!r}")
    path, name, schema = node.groups()
    fields, at = _read_fields(schema, _past(schema, 0, "("))
    if at != len(schema):
        raise ValueError(f"something stands behind the schema: {line!r}")
    return Node(path, name, fields)


def _past(text: str, at: int, mark: str) -> int:
    """The place behind the mark, which stands at the place."""
    if not text.startswith(mark, at):
        raise ValueError(f"no {mark!r} at character {at} of the schema")
    return at + len(mark)


def _read_fields(text: str, at: int) -> tuple[tuple[Column, ...], int]:
    """The fields from the place on, and the place behind the parenthesis that closes them."""
    fields: list[Column] = []
    while not text.startswith(")", at):
        at = _past(text, at, ", " if fields else "")
        _past(text, at, '"')
        name, at = _DECODER.raw_decode(text, at)
        type_, at = _read_type(text, _past(text, at, " "))
        fields.append(Column(name, type_))
    return tuple(fields), at + 1


def _read_type(text: str, at: int) -> tuple[Type, int]:
    """The type at the place, and the place behind it."""
    word = _WORD.match(text, at)
    if word is None:
        raise ValueError(f"no type at character {at} of the schema")
    name, at = word[0], word.end()
    if not text.startswith("(", at):
        return Type(name), at
    if name == "Struct":
        fields, at = _read_fields(text, at + 1)
        return Type(name, fields=fields), at
    inner, at = _read_type(text, at + 1)
    at = _past(text, at, ")")
    return (Type(name, unit=inner.name) if inner.name in _UNITS else Type(name, item=inner)), at


@functools.cache
def _entry() -> Callable[..., int]:
    """The library's function, of liblowerq.so in the folder LOWERQ_LIBRARY, or where library/build puts it."""
    default = pathlib.Path(__file__).resolve().parent.parent / "out"
    library = ctypes.CDLL(str(pathlib.Path(os.environ.get("LOWERQ_LIBRARY", default)) / "liblowerq.so"))
    entry = library.lowerq_lower
    bytes_and_length = [ctypes.c_char_p, ctypes.c_size_t]
    entry.argtypes = [*bytes_and_length, *bytes_and_length, ctypes.POINTER(ctypes.c_size_t)]
    entry.restype = ctypes.c_uint8
    return entry


def _answer(query: bytes, room: int) -> tuple[int, str]:
    """The status of a query and its text, with a first buffer of that room."""
    written = ctypes.c_size_t()
    while True:
        buffer = ctypes.create_string_buffer(max(room, 1))
        status = _entry()(query, len(query), buffer, room, ctypes.byref(written))
        if written.value <= room:
            return status, ctypes.string_at(buffer, written.value).decode()
        room = written.value


def _not_lowered(status: int, line: str) -> Exception:
    """What a status other than 0 and its text say."""
    words = line.split(" ", 3)
    if status == _REFUSED and len(words) == 3:
        return Refused(words[1], words[2])
    if status == _BAD_QUERY and len(words) > 2:
        return BadQuery(words[2], words[3] if len(words) > 3 else None)
    if status == _OUT_OF_MEMORY:
        return OutOfMemory()
    if status == _TOO_LONG:
        return TooLong()
    return ValueError(f"the library answered status {status} and {line!r}")


def lower(query: str | bytes) -> Report:
    """Lowers a query, and gives the report of the lowered plan. Raises a NotLowered where it isn't lowered."""
    data = query.encode() if isinstance(query, str) else query
    status, text = _answer(data, min(len(data), LONGEST) + _SPARE_ROOM)
    if status == _LOWERED:
        return Report.parse(text)
    raise _not_lowered(status, text.removesuffix("\n"))
