"""The JSON of globals: what values a template may have, and what each becomes.

    >>> from datetime import date
    >>> from decimal import Decimal
    >>> json_of({"total": Decimal("12.50"), "day": date(2026, 11, 30)})
    '{"total": "12.50", "day": "2026-11-30"}'
    >>> json_of({"order": {"items": [1, 2, 3, object()]}})
    Traceback (most recent call last):
        ...
    TypeError: globals.order.items[3] is an object, which is not a value of a template
"""
from __future__ import annotations

import dataclasses
import enum
import json
import math
from collections.abc import Iterable, Iterator, Mapping, Sequence, Set
from datetime import date, datetime, time, timedelta
from decimal import Decimal
from pathlib import PurePath
from typing import Any, Callable, Optional, Union
from uuid import UUID

__all__ = ["Default", "Globals", "Now", "Text", "json_of", "moment_of"]

Text = Union[str, bytes]
Globals = Union[Mapping[str, Any], str, bytes]
Default = Optional[Callable[[Any], Any]]
Now = Union[str, datetime, None]

_DEEPEST = 127
_SIMPLE = frozenset([str, int, bool, type(None)])
_FARTHEST = timedelta(hours=20)
# The trees that are encoded are new ones, without a cycle.
_encode = json.JSONEncoder(ensure_ascii=False, check_circular=False).encode


def json_of(names: Globals, default: Default = None, root: str = "globals") -> Text:
    """Returns the JSON of an object with these members. JSON as ``str`` or bytes is returned as it is.

    ``default`` is called with each value that is of no other type of the table in the package's README, and its
    result is taken in the place of the value, as by ``json.dumps``. ``root`` is the name of the whole in messages.

    Raises ``TypeError`` for a value of a type that a template doesn't have, and for a name that is not a string.
    Raises ``ValueError`` for a number that is not finite, for a date time whose offset the filter ``date`` can't
    read, for a value that contains itself, and for more than 127 values inside one another. Both messages begin
    with the path of the value, such as ``globals.order.items[3]``.
    """
    if isinstance(names, (str, bytes)):
        return names
    if not isinstance(names, Mapping):
        raise TypeError(f"{root} is {_with_article(names)}, and neither a mapping nor JSON as str or bytes")
    try:
        tree = _Reader(default).inside(names)
    except _Unfit as unfit:
        raise unfit.error(root) from None
    return _encode(tree)


class _Unfit(Exception):
    """A value that a template can't have. ``path`` gets the steps to it, the last one first."""

    def __init__(self, type_: type[Exception], fault: str) -> None:
        super().__init__(fault)
        self.type = type_
        self.fault = fault
        self.path: list[str | int] = []

    def error(self, root: str) -> Exception:
        steps = "".join(map(_step, reversed(self.path)))
        return self.type(f"{root}{steps} {self.fault}")


def _step(step: str | int) -> str:
    return f".{step}" if isinstance(step, str) and step.isidentifier() else f"[{step!r}]"


def _with_article(value: object) -> str:
    name = type(value).__name__
    return f"an {name}" if name[0] in "aeiouAEIOU" else f"a {name}"


class _Reader:
    """Makes a tree of what ``json`` writes from a value. ``open`` has the values around the one that is read."""

    def __init__(self, default: Default) -> None:
        self.default = default
        self.open: set[int] = set()

    def read(self, value: Any) -> Any:
        """Returns what ``json`` writes in the place of a value."""
        if type(value) in _SIMPLE:
            return value
        if isinstance(value, enum.Enum):
            return self.read(value.value)
        if isinstance(value, (str, int)):
            return value
        if isinstance(value, (float, Decimal)):
            return _number(value)
        text = _text(value)
        return self.inside(value) if text is None else text

    def inside(self, value: Any) -> Any:
        """Returns the tree of a value that may have others in it."""
        if id(value) in self.open:
            raise _Unfit(ValueError, "contains itself")
        if len(self.open) >= _DEEPEST:
            raise _Unfit(ValueError, f"is inside {_DEEPEST} others, which is too deep")
        self.open.add(id(value))
        try:
            members = _members(value)
            if members is not None:
                return self.read_object(members)
            if isinstance(value, Sequence) and not isinstance(value, (bytes, bytearray, memoryview)):
                return self.read_array(value)
            if self.default is not None:
                return self.read(self.default(value))
        finally:
            self.open.discard(id(value))
        raise _Unfit(TypeError, f"is {_with_article(value)}, which is not a value of a template{_advice(value)}")

    def read_object(self, members: Mapping[str, Any]) -> dict[str, Any]:
        tree = {}
        name: Any = None
        try:
            for name, value in members.items():
                if not isinstance(name, str):
                    break
                tree[name] = value if type(value) in _SIMPLE else self.read(value)
            else:
                return tree
        except _Unfit as unfit:
            unfit.path.append(name)
            raise
        raise _Unfit(TypeError, f"has the name {name!r}, which is {_with_article(name)} and not a string")

    def read_array(self, items: Sequence[Any]) -> list[Any]:
        tree: list[Any] = []
        try:
            for item in items:
                tree.append(item if type(item) in _SIMPLE else self.read(item))
        except _Unfit as unfit:
            unfit.path.append(len(tree))
            raise
        return tree


def _number(value: float | Decimal) -> float | int | str:
    """Returns a number as JSON has it: a decimal as its digits, and one without a fraction as an integer."""
    if not (math.isfinite(value) if isinstance(value, float) else value.is_finite()):
        raise _Unfit(ValueError, f"is {value}, which is not a finite number")
    if isinstance(value, float):
        return value
    digits = format(value, "f")
    return digits if "." in digits else int(digits)


def _text(value: object) -> str | None:
    """Returns the text of a value that a template sees as one, and None for any other value."""
    if isinstance(value, datetime):
        return _moment(value)
    if isinstance(value, (date, time)):
        return value.isoformat()
    if isinstance(value, (UUID, PurePath)):
        return str(value)
    return None


def _moment(value: datetime) -> str:
    """Returns a date time in the form that the filter ``date`` reads."""
    offset = value.utcoffset()
    text = value.replace(tzinfo=None).isoformat(" ")
    if offset is None:
        return text
    if abs(offset) >= _FARTHEST or offset % timedelta(minutes=1):
        raise _Unfit(ValueError, f"has the offset {value:%z}, which is not whole minutes below 20 hours")
    return f"{text} {value:%z}"


def moment_of(now: Now) -> str | None:
    """Returns the moment of a page as a text that the filter ``date`` reads. A string is returned as it is.

    Raises ``ValueError`` for a date time without a time zone, and for one whose offset the filter can't read.
    """
    if now is None or isinstance(now, str):
        return now
    if not isinstance(now, datetime):
        raise TypeError(f"now is {_with_article(now)}, and neither a str nor a datetime")
    if now.utcoffset() is None:
        raise ValueError("now has no time zone")
    try:
        return _moment(now)
    except _Unfit as unfit:
        raise unfit.error("now") from None


def _members(value: Any) -> Mapping[str, Any] | None:
    """Returns the members of a value that a template sees as an object, and None for any other value."""
    if isinstance(value, Mapping):
        return value
    if dataclasses.is_dataclass(value) and not isinstance(value, type):
        return {field.name: getattr(value, field.name) for field in dataclasses.fields(value)}
    if isinstance(value, tuple) and hasattr(value, "_fields"):
        return dict(zip(value._fields, value))
    return None


def _advice(value: object) -> str:
    if isinstance(value, Set):
        return ": it has no order. Make a sorted list of it"
    if isinstance(value, Iterator):
        return ": it can be read only once. Make a list of it"
    if isinstance(value, (bytes, bytearray, memoryview)):
        return ": decode it first"
    if isinstance(value, Iterable) and not isinstance(value, type):
        return ". Make a list of it"
    return ""
