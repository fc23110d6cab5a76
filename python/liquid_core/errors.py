"""The errors of pages."""
from __future__ import annotations

import enum
import re
from collections.abc import Collection
from typing import Any
from unicodedata import category

__all__ = [
    "DataError",
    "FilterError",
    "Kind",
    "LimitError",
    "LiquidError",
    "MemoryLimitError",
    "PartialError",
    "RenderError",
    "TemplateNotFound",
    "TemplateSyntaxError",
    "UndefinedError",
    "class_of",
    "partial_of",
]

# How much of a long line an explanation shows on each side of the column.
_SHOWN = 60

_UNDEFINED = ("liquid: Unknown variable", "liquid: Unknown index")
_CALLS_REFUSED = ("liquid: Unknown partial-template", "liquid: Partial does not exist", "liquid: Partials nest too deep")
_CALL = re.compile(r"^from: (?:include|render) (.*)$", re.M)
_PLACE = re.compile(r" \(line \d+, column \d+\)$")


class Kind(enum.IntEnum):
    """Why a page was not rendered to its end."""

    UNPARSED = 1
    """The template can't be read."""
    REFUSED = 2
    """Rendering ended early."""
    BAD_JSON = 3
    """The globals are not JSON."""
    NO_GLOBALS = 4
    """The JSON is not an object, or has a number that is neither a whole one of 64 bits nor a decimal."""
    NO_TEXT = 5
    """A text is not UTF-8."""
    NO_MEMORY = 6
    """Memory ran out, or the page took more than ``max_memory``."""
    NO_OPTIONS = 8
    """The library has no such options: it is of another version than the package."""
    NO_MOMENT = 9
    """``now`` is not a date or a date time."""


class LiquidError(Exception):
    """A page that was not rendered to its end.

    ``message`` is the text of the error, of one line or more. ``line`` and ``column`` are where it is, from 1, and
    ``None`` if it has no place. ``kind`` is one of ``Kind``, and ``rendered`` is what was rendered before the error.
    ``template`` is the name of the template, or of the partial in which the error is; it is ``None`` for a template
    without a name. ``source_line`` is the line that has the error, and ``None`` if the error has no place. ``limit`` is
    the name of the argument whose limit stopped the page, ``"max_turns"`` or ``"max_bytes"``, and ``None`` if none did.

    ``str()`` returns ``explain()`` for an error of an ``Environment``, and ``message`` for one of ``render`` and
    ``render_each``.
    """

    def __init__(
        self,
        message: str,
        line: int | None,
        column: int | None,
        kind: Kind,
        rendered: str,
        template: str | None = None,
        source_line: str | None = None,
        explained: bool = False,
        limit: str | None = None,
    ) -> None:
        super().__init__(message)
        self.message = message
        self.line = line
        self.column = column
        self.kind = kind
        self.rendered = rendered
        self.template = template
        self.source_line = source_line
        self.limit = limit
        self._explained = explained

    def __reduce__(self) -> tuple[Any, ...]:
        place = self.line, self.column, self.kind, self.rendered, self.template, self.source_line
        return type(self), (self.message, *place, self._explained, self.limit)

    def __str__(self) -> str:
        return self.explain() if self._explained else self.message

    def explain(self) -> str:
        """Returns a text of several lines: the name of the template or partial, the line and the column, the source
        line, a caret under the column, and the message. What is not known is left out. Of a long line only a part
        is shown, and a control character is shown as ``?``. An error of the globals has the name ``globals``, and one of
        the moment the name ``now``.
        """
        name = _SOURCES.get(self.kind, self.template)
        place = [] if self.line is None else [f"line {self.line}", f"column {self.column}"]
        lines = [", ".join(place if name is None else [f"in {_visible(name)}", *place])]
        if self.source_line is not None and self.column is not None:
            lines += self._shown(self.source_line, self.column)
        return "\n".join([*filter(None, lines), self.message])

    def _shown(self, line: str, column: int) -> list[str]:
        """Returns the part of a line around the column, and a line with a caret under it."""
        before = column - 1
        if self.kind == Kind.BAD_JSON:
            # A column of JSON counts bytes.
            before = len(line.encode("utf-8", "surrogatepass")[:before].decode("utf-8", "ignore"))
        first = max(0, before - _SHOWN)
        margin = "".join("\t" if it == "\t" else " " for it in line[first:before])
        return [f"  {_visible(line[first : before + _SHOWN])}", f"  {margin}^"]


# What has the error, if it is not a template.
_SOURCES = {Kind.BAD_JSON: "globals", Kind.NO_GLOBALS: "globals", Kind.NO_MOMENT: "now"}


def _visible(text: str) -> str:
    """Returns the text with ``?`` in place of what a terminal would not show as it is, which may be a command to it."""
    return "".join("?" if it != "\t" and category(it) in ("Cc", "Cs") else it for it in text)


class TemplateSyntaxError(LiquidError):
    """The template can't be read."""


class RenderError(LiquidError):
    """Rendering ended early."""


class UndefinedError(RenderError):
    """A name or an index has no value."""


class FilterError(RenderError):
    """A filter refused its input or its arguments."""


class PartialError(RenderError):
    """A partial is not there, can't be read, or is inside too many others."""


class LimitError(RenderError):
    """The page took more than ``max_turns`` turns, or would have written more than ``max_bytes`` bytes. ``limit`` is the
    name of the one that it reached.
    """


class DataError(LiquidError):
    """The globals are not the JSON of an object of values, a text is not UTF-8, or ``now`` is not a date or a date time."""


class MemoryLimitError(LiquidError):
    """The page took more than ``max_memory`` bytes, or memory ran out."""


class TemplateNotFound(LookupError):
    """The loader has no template of this ``name``. It is no ``LiquidError``, since no page was begun."""

    def __init__(self, name: str) -> None:
        super().__init__(name)
        self.name = name


_CLASSES = {
    Kind.UNPARSED: TemplateSyntaxError,
    Kind.BAD_JSON: DataError,
    Kind.NO_GLOBALS: DataError,
    Kind.NO_TEXT: DataError,
    Kind.NO_MEMORY: MemoryLimitError,
    Kind.NO_MOMENT: DataError,
}


def class_of(kind: Kind, message: str, limit: str | None) -> type[LiquidError]:
    """Returns the class of an error. The message of one of rendering has a place only if a partial can't be read."""
    if kind != Kind.REFUSED:
        return _CLASSES.get(kind, LiquidError)
    if limit is not None:
        return LimitError
    lines = message.split("\n")
    if lines[0] in _CALLS_REFUSED or _PLACE.search(lines[0]) or "from: Filter parsing error" in lines:
        return PartialError
    if lines[0] in _UNDEFINED:
        return UndefinedError
    return FilterError if "from: Filter error" in lines else RenderError


def partial_of(message: str, partials: Collection[str]) -> str | None:
    """Returns the name of the partial in which the error is, of those with these names, by the calls that the message
    names. A call that failed itself is in the text around it.
    """
    calls = _CALL.findall(message)
    if message.split("\n", 1)[0] in _CALLS_REFUSED:
        calls = calls[1:]
    return calls[0] if calls and calls[0] in partials else None
