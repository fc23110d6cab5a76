"""The calls of the library, by ctypes.

Python's lock is free during a call. A call keeps nothing, so calls may run in several threads at once.
"""
from __future__ import annotations

import ctypes
import mmap
import os
from collections.abc import Iterable, Mapping, Sequence
from dataclasses import dataclass
from pathlib import Path
from typing import Any

from .errors import Kind, LiquidError, class_of, partial_of
from .values import Now, Text, moment_of

__all__ = ["Options", "Partials", "Source", "proved", "render_each_source", "render_source"]

_VERSION = 4
_SANDBOXED, _LENIENT, _STANDARD, _DECIMALS, _NOW, _JEKYLL = 1, 2, 4, 8, 16, 32
_OK = 0
# The texts of a page that an outcome names: the globals, the name of a partial, its text.
_GLOBALS, _OF_PARTIALS = 1, (2, 3)
_LIMITS = (None, "max_turns", "max_bytes")
_LEAST_ROOM, _LARGE_ROOM = 1 << 16, 1 << 20
# A guess is no more than this, since the system may refuse more, though most of it would not be written.
_MOST_ROOM = 1 << 28
_MESSAGE_ROOM = 1 << 12
_NO_MEMORY = "liquid: out of memory"


class _Bytes(ctypes.Structure):
    _fields_ = [("at", ctypes.c_char_p), ("len", ctypes.c_size_t)]


class _Partial(ctypes.Structure):
    _fields_ = [("name", _Bytes), ("text", _Bytes)]


class _Page(ctypes.Structure):
    _fields_ = [
        ("text", _Bytes),
        ("globals", _Bytes),
        ("partials", ctypes.POINTER(_Partial)),
        ("partial_count", ctypes.c_size_t),
        ("options", ctypes.c_uint32),
        ("max_turns", ctypes.c_uint64),
        ("max_bytes", ctypes.c_uint64),
        ("now", _Bytes),
    ]


class _Outcome(ctypes.Structure):
    _fields_ = [
        ("kind", ctypes.c_uint32),
        ("which", ctypes.c_uint32),
        *((name, ctypes.c_size_t) for name in ("partial", "line", "column", "needed", "written", "message_len")),
        ("limit", ctypes.c_uint32),
    ]


def _load() -> ctypes.CDLL:
    path = os.environ.get("LIQUID_CORE_LIBRARY") or Path(__file__).with_name("libliquid.so")
    try:
        library = ctypes.CDLL(os.fspath(path))
    except OSError as error:
        how = "In a clone of liquid_core, './liquid c --unproved' builds it in minutes, and './liquid c' proves it first"
        raise ImportError(f"the library can't be loaded: {error}. {how}") from error
    if not hasattr(library, "liquid_render_within") or library.liquid_version() != _VERSION:
        raise ImportError(f"{path} is of another version than this package")
    memory: list[Any] = [ctypes.c_char_p, ctypes.c_size_t, ctypes.c_char_p, ctypes.c_size_t, ctypes.POINTER(_Outcome)]
    many = [ctypes.POINTER(_Bytes), ctypes.c_size_t, *memory, ctypes.c_size_t]
    limits: list[tuple[str, list[Any]]] = [("", []), ("_within", [ctypes.c_size_t])]
    for name, limit in limits:
        one, each = getattr(library, f"liquid_render{name}"), getattr(library, f"liquid_render_each{name}")
        one.argtypes, one.restype = [ctypes.POINTER(_Page), *limit, *memory], None
        each.argtypes, each.restype = [ctypes.POINTER(_Page), *limit, *many], ctypes.c_size_t
    library.liquid_proved.argtypes, library.liquid_proved.restype = [], ctypes.c_uint32
    return library


_library = _load()

proved: bool = _library.liquid_proved() == 1
"""Whether the library was proved before it was built. One that was built without a proof is the same code, with a check of
each index, sum and value: if a check failed, which a proof excludes, it would end the process by a signal."""


@dataclass(frozen=True)
class Options:
    """How pages are rendered. The arguments of ``render`` have these names."""

    sandboxed: bool = False
    lenient: bool = False
    standard: bool = False
    max_turns: int = 0
    max_bytes: int = 0
    max_memory: int = 0
    now: Now = None
    jekyll: bool = False

    def __post_init__(self) -> None:
        for limit in (self.max_turns, self.max_bytes, self.max_memory):
            if not 0 <= limit < 1 << 64:
                raise ValueError("a limit is a number from 0 to 2**64 - 1")
        moment_of(self.now)

    def bits(self) -> int:
        """Returns the options as the library takes them."""
        chosen = _SANDBOXED * bool(self.sandboxed) | _LENIENT * bool(self.lenient) | _STANDARD * bool(self.standard)
        return _DECIMALS | chosen | _NOW * (self.now is not None) | _JEKYLL * bool(self.jekyll)

    def moment(self) -> bytes:
        """Returns the text of the moment, if there is one."""
        return _encoded(moment_of(self.now) or "")


class Partials:
    """Partials, as the library takes them. ``given`` is what they were made of. Of two of one name the later counts."""

    def __init__(self, given: Mapping[str, Text]) -> None:
        self.given = given
        self.texts = [(name, _encoded(text)) for name, text in given.items()]
        items = [_Partial(_bytes(_encoded(name)), _bytes(text)) for name, text in self.texts]
        self.array = (_Partial * max(len(items), 1))(*items)


class Source:
    """A template and its partials.

    ``name`` is the name of the template in its errors, and ``None`` if it has none. Then ``str()`` of an error is its
    message alone. ``longest`` is the length of the longest page so far, in bytes: the next one gets room for as many.
    """

    def __init__(
        self, template: Text, partials: Partials, options: Options, name: str | None = None, longest: int = 0
    ) -> None:
        self.template = _encoded(template)
        self.partials = partials
        self.options = options
        self.name = name
        self.longest = longest

    def beside(self, partials: Partials) -> Source:
        """Returns the template with other partials."""
        return Source(self.template, partials, self.options, self.name, self.longest)

    def page(self, names: bytes) -> _Page:
        """Returns the page over these globals."""
        options, partials = self.options, self.partials
        chosen = options.bits(), options.max_turns, options.max_bytes, _bytes(options.moment())
        return _Page(_bytes(self.template), _bytes(names), partials.array, len(partials.texts), *chosen)

    def room(self, texts: Sequence[bytes]) -> int:
        """Returns how many bytes the pages over these globals are likely to have at most."""
        guess = 4 * (len(self.template) * len(texts) + sum(map(len, texts)))
        # (an eighth more, since the next page may be somewhat longer)
        longest = self.longest + self.longest // 8
        return max(_LEAST_ROOM, longest, min(max(guess, longest * len(texts)), _MOST_ROOM))

    def error(self, outcome: _Outcome, message: str, rendered: bytes, names: bytes) -> LiquidError:
        """Returns the error of a page over these globals."""
        kind, line, column, limit = Kind(outcome.kind), outcome.line or None, outcome.column or None, _LIMITS[outcome.limit]
        partial, text = self._text_of(outcome, message, names)
        return class_of(kind, message, limit)(
            message,
            line,
            column,
            kind,
            # A page that ended early may end inside a character.
            rendered.decode("utf-8", "ignore"),
            self.name if partial is None else partial,
            None if line is None else _line_of(text, line),
            explained=self.name is not None,
            limit=limit,
        )

    def _text_of(self, outcome: _Outcome, message: str, names: bytes) -> tuple[str | None, bytes]:
        """Returns the text that an error is in, and the name of the partial whose text it is, if it is one."""
        if outcome.which in _OF_PARTIALS:
            return self.partials.texts[outcome.partial]
        if outcome.kind == Kind.REFUSED and not outcome.line:
            partials = dict(self.partials.texts)
            partial = partial_of(message, partials)
            if partial is not None:
                return partial, partials[partial]
        return None, names if outcome.which == _GLOBALS else self.template


def _line_of(text: bytes, line: int) -> str:
    """Returns a line of a text, counted from 1."""
    lines = text.split(b"\n", line)
    return lines[line - 1].decode("utf-8", "replace").removesuffix("\r") if line <= len(lines) else ""


def _encoded(text: Text) -> bytes:
    if isinstance(text, str):
        # a lone surrogate becomes bytes that are not UTF-8, which the library refuses as a text
        return text.encode("utf-8", "surrogatepass")
    if not isinstance(text, bytes):
        raise TypeError(f"a text is str or bytes, not {type(text).__name__}")
    return text


def _bytes(text: bytes) -> _Bytes:
    return _Bytes(text, len(text))


def _buffer(room: int) -> Any:
    """Returns so much room. Where it is large, the part that is not written takes no memory."""
    if room < _LARGE_ROOM:
        return ctypes.create_string_buffer(room)
    return (ctypes.c_char * room).from_buffer(mmap.mmap(-1, room))


def render_source(source: Source, names: Text) -> bytes:
    """Returns the page over globals of JSON, or raises its error."""
    text, outcome, max_memory = _encoded(names), _Outcome(), source.options.max_memory
    page, room, message_room = source.page(text), source.room([text]), _MESSAGE_ROOM
    # A page that is longer is rendered again, with room for all of it. None is longer than the memory of its call.
    if max_memory:
        room = min(room, max_memory)
    while True:
        out = _buffer(room)
        message = ctypes.create_string_buffer(message_room)
        _library.liquid_render_within(page, max_memory, out, room, message, message_room, outcome)
        source.longest = max(source.longest, outcome.needed)
        if outcome.needed <= room and outcome.message_len <= message_room:
            break
        room, message_room = max(room, outcome.needed), max(message_room, outcome.message_len)
    rendered = ctypes.string_at(out, outcome.written)
    if outcome.kind == _OK:
        return rendered
    fault = ctypes.string_at(message, outcome.message_len).decode("utf-8", "replace").removesuffix("\n")
    raise source.error(outcome, fault or _NO_MEMORY, rendered, text)


def render_each_source(source: Source, names: Iterable[Text]) -> list[str | LiquidError]:
    """Returns the page over each of these globals of JSON, or in its place its error. The template and the partials are
    read once.
    """
    texts = [_encoded(it) for it in names]
    pages: list[str | LiquidError] = []
    room = source.room(texts)
    while len(pages) < len(texts):
        room = _extend(pages, source, texts[len(pages) :], room)
    return pages


def _extend(pages: list[str | LiquidError], source: Source, texts: list[bytes], room: int) -> int:
    """Adds the pages over these globals as far as there is room, and returns how much room is wanted for the others."""
    count, page, max_memory = len(texts), source.page(b""), source.options.max_memory
    outcomes, array = (_Outcome * count)(), (_Bytes * count)(*map(_bytes, texts))
    out, message = _buffer(room), ctypes.create_string_buffer(1)
    _library.liquid_render_each_within(page, max_memory, array, count, out, room, message, 0, outcomes, count)
    bytes_of_pages = memoryview(out)
    place = 0
    for number, outcome in enumerate(outcomes):
        source.longest = max(source.longest, outcome.needed)
        if outcome.needed > outcome.written:
            return sum(it.needed for it in outcomes[number:])
        rendered = bytes(bytes_of_pages[place : place + outcome.written])
        place += outcome.written
        if outcome.kind == _OK:
            pages.append(rendered.decode())
        else:
            pages.append(source.error(outcome, _message(source, texts[number]), rendered, texts[number]))
    return 0


def _message(source: Source, text: bytes) -> str:
    """Returns the text of the error of the page over these globals."""
    try:
        render_source(source, text)
    except LiquidError as error:
        return error.message
    return _NO_MEMORY
