"""Loaders, which give an environment its templates and partials."""
from __future__ import annotations

import os
import stat
from collections.abc import Iterable, Iterator, Mapping
from typing import Protocol

from .errors import TemplateNotFound
from .values import Text

__all__ = ["DictLoader", "FileSystemLoader", "Loader"]


class Loader(Protocol):
    """What an ``Environment`` asks of a loader: any object with these two methods."""

    def names(self) -> Iterable[str]:
        """Returns the names of all templates."""

    def read(self, name: str) -> Text:
        """Returns the text of a template. Raises ``LookupError``, of which ``TemplateNotFound`` is one, if there is none
        of this name.
        """


class DictLoader:
    """A loader of the texts of a mapping.

        >>> loader = DictLoader({"card": "<h2>{{ title }}</h2>"})
        >>> loader.read("card")
        '<h2>{{ title }}</h2>'

    The mapping may change later: each page has the texts that are in it when the page is rendered.
    """

    def __init__(self, mapping: Mapping[str, Text]) -> None:
        self.mapping = mapping

    def names(self) -> list[str]:
        """Returns the names of all templates."""
        return list(self.mapping)

    def read(self, name: str) -> Text:
        """Returns the text of a template. Raises ``TemplateNotFound`` if there is none of this name."""
        try:
            return self.mapping[name]
        except KeyError:
            raise TemplateNotFound(name) from None


class FileSystemLoader:
    """A loader of the files in a folder and in the folders below it.

    The names are those of the files that end in ``ext``, as paths in the folder, with ``/`` and without ``ext``: with
    ``ext=".liquid"`` the file ``nav/item.liquid`` is ``nav/item``. ``read``, and so ``get_template``, also takes a name
    with ``ext``, but a partial has only the name without it. A file is read when it is first asked for, and again
    when its time of modification or its size is another. A link to a file outside the folder is passed over, and so is
    each link to a folder.
    """

    def __init__(self, folder: str | os.PathLike[str], ext: str = "", encoding: str = "utf-8") -> None:
        self.folder = os.path.realpath(folder)
        self.ext = ext
        self.encoding = encoding
        self._kept: dict[str, tuple[tuple[int, int], str]] = {}

    def names(self) -> list[str]:
        """Returns the names of all templates, in order. Raises ``OSError`` if the folder can't be read."""
        return sorted(self._names("", os.scandir(self.folder)))

    def _names(self, prefix: str, entries: Iterator[os.DirEntry[str]]) -> Iterator[str]:
        for entry in entries:
            if entry.is_dir(follow_symlinks=False):
                yield from self._names(f"{prefix}{entry.name}/", os.scandir(entry.path))
            elif entry.name.endswith(self.ext) and entry.is_file() and self._stays_inside(entry.path):
                yield prefix + entry.name[: len(entry.name) - len(self.ext)]

    def _stays_inside(self, path: str) -> bool:
        """Returns whether a path in the folder leads to a place in the folder."""
        return not os.path.islink(path) or os.path.realpath(path).startswith(os.path.join(self.folder, ""))

    def read(self, name: str) -> str:
        """Returns the text of a template. Raises ``TemplateNotFound`` if there is none of this name, ``OSError`` if its
        file can't be read, and ``ValueError`` if the file is not text in the encoding.
        """
        try:
            return self._read(name)
        except TemplateNotFound:
            if not self.ext or not name.endswith(self.ext):
                raise
        try:
            return self._read(name[: len(name) - len(self.ext)])
        except TemplateNotFound:
            raise TemplateNotFound(name) from None

    def _read(self, name: str) -> str:
        """Returns the text of the template of this name, without ``ext``."""
        path = self._path(name)
        try:
            status = os.stat(path)
        except (FileNotFoundError, NotADirectoryError, ValueError):
            raise TemplateNotFound(name) from None
        version = status.st_mtime_ns, status.st_size
        kept = self._kept.get(name)
        if kept is not None and kept[0] == version:
            return kept[1]
        above = os.path.dirname(path)
        if not stat.S_ISREG(status.st_mode) or os.path.realpath(above) != above or not self._stays_inside(path):
            raise TemplateNotFound(name)
        text = self._text(path)
        self._kept[name] = version, text
        return text

    def _path(self, name: str) -> str:
        """Returns the path of a template. Raises ``TemplateNotFound`` for a name that no file has."""
        if any(step in ("", ".", "..") for step in f"{name}{self.ext}".split("/")):
            raise TemplateNotFound(name)
        return os.path.join(self.folder, f"{name}{self.ext}")

    def _text(self, path: str) -> str:
        with open(path, "rb") as file:
            content = file.read()
        try:
            return content.decode(self.encoding)
        except UnicodeDecodeError as error:
            raise ValueError(f"{path} is not text in {self.encoding}: {error}") from error
