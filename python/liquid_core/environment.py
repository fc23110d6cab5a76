"""Environments and templates.

    >>> from liquid_core import DictLoader, Environment
    >>> env = Environment(loader=DictLoader({"page": "Dear {{ name }},", "card": "<h2>{{ title | upcase }}</h2>"}))
    >>> env.get_template("page").render(name="rain")
    'Dear rain,'
    >>> env.from_string("{% render 'card', title: post.title %}").render({"post": {"title": "Snow"}})
    '<h2>SNOW</h2>'
"""
from __future__ import annotations

from collections.abc import Iterable
from typing import IO, Any

from .errors import LiquidError, TemplateNotFound
from .library import Options, Partials, Source, render_each_source, render_source
from .loaders import Loader
from .values import Default, Globals, Now, Text, json_of

__all__ = ["Environment", "Template"]


class Environment:
    """The options and the loader of templates.

    All templates of the loader are partials of each page, under their names. They are read when a page is first
    rendered, and again when the loader has other texts. ``loader`` is a ``DictLoader``, a ``FileSystemLoader`` or any
    object with their methods ``names`` and ``read``; without one there are no partials. The other arguments are those
    of ``render``, but ``standard`` is true: templates have the tags, blocks and filters of standard Liquid. With
    ``jekyll`` they and the partials are as Jekyll's authors write them, in Jekyll's language.

    What the loader raises, such as an ``OSError``, is raised when a page is rendered. An environment and its templates
    may be used by several threads at once.
    """

    def __init__(
        self,
        loader: Loader | None = None,
        *,
        standard: bool = True,
        sandboxed: bool = False,
        lenient: bool = False,
        max_turns: int = 0,
        max_bytes: int = 0,
        max_memory: int = 0,
        now: Now = None,
        default: Default = None,
        jekyll: bool = False,
    ) -> None:
        self.loader = loader
        self.default = default
        self.options = Options(sandboxed, lenient, standard, max_turns, max_bytes, max_memory, now, jekyll)
        self._kept: dict[str, Template] = {}
        self._partials = Partials({})

    def from_string(self, text: Text, name: str | None = None) -> Template:
        """Returns the template of a text. ``name`` is its name in errors, by default ``<string>``."""
        return Template(self, text, "<string>" if name is None else name)

    def get_template(self, name: str) -> Template:
        """Returns the template of this name, whose text is read through the loader. As long as the loader has the same
        text, the same template is returned.

        Raises ``TemplateNotFound`` if the loader has none of this name, and ``TypeError`` if there is no loader.
        """
        if self.loader is None:
            raise TypeError("the environment has no loader")
        try:
            text = self.loader.read(name)
        except TemplateNotFound:
            raise
        except LookupError as error:
            raise TemplateNotFound(name) from error
        kept = self._kept.get(name)
        if kept is None or kept.text != text:
            kept = self._kept[name] = Template(self, text, name)
        return kept

    def partials(self) -> Partials:
        """Returns the texts that the loader has now."""
        texts: dict[str, Text] = {}
        if self.loader is not None:
            for name in self.loader.names():
                try:
                    texts[name] = self.loader.read(name)
                except LookupError:
                    # It went away after the names were listed.
                    continue
        partials = self._partials
        if partials.given != texts:
            partials = self._partials = Partials(texts)
        return partials


class Template:
    """A template of an environment, which ``Environment.from_string`` and ``Environment.get_template`` return.

    ``text`` and ``name`` are what it was made of. A text that can't be read raises ``TemplateSyntaxError`` when it is
    rendered.
    """

    def __init__(self, environment: Environment, text: Text, name: str) -> None:
        self.environment = environment
        self.text = text
        self.name = name
        self._kept = Source(text, Partials({}), environment.options, name)

    def __repr__(self) -> str:
        return f"<Template {self.name!r}>"

    def render(self, mapping: Globals | None = None, /, **names: Any) -> str:
        """Renders the template, and returns the page. The globals are the members of the mapping and the names; of two
        of one name it is the latter. Without names, the mapping may also be the JSON of an object, as ``str`` or bytes.

            >>> page = Environment().from_string("{{ total | times: 2 }} on {{ day | date: '%e %B' }}")
            >>> page.render({"total": 12}, day="2026-12-24")
            '24 on 24 December'

        Raises ``LiquidError`` if the page was not rendered to its end, and ``TypeError`` or ``ValueError`` for values
        that a template can't have.
        """
        return self._render(mapping, names).decode()

    def render_each(self, rows: Iterable[Globals]) -> list[str | LiquidError]:
        """Renders the template over each of these globals, and returns the pages in their order. The template and the
        partials are read once. In the place of a page that was not rendered to its end is its ``LiquidError``.

            >>> Environment().from_string("Hello {{ name }}!").render_each([{"name": "rain"}, {"name": "snow"}])
            ['Hello rain!', 'Hello snow!']
        """
        default = self.environment.default
        texts = (json_of(row, default, f"rows[{number}]") for number, row in enumerate(rows))
        return render_each_source(self._source(), texts)

    def render_to(self, file: IO[Any], mapping: Globals | None = None, /, **names: Any) -> None:
        """Renders the template, and writes the page to a file when it is rendered. A text file gets ``str``; one without
        an attribute ``encoding`` is binary, and gets bytes of UTF-8.

        If the page was not rendered to its end, what was rendered before the error is written, and then the
        ``LiquidError`` is raised.
        """
        is_text = hasattr(file, "encoding")
        try:
            page = self._render(mapping, names)
        except LiquidError as error:
            file.write(error.rendered if is_text else error.rendered.encode())
            raise
        file.write(page.decode() if is_text else page)

    def _render(self, mapping: Globals | None, names: dict[str, Any]) -> bytes:
        members: Globals = names if mapping is None else mapping
        if mapping is not None and names:
            if isinstance(mapping, (str, bytes)):
                raise TypeError("names can't be added to JSON")
            members = {**mapping, **names}
        return render_source(self._source(), json_of(members, self.environment.default))

    def _source(self) -> Source:
        """Returns the template with the partials that the loader has now."""
        source, partials = self._kept, self.environment.partials()
        if source.partials is not partials:
            source = self._kept = source.beside(partials)
        return source
