"""Pages by one call, without an environment."""
from __future__ import annotations

from collections.abc import Iterable, Mapping

from .errors import LiquidError
from .library import Options, Partials, Source, render_each_source, render_source
from .values import Default, Globals, Now, Text, json_of

__all__ = ["render", "render_each"]


def render(
    template: Text,
    globals: Globals,
    partials: Mapping[str, Text] = {},
    sandboxed: bool = False,
    lenient: bool = False,
    standard: bool = False,
    max_turns: int = 0,
    max_bytes: int = 0,
    *,
    max_memory: int = 0,
    now: Now = None,
    default: Default = None,
    jekyll: bool = False,
) -> str:
    """Renders a template over globals, and returns the page.

        >>> render("Hello {{ name }}!", {"name": "rain"})
        'Hello rain!'

    ``globals`` is a mapping of values as the package's README lists them, or the JSON of an object. ``default`` is
    called with each other value, and its result is taken in the place of the value. A number with a fraction is a
    decimal of at most 18 digits after the point: a string of its digits, with which the standard filters calculate
    exactly. ``partials`` are texts by their names. In a sandbox (``sandboxed``) what the template assigns goes
    nowhere; a template of standard Liquid sees it until the page ends. With ``lenient`` a name without a value is
    nil instead of an error. With ``standard`` the template has the tags, blocks and filters of standard Liquid;
    without it, the few tags and blocks of ``liquid_tags``, and no filters. A page that takes more than
    ``max_turns`` turns of tags and blocks, or writes more than ``max_bytes`` bytes of UTF-8, is stopped. The library
    holds at most ``max_memory`` bytes at any moment; a page that takes more ends with a ``MemoryLimitError``. The
    arguments and the page that is returned are Python's memory, and don't count. 0 means no limit.
    ``now`` is the moment that ``"now"`` and ``"today"`` are for the filter ``date``: a date time with a time zone, or a
    string that the filter reads. Without it, they are no dates. With ``jekyll`` the template and the partials are as
    Jekyll's authors write them, with the tags, blocks and filters of standard Liquid and of Jekyll, and a name without a
    value is nil.

    Raises ``LiquidError`` if the page was not rendered to its end, and ``TypeError`` or ``ValueError``, with the path
    of the value, for globals that a template can't have.
    """
    options = Options(sandboxed, lenient, standard, max_turns, max_bytes, max_memory, now, jekyll)
    return render_source(Source(template, Partials(partials), options), json_of(globals, default)).decode()


def render_each(
    template: Text,
    globals: Iterable[Globals],
    partials: Mapping[str, Text] = {},
    sandboxed: bool = False,
    lenient: bool = False,
    standard: bool = False,
    max_turns: int = 0,
    max_bytes: int = 0,
    *,
    max_memory: int = 0,
    now: Now = None,
    default: Default = None,
    jekyll: bool = False,
) -> list[str | LiquidError]:
    """Renders a template over each of these globals, and returns the pages in their order.

        >>> render_each("Hello {{ name }}!", [{"name": name} for name in ("rain", "snow")])
        ['Hello rain!', 'Hello snow!']

    The template and the partials are read once, and ``max_memory`` is for all pages together. Each page is what
    ``render`` returns over these globals; in the place of a page that was not rendered to its end is the
    ``LiquidError`` that ``render`` raises.
    """
    options = Options(sandboxed, lenient, standard, max_turns, max_bytes, max_memory, now, jekyll)
    texts = (json_of(names, default, f"globals[{number}]") for number, names in enumerate(globals))
    return render_each_source(Source(template, Partials(partials), options), texts)
