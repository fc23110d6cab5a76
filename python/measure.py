"""Measures the pages of crates/example_pages, rendered by this package and by Jinja2, where it is installed: the processor's time of
a page, the least of three runs.

    python3 python/measure.py [PAGES]    PAGES of each theme, 100 if left out

The templates for Jinja2 are in python/measured; they write the same pages, which is checked. Filters that Jinja2 doesn't have
are functions of this file. "template read once" is without parsing, and "read for each page" is with it.
"""
from __future__ import annotations

import base64
import datetime
import json
import sys
import time
import urllib.parse
from pathlib import Path
from typing import Any, Callable, NamedTuple, Union

import liquid_core
from liquid_core import Environment, FileSystemLoader

HERE = Path(__file__).resolve().parent
THEMES = HERE.parent / "crates" / "example_pages" / "data"


class Way(NamedTuple):
    """A way to render a number of pages."""

    name: str
    pages: Callable[[int], list[Any]]


def date(text: str, pattern: str) -> str:
    return datetime.date.fromisoformat(text).strftime(pattern)


def truncatewords(text: str, count: int) -> str:
    words = text.split()
    return " ".join(words[:count]) + ("..." if len(words) > count else "")


def base64_encode(text: str) -> str:
    return base64.b64encode(text.encode()).decode()


def to_json(value: object) -> str:
    return json.dumps(value, separators=(",", ":"))


FILTERS: dict[str, Callable[..., str]] = {
    "date": date,
    "truncatewords": truncatewords,
    "base64_encode": base64_encode,
    "url_encode": urllib.parse.quote_plus,
    "json": to_json,
}


def ways_of_package(theme: Path, data: dict[str, Any]) -> list[Way]:
    env = Environment(FileSystemLoader(theme / "parts"), lenient=True)
    text = (theme / "page.liquid").read_text()
    page, data_text = env.from_string(text, "page"), json.dumps(data)
    return [
        Way("liquid_core, template read once", lambda count: page.render_each([data] * count)),
        Way("liquid_core, template read once, globals as JSON", lambda count: page.render_each([data_text] * count)),
        Way("liquid_core, read for each page", lambda count: [page.render(data) for _ in range(count)]),
    ]


def ways_of_jinja(theme: Path, data: dict[str, Any]) -> list[Way]:
    import jinja2

    def environment() -> jinja2.Environment:
        env = jinja2.Environment(loader=jinja2.FileSystemLoader(HERE / "measured" / theme.name), keep_trailing_newline=True)
        env.filters.update(FILTERS)
        return env

    page = environment().get_template("page")
    return [
        Way("Jinja2, template compiled once", lambda count: [page.render(data) for _ in range(count)]),
        Way("Jinja2, compiled for each page", lambda count: [environment().get_template("page").render(data) for _ in range(count)]),
    ]


def microseconds(way: Way, count: int) -> float:
    """Returns the processor's time of a page, the least of three runs."""
    times = []
    for _ in range(3):
        began = time.process_time()
        way.pages(count)
        times.append(time.process_time() - began)
    return min(times) / count * 1e6


def main() -> Union[str, None]:
    count = int(sys.argv[1]) if len(sys.argv) > 1 else 100
    print(f"liquid_core {liquid_core.__version__}, {'proved' if liquid_core.proved else 'not proved'}")
    makers = [ways_of_package, ways_of_jinja]
    try:
        import jinja2
    except ImportError:
        print("Jinja2 is not installed")
        makers.pop()
    else:
        print(f"Jinja2 {jinja2.__version__}")
    for theme in sorted(THEMES.iterdir()):
        data = json.loads((theme / "data.json").read_text())
        ways = [way for make in makers for way in make(theme, data)]
        if len({str(way.pages(1)[0]) for way in ways}) != 1:
            return f"the pages of {theme.name} differ"
        for way in ways:
            print(f"{theme.name}: {way.name}: {microseconds(way, count):.0f} us a page", flush=True)
    return None


if __name__ == "__main__":
    sys.exit(main())
