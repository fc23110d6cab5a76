"""Liquid templates.

    >>> from liquid_core import Environment, render
    >>> render("Hello {{ name }}!", {"name": "rain"})
    'Hello rain!'
    >>> Environment().from_string("Hello {{ name | upcase }}!").render(name="rain")
    'Hello RAIN!'

``render`` and ``render_each`` render a text by one call. An ``Environment`` has options and a loader of partials for
many templates. Calls may run in several threads at once: Python's lock is free while a page is rendered.
"""
from .environment import Environment, Template
from .errors import (
    DataError,
    FilterError,
    Kind,
    LimitError,
    LiquidError,
    MemoryLimitError,
    PartialError,
    RenderError,
    TemplateNotFound,
    TemplateSyntaxError,
    UndefinedError,
)
from .functions import render, render_each
from .library import proved
from .loaders import DictLoader, FileSystemLoader, Loader

__all__ = [
    "DataError",
    "DictLoader",
    "Environment",
    "FileSystemLoader",
    "FilterError",
    "Kind",
    "LimitError",
    "LiquidError",
    "Loader",
    "MemoryLimitError",
    "PartialError",
    "RenderError",
    "Template",
    "TemplateNotFound",
    "TemplateSyntaxError",
    "UndefinedError",
    "proved",
    "render",
    "render_each",
]

__version__: str = "0.26.11.3" if proved else "0.26.11.3+unproved"
