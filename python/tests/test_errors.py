"""The errors by their kinds and messages, which docs/guide/ERRORS.md has."""
import pickle
import unittest

import liquid_core
from liquid_core import (
    DataError,
    DictLoader,
    Environment,
    FilterError,
    Kind,
    LimitError,
    LiquidError,
    MemoryLimitError,
    PartialError,
    RenderError,
    TemplateNotFound,
    TemplateSyntaxError,
    UndefinedError,
    render,
    render_each,
)

PARTS = {
    "card": "<h2>{{ title }}</h2>",
    "outer": "{% include 'card' %}",
    "tree": "x{% include 'tree' %}",
    "unread": "<h2>\n\t{{ title }</h2>",
    "unfit": "{{ 'a' | append }}",
    "divides": "{{ 1 | divided_by: 0 }}",
    "calls": "{% include 'missing' %}",
}


def caught(template, names=(), **options):
    """Returns the error of a template of an environment."""
    try:
        Environment(DictLoader(PARTS), **options).from_string(template, "page").render(dict(names))
    except LiquidError as error:
        return error
    raise AssertionError("the page was rendered")


class Classes(unittest.TestCase):
    # a template, its class, its first line without a place, and the template or partial, the line and the column
    ROWS = [
        ("<h1>{{ post title }}", TemplateSyntaxError, "Invalid liquid", "page", 1, 5),
        ("a\n{% asign x = 1 %}", TemplateSyntaxError, "Unknown tag.", "page", 2, 4),
        ("{{ 'a' | wrong }}", TemplateSyntaxError, "Unknown filter", "page", 1, 10),
        ("{% assign x = %}", TemplateSyntaxError, "Token expected", "page", 1, 14),
        ("{{ titel }}", UndefinedError, "Unknown variable", "page", 1, 4),
        ("{% assign x = 'a' %}{{ x | append: y }}", UndefinedError, "Unknown variable", "page", 1, 24),
        ("{{ post.titel }}", UndefinedError, "Unknown index", "page", 1, 4),
        ("{% include 'card' %}", UndefinedError, "Unknown variable", "card", 1, 8),
        ("\n{% include 'outer' %}", UndefinedError, "Unknown variable", "card", 1, 8),
        ("\n {% include 'card', title: wrong %}", UndefinedError, "Unknown variable", "page", 2, 5),
        ("{{ 10 | divided_by: 0 }}", FilterError, "Divided by zero", "page", 1, 4),
        ("\n{% render 'divides' %}", FilterError, "Divided by zero", "divides", 1, 4),
        ("{% include 'missing' %}", PartialError, "Unknown partial-template", "page", 1, 4),
        ("\n{% include 'calls' %}", PartialError, "Unknown partial-template", "calls", 1, 4),
        ("{% include 'tree' %}", PartialError, "Partials nest too deep", "tree", 1, 5),
        ("{% include 'unread' %}", PartialError, "Invalid liquid", "unread", 2, 2),
        ("{% render 'unfit' %}", PartialError, "Unexpected arguments", "unfit", 1, 10),
        ("{% include post %}", RenderError, "Partial name expected", "page", 1, 4),
        ("雨\n雨{% for i in (1..'ten') %}{% endfor %}", RenderError, "Whole number expected", "page", 2, 5),
    ]

    def test_rows(self):
        for template, class_, first, name, line, column in self.ROWS:
            with self.subTest(template):
                error = caught(template, {"post": {"title": "Rain"}})
                self.assertIs(type(error), class_)
                self.assertTrue(error.message.startswith(f"liquid: {first}"), error.message)
                self.assertEqual((error.template, error.line, error.column), (name, line, column))
                self.assertEqual(error.kind, Kind.UNPARSED if class_ is TemplateSyntaxError else Kind.REFUSED)

    def test_limits(self):
        loop = "{% for i in (1..9) %}{{ i }}{% endfor %}"
        # the limits, the one that stops the page, and what is rendered before
        rows = [
            ({"max_turns": 2}, "max_turns", "12"),
            ({"max_bytes": 2}, "max_bytes", "12"),
            ({"max_turns": 3, "max_bytes": 4}, "max_turns", "123"),
            ({"max_turns": 5, "max_bytes": 4}, "max_bytes", "1234"),
            ({"max_turns": 9, "max_bytes": 9}, "max_turns", "123456789"),
        ]
        for limits, name, rendered in rows:
            error = caught(loop, **limits)
            self.assertIs(type(error), LimitError)
            self.assertEqual((error.limit, error.rendered), (name, rendered))
        self.assertIs(type(caught(loop, max_memory=100)), MemoryLimitError)
        self.assertIsNone(caught("{{ x }}", max_turns=9).limit)
        self.assertEqual(Environment(max_turns=0, max_bytes=0).from_string(loop).render(), "123456789")

    def test_data(self):
        env = Environment(DictLoader({"a": "", "b": b"\xff"}))
        for template, names in (("", "{"), ("", "[]"), ("", {"x": 2**63}), ("", b"\xff"), (b"\xff", {})):
            with self.assertRaises(DataError):
                Environment().from_string(template).render(names)
        with self.assertRaises(DataError) as raised:
            env.from_string("").render()
        self.assertEqual(raised.exception.template, "b")

    def test_the_classes_are_below_one_another(self):
        for class_ in (UndefinedError, FilterError, PartialError, LimitError):
            self.assertTrue(issubclass(class_, RenderError))
        for class_ in (TemplateSyntaxError, RenderError, DataError, MemoryLimitError):
            self.assertTrue(issubclass(class_, LiquidError))
        self.assertTrue(issubclass(TemplateNotFound, LookupError))

    def test_the_functions_raise_the_same_classes(self):
        with self.assertRaises(UndefinedError) as raised:
            render("{% include 'card' %}", {}, PARTS)
        error = raised.exception
        self.assertEqual((error.template, error.source_line, str(error)), ("card", "<h2>{{ title }}</h2>", error.message))
        (error,) = render_each("a\nb {% wrong %}", [{}])
        self.assertIs(type(error), TemplateSyntaxError)
        self.assertEqual((error.template, error.source_line, str(error)), (None, "b {% wrong %}", error.message))
        self.assertEqual(error.explain(), f"line 2, column 6\n  b {{% wrong %}}\n       ^\n{error.message}")

    def test_a_value_that_looks_like_a_call_is_no_call(self):
        error = caught("{{ x | divided_by: 0 }}", {"x": "1\nfrom: include nowhere"})
        self.assertEqual(error.template, "page")


class Explanations(unittest.TestCase):
    # a template and its explanation before the message
    ROWS = [
        ("a\r\nb {% wrong %}\r\nc", "in page, line 2, column 6\n  b {% wrong %}\n       ^"),
        ("\t雨 {% wrong %}", "in page, line 1, column 7\n  \t雨 {% wrong %}\n  \t     ^"),
        ("{% if x %}", "in page, line 1, column 11\n  {% if x %}\n            ^"),
        ("{% if x %}\n", "in page, line 2, column 1\n  \n  ^"),
        ("a" * 100 + "{{ x" + "b" * 100, "in page, line 1, column 101\n  " + "a" * 60 + "{{ x" + "b" * 56 + "\n  " + " " * 60 + "^"),
        ("\x1b[1m {% wrong %}\x7f", "in page, line 1, column 9\n  ?[1m {% wrong %}?\n          ^"),
        ("{{ x }}", "in page, line 1, column 4\n  {{ x }}\n     ^"),
        ("{% include 'card' %}", "in card, line 1, column 8\n  <h2>{{ title }}</h2>\n         ^"),
        ("{% include 'unread' %}", "in unread, line 2, column 2\n  \t{{ title }</h2>\n  \t^"),
    ]

    def test_rows(self):
        for template, explanation in self.ROWS:
            with self.subTest(template):
                error = caught(template)
                self.assertEqual(error.explain(), f"{explanation}\n{error.message}")
                self.assertEqual(str(error), error.explain())

    def test_a_name_with_control_characters(self):
        with self.assertRaises(UndefinedError) as raised:
            Environment().from_string("{{ x }}", "a\n\x1b[2J\udc80").render()
        self.assertEqual(str(raised.exception).split("\n")[0], "in a??[2J?, line 1, column 4")

    def test_a_column_of_json_counts_bytes(self):
        with self.assertRaises(DataError) as raised:
            Environment().from_string("").render('{"ü": "雨",\n "ü" 1}')
        error = raised.exception
        self.assertEqual((error.line, error.column, error.source_line), (2, 7, ' "ü" 1}'))
        self.assertEqual(error.explain(), f'in globals, line 2, column 7\n   "ü" 1}}\n       ^\n{error.message}')

    def test_a_template_without_a_name(self):
        with self.assertRaises(UndefinedError) as raised:
            Environment().from_string("{{ x }}").render()
        self.assertEqual(raised.exception.template, "<string>")

    def test_an_error_can_be_pickled(self):
        for error in (caught("a\n{% wrong %}"), caught("ab{{ x }}"), *render_each("{{ x }}", [{}])):
            copy = pickle.loads(pickle.dumps(error))
            self.assertIs(type(copy), type(error))
            self.assertEqual((vars(copy), str(copy)), (vars(error), str(error)))
        copy = pickle.loads(pickle.dumps(TemplateNotFound("card")))
        self.assertEqual((copy.name, str(copy)), ("card", "card"))


class Names(unittest.TestCase):
    def test_all_that_is_exported_is_there(self):
        for name in liquid_core.__all__:
            self.assertTrue(hasattr(liquid_core, name), name)


if __name__ == "__main__":
    unittest.main()
