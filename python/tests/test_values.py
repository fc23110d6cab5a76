"""The values of templates, as the table of the README lists them."""
import collections
import dataclasses
import enum
import pathlib
import types
import typing
import unittest
import uuid
from datetime import date, datetime, time, timedelta, timezone
from decimal import Decimal

from liquid_core import Environment, render, render_each


class Colour(enum.Enum):
    RED = "red"
    SIZES = (1, 2)


class Level(enum.IntEnum):
    HIGH = 3


@dataclasses.dataclass
class Line:
    title: str
    price: Decimal


class Point(typing.NamedTuple):
    x: int
    y: int


class Text(str):
    """A class of strings, such as those that are marked as safe in HTML."""


Pair = collections.namedtuple("Pair", "left right")
AT_TWO = timezone(timedelta(hours=2))
WEST = timezone(-timedelta(hours=3, minutes=30))


class Values(unittest.TestCase):
    # a value, a template that uses it as x, and the page
    ROWS = [
        (None, "<{{ x }}>", "<>"),
        (True, "{{ x }}", "true"),
        (7, "{{ x | plus: 1 }}", "8"),
        (Level.HIGH, "{{ x }}", "3"),
        ("rain", "{{ x }}", "rain"),
        (Text("rain"), "{{ x }}", "rain"),
        (1.5, "{{ x }}", "1.5"),
        (Decimal("12.50"), "{{ x }}", "12.50"),
        (Decimal("5"), "{{ x }}", "5"),
        (date(2026, 3, 9), "{{ x }}", "2026-03-09"),
        (date(2026, 3, 9), "{{ x | date: '%d.%m.%Y' }}", "09.03.2026"),
        (datetime(2026, 3, 9, 8, 5, 7), "{{ x }}", "2026-03-09 08:05:07"),
        (datetime(2026, 3, 9, 8, 5, 7), "{{ x | date: '%H:%M:%S %z' }}", "08:05:07 +0000"),
        (datetime(2026, 3, 9, 8, 5, 7, 250000), "{{ x | date: '%L' }}", "250"),
        (datetime(2026, 3, 9, 8, 5, tzinfo=AT_TWO), "{{ x }}", "2026-03-09 08:05:00 +0200"),
        (datetime(2026, 3, 9, 8, 5, tzinfo=WEST), "{{ x | date: '%H:%M %z' }}", "08:05 -0330"),
        (datetime(2026, 3, 9, 8, 5, tzinfo=timezone.utc), "{{ x | date: '%z' }}", "+0000"),
        (time(8, 5), "{{ x }}", "08:05:00"),
        (uuid.UUID(int=1), "{{ x }}", "00000000-0000-0000-0000-000000000001"),
        (pathlib.PurePosixPath("a/b.txt"), "{{ x }}", "a/b.txt"),
        (pathlib.Path("a") / "b", "{{ x }}", "a/b"),
        (Colour.RED, "{{ x }}", "red"),
        (Colour.SIZES, "{{ x[1] }}", "2"),
        ([1, (2, "a")], "{{ x[1][1] }}", "a"),
        ((1, 2, 3), "{{ x | join: '-' }}", "1-2-3"),
        (range(3), "{{ x | join: '-' }}", "0-1-2"),
        (collections.deque([4, 5]), "{{ x | last }}", "5"),
        ({"a": {"b": 1}}, "{{ x.a.b }}", "1"),
        (types.MappingProxyType({"a": 1}), "{{ x.a }}", "1"),
        (collections.ChainMap({"a": 1}, {"a": 2, "b": 3}), "{{ x.a }}{{ x.b }}", "13"),
        (Line("tea", Decimal("1.20")), "{{ x.title }} {{ x.price }}", "tea 1.20"),
        ([Line("tea", Decimal("1.20"))], "{{ x | map: 'title' | first }}", "tea"),
        (Point(1, 2), "{{ x.x }},{{ x.y }}", "1,2"),
        (Pair("a", [Point(3, 4)]), "{{ x.left }}{{ x.right[0].y }}", "a4"),
    ]

    def test_rows(self):
        env = Environment()
        for value, template, page in self.ROWS:
            with self.subTest(repr(value)):
                self.assertEqual(env.from_string(template).render(x=value), page)
                self.assertEqual(render(template, {"x": value}, standard=True), page)
                self.assertEqual(render_each(template, [{"x": value}], standard=True), [page])

    def test_a_value_may_be_in_several_places(self):
        shared = [1]
        self.assertEqual(render("{{ a[0] }}{{ b.c[0] }}", {"a": shared, "b": {"c": shared}}), "11")


class Refusals(unittest.TestCase):
    # globals, the error, and how its message begins
    ROWS = [
        ({"order": {"items": [1, 2, 3, object()]}}, TypeError, "globals.order.items[3] is an object"),
        ({"a": {"first name": 1j}}, TypeError, "globals.a['first name'] is a complex"),
        ({"a": [b"x"]}, TypeError, "globals.a[0] is a bytes"),
        ({"a": {3, 1}}, TypeError, "globals.a is a set"),
        ({"a": frozenset()}, TypeError, "globals.a is a frozenset"),
        ({"a": (n for n in range(3))}, TypeError, "globals.a is a generator"),
        ({"a": iter([1])}, TypeError, "globals.a is a list_iterator"),
        ({"a": {"b": 1}.values()}, TypeError, "globals.a is a dict_values"),
        ({"a": timedelta(1)}, TypeError, "globals.a is a timedelta"),
        ({"a": Line}, TypeError, "globals.a is a type"),
        ({"a": {1: "x"}}, TypeError, "globals.a has the name 1, which is an int"),
        ({None: "x"}, TypeError, "globals has the name None"),
        ({"a": [{"b": {("c",): 1}}]}, TypeError, "globals.a[0].b has the name ('c',)"),
        ({"a": [0.5, float("nan")]}, ValueError, "globals.a[1] is nan"),
        ({"a": float("-inf")}, ValueError, "globals.a is -inf"),
        ({"a": Decimal("Infinity")}, ValueError, "globals.a is Infinity"),
        ({"a": Decimal("sNaN")}, ValueError, "globals.a is sNaN"),
        ({"line": Line("tea", object())}, TypeError, "globals.line.price is an object"),
        ({"p": Point(1, {2})}, TypeError, "globals.p.y is a set"),
        ({"at": datetime(2026, 1, 1, tzinfo=timezone(timedelta(hours=20)))}, ValueError, "globals.at has the offset +2000"),
        ({"at": datetime(1890, 1, 1, tzinfo=timezone(timedelta(seconds=1172)))}, ValueError, "globals.at has the offset +001932"),
    ]

    def test_rows(self):
        for names, error, message in self.ROWS:
            with self.subTest(message):
                for call in (lambda: render("", names), lambda: Environment().from_string("").render(names)):
                    with self.assertRaises(error) as caught:
                        call()
                    self.assertTrue(str(caught.exception).startswith(message), str(caught.exception))

    def test_a_row_has_its_number(self):
        with self.assertRaisesRegex(TypeError, r"^globals\[1\]\.x is an object"):
            render_each("", [{}, {"x": object()}])
        with self.assertRaisesRegex(TypeError, r"^rows\[1\]\.x is an object"):
            Environment().from_string("").render_each([{}, {"x": object()}])
        with self.assertRaisesRegex(TypeError, r"^rows\[0\] is a list"):
            Environment().from_string("").render_each([[]])

    def test_a_value_that_contains_itself(self):
        names = {"a": {"b": [1]}}
        names["a"]["b"].append(names["a"])
        with self.assertRaisesRegex(ValueError, r"^globals\.a\.b\[1\] contains itself$"):
            render("", names)
        names = {}
        names["me"] = names
        with self.assertRaisesRegex(ValueError, r"^globals\.me contains itself$"):
            render("", names)

    def test_depth(self):
        def nested(depth):
            value = 1
            for _ in range(depth):
                value = [value]
            return {"x": value}

        # (the globals are one of the 127)
        self.assertEqual(render("{{ x[0] | size }}", nested(126), standard=True), "1")
        for depth in (127, 5000):
            with self.assertRaisesRegex(ValueError, r"^globals\.x(\[0\])+ is inside 127 others"):
                render("", nested(depth))


class Defaults(unittest.TestCase):
    def test_it_is_called_with_other_values_only(self):
        seen = []

        def default(value):
            seen.append(value)
            return sorted(value) if isinstance(value, set) else {"real": int(value.real), "parts": {2}}

        names = {"a": {3, 1, 2}, "b": [1j, date(2026, 1, 1), None], "c": Decimal("0.5")}
        template = "{{ a | join: '' }} {{ b[0].real }}{{ b[0].parts[0] }} {{ b[1] }} {{ c }}"
        page = "123 02 2026-01-01 0.5"
        self.assertEqual(Environment(default=default).from_string(template).render(names), page)
        self.assertEqual(seen, [{1, 2, 3}, 1j, {2}])
        self.assertEqual(render(template, names, standard=True, default=default), page)
        self.assertEqual(render_each(template, [names], standard=True, default=default), [page])

    def test_what_it_raises_and_what_it_returns(self):
        def refuse(value):
            raise KeyError("none")

        with self.assertRaises(KeyError):
            render("", {"x": object()}, default=refuse)
        with self.assertRaisesRegex(ValueError, r"^globals\.x contains itself$"):
            render("", {"x": object()}, default=lambda value: value)
        with self.assertRaisesRegex(ValueError, r"^globals\.x\[0\]\.y is nan"):
            render("", {"x": object()}, default=lambda value: [{"y": float("nan")}])

    def test_names_are_not_converted(self):
        with self.assertRaisesRegex(TypeError, "has the name 1"):
            render("", {"x": {1: 2}}, default=str)


if __name__ == "__main__":
    unittest.main()
