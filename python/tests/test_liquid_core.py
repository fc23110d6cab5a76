"""The package, as its README says: python3 -m unittest discover -s python/tests"""
import importlib.metadata
import os
import pickle
import subprocess
import sys
import threading
import unittest
from datetime import date, datetime, timedelta, timezone
from decimal import Decimal

from liquid_core import Kind, LiquidError, proved, render, render_each


class Pages(unittest.TestCase):
    # a template, its globals, options, and the page
    ROWS = [
        ("", {}, {}, ""),
        ("Hello {{ name }}!", {"name": "rain"}, {}, "Hello rain!"),
        ("{{ a }}{{ b.c[1] }}", {"a": True, "b": {"c": [1, None]}}, {}, "true"),
        ("{{ x }}", {"x": 2**63 - 1}, {}, "9223372036854775807"),
        ("{{ x }}", {"x": -(2**63)}, {}, "-9223372036854775808"),
        ("{{ x }}ß{{ y }}", {"x": "雨", "y": "🌧"}, {}, "雨ß🌧"),
        (b"{{ x }}", '{"x": "\\u96e8"}', {}, "雨"),
        ("{{ x }}", b'{"x": 1, "x": 2}', {}, "2"),
        ("{% include 'a', y: 1 %}", {}, {"partials": {"a": "[{{ y }}]", "b": ""}}, "[1]"),
        ("{% assign x = 2 %}{{ x }}", {"x": 1}, {}, "2"),
        ("{% assign x = 2 %}{{ x }}", {"x": 1}, {"sandboxed": True}, "1"),
        ("{% assign x = 2 %}{{ x }}", {"x": 1}, {"sandboxed": True, "standard": True}, "2"),
        ("<{{ no.name }}>", {}, {"lenient": True}, "<>"),
        ("{{ 'rain' | upcase }}", {}, {"standard": True}, "RAIN"),
        ("{% case x %}{% when 1 or 2 %}few{% else %}many{% endcase %}", {"x": 2}, {"standard": True}, "few"),
        ("{{ x }} {{ y }}", {"x": 1.5, "y": 0.1}, {}, "1.5 0.1"),
        ("{{ x }}", {"x": 1e3}, {}, "1000.0"),
        ("{{ x }} {{ y }}", '{"x": 1e3, "y": 1.50}', {}, "1000 1.50"),
        ("{{ x }} {{ y }} {{ z }}", {"x": Decimal("12.50"), "y": Decimal("1E+3"), "z": [Decimal("-0.05")]}, {}, "12.50 1000 -0.05"),
        ("{% if x == 5 %}five{% endif %}", {"x": Decimal(5)}, {}, "five"),
        ("{{ '/a b' | relative_url }}{% highlight c++ %}a < b{% endhighlight %}{{ none.x }}", {}, {"jekyll": True},
         '/a%20b<figure class="highlight"><pre><code class="language-c--" data-lang="c++">a &lt; b</code></pre></figure>'),
        ("{{ 'rain' }}", {}, {"max_bytes": 4, "max_turns": 2**64 - 1}, "rain"),
        ("{% for i in (1..4000) %}{{ i }} {% endfor %}", {}, {}, "".join(f"{i} " for i in range(1, 4001))),
    ]

    def test_rows(self):
        for template, names, options, page in self.ROWS:
            with self.subTest(template):
                self.assertEqual(render(template, names, **options), page)


class Moments(unittest.TestCase):
    CLOCK = "{{ 'now' | date: '%Y-%m-%d %H:%M:%S.%L %z' }}"
    # a moment, and what the filter writes for it
    ROWS = [
        ("2024-02-29 04:05:06 +0100", "2024-02-29 04:05:06.000 +0100"),
        ("2024-02-29T04:05:06.789Z", "2024-02-29 04:05:06.789 +0000"),
        ("2024-02-29", "2024-02-29 00:00:00.000 +0000"),
        (datetime(2024, 2, 29, 4, 5, 6, tzinfo=timezone.utc), "2024-02-29 04:05:06.000 +0000"),
        (datetime(2024, 2, 29, 4, 5, 6, 789000, timezone(-timedelta(hours=5, minutes=30))), "2024-02-29 04:05:06.789 -0530"),
    ]

    def test_rows(self):
        for now, page in self.ROWS:
            with self.subTest(now):
                self.assertEqual(render(self.CLOCK, {}, standard=True, now=now), page)
                self.assertEqual(render_each(self.CLOCK, [{}, {}], standard=True, now=now), [page, page])

    def test_without_a_moment(self):
        self.assertEqual(render("{{ 'now' | date: '%Y' }} {{ 'today' | date: '%Y' }}", {}, standard=True), "now today")

    def test_texts_that_are_no_moments(self):
        for now in ("", "now", "in a while", "2023-02-29", "\ud800"):
            with self.subTest(now):
                with self.assertRaises(LiquidError) as caught:
                    render("{{", {}, standard=True, now=now)
                error = caught.exception
                self.assertEqual((error.kind, error.line, error.rendered), (Kind.NO_MOMENT, None, ""))
                self.assertEqual(error.message, "liquid: now is not a date or a date time")
                self.assertEqual(error.explain(), f"in now\n{error.message}")
                pages = render_each("{{", [{}, {}], standard=True, now=now)
                self.assertEqual([(it.kind, it.message) for it in pages], [(Kind.NO_MOMENT, error.message)] * 2)

    def test_what_is_no_moment_raises_before_a_call(self):
        wrong = [
            (datetime(2024, 2, 29), ValueError),
            (datetime(2024, 2, 29, tzinfo=timezone(timedelta(hours=22))), ValueError),
            (date(2024, 2, 29), TypeError),
            (0, TypeError),
            (b"2024-02-29", TypeError),
        ]
        for now, error in wrong:
            with self.subTest(now), self.assertRaisesRegex(error, "^now (is|has) "):
                render("", {}, now=now)


class Errors(unittest.TestCase):
    # a template, its globals, options, and the error's kind, line and column, and what was rendered before it
    ROWS = [
        ("a\n{% wrong %}", {}, {}, Kind.UNPARSED, 2, 4, ""),
        ("{{ 'rain' | upcase }}", {}, {}, Kind.UNPARSED, 1, 13, ""),
        ("ab{{ x }}", {}, {}, Kind.REFUSED, 1, 6, "ab"),
        ("ab{{ x }}", '{"a": }', {}, Kind.BAD_JSON, 1, 7, ""),
        ("", "[]", {}, Kind.NO_GLOBALS, None, None, ""),
        ("", {"x": 1e300}, {}, Kind.NO_GLOBALS, None, None, ""),
        ("", '{"x": 0.1234567890123456789}', {}, Kind.NO_GLOBALS, None, None, ""),
        ("", {"x": 2**63}, {}, Kind.NO_GLOBALS, None, None, ""),
        (b"\xff", {}, {}, Kind.NO_TEXT, None, None, ""),
        ("\ud800", {}, {}, Kind.NO_TEXT, None, None, ""),
        ("", b"\xff", {}, Kind.NO_TEXT, None, None, ""),
        ("", {}, {"partials": {"a": b"\x80"}}, Kind.NO_TEXT, None, None, ""),
        ("{% for i in (1..3) %}{{ i }}{% endfor %}", {}, {"max_turns": 2}, Kind.REFUSED, 1, 4, "12"),
        ("a{{ 'rain' }}", {}, {"max_bytes": 4, "sandboxed": True}, Kind.REFUSED, 1, 5, "a"),
    ]

    def test_rows(self):
        for template, names, options, *wanted, rendered in self.ROWS:
            with self.subTest(template):
                with self.assertRaises(LiquidError) as caught:
                    render(template, names, **options)
                error = caught.exception
                self.assertEqual([error.kind, error.line, error.column], wanted)
                self.assertEqual(error.rendered, rendered)
                self.assertTrue(error.message.startswith("liquid: ") and not error.message.endswith("\n"))
                self.assertEqual(str(error), error.message)

    def test_what_is_no_json_raises_before_a_call(self):
        for names, error in [(object(), TypeError), ([], TypeError), ({"x": object()}, TypeError), ({"x": float("nan")}, ValueError), ({"x": Decimal("NaN")}, ValueError)]:
            with self.assertRaises(error):
                render("", names)
        with self.assertRaises(TypeError):
            render(1, {})
        for limit in (-1, 2**64):
            with self.assertRaises(ValueError):
                render("", {}, max_bytes=limit)

    def test_an_error_can_be_pickled(self):
        with self.assertRaises(LiquidError) as caught:
            render("ab{{ x }}", {})
        copy = pickle.loads(pickle.dumps(caught.exception))
        self.assertEqual((copy.message, copy.kind, copy.rendered), (caught.exception.message, Kind.REFUSED, "ab"))


class Many(unittest.TestCase):
    def test_each_page_is_that_of_its_globals(self):
        self.assertEqual(render_each("{{ x }}!", ({"x": n} for n in range(3))), ["0!", "1!", "2!"])
        self.assertEqual(render_each("{{ x }}", []), [])
        pages = render_each("{% for i in list %}{% render 'a', y: i %}{% endfor %}", [{"list": list(range(n % 7))} for n in range(500)], {"a": "[{{ y }}]"}, standard=True)
        self.assertEqual(pages, ["".join(f"[{i}]" for i in range(n % 7)) for n in range(500)])

    def test_pages_that_are_longer_than_the_first_room(self):
        names = [{"x": "雨" * n, "n": n} for n in (0, 9, 20_000, 3)]
        template = "{% for i in (1..9) %}{{ x }}{% endfor %}{{ n }}"
        self.assertEqual(render_each(template, names), [it["x"] * 9 + str(it["n"]) for it in names])

    def test_what_one_page_assigns_is_not_in_the_next(self):
        template = "{{ y }}{% assign y = x %}{% increment n %}{{ y }}{% include 'a' %}"
        for options in ({}, {"standard": True}):
            self.assertEqual(render_each(template, [{"x": 1}, {"x": 2}, {}], {"a": "{{ y }}"}, lenient=True, **options), ["0" + "11", "0" + "22", "0"])

    def test_an_error_is_in_the_place_of_its_page(self):
        rows = [
            ("ab{{ x }}", [{"x": 1}, {}, "{", b"\xff", {"x": 2}], ["ab1", Kind.REFUSED, Kind.BAD_JSON, Kind.NO_TEXT, "ab2"]),
            ("a\n{% wrong %}", [{}, "[]", {}], [Kind.UNPARSED, Kind.NO_GLOBALS, Kind.UNPARSED]),
            (b"\xff", [{}, "{"], [Kind.NO_TEXT, Kind.NO_TEXT]),
        ]
        for template, names, wanted in rows:
            found = render_each(template, names)
            self.assertEqual([getattr(it, "kind", it) for it in found], wanted)
            for it, error in zip(names, found):
                if isinstance(error, LiquidError):
                    with self.assertRaises(LiquidError) as caught:
                        render(template, it)
                    self.assertEqual(str(error), str(caught.exception))
                    self.assertEqual((error.line, error.column, error.rendered), (caught.exception.line, caught.exception.column, caught.exception.rendered))


class Threads(unittest.TestCase):
    def test_eight_threads_render_their_own_pages(self):
        wrong = []

        def work(number):
            for turn in range(200):
                page = render("{% for i in list %}{{ i }}{% endfor %}{{ n }}", {"list": list(range(turn)), "n": number})
                if page != "".join(map(str, range(turn))) + str(number):
                    wrong.append((number, turn))

        threads = [threading.Thread(target=work, args=[number]) for number in range(8)]
        for thread in threads:
            thread.start()
        for thread in threads:
            thread.join()
        self.assertEqual(wrong, [])

    def test_deep_templates_need_no_more_than_a_megabyte_of_stack(self):
        depth = 99
        deep = "{% if x %}" * depth + "." + "{% endif %}" * depth
        partials = {f"p{n}": f"{deep}{{% include 'p{n + 1}' %}}" for n in range(30)} | {"p30": "end"}
        pages = []
        before = threading.stack_size(1 << 20)
        try:
            thread = threading.Thread(target=lambda: pages.append(render("{% include 'p0' %}", {"x": True}, partials)))
            thread.start()
            thread.join()
        finally:
            threading.stack_size(before)
        self.assertEqual(pages, ["." * 30 + "end"])


class Memory(unittest.TestCase):
    MEMORY = "NO_MEMORY liquid: out of memory"
    # a text that takes more and more memory, its globals, and how its error begins
    ROWS = [
        ("{% assign x = 'ab' %}" + "{% assign x = x | append: x %}" * 60, "{}", MEMORY),
        ("{% assign x = 'aaaaaaaa' %}" + "{% assign x = x | replace: 'a', x %}" * 20, "{}", MEMORY),
        ("{% assign x = 'ab' %}" + "{% capture x %}{{ x }}{{ x }}{% endcapture %}" * 60, "{}", MEMORY),
        ("{% for i in (1..10000) %}{% for j in (1..10000) %}rain and snow{% endfor %}{% endfor %}", "{}", MEMORY),
        ("{{ x | size }}", '{"x": [' + '"rain", ' * 1000000 + "0]}", MEMORY),
        ("{{ x | size }}", '{"x": ' + "[" * 1000000, "BAD_JSON liquid: bad JSON"),
    ]
    # Renders in a process of its own, and prints the kind of the error, how much more memory the system has seen, and a
    # page that is rendered afterwards.
    CHILD = """
import resource, sys, liquid_core
def peak(): return resource.getrusage(resource.RUSAGE_SELF).ru_maxrss * 1024
text, names = (part.encode() for part in sys.stdin.read().split(chr(0)))
liquid_core.render("", "{}", standard=True)
before = peak()
try:
    liquid_core.render(text, names, standard=True, max_memory=int(sys.argv[1]))
except liquid_core.LiquidError as error:
    print(error.kind.name, error.message)
    print(peak() - before)
    print(liquid_core.render("{{ x | upcase }}", {"x": "rain"}, standard=True, max_memory=int(sys.argv[1])))
"""

    def test_rows(self):
        limit = 16 << 20
        for text, names, wanted in self.ROWS:
            with self.subTest(text[:60]):
                words = [sys.executable, "-c", self.CHILD, str(limit)]
                ran = subprocess.run(words, input=f"{text}\0{names}", capture_output=True, text=True)
                kind, peak, page = ran.stdout.splitlines() or [ran.stderr, "0", ""]
                self.assertEqual((kind[: len(wanted)], page), (wanted, "RAIN"))
                # (the part of a page that was rendered is Python's too: as bytes, and as a text)
                self.assertLessEqual(int(peak), (3 if "snow" in text else 1) * limit + (4 << 20))

    def test_enough_memory(self):
        for limit in (1 << 20, 0):
            self.assertEqual(render("{% for i in (1..3) %}{{ i }}{% endfor %}", {}, max_memory=limit), "123")

    def test_pages_share_a_limit(self):
        text = "{% if x %}{% for i in (1..100000) %}rain{% endfor %}{% endif %}{{ x }}"
        pages = render_each(text, [{"x": False}, {"x": True}, {"x": False}], max_memory=1 << 18)
        self.assertEqual([getattr(it, "kind", it) for it in pages], ["false", Kind.NO_MEMORY, "false"])
        self.assertEqual(pages[1].message, "liquid: out of memory")

    def test_numbers(self):
        for wrong in (-1, 2**64):
            with self.assertRaises(ValueError):
                render("", {}, max_memory=wrong)


class Package(unittest.TestCase):
    def test_the_version_says_whether_the_library_is_proved(self):
        self.assertIs(type(proved), bool)
        try:
            version = importlib.metadata.version("liquid_core")
        except importlib.metadata.PackageNotFoundError:
            self.skipTest("the package is not installed")
        self.assertEqual(version.endswith("+unproved"), not proved)

    def test_without_a_library_the_import_says_how_to_build_it(self):
        environment = {**os.environ, "LIQUID_CORE_LIBRARY": "/nowhere/libliquid.so"}
        ran = subprocess.run([sys.executable, "-c", "import liquid_core"], env=environment, capture_output=True, text=True)
        self.assertEqual(ran.returncode, 1)
        self.assertIn("ImportError: the library can't be loaded: /nowhere/libliquid.so: ", ran.stderr)
        self.assertIn("./liquid c --unproved", ran.stderr)


if __name__ == "__main__":
    unittest.main()
