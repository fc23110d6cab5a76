"""Environments, templates and loaders."""
import codecs
import importlib.metadata
import io
import os
import pathlib
import re
import tempfile
import threading
import unittest
from datetime import datetime, timezone
from unittest import mock

import liquid_core
from liquid_core import (
    DictLoader,
    Environment,
    FileSystemLoader,
    LiquidError,
    PartialError,
    TemplateNotFound,
    UndefinedError,
    proved,
)

LONG = "{% for i in (1..n) %}0123456789{% endfor %}"


class Environments(unittest.TestCase):
    # options, a template, its globals, and the page
    ROWS = [
        ({}, "{{ 'rain' | upcase }}", {}, "RAIN"),
        ({"standard": False}, "{{ 'a' }}{% increment n %}", {}, "a0"),
        ({"lenient": True}, "<{{ no.name }}>", {}, "<>"),
        ({}, "{% assign x = 2 %}{{ x }}", {"x": 1}, "2"),
        ({"sandboxed": True, "standard": False}, "{% assign x = 2 %}{{ x }}", {"x": 1}, "1"),
        ({"max_turns": 100, "max_bytes": 4, "max_memory": 1 << 20}, "{{ 'rain' }}", {}, "rain"),
        ({"now": "2024-02-29 04:05"}, "{{ 'now' | date: '%e %B' }}{{ now }}", {"now": "!"}, "29 February!"),
        ({"jekyll": True}, "{% if none.a %}{% endif %}{{ t | slugify }} {{ u | absolute_url }}", {"t": "Night herons!", "u": "b", "site": {"url": "http://a.b", "baseurl": "/c"}}, "night-herons http://a.b/c/b"),
        ({"now": datetime(2024, 2, 29, tzinfo=timezone.utc)}, "{{ 'today' | date: '%F %z' }}", {}, "2024-02-29 +0000"),
    ]

    def test_rows(self):
        for options, template, names, page in self.ROWS:
            with self.subTest(options):
                self.assertEqual(Environment(**options).from_string(template).render(names), page)

    def test_pages_of_jekyll(self):
        texts = {
            "default.html": "<h1>{{ page.title | escape }}</h1>{% include nav/item.html url=page.url %}{{ content }}",
            "nav/item.html": "<a href=\"{{ include.url | relative_url }}\">{% include_cached nav/{{ page.kind }}.svg %}</a>",
            "nav/bird.svg": "<svg/>",
        }
        env = Environment(DictLoader(texts), jekyll=True)
        names = {"page": {"title": "Owls & herons", "url": "/birds/owl", "kind": "bird"}, "site": {"baseurl": "/notes"}, "content": "-"}
        page = "<h1>Owls &amp; herons</h1><a href=\"/notes/birds/owl\"><svg/></a>-"
        self.assertEqual(env.get_template("default.html").render(names), page)
        self.assertEqual(env.get_template("default.html").render_each([names, names]), [page, page])

    def test_options_are_keywords(self):
        with self.assertRaises(TypeError):
            Environment(None, True)
        for wrong in ({"max_turns": -1}, {"max_bytes": 2**64}, {"max_memory": -1}, {"now": datetime(2024, 2, 29)}):
            with self.assertRaises(ValueError):
                Environment(**wrong)

    def test_templates_of_a_loader(self):
        texts = {"page": "{% include 'card' %}", "card": "[{{ x }}]"}
        env = Environment(DictLoader(texts))
        page = env.get_template("page")
        self.assertEqual((page.name, page.text, page.render(x=1)), ("page", texts["page"], "[1]"))
        self.assertIs(env.get_template("page"), page)
        texts["card"] = "({{ x }})"
        self.assertEqual(page.render(x=1), "(1)")
        texts["page"] = "{{ x }}"
        self.assertEqual(page.render(x=1), "(1)")
        self.assertEqual(env.get_template("page").render(x=1), "1")

    def test_what_is_not_found(self):
        with self.assertRaises(TemplateNotFound) as caught:
            Environment(DictLoader({})).get_template("card")
        self.assertEqual(caught.exception.name, "card")
        with self.assertRaises(TypeError):
            Environment().get_template("card")

    def test_a_text_is_str_or_bytes(self):
        self.assertEqual(Environment().from_string("雨".encode()).render(), "雨")
        with self.assertRaises(TypeError):
            Environment().from_string(1)
        with self.assertRaises(TypeError):
            Environment(DictLoader({"a": 1})).from_string("").render()

    def test_a_partial_with_a_mistake_is_an_error_where_it_is_used(self):
        env = Environment(DictLoader({"wrong": "{% wrong %}"}))
        self.assertEqual(env.from_string("x").render(), "x")
        with self.assertRaises(PartialError):
            env.from_string("{% include 'wrong' %}").render()

    def test_any_loader(self):
        class Upper:
            def names(self):
                return iter(["a", "gone"])

            def read(self, name):
                return {"a": b"A", "hidden": "H"}[name]

        env = Environment(Upper())
        self.assertEqual(env.from_string("{% include 'a' %}").render(), "A")
        self.assertEqual(env.get_template("hidden").render(), "H")
        with self.assertRaises(TemplateNotFound):
            env.get_template("gone")

    def test_threads(self):
        page, wrong = Environment(DictLoader({"a": "{{ n }}"})).from_string(LONG + "{% include 'a' %}"), []

        def work(number):
            for turn in range(100):
                if page.render(n=turn) != "0123456789" * turn + str(turn):
                    wrong.append((number, turn))

        threads = [threading.Thread(target=work, args=[number]) for number in range(8)]
        for thread in threads:
            thread.start()
        for thread in threads:
            thread.join()
        self.assertEqual(wrong, [])


class Templates(unittest.TestCase):
    def test_a_mapping_and_names(self):
        page = Environment().from_string("{{ a }}{{ mapping }}{{ self }}", "page")
        self.assertEqual(page.render({"a": 1, "self": 2}, a=3, mapping=4), "342")
        self.assertEqual(page.render(a=1, mapping=2, self=3), "123")
        self.assertEqual(page.render('{"a": 1, "mapping": 2, "self": 3}'), "123")
        self.assertEqual(Environment().from_string("x").render(), "x")
        self.assertEqual(Environment().from_string("x").render({}), "x")
        self.assertEqual(repr(page), "<Template 'page'>")
        with self.assertRaises(TypeError):
            page.render("{}", a=1)
        for wrong in ([], 1, [("a", 1)]):
            with self.assertRaises(TypeError):
                page.render(wrong)

    def test_rows_of_pages(self):
        page = Environment(DictLoader({"a": "[{{ x }}]"})).from_string("{% include 'a' %}", "page")
        first, second, third = page.render_each([{"x": 1}, {}, '{"x": 3}'])
        self.assertEqual((first, third), ("[1]", "[3]"))
        self.assertIs(type(second), UndefinedError)
        self.assertEqual((second.template, second.rendered), ("a", "["))
        self.assertEqual(page.render_each([]), [])

    def test_files(self):
        page = Environment().from_string("雨{{ x }}")
        for make, wanted in ((io.StringIO, "雨1"), (io.BytesIO, "雨1".encode())):
            file = make()
            self.assertIsNone(page.render_to(file, x=1))
            self.assertEqual(file.getvalue(), wanted)
        for make, wanted in ((io.StringIO, "雨"), (io.BytesIO, "雨".encode())):
            file = make()
            with self.assertRaises(UndefinedError):
                page.render_to(file, {})
            self.assertEqual(file.getvalue(), wanted)

    def test_files_of_the_system(self):
        page = Environment().from_string("雨{{ x }}")
        with tempfile.TemporaryDirectory() as folder:
            path = pathlib.Path(folder, "page.html")
            opened = [
                lambda: path.open("w", encoding="utf-8"),
                lambda: path.open("wb"),
                lambda: path.open("wb", buffering=0),
                lambda: codecs.open(path, "w", "utf-8"),
            ]
            for open_ in opened:
                with open_() as file:
                    page.render_to(file, {"x": 2})
                self.assertEqual(path.read_text("utf-8"), "雨2")

    def test_a_long_page_is_rendered_twice_only_once(self):
        page = Environment().from_string(LONG)
        library, rooms = liquid_core.library, []
        make = library._buffer

        def buffer(room):
            rooms.append(room)
            return make(room)

        with mock.patch.object(library, "_buffer", buffer):
            self.assertEqual(len(page.render(n=20_000)), 200_000)
            self.assertEqual(len(rooms), 2)
            self.assertEqual(len(page.render(n=20_000)), 200_000)
            self.assertEqual(len(page.render(n=22_000)), 220_000)
            self.assertEqual(len(rooms), 4)
            self.assertEqual([len(it) for it in page.render_each([{"n": 20_000}] * 3)], [200_000] * 3)
            self.assertEqual(len(rooms), 5)

    def test_the_room_of_many_pages_has_a_limit(self):
        page = Environment().from_string("{{ x }}")
        # (room for each to be as long as the longest would be 4 TB)
        with mock.patch.object(page._kept, "longest", 1 << 26):
            self.assertEqual(page.render_each(['{"x": 1}'] * 60_000), ["1"] * 60_000)


class Files(unittest.TestCase):
    def setUp(self):
        holder = tempfile.TemporaryDirectory()
        self.addCleanup(holder.cleanup)
        self.top = pathlib.Path(holder.name, "top")
        for name, text in {"page.liquid": "{% include 'nav/item' %}", "nav/item.liquid": "<li>{{ x }}</li>", "note.txt": "no"}.items():
            self.write(name, text)
        pathlib.Path(holder.name, "secret.liquid").write_text("secret")

    def write(self, name, text):
        path = self.top / name
        path.parent.mkdir(parents=True, exist_ok=True)
        path.write_text(text)

    def test_names(self):
        self.assertEqual(FileSystemLoader(self.top, ext=".liquid").names(), ["nav/item", "page"])
        self.assertEqual(FileSystemLoader(str(self.top)).names(), ["nav/item.liquid", "note.txt", "page.liquid"])
        self.assertEqual(FileSystemLoader(self.top).read("note.txt"), "no")
        self.assertEqual(Environment(FileSystemLoader(self.top, ".liquid")).get_template("page").render(x=1), "<li>1</li>")

    def test_a_name_with_its_ending(self):
        loader = FileSystemLoader(self.top, ext=".liquid")
        self.assertEqual(loader.read("page.liquid"), loader.read("page"))
        page = Environment(loader).get_template("page.liquid")
        self.assertEqual((page.name, page.render(x=1)), ("page.liquid", "<li>1</li>"))
        with self.assertRaisesRegex(TemplateNotFound, r"^missing\.liquid$"):
            loader.read("missing.liquid")

    def test_a_file_that_changes_is_read_again(self):
        env = Environment(FileSystemLoader(self.top, ext=".liquid"))
        page = env.get_template("page")
        self.assertEqual(page.render(x=1), "<li>1</li>")
        self.write("nav/item.liquid", "<p>{{ x }}</p>")
        self.assertEqual(page.render(x=1), "<p>1</p>")
        status = os.stat(self.top / "nav/item.liquid")
        self.write("nav/item.liquid", "<b>{{ x }}</b>")
        os.utime(self.top / "nav/item.liquid", ns=(status.st_atime_ns, status.st_mtime_ns + 10**9))
        self.assertEqual(page.render(x=1), "<b>1</b>")
        os.remove(self.top / "nav/item.liquid")
        with self.assertRaisesRegex(LiquidError, "Unknown partial-template"):
            page.render(x=1)

    def test_a_file_that_stays_is_read_once(self):
        loader = FileSystemLoader(self.top, ext=".liquid")
        self.assertIs(loader.read("page"), loader.read("page"))

    def test_names_that_no_file_has(self):
        loader = FileSystemLoader(self.top, ext=".liquid")
        steps = ["", "nav", "missing", "../secret", "nav/../page", "./page", "/page", "page/x", "nav//item", "a\0b"]
        for name in [*steps, str(self.top / "page")]:
            with self.subTest(name), self.assertRaises(TemplateNotFound):
                loader.read(name)
        with mock.patch("os.stat", side_effect=AssertionError("a look outside the folder")):
            for name in ("../secret", "./page", "/page"):
                with self.assertRaises(TemplateNotFound):
                    loader.read(name)

    def test_links(self):
        os.symlink("page.liquid", self.top / "same.liquid")
        os.symlink("../secret.liquid", self.top / "out.liquid")
        os.symlink("nowhere", self.top / "broken.liquid")
        os.symlink("nav", self.top / "alias")
        os.symlink("..", self.top / "above")
        loader = FileSystemLoader(self.top, ext=".liquid")
        self.assertEqual(loader.names(), ["nav/item", "page", "same"])
        self.assertEqual(loader.read("same"), loader.read("page"))
        for name in ("out", "broken", "alias/item", "above/secret", "above/top/page"):
            with self.subTest(name), self.assertRaises(TemplateNotFound):
                loader.read(name)

    def test_a_file_that_becomes_a_link(self):
        loader = FileSystemLoader(self.top, ext=".liquid")
        loader.read("page")
        os.remove(self.top / "page.liquid")
        os.symlink("../secret.liquid", self.top / "page.liquid")
        with self.assertRaises(TemplateNotFound):
            loader.read("page")

    def test_encodings(self):
        (self.top / "a.txt").write_bytes("é".encode("latin-1"))
        self.assertEqual(FileSystemLoader(self.top, encoding="latin-1").read("a.txt"), "é")
        with self.assertRaisesRegex(ValueError, r"a\.txt is not text in utf-8"):
            FileSystemLoader(self.top).read("a.txt")

    def test_a_folder_that_is_not_there(self):
        loader = FileSystemLoader(self.top / "missing")
        with self.assertRaises(FileNotFoundError):
            loader.names()
        with self.assertRaises(TemplateNotFound):
            loader.read("page")


class Version(unittest.TestCase):
    def test_it_is_that_of_the_project(self):
        project = pathlib.Path(__file__).parents[1] / "pyproject.toml"
        version = re.search(r'^version = "(.*)"$', project.read_text(), re.M)[1]
        self.assertEqual(liquid_core.__version__, version if proved else f"{version}+unproved")
        try:
            installed = importlib.metadata.version("liquid_core")
        except importlib.metadata.PackageNotFoundError:
            self.skipTest("the package is not installed")
        self.assertEqual(liquid_core.__version__, installed)


if __name__ == "__main__":
    unittest.main()
