"""The examples of the package's documentation and of its README."""
import doctest
import importlib
import os
import pathlib
import re
import tempfile
import unittest

import liquid_core

README = pathlib.Path(__file__).resolve().parents[1] / "README.md"
FILE = re.compile(r"^File `([\w/.]+)`:\n\n```\w*\n(.*?)^```$", re.M | re.S)


class Blocks(doctest.DocTestParser):
    """Reads the examples of a document, whose blocks begin and end with a fence."""

    def parse(self, string, name="<string>"):
        return super().parse(re.sub(r"^```.*$", "", string, flags=re.M), name)


def enter_folder(test):
    """Makes a folder with the files that the README has, and goes there."""
    test.before, test.folder = os.getcwd(), tempfile.TemporaryDirectory()
    os.chdir(test.folder.name)
    for path, text in FILE.findall(README.read_text("utf-8")):
        pathlib.Path(path).parent.mkdir(parents=True, exist_ok=True)
        pathlib.Path(path).write_text(text, "utf-8")


def leave_folder(test):
    os.chdir(test.before)
    test.folder.cleanup()


def load_tests(loader, tests, pattern):
    for path in sorted(pathlib.Path(liquid_core.__file__).parent.glob("*.py")):
        name = "liquid_core" if path.stem == "__init__" else f"liquid_core.{path.stem}"
        tests.addTests(doctest.DocTestSuite(importlib.import_module(name)))
    how = {"module_relative": False, "encoding": "utf-8", "parser": Blocks(), "setUp": enter_folder, "tearDown": leave_folder}
    how["optionflags"] = doctest.ELLIPSIS
    tests.addTests(doctest.DocFileSuite(str(README), **how))
    return tests


if __name__ == "__main__":
    unittest.main()
