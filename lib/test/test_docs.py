"""What the package says of itself: examples in docstrings, the length of help, types."""

import doctest
import importlib
import importlib.util
import inspect
import pathlib
import pkgutil
import pydoc
import re
import subprocess
import sys
import unittest

import dimacs

#: A screen that isn't small.
LINES = 50

PACKAGE = pathlib.Path(dimacs.__file__).parent
EXAMPLES = PACKAGE.parents[2] / "examples" / "library"
NEEDED = {"dimacs.scipy": "scipy", "dimacs.frames": "pandas", "dimacs.graphs": "networkx", "dimacs.backend": "networkx"}


def modules():
    """Each module of the package whose needs are there, and the one that another needs."""
    yield dimacs
    for it in pkgutil.walk_packages(dimacs.__path__, "dimacs.", onerror=lambda name: None):
        needed = next((module for name, module in NEEDED.items() if it.name.startswith(name)), None)
        if needed is None or importlib.util.find_spec(needed):
            yield importlib.import_module(it.name)


def public():
    """Each function and class that users have."""
    for module in modules():
        if module.__name__ in ("dimacs", "dimacs.scipy"):
            for name in module.__all__:
                it = getattr(module, name, None) if name != "from_frame" or importlib.util.find_spec("pandas") else None
                if inspect.isroutine(it) or inspect.isclass(it):
                    yield f"{module.__name__}.{name}", it


class Docs(unittest.TestCase):
    def test_examples(self):
        tried = 0
        for module in modules():
            with self.subTest(module.__name__):
                found = doctest.testmod(module)
                self.assertEqual(found.failed, 0)
                tried += found.attempted
        self.assertGreater(tried, 30)
        readme = PACKAGE.parent / "README.md"
        if readme.is_file():
            self.assertEqual(doctest.testfile(str(readme), module_relative=False), (0, 3))

    def test_each_function_and_class_has_an_example(self):
        for name, it in public():
            with self.subTest(name):
                self.assertTrue(it.__doc__)
                if inspect.isfunction(it) or inspect.isclass(it):
                    self.assertIn(">>>", it.__doc__)

    def test_help_fits_a_screen(self):
        for name, it in public():
            if inspect.isfunction(it):
                with self.subTest(name):
                    self.assertLessEqual(len(pydoc.render_doc(it).splitlines()), LINES)

    def test_what_is_there(self):
        self.assertEqual(sorted(dir(dimacs)), sorted([*dimacs.__all__, "__version__"]))

    def test_version(self):
        self.assertRegex(dimacs.__version__, r"^\d+\.\d+\.\d+(\.dev0)?(\+unproved|\+translated)?$")
        self.assertIs(dimacs.proved, not dimacs.__version__.endswith("+unproved"))

    @unittest.skipUnless(importlib.util.find_spec("mypy"), "no mypy")
    @unittest.skipUnless(importlib.util.find_spec("numpy"), "no numpy")
    def test_types(self):
        words = [sys.executable, "-m", "mypy", "--config-file", PACKAGE.parent / "pyproject.toml", "--cache-dir=/dev/null"]
        words += [PACKAGE, pathlib.Path(__file__).with_name("typed.py"), *sorted(EXAMPLES.glob("*.py"))]
        ran = subprocess.run(words, capture_output=True, text=True, check=False)
        self.assertTrue(re.match(r"Success: no issues found in \d+ source files", ran.stdout), ran.stdout + ran.stderr)
