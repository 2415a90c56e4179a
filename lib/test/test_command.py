"""The command of the package, next to the program: statuses, lines and files."""

import os
import pathlib
import subprocess
import sys
import tempfile
import unittest
from unittest import mock

import explain  # tests/explain.py
import usage
from dimacs import __main__
from rows import odd_words, rows

PROGRAM = pathlib.Path(os.environ.get("DIMACS_LIBRARY", "")).parent / "dimacs"

COMMANDS = [words.split() for words, *_ in [*rows("commands"), *usage.SLIPS]]
FILES = dict(rows("files"))

# What a shell runs: standard streams that are full or closed, or named as files.
STREAMS = """
dimacs --version >/dev/full
dimacs --version >&-
dimacs show max max >/dev/full
dimacs show max max >&-
dimacs show max absent 2>/dev/full
dimacs frobnicate 2>/dev/full
dimacs frobnicate 2>&-
dimacs solve-max pipe a b >&-
dimacs solve-max pipe /dev/full b 2>&-
cat unmet | dimacs judge-infeasible /dev/stdin /dev/stdin
cat unmet | dimacs explain judge-infeasible /dev/stdin /dev/stdin
dimacs judge-max /dev/stdin flow cut <&-
ulimit -v 4000000; dimacs show max /dev/zero
"""


def by_program(words, folder):
    return ended([PROGRAM, *words], folder)


def ended(words, folder):
    ran = subprocess.run(words, cwd=folder, capture_output=True, check=False)
    return ran.returncode, ran.stdout, ran.stderr


def by_package(words, folder):
    """The same in this process, which takes less time than another Python."""
    here, kept = os.getcwd(), [os.dup(it) for it in (1, 2)]
    os.chdir(folder)
    try:
        with tempfile.TemporaryFile() as out, tempfile.TemporaryFile() as err:
            for stream, it in enumerate([out, err], 1):
                os.dup2(it.fileno(), stream)
            with mock.patch.object(sys, "argv", ["dimacs", *map(os.fsdecode, words)]), mock.patch("signal.signal"):
                status = __main__.main()
            return status, *(os.pread(it.fileno(), 2**20, 0) for it in (out, err))
    finally:
        os.chdir(here)
        for stream, it in enumerate(kept, 1):
            os.dup2(it, stream)
            os.close(it)


@unittest.skipUnless(PROGRAM.is_file(), "no program beside it")
class Command(unittest.TestCase):
    def ran(self, run, words, texts):
        """The status, both outputs and the files that a command leaves in a folder with these texts."""
        with tempfile.TemporaryDirectory() as folder:
            for name, text in texts.items():
                pathlib.Path(folder, name).write_bytes(text if isinstance(text, bytes) else text.encode())
            usage.lay(folder)
            os.mkdir(pathlib.Path(folder, "denied"))
            return *run(words, folder), {it.name: it.read_bytes() for it in pathlib.Path(folder).iterdir() if it.is_file()}

    def same(self, words, texts=FILES):
        """Runs both; their status."""
        with self.subTest(words):
            theirs, ours = (self.ran(it, words, texts) for it in (by_program, by_package))
            self.assertEqual(ours, theirs)
            return ours[0]

    def test_runs(self):
        statuses = {self.same(it) for it in odd_words() + COMMANDS}
        self.assertEqual(statuses, {0, 1, 2, 3, 5})

    def test_explained(self):
        for words in COMMANDS:
            if words[0] not in ("explain", "show", "convert") and "/dev/null" not in words:  # which can't be read again
                self.same(["explain", *words])
        for _, words, own, _ in explain.CASES + explain.YES + explain.OTHERS:
            self.same(["explain", *words.split()], {**explain.TEXTS, **own})

    def test_streams(self):
        for line in STREAMS.strip().splitlines():
            with self.subTest(line):
                shells = [["sh", "-c", f'dimacs() {{ {it} "$@"; }}; {line}'] for it in (PROGRAM, f"{sys.executable} -m dimacs")]
                theirs, ours = (self.ran(ended, it, FILES) for it in shells)
                self.assertEqual(ours, theirs)


class Modules(unittest.TestCase):
    def test_parts_of_the_package(self):
        """What needs another package is imported when it is asked for, or says what it needs."""
        code = "import dimacs, sys; print([it for it in ('numpy', 'scipy', 'networkx', 'pandas') if it in sys.modules])"
        for name in "scipy", "backend", "arrays", "graphs", "drawing":
            code += f"\ntry: print(dimacs.{name}.__name__)\nexcept AttributeError as it: print(it)"
        code += "\ntry: dimacs.other\nexcept AttributeError as it: print(it)"
        with tempfile.TemporaryDirectory() as place:
            ran = subprocess.run([sys.executable, "-c", code], cwd=place, capture_output=True, text=True, check=True)
        first, *lines, last = ran.stdout.splitlines()
        self.assertEqual((first, last), ("[]", "module 'dimacs' has no attribute 'other'"))
        for name, line in zip(("scipy", "backend", "arrays", "graphs", "drawing"), lines):
            self.assertRegex(line, rf"^dimacs\.{name}( needs (numpy|scipy|networkx), which isn't installed)?$")
