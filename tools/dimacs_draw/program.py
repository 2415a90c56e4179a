"""Asks dimacs, the program, about texts."""
import os
import subprocess
import tempfile

from dimacs_draw.drawing import Answer

YES, NO = 0, 1


class Refused(Exception):
    """A text with a fault: the line that dimacs prints."""


class Failed(Exception):
    """A run that ended without an answer."""


class Program:
    """Runs of the program over texts, which it gets as files."""

    def __init__(self, program):
        self.program = program

    def show(self, kind, text):
        return self._about(["show", kind], text).decode("ascii").rstrip("\n")

    def convert(self, kind, text):
        return self._about(["convert", kind], text)

    def answer(self, command, texts):
        """The lines of a verdict or of a refusal, and the certificate, if it is one that writes one."""
        with tempfile.TemporaryDirectory() as folder:
            words = [command, *(_written(folder, k, text) for k, text in enumerate(texts))]
            found = os.path.join(folder, "certificate")
            if command.startswith("certify-"):
                words.append(found)
            _, printed = self._run(words)
            lines = printed.decode("ascii").splitlines()
            return Answer(command, lines, _read(found) if os.path.exists(found) else b"")

    def _about(self, words, text):
        """What is printed about one text."""
        with tempfile.TemporaryDirectory() as folder:
            status, printed = self._run([*words, _written(folder, 0, text)])
        if status == NO:
            raise Refused(printed.decode("ascii").rstrip("\n"))
        return printed

    def _run(self, words):
        try:
            ran = subprocess.run([self.program, *words], stdin=subprocess.DEVNULL, capture_output=True, check=False)
        except OSError as error:
            raise Failed(f"{self.program}: {error.strerror}: --program or DIMACS names the program") from error
        if ran.returncode not in (YES, NO):
            raise Failed(ran.stderr.decode("utf-8", "replace").strip() or f"{words[0]} ended with {ran.returncode}")
        return ran.returncode, ran.stdout


def _written(folder, number, text):
    path = os.path.join(folder, str(number))
    with open(path, "wb") as it:
        it.write(text)
    return path


def _read(path):
    with open(path, "rb") as it:
        return it.read()
