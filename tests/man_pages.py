#!/usr/bin/env python3
"""Tests the man pages that tools/man_pages.py writes: tests/man_pages.py

dimacs(1) has each command of the usage text and each exit status, dimacs(5) each kind and each reason of TEXTS.md and
each of its headings, dimacs-batch(1) each option and column, dimacs-draw(1) each option. Neither man nor mandoc warns of a page, if they are
there.
"""
import os
import re
import shutil
import subprocess
import sys
import tempfile

import scripts
from scripts import TOP, read
from usage import usages

PAGES = ["dimacs.1", "dimacs.5", "dimacs-batch.1", "dimacs-draw.1"]


def shown(text):
    """A page of troff as words with one blank between them."""
    text = re.sub(r"\\f[BIR]|^\.\w+ ?|T[{}]|\\&", "", text, flags=re.MULTILINE)
    for name, char in ((r"\-", "-"), (r"\(aq", "'"), (r"\(ha", "^"), ("@", " ")):
        text = text.replace(name, char)
    return " ".join(text.split())


def wanted():
    """Yields what a page has to have: the page, what it is, and the words."""
    for words in usages().values():
        yield "dimacs.1", "command", f"dimacs {words}"
    for status in re.findall(r"^  (\d)  ", read("crates/dimacs_usage/src/usage.rt"), re.MULTILINE):
        yield "dimacs.1", "status", f" {status} "
    for reason in re.findall(r"`x \S+ \S+ (?:\S+ )?(\w+)`", read("docs/JUDGING.md")):
        if reason not in ("NodeRange", "PredUnknown"):  # of arrays alone
            yield "dimacs.1", "reason", reason
    texts = read("docs/TEXTS.md")
    for kind, word in re.findall(r"^\| (\w+) \| `(\w+)` \| `\w+` \| `", texts, re.MULTILINE):
        yield "dimacs.5", "kind", f"{kind} {word} "
    for reason in re.findall(r"^\| \d+ \| (\w+) \|", texts, re.MULTILINE):
        yield "dimacs.5", "reason", reason
    for heading in re.findall(r"^### (.*)$", texts, re.MULTILINE):
        yield "dimacs.5", "heading", heading
    for option in re.findall(r'"(--?[a-z-]+)"', read("tools/dimacs_batch/options.py")):
        yield "dimacs-batch.1", "option", option
    for option in re.findall(r'"(--?[a-z]+)"', read("tools/dimacs_draw/options.py")):
        yield "dimacs-draw.1", "option", option
    lists = read("tools/dimacs_batch/rows.py") + read("tools/dimacs_batch/race.py")
    lists = re.findall(r"^(?:COLUMNS|KNOWN|RUN) = \[(.*?)\]$", lists, re.MULTILINE | re.DOTALL)
    for column in re.findall(r'"(\w+)"', "".join(lists)):
        yield "dimacs-batch.1", "column", f" {column} "


def warnings(file):
    """The warnings of man and mandoc about a page."""
    commands = {
        "man": ["man", "--warnings", "-E", "UTF-8", "-l", "-Tutf8", "-Z", file],
        "mandoc": ["mandoc", "-T", "lint", "-W", "warning", file],
    }
    width = {**os.environ, "LC_ALL": "C.UTF-8", "MANROFFSEQ": "", "MANWIDTH": "80"}
    for name, command in commands.items():
        if not shutil.which(name):
            print(f"left out: the warnings of {name}")
            continue
        ran = subprocess.run(command, capture_output=True, text=True, check=False, env=width)
        yield name, ran.stderr + (ran.stdout if name == "mandoc" else "")


def cases():
    """Yields what was looked at in the pages, and whether it is right."""
    with tempfile.TemporaryDirectory() as out:
        subprocess.run([sys.executable, "-B", f"{TOP}/tools/man_pages.py", out], check=True)
        pages = {}
        for page in PAGES:
            with open(os.path.join(out, page), encoding="utf-8") as it:
                pages[page] = shown(it.read())
            is_plain = ".antt" not in pages[page] and "](" not in pages[page]
            yield f"{page}: a link or a definition is left", is_plain
            for name, message in warnings(os.path.join(out, page)):
                yield f"{page}: {name}: {message}", not message
    for page, what, words in wanted():
        text = re.sub("[,:] ", " ", pages[page]) if what == "column" else pages[page]
        yield f"{page}: no {what} {words}", words in text


if __name__ == "__main__":
    scripts.end_with(cases())
