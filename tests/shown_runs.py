#!/usr/bin/env python3
"""Repeats the runs that the pages show: tests/shown_runs.py [BINARY]

Each line '$ dimacs WORDS', '$ referee/referee.py WORDS' or '$ build/referee/judge WORDS' in a page's block of code is run
beside a copy of the examples, where it may write files. What it prints is compared with the lines under it, up to a line
'...' and without remarks, which begin with '  # '. Its exit status is compared with what these lines mean; the standard error has to stay
empty. A page that shows no run has failed, and so has one that does and isn't read here.
BINARY is the built program; crates/dimacs/out/dimacs by default.
"""
import glob
import os
import re
import shutil
import subprocess
import sys
import tempfile

import scripts
from instances import BINARY
from pages import commands

PAGES = ["README.md", "examples/README.md", "docs/JUDGING.md", "man/dimacs.1.md", "referee/README.md"]
REFEREE, JUDGE = "referee/referee.py", "build/referee/judge"


def shown(page):
    """Yields the program and the words of each run that the page shows, and the lines under it."""
    for command, lines in commands(page):
        program, *words = command.split()
        if program in ("dimacs", REFEREE, JUDGE):
            yield program, words, re.sub(r" {2,}# .*", "", lines).rstrip("\n").split("\n")


def wrong_pages():
    """Yields what is wrong with the pages that are read, and with those that aren't."""
    written = glob.glob("*.md") + glob.glob("*/*.md")
    for page in sorted({*PAGES, *written}):
        if page in PAGES and not list(shown(page)):
            yield f"{page} shows no run"
        if page not in PAGES and list(shown(page)):
            yield f"{page} shows runs, and isn't read"


def is_shown(printed, lines):
    """Whether these lines show what was printed."""
    if "..." in lines:
        front = lines[: lines.index("...")]
        return printed[: len(front)] == front
    return printed == lines


def status(lines):
    """The exit status of a run that prints these lines."""
    if lines[0].startswith("x "):
        return 1
    return 5 if lines[0] == "g limit" else 0


def cases(binary):
    """Yields what is wrong with pages, and each run with what it prints, and whether that is shown."""
    programs = {"dimacs": binary, REFEREE: os.path.abspath(REFEREE), JUDGE: os.path.abspath(JUDGE)}
    if shutil.which("coqc") and shutil.which("ocamlfind"):
        subprocess.run(["make", "--no-print-directory", "referee"], check=True)
    else:
        print(f"left out: {JUDGE}: there is no coqc or ocamlfind; {binary} makes its runs, whose files others read")
        programs[JUDGE] = binary
    yield from ((fault, False) for fault in wrong_pages())
    with tempfile.TemporaryDirectory() as place:
        shutil.copytree("examples", os.path.join(place, "examples"))
        for page, (program, words, lines) in ((page, it) for page in PAGES for it in shown(page) if it[0] in programs):
            ran = subprocess.run([programs[program], *words], capture_output=True, text=True, check=False, cwd=place)
            is_so = is_shown(ran.stdout.rstrip("\n").split("\n"), lines) and (ran.returncode, ran.stderr) == (status(lines), "")
            told = f"status {ran.returncode}, prints\n{ran.stdout}{ran.stderr}"
            yield f"{page}: {program} {' '.join(words)}: {told}", is_so
        left = set(os.listdir(place)) - {"examples"}
        ran = subprocess.run(["git", "check-ignore", "--no-index", *left], capture_output=True, text=True, check=False)
        left -= set(ran.stdout.splitlines())
        yield f"what runs leave isn't ignored by git: {left}", not left or not os.path.exists(".git")


def main():
    binary = os.path.abspath(sys.argv[1] if len(sys.argv) > 1 else BINARY)
    os.chdir(scripts.TOP)
    scripts.end_with(cases(binary))


if __name__ == "__main__":
    main()
