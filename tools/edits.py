#!/usr/bin/env python3
"""Reads wrong bodies, which are mistakes made on purpose, for tools/try_bodies.py.

A file of them has a line `# PATH` for each file of the crate, and under it for each wrong body a line `## NAME`, then
`- OLD` and `+ NEW`, each a text of one line. Further pairs apply to what the earlier ones made.
"""
import itertools
import os
import re
import subprocess
import tempfile

from texts import TOP, read, write


class Fault(Exception):
    """Why an edit shows nothing."""


class Edit:
    """A wrong body of a crate: the lines that state how it changes a file."""

    def __init__(self, crate, name, file, lines):
        self.crate, self.name, self.file, self.lines = crate, name, file, lines
        self.path = f"{TOP}/crates/{crate}/{file}"

    def pairs(self):
        """Each old text with its new one."""
        for old, new in itertools.zip_longest(self.lines[::2] or [""], self.lines[1::2], fillvalue=""):
            if not old.startswith("- ") or not new.startswith("+ "):
                raise Fault(f"{old!r} and {new!r} aren't a line '- OLD' and a line '+ NEW'")
            yield old[2:], new[2:]

    def applied(self):
        """The text that it makes of its file."""
        try:
            text = read(self.path)
        except OSError as error:
            raise Fault(f"{self.file}: {error.strerror}") from None
        for old, new in self.pairs():
            count = text.count(old)
            if count != 1:
                raise Fault(f"{old!r} stands {count} times in {self.file}")
            text = text.replace(old, new)
        return text


def edits_of(crate):
    """The wrong bodies of a crate; none if it has no file of them."""
    path, file, named = f"{TOP}/crates/{crate}/wrong-bodies", None, [("", None, [])]
    for line in filter(None, read(path).splitlines() if os.path.exists(path) else []):
        mark, _, text = line.partition(" ")
        if mark == "#":
            file = text
        elif mark == "##":
            named.append((text, file, []))
        else:
            named[-1][2].append(line)
    return [Edit(crate, *it) for it in named if it[0] or it[2]]


def showing_nothing(kit, edits):
    """Yields each edit that shows nothing, and why: it can't be applied, its code doesn't parse, or is as it was."""
    with tempfile.TemporaryDirectory() as room:
        made = {}
        for edit in edits:
            try:
                text = edit.applied()
                made[edit] = f"{room}/{len(made)}.rt"
                write(made[edit], text)
            except Fault as fault:
                yield edit, str(fault)
        unparsed, code = unparsed_of(kit, made.values()), code_of(kit, {*made.values(), *(it.path for it in made)})
        for edit, file in made.items():
            if file in unparsed:
                yield edit, f"it doesn't parse {unparsed[file]}"
            elif code[file] == code[edit.path]:
                yield edit, "it changes no code"


def fmt(kit, flag, paths):
    words = [f"{kit}/bin/rattle", "fmt", flag, *paths]
    return subprocess.run(words, stdout=subprocess.PIPE, stderr=subprocess.STDOUT, text=True, check=False).stdout


def unparsed_of(kit, paths):
    """Which of these files don't parse, and where."""
    return dict(re.findall(r"^(\S+): it does not parse: (.*)", fmt(kit, "--check", paths), re.M)) if paths else {}


def code_of(kit, paths):
    """The code of each of these files, without its comments."""
    paths = sorted(paths)
    return dict(zip(paths, re.split(r"^file \d+\n", fmt(kit, "--code", paths), flags=re.M)[1:])) if paths else {}
