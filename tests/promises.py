#!/usr/bin/env python3
"""Finds what docs/PROMISES.md names: tests/promises.py

The page has to be what tools/promises.py writes, each file that it names has to be there, each clause at one of the
functions that the head of its table names, and each other name somewhere in the code or the definitions. And each name is
changed in turn, in a copy of its row or paragraph, which has to be found. What the names mean isn't seen.
"""
import collections
import glob
import os
import re
import sys

import scripts
from scripts import TOP

sys.path.insert(0, f"{TOP}/tools")
sys.dont_write_bytecode = True
import believed  # noqa: E402
import promises  # noqa: E402

CODE = re.compile(r"`([^`]+)`")

# A name of the code or of the definitions, which may be that of a member of a type.
NAME = re.compile(r"(?:[A-Za-z]\w*::)?[A-Za-z_]\w+")

# A file of the repository, with the folders that it may stand in.
PATH = re.compile(r"[\w.*-]+(?:/[\w.*-]+)+|\w+\.\w+")
FOLDERS = ["", "crates/", "crates/*/", "crates/*/src/", "crates/*/specs/"]

# Words in code that name nothing of the repository, or only an argument.
WORDS = {"left", "later", "none", "wrapping_add"}

# A function: the type or trait that it is a method of, its name and its clauses.
Function = collections.namedtuple("Function", "type name clauses")

# A row of a table with the heads of its columns, or a paragraph as its only cell, and the line where it begins.
Piece = collections.namedtuple("Piece", "line cells heads")


def paths(pattern):
    return sorted(os.path.relpath(it, TOP) for it in glob.glob(os.path.join(TOP, pattern), recursive=True))


def functions_in(text):
    block = function = None
    for line in text.split("\n"):
        around = re.match(r"(?:pub )?(?:impl|trait)\b(?:<.*?>)? ?(.*?) ?(?:where.*)?\{?$", line)
        if around:
            block = re.sub(r"<.*?>+", "", re.sub(r".*\bfor ", "", around[1].partition(":")[0])).split("::")[-1].strip()
        elif line == "}":
            block = None
        begun = re.match(r' *(?:pub(?:\([^)]*\))? )?(?:const )?(?:extern "C" )?fn (\w+)', line)
        if begun:
            function = Function(block, begun[1], set())
            yield function
        clause = re.match(r" *(?:ensures|requires) (\w+) \{", line)
        if clause and function:
            function.clauses.add(clause[1])


class Repository:
    """What there is to be named."""

    def __init__(self):
        defined = believed.all_definitions()
        self.names = {name for _, name in [*defined.blocks, *defined.rests_on]}
        self.names |= {os.path.basename(it) for it in paths("crates/*")}
        self.functions = []
        for path in paths("crates/*/src/**/*.rt"):
            text = scripts.read(path)
            self.functions += functions_in(text)
            self.names |= set(re.findall(r"^ *(?:pub(?:\([^)]*\))? )?(?:struct|enum|trait|type|mod) (\w+)", text, re.M))
            self.names |= set(re.findall(r"^ *ghost (\w+):", text, re.M))
            self.names |= set(re.findall(r"^    (?:pub )?(\w+)(?:: .*,|,|\(.*\),| \{.*)$", text, re.M))
        self.names |= {name for it in self.functions for name in (it.name, *it.clauses)}

    def has(self, name):
        kind, _, own = name.rpartition("::")
        return own in self.names | WORDS and (not kind or any(it[:2] == (kind, own) for it in self.functions))


def pieces(page):
    """The rows and paragraphs of a page, heads being a row without heads."""
    heads, paragraph, begun = [], [], 0
    for number, line in enumerate([*page.split("\n"), ""], 1):
        is_text = bool(line) and line[0] not in "|#"
        if paragraph and not is_text:
            yield Piece(begun, [" ".join(paragraph)], [""])
            paragraph = []
        if is_text:
            begun = begun if paragraph else number
            paragraph.append(line)
        cells = [it.strip() for it in line.strip("|").split("|")] if line.startswith("|") else []
        if cells and not set(line) <= set("|-"):
            yield Piece(number, cells, heads or [""] * len(cells))
        heads = (heads or cells) if cells else []


def wrong_files(repository, piece):
    """Yields each file that is named and isn't there."""
    text = " | ".join(piece.cells)
    for target in re.findall(r"\]\(([^)#]+)[^)]*\)", text):
        if not os.path.exists(os.path.join(TOP, "docs", target)):
            yield f"{target} isn't there"
    for name in CODE.findall(text):
        if PATH.fullmatch(name) and not any(paths(f"{folder}{name}") for folder in FOLDERS):
            yield f"{name} isn't there"


def wrong_clauses(repository, piece):
    """Yields each clause that no function named in the head of its column has."""
    for head, cell in zip(piece.heads, piece.cells):
        named = [it for it in repository.functions if f"`{it.name}`" in head]
        for name in CODE.findall(cell) if head.startswith("Clause") else []:
            if not any(name in it.clauses for it in named):
                yield f"no function in {head} has a clause {name}"


def wrong_names(repository, piece):
    """Yields each name that nothing has."""
    for name in CODE.findall(" | ".join(piece.cells)):
        if NAME.fullmatch(name) and not repository.has(name):
            yield f"nothing is named {name}"


def faults_of(repository, piece):
    """What is wrong with the names of a row or paragraph."""
    finders = wrong_files, wrong_clauses, wrong_names
    return [f"{piece.line}: {fault}" for find in finders for fault in find(repository, piece)]


def changed(piece):
    """Yields each name of a row or paragraph, and the same with this name changed."""
    for at, cell in enumerate(piece.cells):
        for code in CODE.finditer(cell):
            name = code[1]
            if (NAME.fullmatch(name) or PATH.fullmatch(name)) and name not in WORDS:
                cells = [*piece.cells[:at], f"{cell[: code.end(1)]}q{cell[code.end(1) :]}", *piece.cells[at + 1 :]]
                yield name, piece._replace(cells=cells)


def main():
    repository = Repository()
    page = scripts.read("docs/PROMISES.md")
    made, faults = promises.made(page)
    faults += ["the page isn't what tools/promises.py writes"] if made != page else []
    swapped = promises.made(page.replace("`DecidesInfeasible`:", "`DecidesMax`:", 1))[1]
    faults += [] if swapped else ["a definition that the contract doesn't rest on isn't found"]
    passed = 0
    for piece in pieces(page):
        wrong = faults_of(repository, piece)
        unseen = [name for name, other in changed(piece) if len(faults_of(repository, other)) <= len(wrong)]
        faults += wrong + [f"{piece.line}: {name} may be changed" for name in unseen]
        passed += len(list(changed(piece))) - len(unseen)
    print("\n".join(faults), end="\n" if faults else "")
    scripts.finish(passed, len(faults))


if __name__ == "__main__":
    main()
