#!/usr/bin/env python3
"""Tests which modules and crates use each other: tests/module_circles.py

The modules of a crate do in no circle: a row for each crate, a circle is shown by its modules. A module uses another if it
has a line `use crate::..` that names it or something in it. What a crate's root uses isn't counted.

What explains has few users, so that a sentence can be mended without proving much again: a row for each of its crates, and
one for definitions, clauses and proofs elsewhere that name its own.
"""
import glob
import os
import re

import scripts

ROOTS = ["lib.rt", "main.rt"]
USERS = {"dimacs_explain": ["dimacs_explained"], "dimacs_explained": ["dimacs", "dimacs_c"]}
USE = re.compile(r"^use crate::(\w+(?:::\w+)*)", re.MULTILINE)


def module_of(path, modules):
    """The module that a path leads to: the longest beginning of it that is one."""
    parts = path.split("::")
    names = ["::".join(parts[:length]) for length in range(len(parts), 0, -1)]
    return next((it for it in names if it in modules), None)


def used_in(crate):
    """The modules of a crate, each with those that it uses."""
    sources = f"crates/{crate}/src"
    files = glob.glob("**/*.rt", root_dir=f"{scripts.TOP}/{sources}", recursive=True)
    texts = {it.removesuffix(".rt").replace("/", "::"): scripts.read(f"{sources}/{it}") for it in files if it not in ROOTS}
    return {it: {module_of(path, texts) for path in USE.findall(text)} - {it, None} for it, text in texts.items()}


def circle_in(used):
    """The modules of a shortest circle; none if there is none."""
    circles = (way_back(used, it) for it in sorted(used))
    return min((it for it in circles if it), key=len, default=[])


def way_back(used, start):
    """A shortest way from a module to itself."""
    ways, seen = [[start]], set()
    while ways:
        way = ways.pop(0)
        for module in sorted(used[way[-1]]):
            if module == start:
                return way
            if module not in seen:
                seen.add(module)
                ways.append([*way, module])
    return []


def users_of(crate):
    """The crates whose line of crates.txt names this one."""
    lines = (line.partition("#")[0].partition(":") for line in scripts.read("crates.txt").splitlines())
    return [name.split()[0] for name, _, named in lines if crate in named.split()]


def rests_on(crate):
    """The files of other crates whose definitions, clauses or proofs name those of this one."""
    files = glob.glob("crates/*/s*/**/*", root_dir=scripts.TOP, recursive=True)
    files += glob.glob("crates/*/proofs/**/*", root_dir=scripts.TOP, recursive=True)
    sources = (it for it in files if it.endswith((".rt", ".antt")) and not it.startswith(f"crates/{crate}/"))
    return sorted(it for it in sources if f"Rattle.{crate}." in scripts.read(it))


def cases():
    """Yields each crate, and whether it has no circle; then whether what explains has no other users."""
    for crate in sorted(os.listdir(f"{scripts.TOP}/crates")):
        circle = circle_in(used_in(crate))
        yield crate, not circle, "uses in a circle: " + ", ".join(circle)
    for crate, users in USERS.items():
        others = users_of(crate)
        yield f"users of {crate}", others == users, ", ".join(others)
    files = rests_on("dimacs_explain")
    yield "proved over dimacs_explain", not files, ", ".join(files)


if __name__ == "__main__":
    scripts.end_with(cases())
