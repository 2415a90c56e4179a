#!/usr/bin/env python3
"""Writes the tables of crates in docs/ARCHITECTURE.md: tools/crate_tables.py [--check]

crates.txt has the crates, lowest first, under the headings that its comments are. What a crate is for is the first
sentence of its root. With --check nothing is written, and the status is 1 if the tables aren't those of the crates, or a
test of `surface` uses another crate than a program in Rattle calls.
"""
import glob
import os
import re
import sys

from texts import TOP, read, write

PAGE = f"{TOP}/docs/ARCHITECTURE.md"
BEGIN, END = "<!-- written by tools/crate_tables.py -->\n", "<!-- end of the crates -->\n"


def groups():
    """The headings of crates.txt, each with its crates."""
    found = {}
    for line in read("crates.txt").splitlines():
        if line.startswith("#"):
            heading = line.lstrip("# ")
            found[heading] = []
        elif line:
            found[heading].append(line.split(":")[0].split()[0])
    return found


def purpose(crate):
    """The first sentence of a crate's root, without the stop."""
    root = next(it for it in ("lib", "main") if os.path.exists(f"{TOP}/crates/{crate}/src/{it}.rt"))
    head = re.match(r"(?://! .*\n)+", read(f"crates/{crate}/src/{root}.rt"))[0]
    words = " ".join(line[4:] for line in head.splitlines())
    return re.split(r"\.(?: |$)", words)[0]


def astray():
    """The crates that tests in `surface` use, but for the seven that a program in Rattle calls."""
    files = sorted(glob.glob(f"{TOP}/crates/dimacs_tests/src/surface/*.rt"))
    used = [it for file in files for it in re.findall(r"^use (dimacs_\w+)", read(file), re.MULTILINE)]
    return set(used) - {f"dimacs_{it}" for it in ("lines", "records", "instance", "claims", "judge", "jobs", "runs")}


def table(heading, crates):
    rows = "".join(f"| `{it}` | {purpose(it)} |\n" for it in crates)
    return f"\n### {heading}\n\n| Crate | What it is |\n|---|---|\n{rows}"


def main():
    page = read(PAGE)
    before, _, rest = page.partition(BEGIN)
    made = before + BEGIN + "".join(table(*it) for it in groups().items()) + "\n" + END + rest.partition(END)[2]
    if sys.argv[1:] == ["--check"]:
        if astray():
            sys.exit(f"tests of the surface use {', '.join(astray())}")
        sys.exit(made != page and f"{PAGE}: its tables of crates aren't of today's: run tools/crate_tables.py")
    if sys.argv[1:]:
        sys.exit(__doc__)
    write(PAGE, made)


if __name__ == "__main__":
    main()
