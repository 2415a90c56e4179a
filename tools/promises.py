#!/usr/bin/env python3
"""Writes what docs/PROMISES.md has of the sources: tools/promises.py

In a list's item with an arrow each definition after it, as `NAME`: with a colon, gets its comment. The list after
`<!-- requires -->` gets the public functions that require something of their callers. The lines of definitions to believe
are counted anew. The status is 1 if no contract before an arrow rests on a definition after it. tests/promises.py tests
that the page is what this writes.
"""
import os
import re
import sys

import believed
from theorem import filled
from texts import TOP, read, write

PAGE = f"{TOP}/docs/PROMISES.md"
ITEM = re.compile(r"^- ([^→\n]*(?:\n  [^→\n]*)*) → (.*\n(?:  .*\n)*)", re.M)
COUNTED = re.compile(r"[\d,]+(\slines\swithout\simports,\s)[\d,]+(\sfor\sthe\sjudge\s`run_judge`,\s)[\d,]+(\sfor\sthe\scommand)")
LIST = re.compile(r"(?<=<!-- requires -->\n\n)(?:(?:- |  ).*\n)*")


class Sources:
    """What the clauses of public functions name, and which functions require something, by crate."""

    def __init__(self):
        self.defined, self.cited, self.requiring = believed.all_definitions(), {}, {}
        for path in believed.sources():
            imports, clauses = believed.public_clauses(path)
            for function, lines in clauses.items():
                text = "\n".join(lines)
                self.cited.setdefault(function, set()).update(believed.named_in(text, imports, []))
                if function and re.search(r"^ *requires", text, re.M):
                    crate = os.path.relpath(path, f"{TOP}/crates").split("/")[0]
                    self.requiring.setdefault(crate, set()).add(function)

    def comments(self, functions):
        """The comments of the definitions that these functions rest on, by their names."""
        roots = set().union(*(self.cited.get(it, ()) for it in functions))
        reached = believed.reached_from(self.defined, roots)
        return {it[1]: " ".join(line[3:] for line in self.defined.blocks[it] if line.startswith("-- ")) for it in reached}


def item_of(sources, contracts, definitions, faults):
    """An item with the comments of its definitions."""
    comments = sources.comments(re.findall(r"`(?:\w+::)?(\w+)`", contracts))
    names = re.findall(r"`(\w+)`:", definitions)
    faults += [f"{contracts}: no comment of {it}, or they don't rest on it" for it in names if not comments.get(it)]
    return filled(f"- {' '.join(contracts.split())} → {' '.join(f'`{it}`: {comments.get(it)}.' for it in names)}") + "\n"


def counts(defined):
    """The lines of definitions that one has to believe of the library, of the judge and of the command."""
    circles = [believed.named_by_all(), *(believed.named_by(*it) for it in believed.CIRCLES.values())]
    return [f"{believed.lines_of(defined, believed.reached_from(defined, it)):,}" for it in circles]


def made(page):
    """The page as it has to be, and what is wrong with its rows."""
    sources, faults = Sources(), []
    page = ITEM.sub(lambda it: item_of(sources, *it.groups(), faults), page)
    page = COUNTED.sub(lambda it: "".join(map("".join, zip(counts(sources.defined), it.groups()))), page)
    items = (f"- `{crate}`: {', '.join(f'`{it}`' for it in sorted(names))}" for crate, names in sources.requiring.items())
    return LIST.sub("".join(f"{filled(it)}\n" for it in items), page), faults


def main():
    page, faults = made(read(PAGE))
    write(PAGE, page)
    sys.exit("\n".join(faults) or None)


if __name__ == "__main__":
    main()
