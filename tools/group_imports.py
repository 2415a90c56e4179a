#!/usr/bin/env python3
"""Groups the imports of the crates by folder: tools/group_imports.py [--check]

Lines `use Rattle.C.F.M.{..}` (`ghost use ..;` in code) of one folder F of a crate C become `use Rattle.C.F.{M.{..}, N.{..}}`,
as many modules in a line as fit 120 columns. A line that is longer by itself stays whole. A file imports the same names as
before, and so do lines in blocks, lines with `as` after a module, and `pub use`. With --check it writes nothing, names the
files that it would change, and ends with 1 if there are any.
"""
import glob
import re
import sys

from believed import imported
from texts import TOP, read, write

WIDTH = 120
LINE = re.compile(r"(ghost )?use (Rattle\.[^;]*\});?$")


def folder_of(module):
    """The folder of a crate that a module stands in, and the rest of the module's path."""
    parts = module.split(".")
    length = 3 if len(parts) > 3 and parts[2] in ("specs", "proofs") else 2
    return ".".join(parts[:length]), ".".join(parts[length:])


def line_of(ghost, folder, members):
    """The line that imports these modules of a folder, with their names."""
    inner = ", ".join(f"{module}.{{{', '.join(names)}}}" for module, names in members)
    path = f"{folder}.{inner}" if len(members) == 1 else f"{folder}.{{{inner}}}"
    return f"ghost use {path};" if ghost else f"use {path}"


def lines_of(run):
    """The lines for some imports that follow one another: a module goes into the first line with room for it."""
    folders = {}
    for ghost, module, name in run:
        folder, rest = folder_of(module)
        folders.setdefault((ghost, folder), {}).setdefault(rest, []).append(name)
    for (ghost, folder), modules in folders.items():
        lines = []
        for it in modules.items():
            room = (line for line in lines if len(line_of(ghost, folder, [*line, it])) <= WIDTH)
            line = next(room, None)
            if line is None:
                lines.append([it])
            else:
                line.append(it)
        yield from (line_of(ghost, folder, it) for it in lines)


def grouped(lines):
    """The lines of a file, its imports grouped where only imports stand between them."""
    out, run, others = [], [], []
    for line in [*lines, None]:
        found = line is not None and LINE.match(line)
        if found:
            named = imported(found[2])
            run += [(bool(found[1]), module, f"{name} as {alias}" if alias else name) for module, name, alias in named]
        elif run and line is not None and re.match(r"use Rattle\..* as \w+$", line):
            others.append(line)
        else:
            out += [*lines_of(run), *others, *([] if line is None else [line])]
            run, others = [], []
    return out


def main():
    changed = []
    for pattern in ("src/**/*.rt", "specs/**/*.antt", "proofs/**/*.antt"):
        for path in sorted(glob.glob(f"{TOP}/crates/*/{pattern}", recursive=True)):
            text = read(path)
            made = "\n".join(grouped(text.split("\n")))
            if made != text:
                changed.append(path)
                if "--check" not in sys.argv:
                    write(path, made)
    if "--check" in sys.argv and changed:
        print("tools/group_imports.py would change", *(it.removeprefix(f"{TOP}/") for it in changed), sep="\n")
        sys.exit(1)


if __name__ == "__main__":
    main()
