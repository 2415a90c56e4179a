#!/usr/bin/env python3
"""Where the Rattle kit is, and what stands on what: for the scripts beside it. Run as tools/kit.py it prints the folder.

Without a kit, or with one that lacks a tool, it prints a message, and ends with the status 2.
"""
import os
import re
import shutil
import subprocess
import sys

from texts import TOP, read

MISSING = """{}: this needs the Rattle kit, and {}.
The kit is the compiler and prover of Rattle. It isn't published yet. README.md names the one that is needed.
`make rust` and `make check-rust` need none of it, nor does a packaged dimacs."""


def stop(why):
    """Ends what can't be done without the kit."""
    print(MISSING.format(os.path.basename(sys.argv[0]), why), file=sys.stderr)
    sys.exit(2)


def folder(*needed):
    """The folder of the kit, which has these files."""
    rt = shutil.which("rt")
    if rt is None:
        stop("there is no rt on the path")
    found = os.path.dirname(os.path.dirname(os.path.realpath(rt)))
    for it in needed:
        if not os.path.exists(f"{found}/{it}"):
            stop(f"that in {found} has no {it}")
    note_other_logic()
    return found


def note_other_logic():
    """Prints a note if README.md names another logic than the kit's."""
    version = subprocess.run(["rt", "version"], capture_output=True, text=True, check=False).stdout
    named = re.findall(r"logic ([0-9a-f]{16})", read("README.md"))
    if not any(it in version for it in named):
        print(f"note: README.md names another logic than this kit has: {version.strip()}", file=sys.stderr)


def crates():
    """Each crate of crates.txt, in its order, and the libraries that its line names."""
    lines = [line.partition("#")[0].partition(":") for line in read("crates.txt").splitlines()]
    return {name.split()[0]: named.split() for name, colon, named in lines if colon}


def below(listed, name):
    """The crates of the repository that a crate stands on, lowest first."""
    found = []
    for it in listed[name]:
        if it in listed:
            found += [*below(listed, it), it]
    return list(dict.fromkeys(found))


def rattle_words(kit, verb, name, folder):
    """The command by which rattle checks or builds a crate, but for its root, over the libraries of a folder's crates."""
    listed = crates()
    words = [f"{kit}/bin/rattle", verb, "--crate-name", name, "-L", f"dependency={kit}/rlibs"]
    for it in ["std", *listed[name]]:
        place = f"{folder}/{it}/out/rlib" if it in listed else f"{kit}/rlibs"
        words += ["--extern", f"{it}={place}/{it}.rlib"]
    for it in below(listed, name):
        words += ["-L", f"dependency={folder}/{it}/out/rlib"]
    return [*words, "--antt-project", f"{kit}/rattle/logic/antt-project.json", "--logic-built", f"{kit}/logic_built"]


def of_kit(kit, names):
    """The libraries of the kit that these use, themselves included, each with those that it uses itself."""
    names, found = list(dict.fromkeys(names)), {}
    for name in names:
        found[name] = re.findall(r"^dep (\w+)$", read(f"{kit}/rlibs/{name}.rlib/format"), re.MULTILINE)
        names += [it for it in found[name] if it not in names]
    return found


if __name__ == "__main__":
    print(folder())
