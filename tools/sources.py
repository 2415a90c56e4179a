#!/usr/bin/env python3
"""Sums up what a build is made of, so that none is taken for that of other sources: tools/sources.py [FILE]

It prints the sum of what is proved: of the sources, definitions and proofs of all crates but those of tests, crates.txt,
HANDLES, VERSION and the kit. With FILE it writes it to the file `sources` beside that one, with a sum of it.

Such a file lies beside what was built. Times say less: a source may come with an older one, and a definition that is gone
has none. Without a kit all but the kit is compared.
"""
import collections
import glob
import hashlib
import os
import shutil
import subprocess
import sys

import kit as kits
from texts import read, write

# What a build is made of: the folders of the crates, and the files beside them.
Parts = collections.namedtuple("Parts", "folders files")
BESIDE = ["crates.txt", "HANDLES", "VERSION"]
PROVED = Parts(["src", "specs", "proofs"], BESIDE)
UNPROVED = Parts(["src"], [*BESIDE, "tools/functions.py", "tools/quick_build.py"])


def digest(path):
    with open(path, "rb") as it:
        return hashlib.sha256(it.read()).hexdigest()


def files_of(crate, parts, top=kits.TOP):
    """The files of a crate in these parts, of the repository at `top`."""
    for folder in (f"{top}/crates/{crate}/{it}" for it in parts.folders):
        yield from sorted(it for it in glob.glob(f"{folder}/**", recursive=True) if os.path.isfile(it))


def digests(files, top=kits.TOP):
    return "".join(f"{digest(it)} {os.path.relpath(it, top)}\n" for it in files)


def summed(parts):
    """The lines of what these parts sum up to: of the files, and of the kit, if it is there."""
    crates = [it for it in kits.crates() if not it.endswith("_tests")]
    files = [f"{kits.TOP}/{it}" for it in parts.files]
    whole = digests([*files, *(it for crate in crates for it in files_of(crate, parts))])
    lines = [f"sources {hashlib.sha256(whole.encode()).hexdigest()}"]
    if shutil.which("rt"):
        version = subprocess.run(["rt", "version"], capture_output=True, text=True, check=True).stdout
        lines.append(f"kit {version.strip()}")
    return lines


def lines_for(made_of, built):
    return [*made_of, *(f"{digest(it)} {os.path.basename(it)}" for it in built)]


def note(path, made_of, built):
    """Writes beside what was built what it was made of, as it was summed before: a source may change meanwhile."""
    write(os.path.abspath(path), "".join(f"{line}\n" for line in lines_for(made_of, built)))


def is_current(path, made_of, built):
    """Whether this was built, and of what sums up to this."""
    if not all(map(os.path.exists, [path, *built])):
        return False
    now = lines_for(made_of, built)
    noted = read(os.path.abspath(path)).splitlines()
    if not any(it.startswith("kit ") for it in now):
        noted = [it for it in noted if not it.startswith("kit ")]
    return noted == now


if __name__ == "__main__":
    made_of = summed(PROVED)
    if sys.argv[1:]:
        note(f"{os.path.dirname(sys.argv[1])}/sources", made_of, sys.argv[1:])
    print("\n".join(made_of))
