#!/usr/bin/env python3
"""Checks a crate over what another clone has proved: tools/check_over.py CLONE CRATE [FLAG..]

CLONE is the folder of a clone in which the gate ran, or `rt ci`: it leaves the libraries that it proved in crates/*/out. So
who changes a crate needn't prove those below it once more, as `rt check` would. If the sources of one of them differ
there, it is named, and nothing is checked. A FLAG is one of `rt check`, as `--only module::Type::function`. The gate
decides all the same.
"""
import os
import subprocess
import sys

import kit as kits
from sources import PROVED, digests, files_of
from texts import TOP
from try_bodies import check_words


def differing(clone, crates):
    """Those of these crates that have other sources in the clone, or no library there."""
    for it in crates:
        here, there = (digests(files_of(it, PROVED, top), top) for top in (TOP, clone))
        if here != there or not os.path.exists(f"{clone}/crates/{it}/out/rlib/{it}.rlib"):
            yield it


def main():
    if len(sys.argv) < 3:
        sys.exit(__doc__.partition("\n")[0])
    clone, crate, *flags = sys.argv[1:]
    clone, listed = os.path.abspath(clone), kits.crates()
    if crate not in listed:
        sys.exit(f"crates.txt has no {crate}")
    others = list(differing(clone, kits.below(listed, crate)))
    if others:
        sys.exit(f"{clone} has no library of these sources: {' '.join(others)}")
    folder = f"{TOP}/crates/{crate}"
    os.makedirs(f"{folder}/out", exist_ok=True)
    words = [*check_words(crate, clone), "--incremental", "out/incremental", *flags]
    sys.exit(subprocess.run(words, cwd=folder, check=False).returncode)


if __name__ == "__main__":
    main()
