#!/usr/bin/env python3
"""Proves and builds the program and the calls of the library: tools/proved_build.py [--by-ci] FOLDER

Proves the crates one by one, lowest first, if they aren't proved yet, with a line each minute that names the one at
work and how many are left; and puts the program `dimacs` and the archive `dimacs_c.a`, which the Makefile links, into
the folder, with a file of what they were made of. What is there already of the same sources is left as it is. Beside
that it keeps `dimacs_c.bc`, the LLVM module of which clang made the archive, and `dimacs_c.words`, clang's words: builds
for other systems are made of the module. With --by-ci it takes what rt ci proved: its program, and for the library the
crates below, over which dimacs_c is proved again: rt ci only checks a static library, and records no check of which
rattle could build it. rt lib takes none of the crates below, since they hold statements alone, and would prove them all
again. What was proved by rt ci has to be what stands here now: .ci/gate writes down, after rt ci, what it was.
"""
import argparse
import contextlib
import os
import re
import shutil
import subprocess
import sys
import tempfile
import time

import kit as kits
import quick_build
import sources
from texts import read

CRATES = f"{kits.TOP}/crates"
BUILT = ["dimacs", "dimacs_c.a", "dimacs_c.bc", "dimacs_c.words"]
PROGRAM, ARCHIVE = f"{CRATES}/dimacs/out/dimacs", f"{CRATES}/dimacs_c/out/libdimacs_c.a"

# What the program that rt ci built was made of: rt ci removes this file as it begins.
BY_CI = f"{CRATES}/dimacs/out/sources"

# Where a check keeps what it checked of a crate: that for another target takes most of it from there.
SHARED = ["--incremental", "out/incremental"]

# Stands for clang: keeps the module that it compiles, and the words that came with it.
CLANG = """#!/bin/sh
case "$*" in
*module.bc*) cp module.bc '{room}/dimacs_c.bc' && printf '%s\\n' "$@" >'{room}/dimacs_c.words' ;;
esac
exec '{kit}/toolchain/bin/clang' "$@"
"""


def test_kit():
    """Ends the build if the sources name another logic, by which they are proved, than the kit has."""
    named = re.search(r"logic [0-9a-f]+", read(f"{CRATES}/dimacs_jobs/src/build.rt"))[0]
    here = subprocess.run(["rt", "version"], capture_output=True, text=True, check=True).stdout.strip()
    if named not in here:
        sys.exit(f"this is {here}; build.rt and Version.antt in crates/dimacs_jobs have {named}: name this logic there")


def order(listed):
    """The crates that the program and the library stand on, lowest first, and these two."""
    named = [it for top in ("dimacs_c", "dimacs") for it in [*kits.below(listed, top), top]]
    return list(dict.fromkeys(named))


def prove(name, words, left):
    """Runs a command in a crate's folder, and prints a line each minute."""
    begun = time.monotonic()
    with tempfile.TemporaryFile("w+", errors="replace") as output:
        how = {"stdin": subprocess.DEVNULL, "stdout": output, "stderr": output}
        ran = subprocess.Popen(words, cwd=f"{CRATES}/{name}", **how)
        while ran.returncode is None:
            minutes = (time.monotonic() - begun) / 60
            print(f"{name}: at work for {minutes:.0f} minutes, and {left} crates are left after it", flush=True)
            with contextlib.suppress(subprocess.TimeoutExpired):
                ran.wait(60)
        if ran.returncode:
            output.seek(0)
            sys.exit(f"{output.read()}{name} isn't proved: {' '.join(words)} ended with status {ran.returncode}")


def calls_words(kit, room):
    """The command that proves dimacs_c, builds its archive, and keeps the module in `room`."""
    words = [*kits.rattle_words(kit, "build", "dimacs_c", ".."), "src/lib.rt", "--crate-type", "staticlib"]
    return [*words, *SHARED, "--toolchain", quick_build.stand_in(kit, room, CLANG), "-o", "out/libdimacs_c.a"]


def prove_all(listed, calls):
    """Proves each crate in turn, and builds the two at the top."""
    crates = order(listed)
    print(f"proves {len(crates)} crates, in some two hours of processor time, and keeps each that is proved", flush=True)
    words = {"dimacs": ["rt", "run", "--", "show", "gr", "../../examples/road.gr"]}
    words["dimacs_c"] = calls
    for at, name in enumerate(crates):
        prove(name, words.get(name, ["rt", "lib"]), len(crates) - at - 1)


def main():
    words = argparse.ArgumentParser(description="Proves and builds the program and the calls of the library.")
    words.add_argument("--by-ci", action="store_true", help="take what rt ci proved")
    words.add_argument("folder")
    asked = words.parse_args()
    noted, built = f"{asked.folder}/sources", [f"{asked.folder}/{it}" for it in BUILT]
    made_of = sources.summed(sources.PROVED)
    if not asked.by_ci and sources.is_current(noted, made_of, built):
        return
    kit, listed = kits.folder("bin/rattle", "c/liblibc_c.a"), kits.crates()
    if asked.by_ci and not sources.is_current(BY_CI, made_of, [PROGRAM]):
        sys.exit("crates/dimacs/out/dimacs isn't what rt ci proved of these sources: .ci/gate proves and builds it")
    test_kit()
    os.makedirs(f"{CRATES}/dimacs_c/out", exist_ok=True)
    os.makedirs(asked.folder, exist_ok=True)
    with tempfile.TemporaryDirectory() as room:
        calls = calls_words(kit, room)
        if asked.by_ci:
            subprocess.run(calls, cwd=f"{CRATES}/dimacs_c", check=True)
        else:
            prove_all(listed, calls)
        for made, kept in zip([PROGRAM, ARCHIVE, f"{room}/dimacs_c.bc", f"{room}/dimacs_c.words"], built):
            shutil.copy(made, kept)
    sources.note(noted, made_of, built)


if __name__ == "__main__":
    main()
