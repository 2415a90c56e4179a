#!/usr/bin/env python3
"""Proves and compiles the library or the program for aarch64 Linux: tools/targets/aarch64.py OUT

OUT ends in dimacs_c.a or main.o, which the Makefile links. The crates below are proved already, by `make` or by rt ci. The
crate is proved over these for the kit's own target aarch64-unknown-linux-gnu, and compiled. What the proof for this system
checked of dimacs_c isn't checked again where it is the same: 16 seconds for 150. The program takes five minutes.
"""
import os
import subprocess
import sys

TOP = os.path.dirname(os.path.dirname(os.path.dirname(os.path.abspath(__file__))))
sys.path.insert(0, f"{TOP}/tools")
import kit as kits  # noqa: E402  (the folder isn't a package of this one)
import proved_build  # noqa: E402

TARGET = "aarch64-unknown-linux-gnu"

# What is made, of which crate, its root, and what else its command has.
MADE = {
    "dimacs_c.a": ("dimacs_c", ["src/lib.rt", "--crate-type", "staticlib", *proved_build.SHARED]),
    "main.o": ("dimacs", ["src/main.rt"]),
}


def main():
    out = os.path.abspath(sys.argv[1])
    kit = kits.folder("bin/rattle")
    os.makedirs(os.path.dirname(out), exist_ok=True)
    crate, root = MADE[os.path.basename(out)]
    words = [*kits.rattle_words(kit, "build", crate, ".."), *root, "--target", TARGET]
    subprocess.run([*words, "--toolchain", f"{kit}/toolchain", "-o", out], cwd=f"{kits.TOP}/crates/{crate}", check=True)


if __name__ == "__main__":
    main()
