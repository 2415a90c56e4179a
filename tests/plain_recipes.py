#!/usr/bin/env python3
"""Runs the recipes that need neither the kit nor the library: tests/plain_recipes.py [BINARY]

The program and the judge in Coq certify what they write. One whose package isn't there isn't run, and the output says so.
"""
import os
import subprocess
import sys
import tempfile

import scripts
from instances import BINARY
from second_proof import built_judge

# Each recipe, how it is built, what asks whether its package is there, and what is certified, by the command, in turn.
TEXTS = "instance", "claim"
CXX = "g++ -O2 -std=c++17 -o recipe"
RECIPES = [
    ("plain_networkx.py", "cp -t .", [sys.executable, "-c", "import networkx"], {"max": "v max 12\n", "paths": "v sp distances 1\n"}),
    ("plain_lemon.cpp", CXX, ["g++", "-E", "-include", "lemon/network_simplex.h", "-x", "c++", "/dev/null"], {"min": "v min 14\n"}),
    ("plain_ortools.py", "cp -t .", [sys.executable, "-c", "import ortools"], {"min": "v min 14\n"}),
]


def main():
    programs = list(filter(None, [os.path.abspath((sys.argv[1:] or [BINARY])[0]), built_judge()]))
    counts = scripts.Counts()
    for recipe, build, asks, verdicts in RECIPES:
        if scripts.ended(asks)[0]:
            print(f"not run: {recipe}: its package isn't there")
            continue
        with tempfile.TemporaryDirectory() as folder:
            subprocess.run([*build.split(), f"{scripts.TOP}/recipes/{recipe}"], cwd=folder, check=True)
            made = ["./recipe"] if build == CXX else [sys.executable, recipe]
            subprocess.run([*made, *(f"{it}.{command}" for command in verdicts for it in TEXTS)], cwd=folder, check=True)
            for command, verdict in verdicts.items():
                words = [f"certify-{command}", *(f"{it}.{command}" for it in TEXTS), "made"]
                answers = [scripts.ended([program, *words], cwd=folder)[1] for program in programs]
                counts.expect(f"{recipe} {command}", answers == [verdict] * len(programs), answers)
    asked = [sys.executable, "-c", "import sys; sys.modules['dimacs'] = None; import command"]
    _, told = scripts.ended(asked, cwd=f"{scripts.TOP}/recipes")
    counts.expect("a missing package is a sentence", "Traceback" not in told and "lib/python" in told, told)
    counts.end()


if __name__ == "__main__":
    main()
