#!/usr/bin/env python3
"""Writes the pictures of the examples that pages show: tools/pictures.py [OUT [BINARY]]

OUT is docs/pictures if none is given, BINARY the program, build/quick/dimacs. The pictures have the layers of dimacs-draw,
and not those of Graphviz: so they are the same everywhere. tests/draw.py tests that they are those of these sources.
"""
import os
import subprocess
import sys

TOP = os.path.dirname(os.path.dirname(os.path.abspath(__file__)))

# The texts of each picture.
PICTURES = {
    "pipes": "pipes.max pipes.solution pipes.cut",
    "bridges-sums": "bridges.max bridges-sums.solution",
    "freight": "freight.min freight.solution freight.pot",
    "shortage": "shortage.min shortage.cut",
    "road": "road.gr road.query road.dist",
    "road-near": "road.gr road-near.distances",
    "trucks": "trucks.max trucks.solution trucks.cut",
    "canning": "canning.min canning.solution canning.pot",
    "detroit": "detroit.min detroit.cut",
    "romania": "romania.gr romania.query romania.dist",
}


def main():
    out, binary = [*sys.argv[1:], *[f"{TOP}/docs/pictures", f"{TOP}/build/quick/dimacs"][len(sys.argv) - 1 :]]
    os.makedirs(out, exist_ok=True)
    environment = {**os.environ, "DIMACS": os.path.abspath(binary)}
    for name, texts in PICTURES.items():
        words = [f"{TOP}/tools/dimacs-draw", "--layers", "-o", f"{os.path.abspath(out)}/{name}.svg", *texts.split()]
        ran = subprocess.run([sys.executable, "-B", *words], cwd=f"{TOP}/examples", env=environment, check=False)
        if ran.returncode not in (0, 1):  # a verdict, or a refusal
            sys.exit(f"{name}: status {ran.returncode}")


if __name__ == "__main__":
    main()
