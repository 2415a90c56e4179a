"""what dimacs and other programs take to read an instance into arrays or a graph, and dimacs to judge it

The seconds of programs in Python are without those of its start. A program that takes over a minute is left out.
"""

import os
import subprocess
import sys

from measure import HERE, PYTHON, head, measure_in_turn, row, wants
from measure import measure as run
from texts import declared
from works import baseline

SIZES, ROUNDS, PROGRAMS = "20", 3, ["reading", "lemon", "igraph", "glpk", "boost"]
MOST = 60

# the name of a program, its command, and the kinds that it reads
FROM_PYTHON = [PYTHON, f"{HERE}/peers/reading.py"]
READERS = [
    ("dimacs, into vectors of C++", ["./reading", "vectors"], ["max", "min", "gr"]),
    ("dimacs, into a graph of LEMON", ["./reading", "lemon"], ["max", "min", "gr"]),
    ("dimacs, into a graph of Boost", ["./reading", "boost"], ["max", "gr"]),
    ("dimacs, from Python", [*FROM_PYTHON, "dimacs"], ["max", "min", "gr"]),
    ("LEMON", ["./lemon", "read"], ["max", "min", "gr"]),
    ("igraph", ["./igraph", "read"], ["max"]),
    ("GLPK", ["./glpk", "read"], ["max", "min"]),
    ("Boost", ["./boost", "read"], ["max"]),
    ("igraph, from Python", [*FROM_PYTHON, "igraph"], ["max"]),
    ("pandas.read_csv", [*FROM_PYTHON, "pandas"], ["max", "min", "gr"]),
    ("numpy.loadtxt", [*FROM_PYTHON, "numpy"], ["max", "min", "gr"]),
    ("networkx", [PYTHON, f"{HERE}/peers/with_networkx.py", "read"], ["max", "min", "gr"]),
]
JUDGING, SHOWING = "dimacs judges", "dimacs reads alone (`show`)"


def read(command):
    """What a run took, without what it says to be no part of reading."""
    taken = run(command, MOST, subprocess.PIPE)
    words = taken.printed.split()
    return taken._replace(cpu=float(words[2])) if len(words) == 3 and words[0] != "v" else taken


def has_read(command, instance):
    """Whether a program is there and finds as many nodes and arcs as there are."""
    return read(command).printed.split()[:2] == list(map(str, declared(instance)))


def cells(judge, show, asked):
    """The processor time of each program on the instance of these works, and its peak."""
    kind, instance = show.words[1], show.files[0]
    commands = {name: [asked.binary, *it.words, *it.files] for name, it in ((JUDGING, judge), (SHOWING, show))}
    for command in commands.values():
        if run(command).status:
            sys.exit(f"no answer: {' '.join(command)}")
    for name, command, kinds in READERS:
        command = [*command, kind, instance]
        if kind in kinds and wants(f"{kind}, {name}") and has_read(command, instance):
            commands[name] = command
    taken = measure_in_turn(commands, asked.rounds, read)
    return {name: (f"{runs.cpu():.3f}", f"{runs.peak_bytes() / 1e6:.0f}") for name, runs in taken.items()}


def measure(asked):
    os.environ.update(PYTHONPATH=asked.package, DIMACS_LIBRARY=f"{asked.library}/libdimacs.so")
    for megabytes in asked.sizes:
        works = {}
        for work in baseline.works(asked.binary, megabytes):
            works.setdefault(" ".join(work.words), work)
        columns = {}
        for judge, kind in [("judge-max", "max"), ("judge-min", "min"), ("judge-paths", "gr")]:
            show = works[f"show {kind}"]
            columns[f"{kind}, {show.megabytes:.1f} MB, {show.arcs:,} arcs"] = cells(works[judge], show, asked)
        head(f"{megabytes} MB", "Program", *(it for name in columns for it in (f"{name}, s", "Peak MB")))
        for name in (JUDGING, SHOWING, *(reader for reader, _, _ in READERS)):
            row(name, *(it for times in columns.values() for it in times.get(name, ("", ""))))
