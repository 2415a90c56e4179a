"""Reads an instance from Python, and prints how many nodes and arcs it has, and how many seconds that took:

    reading.py dimacs max|min|gr FILE
    reading.py pandas|numpy max|min|gr FILE     the arcs alone, which follow all other lines
    reading.py igraph max FILE

The seconds of processor time are without those of the interpreter's start and of imports.
"""

import itertools
import pathlib
import sys
import time


def problem(file):
    """The nodes that the problem line declares, and how many lines come before the arcs."""
    with open(file) as text:
        before = [line.split() for line in itertools.takewhile(lambda line: line[0] != "a", text)]
    return next(int(words[2]) for words in before if words[0] == "p"), len(before)


def by_dimacs():
    import dimacs

    def read(kind, file):
        instance = dimacs.read(kind, pathlib.Path(file))
        return instance.nodes, len(instance)

    dimacs.read("gr", b"p sp 1 0\n")  # which loads the library, and numpy
    return read


def by_table(load, **more):
    """Reads the arcs by a function that loads tables."""

    def read(kind, file):
        nodes, before = problem(file)
        return nodes, len(load(file, skiprows=before, usecols=range(1, 6 if kind == "min" else 4), **more))

    return read


def by_pandas():
    import pandas

    return by_table(pandas.read_csv, sep=" ", header=None)


def by_numpy():
    import numpy

    return by_table(numpy.loadtxt, dtype=numpy.int64)


def by_igraph():
    import igraph

    def read(kind, file):
        graph = igraph.Graph.Read_DIMACS(file, directed=True)
        return graph.vcount(), graph.ecount()

    return read


if __name__ == "__main__":
    program, kind, file = sys.argv[1:]
    read = {"dimacs": by_dimacs, "pandas": by_pandas, "numpy": by_numpy, "igraph": by_igraph}[program]()
    begun = time.process_time()
    print(*read(kind, file), time.process_time() - begun)
