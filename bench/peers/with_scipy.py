"""Solves an instance by SciPy, and prints the value:

    with_scipy.py max|min FILE
    with_scipy.py gr FILE SOURCE..

SciPy has no reader of DIMACS texts; here numpy parses the arcs, which stand after all other lines. Its matrices have
one number for two nodes, so arcs with the same ends are refused, but for least cost; so are capacities beyond 32 bits.
"""

import sys

import numpy
from scipy.optimize import linprog
from scipy.sparse import coo_matrix, csr_matrix
from scipy.sparse.csgraph import dijkstra, maximum_flow


def read(file):
    """The number of nodes, the fields of the `n` lines, and a table of the arcs' numbers."""
    with open(file, "rb") as text:
        bytes_read = text.read()
    arcs_at = bytes_read.index(b"\na ") + 1
    lines = [line.split() for line in bytes_read[:arcs_at].splitlines()]
    problem = next(line for line in lines if line[0] == b"p")
    named = [line[1:] for line in lines if line[0] == b"n"]
    arcs = numpy.fromstring(bytes_read[arcs_at:].replace(b"a", b" "), dtype=numpy.int64, sep=" ")
    return int(problem[2]), named, arcs.reshape(int(problem[3]), -1)


def matrix(nodes, tails, heads, numbers):
    """The matrix of the arcs' numbers. Row and column 0 stay empty."""
    made = csr_matrix((numbers, (tails, heads)), shape=(nodes + 1, nodes + 1))
    if made.nnz < len(numbers):
        sys.exit("arcs with the same ends")
    return made


def solve_max(nodes, named, arcs):
    """The value of a maximum flow."""
    tails, heads, capacities = arcs.T
    if capacities.max() >= 2**31:
        sys.exit("a capacity of more than 32 bits")
    ends = {letter: int(node) for node, letter in named}
    found = maximum_flow(matrix(nodes, tails, heads, capacities.astype(numpy.int32)), ends[b"s"], ends[b"t"])
    return f"v max {found.flow_value}"


def solve_min(nodes, named, arcs):
    """The least cost, by the simplex method of HiGHS, which ends in a corner, where all is whole up to rounding."""
    tails, heads, lows, capacities, costs = arcs.T
    supplies = numpy.zeros(nodes)
    for node, supply in named:
        supplies[int(node) - 1] = int(supply)
    columns = numpy.arange(len(arcs))
    signs = numpy.repeat([1, -1], len(arcs))
    places = (numpy.concatenate([tails - 1, heads - 1]), numpy.concatenate([columns, columns]))
    rows = coo_matrix((signs, places), shape=(nodes, len(arcs))).tocsr()
    bounds = numpy.column_stack([lows, capacities])
    found = linprog(costs, A_eq=rows, b_eq=supplies, bounds=bounds, method="highs-ds")
    if found.status == 2:
        return "v infeasible"
    return f"v min {int(costs @ numpy.rint(found.x).astype(numpy.int64))}"


def solve_paths(nodes, arcs, sources):
    """How many nodes are reached from the sources, and the sum of their distances."""
    distances = dijkstra(matrix(nodes, *arcs.T), indices=[int(source) for source in sources])
    reached = distances[numpy.isfinite(distances)]
    return f"v sp {len(reached)} {int(reached.astype(numpy.int64).sum())}"


def main():
    kind, file, *sources = sys.argv[1:]
    nodes, named, arcs = read(file)
    if kind == "gr":
        print(solve_paths(nodes, arcs, sources))
    else:
        print(solve_max(nodes, named, arcs) if kind == "max" else solve_min(nodes, named, arcs))


main()
