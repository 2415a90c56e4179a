"""Reads an instance into networkx, and prints how many nodes and arcs it has, or solves it, and prints the value:

    with_networkx.py read max|min|gr FILE
    with_networkx.py solve|time max|min FILE
    with_networkx.py solve|time gr FILE SOURCE..

To time is to solve twice, by networkx itself and by the backend of dimacs, which has to be installed beside networkx
3.3 or later; the seconds are without reading. docs/LIBRARY.md has ratios of some calls.

networkx has no reader of DIMACS texts; this is the loop that its users write. To be read, and for least cost, a graph
may have several arcs with the same ends; else such arcs are refused, since networkx wants, or is faster with, one. It
knows no lower bounds: an arc's is taken from its capacity and from the supplies.
"""

import sys
import time

import networkx

FIELDS = {"max": ["capacity"], "min": ["low", "capacity", "weight"], "gr": ["weight"]}


def read(graph, kind, file):
    """Fills the graph. The nodes of the `n` lines, and what stands after them."""
    named = {}
    with open(file) as text:
        for line in text:
            letter, *fields = line.split()
            if letter == "p":
                arcs = int(fields[2])
                graph.add_nodes_from(range(1, int(fields[1]) + 1), demand=0)
            elif letter == "n":
                named[int(fields[0])] = fields[1]
            elif letter == "a":
                tail, head, *numbers = map(int, fields)
                graph.add_edge(tail, head, **dict(zip(FIELDS[kind], numbers)))
    if graph.number_of_edges() < arcs:
        sys.exit("arcs with the same ends")
    return named


def solve_max(graph, named):
    """The value of a maximum flow."""
    ends = {letter: node for node, letter in named.items()}
    return f"v max {networkx.maximum_flow(graph, ends['s'], ends['t'])[0]}"


def solve_min(graph, named):
    """The least cost."""
    for node, supply in named.items():
        graph.nodes[node]["demand"] = -int(supply)
    fixed = 0
    for tail, head, arc in graph.edges(data=True):
        graph.nodes[tail]["demand"] += arc["low"]
        graph.nodes[head]["demand"] -= arc["low"]
        arc["capacity"] -= arc["low"]
        fixed += arc["low"] * arc["weight"]
    try:
        return f"v min {fixed + networkx.network_simplex(graph)[0]}"
    except networkx.NetworkXUnfeasible:
        return "v infeasible"


def solve_paths(graph, sources):
    """How many nodes are reached from the sources, and the sum of their distances."""
    reached, total = 0, 0
    for source in sources:
        distances = networkx.single_source_dijkstra_path_length(graph, int(source))
        reached += len(distances)
        total += sum(distances.values())
    return f"v sp {reached} {total}"


def solved(kind, file, sources):
    """The value of an instance, and the seconds that it took, without reading."""
    graph = networkx.MultiDiGraph() if kind == "min" else networkx.DiGraph()
    named = read(graph, kind, file)
    begun = time.perf_counter()
    solve = {"max": solve_max, "min": solve_min, "gr": solve_paths}[kind]
    return solve(graph, sources if kind == "gr" else named), time.perf_counter() - begun


def main():
    task, kind, file, *sources = sys.argv[1:]
    if task == "read":
        graph = networkx.MultiDiGraph()
        read(graph, kind, file)
        print(graph.number_of_nodes(), graph.number_of_edges())
    elif task == "solve":
        print(solved(kind, file, sources)[0])
    else:
        for backend in "networkx", "dimacs":
            networkx.config.backend_priority = [backend]
            print(backend, *solved(kind, file, sources))


main()
