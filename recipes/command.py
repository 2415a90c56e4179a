"""What the recipes in Python share: they read texts by the package dimacs, and run the program. Copy this file with the one
that you change."""
import operator
import os
import pathlib
import subprocess
import sys

try:
    import dimacs
except ModuleNotFoundError as error:
    sys.exit(f"{error}: it is in lib/python, so set PYTHONPATH, or use a plain recipe, which needs no package of dimacs")


def arguments(doc):
    """The arguments that the first line of `doc` names. If there are more or fewer, the program ends with this line."""
    usage = doc.splitlines()[0]
    if len(sys.argv) != len(usage.rpartition(": ")[2].split()):
        print(usage, file=sys.stderr)
        sys.exit(2)
    return sys.argv[1:]


def run(*words):
    """Runs dimacs, and returns its exit status. The variable DIMACS names it, if it isn't on the path."""
    program = os.environ.get("DIMACS", "dimacs")
    try:
        return subprocess.call([program, *words])
    except OSError as error:
        print(f"can't run {program}: {error.strerror}. Put dimacs on the path, or name it by DIMACS", file=sys.stderr)
        sys.exit(3)


def read(kind, path):
    """The text of a file as arrays. If it has a fault, that is explained, and the program ends."""
    try:
        return dimacs.read(kind, pathlib.Path(path))
    except dimacs.Refused as refused:
        print(refused.explain(), end="")
        sys.exit(1)


def write(path, *lines):
    with open(path, "w", encoding="ascii") as text:
        text.writelines(f"{line}\n" for line in lines)


def write_solution(path, value, flows, instance):
    """A value may have more than 64 bits, and so more than dimacs.Solution holds."""
    ends = zip(instance.tails, instance.heads)
    write(path, f"s {value}", *(f"f {tail} {head} {flow}" for (tail, head), flow in zip(ends, flows)))


def write_distances(path, nodes, blocks):
    lines = [f"p distances {nodes} {len(blocks)}"]
    for source, far in blocks.items():
        lines.append(f"t {source} {len(far) - 1}")
        lines += [f"d {node} {int(length)}" for node, length in far.items() if node != source]
    write(path, *lines)


def maximum_flow(doc, solve):
    """Reads INSTANCE, writes SOLUTION and CUT, and runs `dimacs judge-max` on the three. solve(instance) returns the
    flow's value, the flow of each arc, and the nodes on the source's side of a minimum cut; or None in place of these:
    then `dimacs certify-max` writes CUT."""
    path, solution, cut = arguments(doc)
    instance = read("max", path)
    value, flows, side = solve(instance)
    write_solution(solution, value, flows, instance)
    if side is not None:
        write(cut, f"p cut {instance.nodes} {len(side)}", *(f"u {node}" for node in side))
    sys.exit(run("certify-max" if side is None else "judge-max", path, solution, cut))


def least_cost(doc, solve):
    """Reads INSTANCE, writes SOLUTION and POTENTIALS, and runs `dimacs judge-min` on the three. solve(instance) returns
    the flow of each arc, and the potential of each node; or None in place of these: then `dimacs certify-min` writes
    POTENTIALS. It returns None alone if the solver finds that no flow is feasible: `dimacs certify-infeasible` decides
    whether it is so, and writes a set that shows it in place of POTENTIALS; SOLUTION is `s infeasible`."""
    path, solution, certificate = arguments(doc)
    instance = read("min", path)
    found = solve(instance)
    if found is None:
        write(solution, "s infeasible")
        sys.exit(run("certify-infeasible", path, certificate))
    flows, prices = found
    cost = sum(map(operator.mul, instance.costs.tolist(), flows))  # which may have more than 64 bits
    write_solution(solution, cost, flows, instance)
    if prices is not None:
        lines = (f"y {node} {price}" for node, price in enumerate(prices, 1))
        write(certificate, f"p pot {instance.nodes} {len(prices)}", *lines)
    sys.exit(run("certify-min" if prices is None else "judge-min", path, solution, certificate))


def shortest_paths(doc, solve):
    """Reads GRAPH (.gr) and QUERY (.ss or .p2p), writes DISTANCES with a block for each source in QUERY, and runs
    `dimacs certify-paths`, which needs no predecessors. solve(graph, sources) returns the distances from each source: a
    dict of the nodes that are reached."""
    path, query, distances = arguments(doc)
    graph = read("gr", path)
    sources = set(read("query", query).froms.tolist())
    write_distances(distances, graph.nodes, solve(graph, sources))
    sys.exit(run("certify-paths", path, distances))
