"""what calls of the library over arrays take, next to those over texts in memory, to plain Rust, and small from Python

The two calls of a pair are made in this process, in turn, by the package for Python, which takes arrays as they lie in
memory. All of them have to answer yes, and to the same value.
"""

import ctypes
import os
import statistics
import sys
import time
from array import array

from measure import Rounds, Taken, head, row, spread, wants
from texts import declared, flow_texts, road_texts

SIZES, ROUNDS, PROGRAMS = "20", 11, ["plain"]

# The arcs of an instance by its size in MB, which is about that of a maximum flow instance, and those of a road's node.
ARCS = {1: 60_000, 20: 1_000_000}
DEGREE = 2.44


def texts(binary, kind, megabytes):
    """The texts of an instance, its claim and its certificate."""
    folder, arcs = f"library-{kind}-{megabytes}", ARCS[megabytes]
    if kind == "paths":
        return road_texts(folder, binary, int(arcs / DEGREE), DEGREE, 1)
    return flow_texts(folder, kind, arcs, kind)


# ---- pairs of calls, by their names


def max_pairs(dimacs, texts):
    instance = dimacs.read("max", texts[0])
    flows, inside = dimacs.read("solution", texts[1], instance).flows, dimacs.read("cut", texts[2]).inside
    return {
        "judge-max": (lambda: dimacs.judge_max(*texts), lambda: dimacs.judge_max_arrays(*instance, flows, inside)),
        "certify-max": (lambda: dimacs.certify_max(*texts[:2]), lambda: dimacs.certify_max_arrays(*instance, flows)),
    }


def min_pairs(dimacs, texts):
    instance = dimacs.read("min", texts[0])
    flows, prices = dimacs.read("solution", texts[1], instance).flows, dimacs.read("pot", texts[2]).potentials
    return {
        "judge-min": (lambda: dimacs.judge_min(*texts), lambda: dimacs.judge_min_arrays(*instance, flows, prices)),
        "certify-min": (lambda: dimacs.certify_min(*texts[:2]), lambda: dimacs.certify_min_arrays(*instance, flows)),
    }


def paths_pairs(dimacs, texts):
    graph, source = dimacs.read("gr", texts[0]), int(dimacs.read("query", texts[1]).froms[0])
    labels = dimacs.read("dist", texts[2], source)
    claim = *graph, source, labels.distances
    plain = ctypes.CDLL("./plain").plain_certify_paths
    read = zip("IIqqI", (graph.tails, graph.heads, graph.weights, labels.distances, labels.predecessors))
    kept = [array(code, bytes(it)) for code, it in read]  # plain finds them by their addresses, and writes to the last
    sizes = map(ctypes.c_size_t, (graph.nodes, len(graph), source))
    words = [*sizes, *((ctypes.c_char * 1).from_buffer(it) for it in kept)]
    return {
        "judge-paths": (
            lambda: dimacs.judge_paths(*texts),
            lambda: dimacs.judge_paths_arrays(*claim, labels.predecessors),
        ),
        "certify-paths": (lambda: plain(*words) or sys.exit("no"), lambda: dimacs.certify_paths_arrays(*claim)),
    }


PAIRS = {"max": max_pairs, "min": min_pairs, "paths": paths_pairs}


# ---- tables


def seconds(call):
    begun = time.process_time()
    call()
    return time.process_time() - begun


def measure_pair(name, pair, rounds):
    """What the first and the second call took."""
    values = {getattr(call(), "value", None) for call in pair}
    if len(values) > 1:
        sys.exit(f"{name}: different values: {values}")
    taken = Rounds(), Rounds()
    for turn in range(rounds):
        for it, call in list(zip(taken, pair))[:: -1 if turn % 2 else 1]:
            it.runs.append(Taken(seconds(call)))
    return taken


def measure_size(asked, dimacs, megabytes):
    columns = "Call; Arcs; Next to; its ns an arc; Arrays, ns an arc; Ratio; Its middle half"
    head(f"{megabytes} MB", *columns.split("; "))
    for kind, pairs_of in PAIRS.items():
        files = texts(asked.binary, kind, megabytes)
        _, arcs = declared(files[0])
        for name, pair in pairs_of(dimacs, [open(file, "rb").read() for file in files]).items():
            if wants(name):
                first, second = measure_pair(name, pair, asked.rounds)
                times = (f"{1e9 * it.cpu() / arcs:.1f}" for it in (first, second))
                beside = "plain Rust" if name == "certify-paths" else "texts"
                row(name, f"{arcs:,}", beside, *times, *spread(second.ratio(first)))


# Small calls from Python, over an instance of four nodes and five arcs, given as lists, and how many are in a round.
ENDS = [1, 1, 2, 2, 3], [2, 3, 3, 4, 4]
MAX = 4, 1, 4, *ENDS, [4, 2, 2, 3, 5], [4, 2, 1, 3, 3]
MIN = 4, *ENDS, [0] * 5, [4, 2, 2, 3, 5], [2, 2, 1, 3, 1], [4, 0, 0, -4], [2, 2, 2, 0, 4]
GRAPH = 4, *ENDS, [5, 1, 0, 2, 3], 1, [0, 5, 1, 4]
SMALL = {
    "judge_max_arrays": (*MAX, [1, 0, 0, 0]),
    "judge_min_arrays": (*MIN, [4, 2, 1, 0]),
    "judge_paths_arrays": (*GRAPH, [0, 1, 1, 3]),
    "certify_max_arrays": MAX,
    "certify_min_arrays": MIN,
    "certify_paths_arrays": GRAPH,
}
CALLS = 1000


def measure_small(asked, dimacs):
    head("Small calls from Python", "Call", "Microseconds", "The middle half of the rounds")
    taken = {name: [] for name in SMALL if wants(name)}
    for turn in range(5 * asked.rounds):
        for name in list(taken)[:: -1 if turn % 2 else 1]:
            call = getattr(dimacs, name)
            took = seconds(lambda: [call(*SMALL[name]) for _ in range(CALLS)])
            taken[name].append(took / CALLS * 1e6)
    for name, times in taken.items():
        times.sort()
        quarter = len(times) // 4
        row(name, f"{statistics.median(times):.1f}", f"{times[quarter]:.1f} to {times[-1 - quarter]:.1f}")


def measure(asked):
    os.environ["DIMACS_LIBRARY"] = f"{asked.library}/libdimacs.so"
    sys.path.insert(0, asked.package)
    import dimacs

    for megabytes in asked.sizes:
        measure_size(asked, dimacs, megabytes)
    measure_small(asked, dimacs)
