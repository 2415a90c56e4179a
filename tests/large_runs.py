#!/usr/bin/env python3
"""Runs the program on texts of 1,000,000 items: tests/large_runs.py [BINARY]

A call that gives up for want of memory above some size keeps its contract: no clause rules it out, and nothing else
catches it. So each kind of text is read and written here with a million items, and each command is run in each of its
outcomes: a yes, a flow that is feasible and not best, a run that gives up, and refusals early and late. What commands
write is judged in its turn. lib/test/test_large.py does the same with the calls over arrays.

The texts and what is wanted of them are made here: parallel chains of arcs for flows, pairs of nodes with a supply each,
a cycle for distances, and nodes apart for many sources. BINARY is the built program; crates/dimacs/out/dimacs if none
is given.
"""
import collections
import filecmp
import os
import subprocess
import sys
import tempfile
import time

import scripts
from instances import BINARY, Folder, text
from rows import TEXTS

ITEMS = 1_000_000
CHAINS = 1_000
STEPS = ITEMS // CHAINS
PAIRS = ITEMS // 2

# The nodes of the chains: 1 and 2 are their ends.
NODES = 2 + CHAINS * (STEPS - 1)

# What the chains carry together, and what those but the last do, which costs more.
VALUE = CHAINS * (CHAINS + 1) // 2
LESS = VALUE - CHAINS

# A run: its words, its exit status, and what it prints: a text, or the file that holds it.
Run = collections.namedtuple("Run", "words status prints")
File = collections.namedtuple("File", "name")


def chains():
    """The arcs of parallel chains from node 1 to node 2, with the number of each chain, counted from 1."""
    for chain in range(1, CHAINS + 1):
        first = 3 + (chain - 1) * (STEPS - 1)
        path = [1, *range(first, first + STEPS - 1), 2]
        for tail, head in zip(path, path[1:]):
            yield chain, tail, head


def solutions(kind, value, entries, last, worse_value, worse):
    """A best solution, the same with its entries falling, with an arc that isn't there, and with too much on the arc from
    the last node to the sink; and one that isn't best, whose last entries are others."""
    yield f"{kind}.flow", text(f"s {value}", *entries)
    yield f"{kind}.falling", text(f"s {value}", *entries[::-1])
    yield f"{kind}.unknown", text(f"s {value}", "f 2 1 1", *entries[1:])
    yield f"{kind}.above", text(f"s {value}", *entries[:-1], f"f {last} 2 {CHAINS + 1}")
    yield f"{kind}.worse", text(f"s {worse_value}", *entries[: -len(worse)], *worse)


def max_texts():
    """An instance of maximum flow, whose flows are bounded by the last arcs of the chains. Each of these carries at most the
    number of its chain, and each other arc one more."""
    arcs = list(chains())
    capacities = (f"a {tail} {head} {chain + (head != 2)}" for chain, tail, head in arcs)
    yield "max", text(f"p max {NODES} {ITEMS}", "n 1 s", "n 2 t", *capacities)
    entries = [f"f {tail} {head} {chain}" for chain, tail, head in arcs]
    slow = [f"f {tail} {head} {chain - 1}" for chain, tail, head in arcs[-STEPS:]]
    yield from solutions("max", VALUE, entries, arcs[-1][1], VALUE - 1, slow)
    inside = [1, *range(3, NODES + 1)]
    yield "cut", text(f"p cut {NODES} {len(inside)}", *(f"u {node}" for node in inside))
    yield "narrow", text(f"p cut {NODES} {len(inside) - 1}", *(f"u {node}" for node in inside[:-1]))


def min_texts():
    """An instance of least cost over the same chains, which the number of a chain bounds. Each arc costs 1, but the very last
    one 2, so that a least flow leaves the last chain empty."""
    arcs = list(chains())
    last = arcs[-1][1]
    costs = (f"a {tail} {head} 0 {chain} {1 + ((tail, head) == (last, 2))}" for chain, tail, head in arcs)
    yield "min", text(f"p min {NODES} {ITEMS}", f"n 1 {LESS}", f"n 2 {-LESS}", *costs)
    least = [f"f {tail} {head} {chain % CHAINS}" for chain, tail, head in arcs]
    moved = {CHAINS - 1: CHAINS - 2, CHAINS: 1}
    dear = [f"f {tail} {head} {moved[chain]}" for chain, tail, head in arcs[-2 * STEPS :]]
    yield from solutions("min", LESS * STEPS, least, last, LESS * STEPS + 1, dear)
    heights = {1: STEPS}
    for _, tail, head in arcs:
        heights[head] = heights[tail] - 1
    del heights[2]
    yield "pot", potentials(heights)
    yield "steep", potentials({**heights, last: 3})


def potentials(heights):
    return text(f"p pot {NODES} {len(heights)}", *(f"y {node} {it}" for node, it in sorted(heights.items())))


def wide_texts():
    """Numbers that take more than 32 bits, and more than 64, and a line that is as long as lines may be."""
    nodes = range(1, ITEMS + 1)
    yield "wide.pot", text(f"p pot {ITEMS} {ITEMS}", *(f"y {node} {node * 10**20}" for node in nodes))
    for name, step in ("long.dist", 10**10), ("wide.dist", 10**20):
        labels = [f"d {node} {(node - 1) * step} {node - 1}" for node in range(2, ITEMS + 1)]
        yield name, text(f"p dist {ITEMS} 1", f"t 1 {ITEMS - 1}", *labels)
    yield "long.line", text("c" + "x" * (2**20 - 1), "p sp 1 0")


def supply_texts():
    """Pairs of nodes, the first of which sends 1 to the second by the cheaper of two arcs; and an instance whose last pair
    sends more than its arcs carry."""
    pairs = [(2 * i + 1, 2 * i + 2) for i in range(PAIRS)]
    problem = f"p min {2 * PAIRS} {2 * PAIRS}"
    supplies = [f"n {first} 1\nn {second} -1" for first, second in pairs]
    arcs = [f"a {first} {second} 0 1 2\na {first} {second} 0 1 1" for first, second in pairs]
    yield "supplies", text(problem, *supplies, *arcs)
    first, second = pairs[-1]
    yield "unmet", text(problem, *supplies[:-1], f"n {first} 3\nn {second} -3", *arcs)
    yield "set", text(f"p cut {second} {first}", *(f"u {node}" for node in range(1, second)))


def path_texts():
    """A cycle with arcs of weight 1, queries from its first node, and the distances along it."""
    around = [(node, node % ITEMS + 1) for node in range(1, ITEMS + 1)]
    problem = f"p sp {ITEMS} {ITEMS}"
    arcs = [f"a {tail} {head} 1" for tail, head in around]
    yield "gr", text(problem, *arcs)
    yield "negative", text(problem, *arcs[:-1], f"a {ITEMS} 1 -1")
    yield "short", text(problem, *arcs[:-1], f"a 1 {ITEMS} 1")
    yield "query", text("p aux sp ss 1", "s 1")
    yield "pairs", text(f"p aux sp p2p {ITEMS}", *(f"q 1 {node}" for node in range(1, ITEMS + 1)))
    yield "answers", text(*(f"v 1 {node} {node - 1}" for node in range(1, ITEMS + 1)))
    yield "far", text(f"p aux sp p2p {ITEMS}", *(f"q {ITEMS + 1} {node}" for node in range(1, ITEMS + 1)))
    labels = [f"d {head} {tail} {tail}" for tail, head in around if head != 1]
    block = [f"p dist {ITEMS} 1", f"t 1 {ITEMS - 1}"]
    yield "dist", text(*block, *labels)
    claimed = [f"d {head} {tail}" for tail, head in around if head != 1]
    yield "distances", text(f"p distances {ITEMS} 1", f"t 1 {ITEMS - 1}", *claimed)
    near = [f"p dist {ITEMS} 1", f"t 1 {PAIRS - 1} {PAIRS - 1}", *labels[: PAIRS - 1]]
    yield "near", text(*near)
    distances = [*range(PAIRS), *[f"more {PAIRS - 1}"] * (ITEMS - PAIRS)]
    yield "near.answers", text(*(f"v 1 {node} {it}" for node, it in enumerate(distances, 1)))
    yield "untight", text(*block, *labels[:-1], f"d {ITEMS} {ITEMS} {ITEMS - 1}")


def source_texts():
    """A graph of loops, a query for the distances from each node, and the block of each."""
    nodes = range(1, ITEMS + 1)
    yield "loops", text(f"p sp {ITEMS} {ITEMS}", *(f"a {node} {node} 1" for node in nodes))
    yield "sources", text(f"p aux sp ss {ITEMS}", *(f"s {node}" for node in nodes))
    yield "blocks", text(f"p dist {ITEMS} {ITEMS}", *(f"t {node} 0" for node in nodes))
    yield "apart", text(f"p distances {ITEMS} {ITEMS}", *(f"t {node} 0" for node in nodes))


# Each text that is converted: its kind, its name, the letter of its items, and what is shown of it.
KINDS = [
    ("max", "max", "a", f"i max {NODES} {ITEMS} 1 2\n"),
    ("min", "min", "a", f"i min {NODES} {ITEMS} {LESS} {LESS}\n"),
    ("min", "supplies", "n", f"i min {2 * PAIRS} {2 * PAIRS} {PAIRS} {PAIRS}\n"),
    ("gr", "gr", "a", f"i sp {ITEMS} {ITEMS}\n"),
    ("query", "pairs", "q", f"i p2p {ITEMS}\n"),
    ("query", "sources", "s", f"i ss {ITEMS}\n"),
    ("solution", "max.flow", "f", f"i solution {VALUE} {ITEMS}\n"),
    ("cut", "cut", "u", f"i cut {NODES} {NODES - 1}\n"),
    ("pot", "pot", "y", f"i pot {NODES} {NODES - 1}\n"),
    ("pot", "wide.pot", "y", f"i pot {ITEMS} {ITEMS}\n"),
    ("dist", "dist", "d", f"i dist {ITEMS} 1\n"),
    ("dist", "long.dist", "d", f"i dist {ITEMS} 1\n"),
    ("dist", "wide.dist", "d", f"i dist {ITEMS} 1\n"),
    ("dist", "blocks", "t", f"i dist {ITEMS} {ITEMS}\n"),
    ("distances", "distances", "d", f"i distances {ITEMS} 1\n"),
    ("distances", "apart", "t", f"i distances {ITEMS} {ITEMS}\n"),
]


def spoiled(whole, letter):
    """A text with a word in place of the number that ends its first item, and one with that in its last line; and the lines
    and fields of these."""
    begin = whole.index(f"\n{letter} ") + 1
    for at in begin, whole.rindex("\n", 0, -1) + 1:
        end = whole.index("\n", at)
        item = whole[at:end]
        line, field = whole.count("\n", 0, at) + 1, len(item.split())
        yield f"{whole[:at]}{item.rpartition(' ')[0]} x{whole[end:]}", line, field


def reading_runs(place):
    """Converts and shows each text, and converts it with a fault in its first item and in its last line."""
    for kind, name, letter, shown in KINDS:
        yield Run(f"convert {kind} {name}", 0, File(name))
        yield Run(f"show {kind} {name}", 0, shown)
        for which, (changed, line, field) in zip(("first", "last"), spoiled(place.read(name), letter)):
            place.write(f"{name}.{which}", changed)
            yield Run(f"convert {kind} {name}.{which}", 1, f"x {TEXTS[kind]} {line} {field} BadNumber\n")


# A text with a fault is refused by each command; of the instances this is the last line.
MAX_FAULT = f"x instance {3 + ITEMS} 4 BadNumber\n"
MIN_FAULT = f"x instance {3 + ITEMS} 6 BadNumber\n"
GRAPH_FAULT = f"x instance {1 + ITEMS} 4 BadNumber\n"


def flow_runs(kind, certificate, value, not_best, fault):
    """The runs over all solutions of a kind, with a certificate of the best one."""
    verdict, not_best = f"v {kind} {value}\n", f"x solution 1 2 {not_best}\n"
    unknown, above = "x solution 2 0 UnknownArc\n", f"x arc {ITEMS} AboveCap\n"
    yield Run(f"judge-{kind} {kind} {kind}.flow {certificate}", 0, verdict)
    yield Run(f"judge-{kind} {kind} {kind}.falling {certificate}", 0, verdict)
    yield Run(f"judge-{kind} {kind} {kind}.unknown {certificate}", 1, unknown)
    yield Run(f"judge-{kind} {kind} {kind}.above {certificate}", 1, above)
    yield Run(f"judge-{kind} {kind}.last {kind}.flow {certificate}", 1, fault)
    yield Run(f"certify-{kind} {kind} {kind}.flow shown", 0, verdict)
    yield Run(f"judge-{kind} {kind} {kind}.flow shown", 0, verdict)
    yield Run(f"certify-{kind} {kind} {kind}.falling shown", 0, verdict)
    yield Run(f"certify-{kind} {kind} {kind}.flow", 0, verdict)
    yield Run(f"certify-{kind} {kind} {kind}.worse shown", 1, not_best)
    yield Run(f"judge-{kind} {kind} shown {certificate}", 0, verdict)
    yield Run(f"certify-{kind} {kind} {kind}.worse", 1, not_best)
    yield Run(f"certify-{kind} {kind} {kind}.unknown shown", 1, unknown)
    yield Run(f"certify-{kind} {kind} {kind}.above shown", 1, above)
    yield Run(f"certify-{kind} {kind}.last {kind}.flow shown", 1, fault)
    yield Run(f"spread-{kind} {kind} {kind}.falling shown", 0, "")
    yield Run("convert solution shown", 0, File(f"{kind}.flow"))
    yield Run(f"spread-{kind} {kind} {kind}.unknown shown", 1, unknown)
    yield Run(f"spread-{kind} {kind}.last {kind}.flow shown", 1, fault)


FLOW_RUNS = [
    *flow_runs("max", "cut", VALUE, "NotMaximum", MAX_FAULT),
    Run("judge-max max max.flow narrow", 1, f"x arc {ITEMS - 1} NotSaturated\n"),
    Run("solve-max max claim shown", 0, f"v max {VALUE}\n"),
    Run("judge-max max claim shown", 0, f"v max {VALUE}\n"),
    Run("solve-max max claim shown --limit 1", 5, "g limit\n"),
    Run("solve-max max.first claim shown", 1, "x instance 4 4 BadNumber\n"),
    Run("solve-max max.last claim shown", 1, MAX_FAULT),
    *flow_runs("min", "pot", LESS * STEPS, "NotLeast", MIN_FAULT),
    Run("judge-min min min.flow steep", 1, f"x arc {ITEMS} NotTight\n"),
    Run("certify-infeasible unmet shown", 0, "v infeasible\n"),
    Run("judge-infeasible unmet shown", 0, "v infeasible\n"),
    Run("certify-infeasible unmet", 0, "v infeasible\n"),
    Run("certify-infeasible min shown", 1, "x instance 0 0 Feasible\n"),
    Run("certify-infeasible min.last shown", 1, MIN_FAULT),
    Run("solve-min supplies claim shown", 0, f"v min {PAIRS}\n"),
    Run("judge-min supplies claim shown", 0, f"v min {PAIRS}\n"),
    Run("solve-min supplies claim shown --limit 0", 5, "g limit\n"),
    Run("solve-min supplies.first claim shown", 1, "x instance 2 3 BadNumber\n"),
    Run("solve-min supplies.last claim shown", 1, f"x instance {1 + 4 * PAIRS} 6 BadNumber\n"),
    Run("solve-min unmet claim shown", 0, "v infeasible\n"),
    Run("judge-infeasible unmet shown", 0, "v infeasible\n"),
    Run("judge-infeasible unmet set", 0, "v infeasible\n"),
    Run("judge-infeasible supplies set", 1, "x certificate 0 0 NotViolated\n"),
    Run("judge-infeasible supplies.first set", 1, "x instance 2 3 BadNumber\n"),
    Run("judge-infeasible unmet cut.last", 1, f"x certificate {NODES} 2 BadNumber\n"),
]

PATH_RUNS = [
    Run("convert gr long.line", 0, "p sp 1 0\n"),
    Run("judge-paths gr query dist", 0, "v sp ss 1\n"),
    Run("judge-paths gr pairs dist", 0, File("answers")),
    Run("judge-paths gr pairs near", 0, File("near.answers")),
    Run("judge-paths loops sources blocks", 0, f"v sp ss {ITEMS}\n"),
    Run("judge-paths gr far dist", 1, f"x node {ITEMS + 1} QueryNode\n"),
    Run("judge-paths gr sources dist", 1, "x node 2 BlockMissing\n"),
    Run("judge-paths gr pairs untight", 1, f"x node {ITEMS} NoTightArc\n"),
    Run("judge-paths short query dist", 1, f"x arc {ITEMS} NotShortest\n"),
    Run("judge-paths gr.last query dist", 1, GRAPH_FAULT),
    Run("certify-paths gr distances shown", 0, "v sp distances 1\n"),
    Run("convert dist shown", 0, File("dist")),
    Run("certify-paths gr distances", 0, "v sp distances 1\n"),
    Run("certify-paths loops apart shown", 0, f"v sp distances {ITEMS}\n"),
    Run("convert dist shown", 0, File("blocks")),
    Run("certify-paths short distances shown", 1, f"x arc {ITEMS} NotShortest\n"),
    Run("certify-paths gr.last distances shown", 1, GRAPH_FAULT),
    Run("certify-paths gr distances.last shown", 1, f"x distances {1 + ITEMS} 3 BadNumber\n"),
    Run("solve-paths gr query shown", 0, "v sp ss 1\n"),
    Run("convert dist shown", 0, File("dist")),
    Run("solve-paths gr pairs shown", 0, File("answers")),
    Run("convert dist shown", 0, File("dist")),
    Run("solve-paths loops sources shown", 0, f"v sp ss {ITEMS}\n"),
    Run("convert dist shown", 0, File("blocks")),
    Run("solve-paths gr far shown", 1, f"x node {ITEMS + 1} QueryNode\n"),
    Run("solve-paths negative pairs shown", 1, f"x arc {ITEMS} NegativeWeight\n"),
    Run("solve-paths gr.first query shown", 1, "x instance 2 4 BadNumber\n"),
    Run("solve-paths gr pairs.last shown", 1, f"x query {1 + ITEMS} 3 BadNumber\n"),
]


class Place(Folder):
    """A folder of texts in which the program runs."""

    def __init__(self, binary, folder):
        super().__init__(folder)
        self.binary = binary

    def prints(self, wanted):
        if isinstance(wanted, File):
            return filecmp.cmp(self.path("printed"), self.path(wanted.name), shallow=False)
        return os.path.getsize(self.path("printed")) == len(wanted) and self.read("printed") == wanted

    def fault_of(self, run):
        with open(self.path("printed"), "wb") as out:
            ran = subprocess.run(
                [self.binary, *run.words.split()], stdout=out, stderr=subprocess.PIPE, check=False, cwd=self.folder
            )
        if (ran.returncode, ran.stderr) == (run.status, b"") and self.prints(run.prints):
            return None
        complaint = ran.stderr.decode(errors="replace")
        return f"dimacs {run.words}: status {ran.returncode}: {self.read('printed')[:200]}{complaint}"


def runs(place):
    """Writes the texts, and yields the runs over them."""
    for texts in max_texts, min_texts, supply_texts, path_texts, source_texts, wide_texts:
        for it in texts():
            place.write(*it)
    yield from reading_runs(place)
    yield from FLOW_RUNS + PATH_RUNS


def main():
    counts = scripts.Counts()
    with tempfile.TemporaryDirectory() as folder:
        place = Place(os.path.abspath([*sys.argv, BINARY][1]), folder)
        for run in runs(place):
            begun = time.monotonic()
            fault = place.fault_of(run)
            print(f"{run.words}: {time.monotonic() - begun:.2f} s", flush=True)
            counts.expect(fault, not fault)
    counts.end()


if __name__ == "__main__":
    main()
