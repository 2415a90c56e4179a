#!/usr/bin/env python3
"""Runs the program on texts made to be slow: tests/malicious.py [BINARY] [LINES]

Each text is made so that what looks nodes, arcs or labels up meets its worst keys: IDs far apart or falling, all arcs
at one tail, many arcs between two nodes, blocks of labels with a node far off in each. It is run beside a kind text of
as many lines (100,000 if LINES isn't given) with the same declared nodes, in which neighbours have near numbers and
everything stands in order. Shown are the processor time and the most memory of both, and their quotients. The script
fails if a text takes more than LIMIT times what the kind one takes; more is allowed if each ID has a page to
itself. A kind text that stands beside several is run once.

BINARY is the built program; crates/dimacs/out/dimacs by default. refusals.c, which reports the most memory, is compiled
with cc.
"""
import functools
import os
import random
import resource
import subprocess
import sys
import tempfile

import scripts
from explained_yes import distances_text, late_block
from instances import BINARY, Folder, max_text, refusing_library, text

# How much more a malicious text may take than a kind one: of time, and of memory.
LIMIT = (5, 5)

# The same if each ID that it names has a page of 64 to itself.
PAGES_LIMIT = (10, 50)

# What is added to both times before they are compared, in seconds: shorter times aren't distinguished.
COARSE = 0.05

# What the tables may hold beside that, in MB, for the greatest ID: the numbers of all pages.
DIRECTORIES = 32

# The greatest ID.
MOST = 134_217_728


def near(count):
    return list(range(1, count + 1))


def far(count):
    """IDs as far apart as they can be, from the first page to the last."""
    step = (MOST - 1) // (count - 1)
    return [1 + step * i for i in range(count)]


def falling(items):
    return items[::-1]


def shuffled(items):
    return random.Random(1).sample(items, len(items))


def path(ids):
    return list(zip(ids, ids[1:]))


def max_texts(nodes, arcs, ends, value, entries, caps=lambda arc: 1):
    """An instance, a flow that fills each arc of these entries, and the set that has the source alone."""
    source, sink = ends
    return [
        max_text(nodes, source, sink, [(*arc, 0, caps(arc)) for arc in arcs]),
        text(f"s {value}", *(f"f {arc[0]} {arc[1]} {caps(arc)}" for arc in entries)),
        text(f"p cut {nodes} 1", f"u {source}"),
    ]


def max_path(ids, nodes, arcs=None, entries=None):
    """A path that carries 1; its arcs and entries may stand in an order of their own."""
    along = path(ids)
    return max_texts(nodes, arcs or along, (ids[0], ids[-1]), 1, entries or along)


def max_fan(arcs, entries):
    """Arcs with one tail or one head, of which that from node 1 to the last one carries 1."""
    last = max(head for _, head in arcs)
    return max_texts(last, arcs, (1, last), 1, entries(arcs), lambda arc: int(arc == (1, last)))


def max_parallels(count, entries):
    """Full arcs from node 1 to node 2, after a loop at node 1."""
    arcs = [(1, 1)] + [(1, 2)] * count
    return max_texts(2, arcs, (1, 2), count, entries(arcs))


def min_path(ids, nodes, order=list):
    """A path that carries 1 at the cost of 1 for each arc, and a potential for each node."""
    count = len(ids) - 1
    ends = f"n {ids[0]} 1", f"n {ids[-1]} -1"
    return [
        text(f"p min {nodes} {count}", *ends, *(f"a {tail} {head} 0 1 1" for tail, head in order(path(ids)))),
        text(f"s {count}", *(f"f {tail} {head} 1" for tail, head in path(ids))),
        text(f"p pot {nodes} {len(ids)}", *(f"y {id} {count - i}" for i, id in enumerate(ids))),
    ]


def late_costs(nodes, cost):
    """A path of arcs that cost -1, as many along it that cost nothing, and 40 of this cost after them; nothing is carried."""
    ids, drawn = shuffled(near(nodes)), random.Random(1)
    chords = (sorted(drawn.sample(range(nodes), 2)) for _ in range(nodes))
    arcs = shuffled([(*arc, -1) for arc in path(ids)] + [(ids[i], ids[k], 0) for i, k in chords])
    arcs += [(*arc, cost) for arc in path(range(nodes + 1, nodes + 42))]
    return [text(f"p min {nodes + 41} {len(arcs)}", *(f"a {tail} {head} 0 5 {it}" for tail, head, it in arcs)), text("s 0")]


def supplies(ids, nodes):
    """An instance without arcs in which every other node sends 1, and the set of those."""
    return [
        text(f"p min {nodes} 0", *(f"n {id} {1 - 2 * (i % 2)}" for i, id in enumerate(ids))),
        text(f"p cut {nodes} {len(ids[::2])}", *(f"u {id}" for id in ids[::2])),
    ]


def label_texts(nodes, arcs, paths, radius=""):
    """A graph of these arcs, which are tail, head and weight, and a block for each path, whose arcs weigh 1."""
    blocks = []
    for along in paths:
        blocks.append(f"t {along[0]} {len(along) - 1}{radius}")
        blocks += [f"d {head} {i + 1} {tail}" for i, (tail, head) in enumerate(path(along))]
    return [
        text(f"p sp {nodes} {len(arcs)}", *(f"a {tail} {head} {weight}" for tail, head, weight in arcs)),
        text("p aux sp p2p 0"),
        text(f"p dist {nodes} {len(paths)}", *blocks),
    ]


def distances(paths, nodes, order=list, extra=(), radius=""):
    """Paths of arcs of weight 1, each with its block of labels, and more arcs after them."""
    arcs = [(tail, head, 1) for along in paths for tail, head in path(along)]
    return label_texts(nodes, order(arcs) + list(extra), paths, radius)


def claimed(texts):
    """The same graph, and the distances of the labels as a claim."""
    graph, _queries, labels = texts
    return [graph, distances_text(labels)]


def max_cases(n):
    """Cases of maximum flow: the name, the words, the malicious texts, the kind ones, and how much more is allowed."""
    words = "judge-max I S C"
    ids = near(n)
    kind = max_path(ids, n)
    wide = max_path(ids, MOST)
    arcs = path(ids)
    yield "max: IDs far apart", words, max_path(far(n), MOST), wide, PAGES_LIMIT
    yield "max: IDs falling", words, max_path(falling(ids), n), kind, LIMIT
    yield "max: arcs falling", words, max_path(ids, n, falling(arcs)), kind, LIMIT
    yield "max: entries falling", words, max_path(ids, n, arcs, falling(arcs)), kind, LIMIT
    yield "max: entries in no order", words, max_path(ids, n, arcs, shuffled(arcs)), kind, LIMIT
    star, sink = [(1, head) for head in ids[1:]], shuffled([(tail, n) for tail in ids[:-1]])
    yield "max: one tail", words, max_fan(star, list), kind, LIMIT
    yield "max: one tail, entries falling", words, max_fan(star, falling), kind, LIMIT
    yield "max: one tail, arcs falling", words, max_fan(falling(star), list), kind, LIMIT
    yield "max: one head in no order", words, max_fan(sink, shuffled), kind, LIMIT
    pair = arcs + [(1, 1)] * 2
    yield "max: two arcs with the same ends", words, max_path(ids, n, pair, falling(pair)), kind, LIMIT
    yield "max: many arcs between two nodes", words, max_parallels(n, list), kind, LIMIT
    yield "max: many arcs between two nodes, entries falling", words, max_parallels(n, falling), kind, LIMIT
    crowd = [MOST - n + i for i in range(n)]
    order = shuffled(path(crowd))
    yield "max: tails that share a start", words, max_path(crowd, MOST), wide, LIMIT
    yield "max: the same in no order", words, max_path(crowd, MOST, order, falling(order)), wide, LIMIT
    certify = "certify-max I S shown"
    yield "certify-max: IDs far apart", certify, max_path(far(n), MOST), wide, PAGES_LIMIT
    yield "certify-max: entries in no order", certify, max_path(ids, n, arcs, shuffled(arcs)), kind, LIMIT
    yield "certify-max: arcs and entries in no order", certify, max_path(ids, n, shuffled(arcs), arcs), kind, LIMIT
    yield "certify-max: one head in no order", certify, max_fan(sink, shuffled), kind, LIMIT
    yield "solve-max: IDs far apart", "solve-max I claim shown", max_path(far(n), MOST), wide, PAGES_LIMIT


def min_cases(n):
    ids = near(n)
    kind, wide, apart = min_path(ids, n), min_path(ids, MOST), min_path(far(n), MOST)
    yield "min: IDs far apart", "judge-min I S C", apart, wide, PAGES_LIMIT
    yield "min: IDs falling", "judge-min I S C", min_path(falling(ids), n), kind, LIMIT
    yield "pot: IDs far apart", "convert pot C", apart, wide, PAGES_LIMIT
    yield "certify-min: IDs far apart", "certify-min I S shown", apart, wide, PAGES_LIMIT
    yield "certify-min: IDs falling", "certify-min I S shown", min_path(falling(ids), n), kind, LIMIT
    yield "solve-min: IDs far apart", "solve-min I claim shown", apart, wide, PAGES_LIMIT
    words = "certify-min I S shown"
    yield "certify-min: sums that fit no 32 bits, late", words, late_costs(n, 2**27), late_costs(n, 1), LIMIT
    kind, wide, apart = supplies(ids, n), supplies(ids, MOST), supplies(far(n), MOST)
    yield "supplies: IDs far apart", "judge-infeasible I S", apart, wide, PAGES_LIMIT
    yield "supplies: IDs falling", "judge-infeasible I S", supplies(falling(ids), n), kind, LIMIT
    yield "cut: IDs far apart", "convert cut S", apart, wide, PAGES_LIMIT


def label_cases(n):
    words = "judge-paths I S C"
    ids = near(n)
    kind, wide, apart = distances([ids], n), distances([ids], MOST), distances([far(n)], MOST)
    yield "paths: IDs far apart", words, apart, wide, PAGES_LIMIT
    yield "paths: IDs falling", words, distances([falling(ids)], n), kind, LIMIT
    yield "paths: arcs falling", words, distances([ids], n, falling), kind, LIMIT
    asked = text("p aux sp ss 1", "s 1")
    solved, wide_solved = [apart[0], asked], [wide[0], asked]
    yield "solve-paths: IDs far apart", "solve-paths I S shown", solved, wide_solved, PAGES_LIMIT
    yield from queue_cases(n, asked)
    count = n // 3
    kind = distances([[2 * i + 1, 2 * i + 2] for i in range(count)], MOST)
    ends = distances([[i + 1, MOST - i] for i in range(count)], MOST)
    yield "paths: a far node in each block", words, ends, kind, LIMIT
    yield "dist: a far node in each block", "convert dist C", ends, kind, LIMIT
    count = n // 100
    kind = distances([ids[100 * i : 100 * i + 100] for i in range(count)], MOST)
    pages = [far(n)[i::count] for i in range(count)]
    yield "paths: blocks over all pages", words, distances(pages, MOST), kind, PAGES_LIMIT
    yield from hub_cases(n // 5)
    count = int(4 * n**0.5)
    chain = list(range(count, count + count // 32 + 4))
    arcs = [(i, count, 1) for i in range(1, count)] + [(*arc, 1) for arc in path(chain)]
    arcs += [(1 + i % (count - 1), count, 9) for i in range(n // 2)]
    paths = [[i, *chain] for i in range(1, count)]
    many, few = (claimed(label_texts(nodes, arcs, paths)) for nodes in (chain[-1], 64 * chain[-1]))
    yield "certify-paths: few arcs for each of many blocks", "certify-paths I S shown", many, few, LIMIT
    late, kind = (late_block(n // 50 + 200, order) for order in (falling, list))
    yield "certify-paths: the last of many blocks, explained", "explain certify-paths I S", late, kind, LIMIT


def queue_cases(n, asked):
    """Cases in which many walks of a search wait together: arcs from the source, or from a node beside a far one."""
    words, far = "solve-paths I S shown", ["a 1 2 0", f"a 1 3 {2**62}"]

    def star(weight, tail=1, before=()):
        arcs = (f"a {tail} {i + 4} {weight(i)}" for i in range(n))
        return [text(f"p sp {n + 3} {n + len(before)}", *before, *arcs), asked]

    random_weights = random.Random(1)
    kind = star(lambda i: random_weights.randrange(1, 10000))
    for name, weight in (
        ("of one weight", lambda i: 999),
        ("of no weight", lambda i: 0),
        ("whose weights fall", lambda i: n - i),
        ("whose weights double", lambda i: 2 ** (i % 62)),
    ):
        yield f"solve-paths: arcs {name}", words, star(weight), kind, LIMIT
        yield f"solve-paths: arcs {name}, beside a far node", words, star(weight, 2, far), kind, LIMIT


def hub_cases(n):
    """Cases in which each block has a node with many arcs."""
    words = "judge-paths I S C"
    hub = [[i + 1, n + 1] for i in range(n)]
    pairs = [[i + 1, i + 1 + n] for i in range(n)]
    loops = distances(hub, n + 1, list, [(n + 1, n + 1, 0)] * n)
    kind = distances(pairs, 2 * n, list, [(i + 1, i + 1, 0) for i in range(n)])
    yield "paths: many loops in each block", words, loops, kind, LIMIT
    leaving = distances(hub, 2 * n + 1, list, [(n + 1, n + 2 + i, 9) for i in range(n)], " 5")
    kind = distances(pairs, 2 * n, list, [(n + 1 + i, i + 1, 9) for i in range(n)], " 5")
    yield "paths: many arcs past the radius in each block", words, leaving, kind, LIMIT
    parallels = distances([[i + 1, n + 1, n + 2] for i in range(n)], n + 2)
    kind = distances([[i + 1, i + 1 + n, i + 1 + 2 * n] for i in range(n)], 3 * n)
    yield "paths: many arcs between two nodes in each block", words, parallels, kind, LIMIT
    words, parallels, kind = "certify-paths I S shown", claimed(parallels), claimed(kind)
    yield "certify-paths: many arcs between two nodes in each block", words, parallels, kind, LIMIT


class Runner:
    """Runs the program, and measures it."""

    def __init__(self, binary, library):
        self.binary, self.library = binary, library
        self.measure_kind = functools.cache(self.measure)  # of a kind text, which several cases may have

    def measure(self, words, texts):
        """The status of a run, its processor time in seconds, and the most memory that it held, in MB."""
        with tempfile.TemporaryDirectory() as place:
            folder = Folder(place)
            for name, lines in zip("ISC", texts):
                folder.write(name, lines)
            how = {"stdout": subprocess.DEVNULL, "stderr": subprocess.DEVNULL, "preexec_fn": end_after_a_minute}
            how["env"] = {"LD_PRELOAD": self.library, "COUNTS": folder.path("counts")}
            started = subprocess.Popen([self.binary, *words.split()], cwd=place, **how)
            _, status, used = os.wait4(started.pid, 0)
            started.returncode = os.waitstatus_to_exitcode(status)
            peak = int(folder.read("counts").split()[4]) / 1024 if os.path.exists(folder.path("counts")) else 0
        return started.returncode, used.ru_utime + used.ru_stime, peak


def end_after_a_minute():
    """Ends the run after a minute of processor time."""
    resource.setrlimit(resource.RLIMIT_CPU, (60, 60))


def main():
    binary = os.path.abspath(sys.argv[1] if len(sys.argv) > 1 else BINARY)
    count = int(sys.argv[2]) if len(sys.argv) > 2 else 100_000
    counts = scripts.Counts()
    with tempfile.TemporaryDirectory() as folder:
        runner = Runner(binary, refusing_library(folder))
        for cases in (max_cases, min_cases, label_cases):
            for name, words, texts, kind_texts, (most_time, most_memory) in cases(count):
                status, time, peak = runner.measure(words, texts)
                kind_status, kind_time, kind_peak = runner.measure_kind(words, tuple(kind_texts))
                slower = (time + COARSE) / (kind_time + COARSE)
                is_small = peak <= most_memory * kind_peak + DIRECTORIES
                took = f"{time:.2f} s, kind {kind_time:.2f} s, {slower:.1f} times; {peak:.0f} MB, kind {kind_peak:.0f} MB"
                print(f"{name}: {took}", flush=True)
                is_so = status == kind_status == words.startswith("explain") and slower <= most_time and is_small
                counts.expect(name, is_so, f"status {status}: {took}")
    counts.end()


if __name__ == "__main__":
    main()
