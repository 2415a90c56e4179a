"""Distances in matrices, and the backend, near the ends of types: random cases, next to what is true and to the calls over
arrays, which agree.py compares with texts.

A case is drawn by its number alone, which is named if it fails.
"""

import math
import random
import unittest

import dimacs
from shared import ENDS, INTEGERS, csgraph, fits, near, networkx, numpy, numpy_of, sparse

if networkx:
    from dimacs import backend
if csgraph:
    from dimacs import scipy as ours

OFFSETS = (1, -1, 2**63, -(2**63), 2**64, -(2**64))
LAST = 2**63 - 1


# ---- what is drawn


def amount(chance, past=0.03):
    """A capacity: it has 64 bits, except for a few."""
    found = abs(near(chance, ENDS[-1:] + (() if chance.random() < past else ENDS[:-3])))
    return near(chance) if chance.random() < past else found


class Net:
    """Arcs between a few nodes, from 1, of which the first is the source and the last the sink."""

    def __init__(self, chance, past=0.03):
        self.nodes = chance.randrange(2, 5)
        self.ends = [
            (chance.randrange(self.nodes) + 1, chance.randrange(self.nodes) + 1) for _ in range(chance.randrange(1, 7))
        ]
        self.caps = [amount(chance, past) for _ in self.ends]

    def arcs(self):
        return [(*ends, cap) for ends, cap in zip(self.ends, self.caps)]

    def max(self):
        """The arguments of calls over arrays about a maximum flow."""
        return self.nodes, 1, self.nodes, *map(list, zip(*self.ends)), self.caps


def parts(chance, total, least, greatest):
    """Up to 9 numbers between these that add up to a total; None if so few can't."""
    count = next((it for it in range(1, 10) if it * least <= total <= it * greatest), None)
    if count is None:
        return None
    found, rest = [], total
    for left in range(chance.randrange(count, count + 4) - 1, -1, -1):
        low, high = max(least, rest - left * greatest), min(greatest, rest - left * least)
        found.append(chance.choice([low, high, chance.randint(low, high)]))
        rest -= found[-1]
    return found


# ---- what is true


def distances(nodes, arcs, source):
    """The distances from a source, None of a node that isn't reached. Raises ValueError if there is a negative cycle."""
    found = [None] * (nodes + 1)
    found[source] = 0
    for turn in range(nodes + 1):
        before = list(found)
        for tail, head, weight in arcs:
            if found[tail] is not None and (found[head] is None or found[tail] + weight < found[head]):
                found[head] = found[tail] + weight
        if before == found:
            return found[1:]
    raise ValueError("negative cycle")


def has_negative_cycle(nodes, arcs):
    try:
        distances(nodes + 1, [*arcs, *((nodes + 1, node, 0) for node in range(1, nodes + 1))], nodes + 1)
    except ValueError:
        return True
    return False


# ---- what calls answer


def cases(count):
    """Has a test run over so many cases, and fail with the numbers of those that fail."""

    def run_all(test):
        def run(self):
            wrong = []
            for number in range(count):
                try:
                    test(self, random.Random(number))
                except AssertionError as it:
                    wrong.append(f"case {number}: {it}")
            self.assertEqual(wrong[:5], [], f"{len(wrong)} of {count} cases failed")

        return run

    return run_all


class Limits(unittest.TestCase):
    def outcome(self, call, *words, gives_up=(dimacs.GaveUp,), past=(ValueError,)):
        """The kind of an answer, and what it shows."""
        try:
            return "yes", call(*words)
        except dimacs.Refused as it:
            return "no", it
        except gives_up as it:
            return "gave up", it
        except past as it:
            return "past", it

    def is_wanted(self, found, *wanted):
        self.assertIn(found[0], wanted, repr(found[1]))


@unittest.skipUnless(csgraph, "no SciPy")
class Scipy(Limits):
    def matrix(self, chance, net, by_place):
        """A sparse matrix of any type that fits, with entries that add up to a number at each place; and the entries."""
        kinds = [(numpy.iinfo(it), it) for it in INTEGERS] + [(range(-(2**53), 2**53), "float64")]
        chance.shuffle(kinds)
        for kind, name in kinds:
            least, most = (kind[0], kind[-1]) if isinstance(kind, range) else (kind.min, kind.max)
            dealt = [parts(chance, it, least, most) for it in by_place.values()]
            if None not in dealt:
                break
        entries = [(place, it) for place, some in zip(by_place, dealt) for it in some]
        chance.shuffle(entries)
        rows, columns = ([at[k] - 1 for at, _ in entries] for k in (0, 1))
        data = numpy.array([it for _, it in entries], name)
        return self.formed(data, rows, columns, net.nodes, chance.choice(["csr", "coo", "csc"])), entries

    def formed(self, data, rows, columns, count, kind):
        """Entries in a format, none of which are added up."""
        if kind == "coo":
            return sparse.coo_matrix((data, (rows, columns)), shape=(count, count))
        ends = (rows, columns) if kind == "csr" else (columns, rows)
        order = numpy.lexsort((range(len(data)), numpy.array(ends[0], int)))
        starts = numpy.searchsorted(numpy.array(ends[0], int)[order], range(count + 1))
        made = sparse.csr_matrix if kind == "csr" else sparse.csc_matrix
        return made((data[order], numpy.array(ends[1], int)[order], starts), shape=(count, count))

    def summed(self, entries):
        found = {}
        for place, it in entries:
            found[place] = found.get(place, 0) + it
        return found

    @cases(4000)
    def test_distances(self, chance):
        net = Net(chance, 0)
        sign = chance.choice([0, 0, 0.3])
        by_place = {ends: cap * (-1 if chance.random() < sign else 1) for ends, cap in zip(net.ends, net.caps)}
        while chance.random() < 0.2:
            by_place[chance.choice(list(by_place))] += amount(chance, 0)
        graph, entries = self.matrix(chance, net, by_place)
        is_sum = graph.format == "coo"
        arcs = [(*place, it) for place, it in (self.summed(entries).items() if is_sum else entries)]
        found = self.outcome(ours.shortest_path, graph, gives_up=(dimacs.GaveUp, csgraph.NegativeCycleError))
        if not fits(it for *_, it in arcs):
            return self.is_wanted(found, "past")
        if has_negative_cycle(net.nodes, arcs):
            self.assertIsInstance(found[1], (csgraph.NegativeCycleError, dimacs.GaveUp))
            return
        true = [distances(net.nodes, arcs, source) for source in range(1, net.nodes + 1)]
        reached = [it for row in true for it in row if it is not None]
        if any(int(float(it)) != it or not -(2**63) <= it < LAST for it in reached):
            return self.is_wanted(found, "gave up")
        is_near = all(abs(it) < 2**60 for *_, it in arcs)
        self.is_wanted(found, *(("yes",) if is_near or min(it for *_, it in arcs) >= 0 else ("yes", "gave up")))
        if found[0] == "yes":
            table = [[math.inf if it is None else it for it in row] for row in true]
            self.assertEqual(found[1].tolist(), table)
            self.is_table(chance, graph, table)

    def is_table(self, chance, graph, table):
        """The whole table is certified, and refused or past the limit once it is changed."""
        ours.certify_shortest_path(graph, numpy.array(table, object))
        row, column = chance.randrange(len(table)), chance.randrange(len(table))
        true, offset = table[row][column], chance.choice(OFFSETS)
        table[row][column] = offset + (chance.choice([LAST, near(chance)]) if true == math.inf else true)
        found = self.outcome(ours.certify_shortest_path, graph, numpy.array(table, object))
        claim = table[row][column]
        self.is_wanted(found, "no" if fits([claim]) and claim != LAST else "past")


@unittest.skipUnless(networkx, "no networkx")
class Backend(Limits):
    """The functions themselves, which networkx calls."""

    def graph(self, chance, net, attribute, missing=0.0):
        graph = networkx.DiGraph()
        graph.add_nodes_from(range(1, net.nodes + 1))
        for (tail, head), it in zip(net.ends, net.caps):
            graph.add_edge(tail, head)
            if chance.random() < missing:
                graph[tail][head].pop(attribute, None)
            else:
                graph[tail][head][attribute] = numpy_of(chance, [it])[0] if numpy and chance.random() < 0.3 else it
        net.ends = list(graph.edges())
        net.caps = [int(data.get(attribute, 10**40)) for *_, data in graph.edges(data=True)]
        return graph

    def called(self, *words):
        return self.outcome(*words, gives_up=(NotImplementedError,), past=(networkx.NetworkXException,))

    @cases(1500)
    def test_maximum_flows(self, chance):
        net = Net(chance)
        graph = self.graph(chance, net, "capacity", 0.2)
        net.caps = [max(0, it) for it in net.caps]
        found = self.called(backend.minimum_cut, graph, 1, net.nodes)
        total = sum(it for it in net.caps if it < 10**40)
        is_wide = not fits([total]) or self.has_wide_floats(graph, "capacity", total)
        net.caps = [math.inf if it == 10**40 else it for it in net.caps]
        wanted = self.outcome(dimacs.solve_max_arrays, *net.max())
        self.is_wanted(found, wanted[0], *(("gave up",) if is_wide else ()))
        if found[0] == "yes":
            value, (side, others) = found[1]
            self.assertEqual((value, side | others), (wanted[1].value, set(graph)))
            _, flow = backend.maximum_flow(graph, 1, net.nodes)
            flows, inside = [int(flow[tail][head]) for tail, head in net.ends], [it in side for it in sorted(graph)]
            self.assertEqual(dimacs.judge_max_arrays(*net.max(), flows, inside).value, value)

    def has_wide_floats(self, graph, attribute, total):
        numbers = [it for *_, it in graph.edges(data=attribute)]
        return any(isinstance(it, float) for it in numbers) and total >= 2**53

    @cases(2000)
    def test_distances(self, chance):
        net = Net(chance)
        net.caps = [it * chance.choice([1, 1, 1, -1]) for it in net.caps]
        graph = self.graph(chance, net, "weight")
        found = self.called(backend.single_source_bellman_ford_path_length, graph, 1)
        total = sum(map(abs, net.caps))
        is_wide = total >= 2**60 or self.has_wide_floats(graph, "weight", total)
        try:
            true = distances(net.nodes, net.arcs(), 1)
        except ValueError:
            return self.is_wanted(found, "past", *(("gave up",) if is_wide else ()))
        self.is_wanted(found, "yes", *(("gave up",) if is_wide else ()))
        if found[0] == "yes":
            self.assertEqual(found[1], {node: it for node, it in enumerate(true, 1) if it is not None})

    def test_cutoffs(self):
        """A node that isn't reached is within no cutoff; numpy compares one in floats by the nearest float."""
        graph = networkx.DiGraph([(1, 2), (3, 1)])
        for cutoff in (2**63, 2.0**63, math.inf, *([numpy.float64(2**63)] if numpy else [])):
            self.assertEqual(backend.single_source_dijkstra_path_length(graph, 1, cutoff), {1: 0, 2: 1})
