"""Texts as arrays, and back."""

import copy
import gzip
import importlib.util
import pathlib
import pickle
import sys
import tempfile
import time
import unittest
from array import array
from decimal import Decimal
from fractions import Fraction
from unittest import mock

import dimacs
from dimacs import UNREACHED, Blocks, Cut, Distances, Graph, Labels, MaxInstance, MinInstance, Potentials, Queries, Solution
from dimacs import instances
from shared import Said, draws, networkx, numpy, optimize, pandas, raised

MAX = "c pipes\np max 4 3\nn 4 t\nn 1 s\na 1 2 9223372036854775807\n\na 2 4 +05\na 1 4 0\n"
MIN = "p min 3 2\nn 3 -4\nn 1 4\na 1 2 0 9223372036854775807 -9223372036854775808\na 2 3 1 5 7\n"
GRAPH = "p sp 3 2\na 1 2 -9223372036854775808\na 3 3 9223372036854775807\n"
LAST, INF = 2**63 - 1, float("inf")

FIFTY = [[1] * 50, [2] * 50, [0] * 50]
OVER = MaxInstance(3, 1, 3, [1, 2, 1, 1], [2, 3, 2, 3], [5, 4, 1, 2])


def listed(value):
    return [it.tolist() if hasattr(it, "tolist") else it for it in value]


class Rows(unittest.TestCase):
    """Rows of tests/rows/calls have what small texts spell."""

    def test_values(self):
        """A text, and its value."""
        far = 2**63 - 2
        for text, value, *of in [
            (MAX, MaxInstance(4, 1, 4, [1, 2, 1], [2, 4, 4], [LAST, 5, 0])),
            ("p max 2 0\nn 1 s\nn 2 t\n", MaxInstance(2, 1, 2, [], [], [])),
            (MIN, MinInstance(3, [1, 2], [2, 3], [0, 1], [LAST, 5], [-LAST - 1, 7], [4, 0, -4])),
            ("p min 9 0\nn 9 -2\n", MinInstance(9, [], [], [], [], [], [0] * 8 + [-2])),
            # As many arcs as so many bytes can have, and longer lines than room is made for at first.
            ("p max 2 50\nn 1 s\nn 2 t\n" + "a 1 2 0\n" * 50, MaxInstance(2, 1, 2, *FIFTY)),
            ("p min 2 50\n" + "a 1 2 0 0 0\n" * 50, MinInstance(2, *FIFTY, *FIFTY[2:] * 2, [0, 0])),
            ("p sp 2 50\n" + "a 1 2 0\n" * 50, Graph(2, *FIFTY)),
            (f"p sp {2**27} 9\n" + f"a {2**27} {2**27} {-LAST - 1}\n" * 9, Graph(2**27, *[[2**27] * 9] * 2, [-LAST - 1] * 9)),
            (f"s {LAST}\nf 1 2 {LAST}\nf 2 3 {-LAST - 1}\n", Solution(LAST, [LAST, -LAST - 1, 0, 0], OVER), OVER),
            ("f 1 3 -2\nc\nf 1 2 3\ns -7\nf 1 2 1\n", Solution(-7, [3, 0, 1, -2], OVER), OVER),
            ("p cut 3 2\nu 3\nu 1\n", Cut([1, 0, 1])),
            ("p cut 500 1\nu 500\n", Cut([0] * 499 + [1])),
            (f"p pot 500 2\ny 500 +05\ny 1 {LAST}\n", Potentials([LAST] + [0] * 498 + [5])),
            (f"p distances 4 2\nt 3 1\nd 1 {far}\nt 1 2\nd 3 7\nd 2 -{far}\n", Distances(1, [0, -far, 7, float("inf")]), 1),
            ("p distances 500 1\nt 500 0\n", Distances(500, [UNREACHED] * 499 + [0]), 500),
            ("p dist 3 1\nt 1 2\nd 3 5 1\nd 2 5 3\n", Labels(0, [0, 5, 5], [-1, 2, 0], base=0), 1),
            ("p aux sp p2p 3\nq 1 2\nq 4 4\nq 1 134217728\n", Queries([0, 3, 0], [1, 3, 2**27 - 1], base=0)),
            ("p aux sp ss 50\n" + "s 1\n" * 50, Queries([1] * 50)),
        ]:
            with self.subTest(text):
                found = dimacs.read(value.name, text, *of)
                self.assertEqual((type(found), listed(found), found), (type(value), listed(value), value))
                self.assertTrue(found)
                for it in text.encode(), bytearray(text, "ascii"), memoryview(text.encode()), dimacs.write(value):
                    self.assertEqual(listed(dimacs.read(value.name, it, *of)), listed(value))
                if not of:
                    self.assertEqual(dimacs.write(found), dimacs.convert(value.name, text.encode()))
        self.assertEqual(repr(Solution(3, [1, 2], dimacs.read("gr", GRAPH))), "Solution of the value 3 on 2 arcs")
        self.assertEqual(dimacs.write(Solution(0, [0, 0, 0, -2], OVER)), b"s 0\nf 1 2 0\nf 2 3 0\nf 1 2 0\nf 1 3 -2\n")

    def test_all_blocks(self):
        for text, blocks in [
            ("p distances 3 2\nt 3 0\nt 1 1\nd 2 7\n", [Distances(3, [UNREACHED, UNREACHED, 0]), Distances(1, [0, 7, UNREACHED])]),
            ("p dist 2 1\nt 1 1\nd 2 5 1\n", [Labels(1, [0, 5], [0, 1])]),
            ("p distances 9 0\n", []),
            ("p dist 9 0\n", []),
        ]:
            found = dimacs.read(text.split()[1], text)
            self.assertEqual((list(found.values()), found.sources), (blocks, tuple(it.source for it in blocks)))
            made = Blocks(found.nodes, blocks, found.name)
            self.assertEqual((dimacs.write(found), dimacs.write(made)), (text.encode(), text.encode()))
        for blocks in [Distances(1, [0])], [Distances(1, [0, 1])] * 2, [Distances(1, [0, 1]), Labels(2, [0, 0], [0, 0])]:
            self.assertRaisesRegex(ValueError, "comes beside blocks of 2 nodes", Blocks, 2, blocks)

    def test_a_radius(self):
        found = dimacs.read("dist", "p dist 3 2\nt 1 1 6\nd 2 5 1\nt 2 0\n", 1)
        self.assertEqual((listed(found), found.radius), ([1, [0, 5, UNREACHED], [0, 1, 0]], 6))
        self.assertEqual(found, Labels(1, [0, 5, UNREACHED], [0, 1, 0], 6))
        self.assertNotEqual(found, Labels(1, [0, 5, UNREACHED], [0, 1, 0]))
        self.assertRaisesRegex(ValueError, "labels with a radius, here 6, aren't written", dimacs.write, found)

    def test_refused_beyond_the_text(self):
        """What only arrays refuse, and the last line that explains it."""
        instance = MaxInstance(3, 1, 3, [1, 2, 1, 1], [2, 3, 2, 3], [5, 4, 1, 2])
        graph, wide, far = Graph(2, [1], [2], [3]), "arrays have numbers of 64 bits", "arrays have distances below 2^63 - 1"
        for kind, text, line, said, *of in [
            ("solution", "s 9\nf 1 2 3\nf 3 1 4\n", "x solution 3 0 UnknownArc", "arc 4 leads from 1 to 3", instance),
            ("solution", "s 9\nf 2 1 4\n", "x solution 2 0 UnknownArc", "arc 1 leads from 1 to 2", graph),
            ("solution", "s 9\nf 1 3 3\nf 1 3 4\n", "x solution 3 0 ArcTwice", "instance has 1 arc from 1 to 3", instance),
            ("solution", f"s {LAST + 1}\n", "x solution 1 2 NumberRange", f"solution:1: s {LAST + 1}\n{wide}", instance),
            ("pot", f"p pot 3 1\ny 2 {LAST + 1}\n", "x node 2 NumberRange", f"certificate:2: y 2 {LAST + 1}\n{wide}"),
            ("pot", f"p pot 3 2\ny 2 5\ny 1 {-LAST - 2}\n", "x node 1 NumberRange", f"certificate:3: y 1 {-LAST - 2}\n{wide}"),
            ("distances", "p distances 3 1\nt 1 0\n", "x node 3 BlockMissing", "its blocks are from 1; 1 in all", 3),
            ("distances", f"p distances 3 1\nt 1 1\nd 2 {LAST}\n", "x node 2 NumberRange", f"distances:3: d 2 {LAST}\n{far}", 1),
            ("distances", f"p distances 3 2\nt 3 1\nd 2 5\nt 1 1\nd 2 {LAST}\n", "x node 2 NumberRange", f"distances:5: d 2 {LAST}\n{far}"),
            ("dist", "p dist 3 1\nt 1 0\n", "x node 2 BlockMissing", "its blocks are from 1; 1 in all", 2),
            ("dist", f"p dist 3 1\nt 1 0 {LAST}\n", "x node 1 NumberRange", f"certificate:2: t 1 0 {LAST}\n{far}", 1),
        ]:
            it = raised(dimacs.Refused, dimacs.read, kind, text, *of)
            self.assertEqual((it.printed, it.explain().split("\n")[0]), (line, line))
            self.assertIn(said, it.explain())
        it = raised(dimacs.Refused, dimacs.read, "solution", "s 9\nf 4 4 1\nf 1 2 x\n", instance)
        self.assertTrue(it.explain().startswith("x solution 3 4 BadNumber\n"))

    def test_words(self):
        instance, arc = dimacs.read("gr", GRAPH), ([1], [2])
        cases = [
            (ValueError, "'grr' is no kind", lambda: dimacs.read("grr", GRAPH)),
            (TypeError, "'solution' comes with its instance, and not with None", lambda: dimacs.read("solution", "s 1\n")),
            (TypeError, "'solution' comes with its instance, and not with 3", lambda: dimacs.read("solution", "s 1\n", 3)),
            (TypeError, "'gr' comes alone, and not with Graph of", lambda: dimacs.read("gr", GRAPH, instance)),
            (TypeError, "'dist' comes with the source of a block, and not with Graph", lambda: dimacs.read("dist", "", instance)),
            (ValueError, "source is 0.5, not a whole number", lambda: dimacs.read("distances", "", 0.5)),
            (TypeError, "read takes texts, not int", lambda: dimacs.read("gr", 3)),
            (ValueError, "read takes texts, and 'road.gr' ", lambda: dimacs.read("gr", "road.gr")),
            (TypeError, "write takes what read returns, or an answer, not str", lambda: dimacs.write(GRAPH)),
            (ValueError, "tos has 1 items, and there are 2 queries", lambda: Queries([1, 2], [3])),
            (TypeError, "inside: None, an array is wanted", lambda: Cut(None)),
            (ValueError, "heads has 1 items, and there are 2 arcs", lambda: Graph(2, [1, 1], [2], [3, 4])),
            (ValueError, r"weights\[1\] is 0.5", lambda: Graph(2, [1, 1], [2, 2], [3, 0.5])),
            (ValueError, "flows has 1 items", lambda: Solution(3, [1], instance)),
            (dimacs.PastLimit, "arc 2 NodeRange: it goes from 1 to 3", lambda: Graph(2, [1, 1], [2, 3], [3, 4])),
            (dimacs.PastLimit, "arc 1 NodeRange: it goes from 0 to 1; .*base=0", lambda: Graph(2, [0], [1], [3])),
            (dimacs.PastLimit, "arc 0 NodeRange: it goes from 0 to 2; nodes are numbered from 0, and there are 2", lambda: Graph(2, [0], [2], [3], base=0)),
            (dimacs.PastLimit, "node 134217729 NumberRange", lambda: Graph(2**27 + 1, [], [], [])),
            (dimacs.PastLimit, "node 1 NodeTwice", lambda: MaxInstance(2, 1, 1, *arc, [3])),
            (dimacs.PastLimit, "arc 1 BoundOrder", lambda: MinInstance(2, *arc, [4], [3], [0], [0, 0])),
            (ValueError, "names has 1 items, and there are 2 nodes", lambda: Graph(2, *arc, [3], ["a"])),
            (ValueError, "names has 'a' twice", lambda: Graph(2, *arc, [3], ["a", "a"])),
            (TypeError, "names is a set, whose items have no places", lambda: Graph(2, *arc, [3], {"a", "b"})),
            (ValueError, "predecessors has 1 items, and there are 2 nodes", lambda: Labels(1, [0, 3], [0])),
            (ValueError, "radius is 0.5, not a whole number", lambda: Labels(1, [0], [0], 0.5)),
            (TypeError, r"units\[0\] is 'm\\na 1 2 9', not a number", lambda: Graph(2, *arc, [3], units=("m\na 1 2 9", 1))),
            (TypeError, "units is 'metres', and has to be a pair", lambda: Graph(2, *arc, [3], units="metres")),
            (ValueError, r"units is \(1, 0\), and both have to be above 0", lambda: Graph(2, *arc, [3], units=(1, 0))),
            (dimacs.PastLimit, "node 0 NumberRange", lambda: Queries([1, 0])),
            (dimacs.PastLimit, "node 3 NodeRange", lambda: Distances(3, [0, 1])),
            (dimacs.PastLimit, "node 2 NodeRange: nodes are numbered from 0", lambda: Distances(2, [0, 1], base=0)),
            (dimacs.Refused, "node 1 NotShortest", lambda: dimacs.write(Distances(1, [3, 1]))),
            (dimacs.Refused, "node 2 PredUnknown", lambda: dimacs.write(Labels(1, [0, 1, 2], [0, 3, 2]))),
            (dimacs.PastLimit, "arc 1 BoundOrder", lambda: MaxInstance(2, 1, 2, [1], [2], [-3])),
        ]
        for kind, message, call in cases:
            with self.subTest(message), self.assertRaisesRegex(kind, message):
                call()


def outcome(call, *words, **more):
    """What a call answers, or says."""
    try:
        answer = call(*words, **more)
    except (dimacs.Refused, dimacs.Unbounded, dimacs.GaveUp, dimacs.PastLimit) as no:
        found = getattr(no, "better", getattr(no, "flow", getattr(no, "certificate", None)))
        return type(no), str(no), None if found is None else list(found)
    return [list(it) if hasattr(it, "__len__") else it for it in answer] if isinstance(answer, tuple) else answer


class Unlimited(unittest.TestCase):
    """An arc made with the capacity inf has no limit in a value either."""

    words = 2, 1, 2, [1, 1], [2, 2]

    def test_calls(self):
        """A call over a value, and over what it unpacks into, answers as one over the arrays that made it, with their base."""
        kinds = set()
        for chance in draws(7, 150):
            base, nodes, count = chance.randrange(2), chance.randrange(2, 5), chance.randrange(1, 6)
            ends = [[chance.randrange(nodes) + base for _ in range(count)] for _ in range(2)]
            caps = [chance.choice([INF, LAST, 2**53 + 1, chance.randrange(9)]) for _ in range(count)]
            costs, supplies = ([chance.randrange(-3, 5) for _ in range(it)] for it in (count, nodes - 1))
            flows, far = ([chance.randrange(4) for _ in range(it)] for it in (count, nodes))
            inside, before = [chance.random() < 0.5 for _ in far], [chance.randrange(base - 1, nodes + 2) for _ in far]
            most, least = (nodes, base, nodes - 1 + base, *ends, caps), (*ends, [0] * count, caps, costs)
            source = chance.randrange(nodes + 1) + base
            for kind, words, calls in [
                (MaxInstance, most, [("solve_max",), ("certify_max", flows), ("judge_max", flows, inside)]),
                (MinInstance, (nodes, *least, [*supplies, -sum(supplies)]), [("solve_min",), ("certify_min", flows)]),
                (Graph, (nodes, *ends, flows), [("solve_paths", source), ("judge_paths", source, far, before)]),
            ]:
                value = kind(*words, base=base)
                self.assertEqual(kind(*value, value.names), value)
                for name, *more in calls:
                    call = getattr(dimacs, f"{name}_arrays")
                    wanted = outcome(call, *words, *more, base=base)
                    kinds.add(wanted[0] if isinstance(wanted, tuple) else name)
                    for given in [(value,), (pickle.loads(pickle.dumps(value)),)] + [(*value,)] * base:
                        self.assertEqual(outcome(call, *given, *more), wanted, (name, words))
        self.assertLessEqual({dimacs.Unbounded, dimacs.Refused, dimacs.Infeasible, "solve_max", "solve_min"}, kinds)

    def test_kept(self):
        one, other = MaxInstance(*self.words, [INF, 3]), MaxInstance(*self.words, [LAST, 3])
        self.assertEqual((one.caps.tolist(), one.unlimited.tolist(), other.unlimited), ([LAST, 3], [True, False], None))
        self.assertNotIn(one, [other, MaxInstance(*self.words, [3, INF])])
        for it in MaxInstance(*one), pickle.loads(pickle.dumps(one)), copy.deepcopy(one):
            self.assertEqual((it, hash(it), it.unlimited.tolist()), (one, hash(one), [True, False]))
        text = f"c an arc without a limit has the capacity {LAST}\np max 2 2\nn 1 s\nn 2 t\na 1 2 {LAST}\na 1 2 3\n"
        self.assertEqual((dimacs.write(one).decode(), dimacs.read("max", text)), (text, other))

    @unittest.skipUnless(networkx and numpy, "no networkx")
    def test_networkx(self):
        most = MaxInstance(3, 1, 3, [1, 1, 2], [2, 2, 3], [3, INF, 5], "sat")
        self.assertEqual(list(most.to_networkx().edges(data=True)), [("s", "a", {}), ("a", "t", {"capacity": 5})])
        least = MinInstance(2, [1, 1], [2, 2], [2, 0], [INF, 5], [3, 7], [6, -6])
        graph = least.to_networkx()
        self.assertEqual(list(graph.edges(data=True)), [(1, 2, {"weight": 3}), (1, 2, {"capacity": 5, "weight": 7})])
        flows = least.flows_from(networkx.network_simplex(graph)[1])
        self.assertEqual(dimacs.certify_min_arrays(least, flows).value, 18)

    @unittest.skipUnless(optimize and pandas and numpy, "no SciPy or pandas")
    def test_tables(self):
        self.assertRaisesRegex(ValueError, "arc 1 has no limit, and in a m", MaxInstance(*self.words, [INF, 3]).to_scipy)
        least = MinInstance(2, [1, 1], [2, 2], [2, 0], [INF, 5], [3, 7], [6, -6])
        self.assertEqual(least.to_scipy()["bounds"], [(2, None), (0, 5)])
        self.assertEqual(least.flows_from(optimize.linprog(**least.to_scipy())).tolist(), [6, 0])
        result = optimize.linprog(**MinInstance(2, [1], [2], [0], [1], [1], [3, -3]).to_scipy())
        self.assertRaisesRegex(ValueError, "the result has the status 2, and no solution", least.flows_from, result)
        columns = {"low": "low", "capacity": "capacity", "cost": "cost", "supply": {1: 6, 2: -6}}
        for caps in [INF, 5], [INF, 2**53 + 1]:
            least = MinInstance(2, [1, 1], [2, 2], [2, 0], caps, [3, 7], [6, -6])
            self.assertEqual(dimacs.from_frame(least.to_frame(), "source", "target", **columns).min_instance(), least)


class Names(Said):
    """Calls over a value speak of nodes and arcs as it does."""

    most = MaxInstance(3, 1, 3, [1, 2], [2, 3], [5, 4], ["mine", "port", "town"])

    def test_refusals(self):
        labels = Graph(3, [1, 2], [2, 3], [5, 4], self.most.names), 1, [0, 5, 8], [0, 1, 2]
        open_caps = MaxInstance(3, 0, 2, [0, 1], [1, 2], [INF, INF], self.most.names, base=0)
        for kind, message, call, *words in [
            (dimacs.Refused, "node 'port' Balance: 3 leaves, 4 enters", dimacs.certify_max_arrays, self.most, [4, 3]),
            (dimacs.Refused, "node 'town' NoTightArc: no arc from port gives its distance 8", dimacs.judge_paths_arrays, *labels),
            (dimacs.Refused, "solution 2 0 UnknownArc: no arc goes from mine to town", self.most.flows_from, {"mine": {"town": 3}}),
            (dimacs.Refused, "arc 2 AboveCap: it carries 5, its capacity is 4", dimacs.certify_max_arrays, self.most, [5, 5]),
            (dimacs.Unbounded, "arcs without a limit lead from the source to the sink: 0, 1", dimacs.solve_max_arrays, open_caps),
        ]:
            self.says(kind, message, call, *words)
        no = raised(dimacs.Refused, dimacs.judge_paths_arrays, *labels)
        self.assertEqual((no.node, no.printed), ("town", "x node 'town' NoTightArc"))
        self.assertEqual(no.explain().splitlines()[-1], "nodes by number: 2 is 'port', 3 is 'town'")
        other, wider = (MaxInstance(3, 1, 3, tails, [2, 3], [9, 4]) for tails in ([1, 1], [1, 2]))
        message = "the solution is of another instance than this MaxInstance of 3 nodes and 2 arcs: its arcs go between other nodes"
        self.says(ValueError, message, dimacs.certify_max_arrays, self.most, Solution(4, [4, 4], other))
        self.assertEqual(dimacs.certify_max_arrays(wider, Solution(4, [4, 4], self.most)).value, 4)

    def test_the_base(self):
        graph, far = Graph(3, [0, 1], [1, 2], [5, 4], base=0), Distances(0, [0, 5, 9], base=0)
        before = dimacs.certify_paths_arrays(graph, far).predecessors
        self.assertEqual([*before], [-1, 0, 1])
        self.assertTrue(dimacs.judge_paths_arrays(graph, Labels(0, far.distances, before, base=0)))
        zero = MaxInstance(2, 0, 1, [0, 0], [1, 1], [3, 5], base=0)
        self.assertEqual(dimacs.spread_max_arrays(zero, [0], [1], [6]), [3, 3])
        self.assertEqual(zero.flows_from({0: {1: 6}}).tolist(), [3, 3])
        if pandas:
            self.assertEqual(zero.to_frame(flow=dimacs.solve_max_arrays(zero).flows)["flow"].to_dict(), {0: 3, 1: 5})

    def test_flows_from(self):
        """Each entry is the number that it is, also beside a lower bound."""
        big, wide = 2**53 + 1, MinInstance(2, [1], [2], [1], [LAST], [1], [1, -1])
        least = MinInstance(2, [1], [2], [big], [2**60], [1], [big, -big])
        for zero in [0, 0.0, Fraction(0), Decimal(0)] + ([numpy.uint64(0), numpy.float32(0)] if numpy else []):
            self.assertEqual(least.flows_from({1: {2: {0: zero}}}).tolist(), [big])
        most = numpy.int64(LAST) if numpy else LAST
        self.says(ValueError, f"flows[0] is {2**63}, not a whole number of 64 bits", wide.flows_from, {1: {2: {0: most}}})
        self.says(ValueError, "flow of edge (1, 2, 0) is 2.5, not a whole number", wide.flows_from, {1: {2: {0: 2.5}}})
        self.says(TypeError, "flow of edge (1, 2) is '2', not a number", OVER.flows_from, {1: {2: "2"}})
        for value in wide, OVER:
            self.assertRaisesRegex(TypeError, "pass the second of the two", value.flows_from, (3, {1: {2: 3}}))


class Values(unittest.TestCase):
    def test_nothing_changes_them(self):
        caps = [5, 4]
        found = MaxInstance(3, 1, 3, [1, 2], [2, 3], caps)
        caps[0] = 7
        self.assertEqual(found.caps.tolist(), [5, 4])
        for change in lambda: setattr(found, "nodes", 4), lambda: delattr(found, "caps"):
            self.assertRaisesRegex(AttributeError, "of a MaxInstance can't be set: a value doesn't change", change)
        for value in found, dimacs.read("max", MAX), dimacs.read("cut", "p cut 2 1\nu 1\n"), dimacs.read("gr", "p sp 2 0\n"):
            for it in value, pickle.loads(pickle.dumps(value)), copy.copy(value), copy.deepcopy(value):
                self.assertEqual((it, len({value, it})), (value, 1))
                for items in [*it] if numpy else ():
                    with self.assertRaises(ValueError if hasattr(items, "flags") else AttributeError):
                        items.flags.writeable = True

    def test_what_differs(self):
        one = Graph(2, [1], [2], [3])
        others = Graph(3, [1], [2], [3]), Graph(2, [1], [2], [4]), Graph(2, [], [], []), dimacs.read("max", MAX), 3
        others += Graph(2, [1], [2], [3], "ab"), Graph(2, [0], [1], [3], base=0), Graph(2, [1], [2], [3], units=(1, 0.5))
        for other in others:
            self.assertNotEqual(one, other)
        self.assertEqual(one, Graph(2, [0], [1], [3], (1, 2), base=0))
        self.assertNotEqual(Solution(1, [1], one), Solution(1, [1], others[1]))
        self.assertNotEqual(Labels(1, [0], [0], 6), Labels(1, [0], [0]))

    def test_in_calls(self):
        """A value stands in place of its fields; that of a solution is tested. Answers are written."""
        cut, claim = Cut([1, 1, 0]), Solution(6, [4, 4, 0, 2], OVER)
        yes = dimacs.certify_max_arrays(OVER, claim)
        self.assertEqual((dimacs.judge_max_arrays(OVER, flows=claim, inside=cut).value, Cut(yes.inside)), (6, cut))
        it = raised(dimacs.Refused, dimacs.certify_max_arrays, OVER, Solution(7, claim.flows, OVER))
        self.assertEqual(str(it), "solution 0 0 ValueDiffers: 7 is claimed, it is 6")
        graph, labels = Graph(2, [1], [2], [5]), Labels(1, [0, 5], [0, 1])
        self.assertEqual(dimacs.judge_paths_arrays(graph, labels).kind, "sp")
        found = dimacs.solve_paths_arrays(graph, 1), dimacs.certify_paths_arrays(graph, Distances(1, [0, 5]))
        texts = b"p distances 2 1\nt 1 1\nd 2 5\n", b"p dist 2 1\nt 1 1\nd 2 5 1\n", b"p cut 3 2\nu 1\nu 2\n"
        self.assertEqual(tuple(map(dimacs.write, (*found, yes))), texts)
        self.assertEqual(dimacs.read("solution", dimacs.write(dimacs.solve_max_arrays(OVER)), OVER).value, 6)
        self.assertEqual(dimacs.write(dimacs.certify_max(dimacs.write(OVER), dimacs.write(claim))), texts[2])
        self.assertRaises(ValueError, dimacs.write, pickle.loads(pickle.dumps(yes)))
        for more in {"base": 0}, {"scale": 10}:
            message = "values have whole numbers, and a base: scale= and base= are for arrays"
            self.assertRaisesRegex(TypeError, message, dimacs.solve_max_arrays, OVER, **more)
        named, solve = Graph(2, [0], [1], [5], ["mine", "port"], base=0), dimacs.solve_paths_arrays
        name = "source is 'port', a name: pass its place in names, from 0"
        self.assertRaisesRegex(TypeError, name, solve, named, "port")
        self.assertRaisesRegex(ValueError, r"\[0\] is 2.5, not a whole number$", dimacs.certify_max_arrays, OVER, [2.5, 0, 0, 0])
        self.assertRaisesRegex(dimacs.PastLimit, "numbered from 1, and there are 2$", solve, graph, 0)
        for message, call in [
            ("certify_max_arrays takes no Graph there", lambda: dimacs.certify_max_arrays(graph, [1])),
            ("certify_max_arrays takes no MaxInstance there", lambda: dimacs.certify_max_arrays(OVER, OVER)),
            ("judge_max_arrays takes no MaxInstance for flows", lambda: dimacs.judge_max_arrays(OVER, flows=OVER, inside=cut)),
            (r"certify_paths_arrays takes one block: pass blocks\[source\]", lambda: dimacs.certify_paths_arrays(graph, Blocks(1, []))),
            ("takes 1 arguments less", lambda: dimacs.certify_paths_arrays(graph, 1, labels)),
            ("missing 1 required positional argument: 'flows'", lambda: dimacs.certify_max_arrays(OVER)),
        ]:
            self.assertRaisesRegex(TypeError, message, call)
        least = MinInstance(2, [1, 1], [2, 2], [0, 0], [3, 5], [9, 1], [6, -6])
        self.assertEqual(dimacs.spread_min_arrays(least, [1], [2], [6]), [1, 5])
        no = raised(dimacs.NotOptimal, dimacs.certify_max_arrays, OVER, [0] * 4)
        self.assertEqual(dimacs.read("solution", dimacs.write(no), OVER).flows.tolist(), no.better)
        for call in lambda: dimacs.certify_max(OVER, "s 6\n"), lambda: dimacs.draw(OVER):
            self.assertRaisesRegex(TypeError, r"takes texts, not MaxInstance: pass dimacs.write\(..\) of it", call)

    def test_without_numpy(self):
        with mock.patch.object(instances, "numpy", lambda: None), mock.patch.object(dimacs.reading, "numpy", lambda: None):
            for kind, text in ("max", MAX), ("min", MIN), ("gr", GRAPH), ("cut", "p cut 3 1\nu 2\n"), ("pot", "p pot 9 1\ny 9 2\n"):
                found = dimacs.read(kind, text)
                self.assertIsInstance(list(found)[-1], array)
                self.assertEqual(dimacs.write(found), dimacs.convert(kind, text.encode()))
            self.assertEqual(dimacs.read("query", "p aux sp ss 1\ns 3\n").froms.typecode, "I")
            self.assertEqual(dimacs.read("dist", "p dist 2 1\nt 2 1\nd 1 5 2\n", 2), Labels(2, [5, 0], [2, 0]))


class Files(unittest.TestCase):
    def setUp(self):
        place = tempfile.TemporaryDirectory()
        self.addCleanup(place.cleanup)
        self.place = pathlib.Path(place.name)

    def test_paths(self):
        for name, packed in ("pipes.max", bytes), ("pipes.max.gz", gzip.compress):
            path = self.place / name
            path.write_bytes(packed(MAX.encode()))
            self.assertEqual(dimacs.read("max", path), dimacs.read("max", MAX))
            self.assertEqual(dimacs.show("max", path), "i max 4 3 1 4\n")
        self.assertRaises(FileNotFoundError, dimacs.read, "max", self.place / "none.gz")

    def test_packed_files_that_are_not_whole(self):
        packed = gzip.compress(MAX.encode())
        damaged = packed[:20] + bytes([packed[20] ^ 255]) + packed[21:]
        for text in packed[:-9], packed[:12], damaged, MAX.encode(), b"":
            path = self.place / "pipes.max.gz"
            path.write_bytes(text)
            self.assertRaisesRegex(ValueError, "pipes.max.gz: ", dimacs.read, "max", path)

    def test_texts_that_are_none(self):
        for text, line in [
            (GRAPH.replace("3 3", "3\0 3"), "x instance 3 2 BadNumber"),
            ("c" * (2**20 + 1) + "\n" + GRAPH, "x instance 1 0 LineTooLong"),
            ("", "x instance 1 0 ProblemMissing"),
            (gzip.compress(GRAPH.encode()), "x instance 1 "),
        ]:
            it, shown = (raised(dimacs.Refused, call, "gr", text) for call in (dimacs.read, dimacs.show))
            self.assertEqual((it.printed, it.explain()), (shown.printed, shown.explain()))
            self.assertIn(line, it.printed)

    @unittest.skipUnless(sys.platform == "linux", "another system")
    def test_no_memory_for_arcs_that_are_declared(self):
        import resource

        before, begun = resource.getrusage(resource.RUSAGE_SELF).ru_maxrss, time.process_time()
        for kind, name, more in ("max", "max", "n 1 s\nn 2 t\n"), ("min", "min", ""), ("gr", "sp", ""):
            text = f"p {name} 2 268435456\n{more}"
            self.assertRaisesRegex(dimacs.Refused, "TooFew", dimacs.read, kind, text)
        self.assertLess(resource.getrusage(resource.RUSAGE_SELF).ru_maxrss - before, 10_000)  # kB
        self.assertLess(time.process_time() - begun, 1)

    @unittest.skipUnless(sys.platform == "linux", "another system")
    def test_no_memory_for_lines_that_a_cut_lacks(self):
        import resource

        cut = Cut(bytes(2**24) + b"\1")
        before = resource.getrusage(resource.RUSAGE_SELF).ru_maxrss
        self.assertEqual(dimacs.write(cut), b"p cut 16777217 1\nu 16777217\n")
        self.assertLess(resource.getrusage(resource.RUSAGE_SELF).ru_maxrss - before, 100_000)  # kB


def needs(name):
    return unittest.skipUnless(importlib.util.find_spec(name) and numpy, f"no {name}")


class Converted(unittest.TestCase):
    least = MinInstance(3, [1, 1, 2], [2, 2, 3], [0, 1, 2], [5, 5, 9], [3, 7, 1], [6, 0, -6])
    graph = Graph(4, [1, 1, 2, 4], [2, 2, 3, 4], [5, 3, 0, 7])
    most = MaxInstance(4, 2, 3, [2, 2, 2, 1], [1, 1, 3, 3], [5, 3, 1, 9])

    @needs("networkx")
    def test_networkx(self):
        graph = self.most.to_networkx()
        self.assertEqual(sorted(graph.edges(data="capacity")), [(1, 3, 9), (2, 1, 8), (2, 3, 1)])
        self.assertEqual(networkx.maximum_flow_value(graph, 2, 3), dimacs.solve_max_arrays(*self.most).value)
        found = MaxInstance.from_networkx(graph, 2, 3)
        self.assertEqual((found.names, found.source, found.sink), ((1, 2, 3, 4), 2, 3))
        self.assertEqual(dimacs.solve_max_arrays(*found).value, 9)
        self.assertEqual(Graph.from_networkx(self.graph.to_networkx()), self.graph)
        graph = self.least.to_networkx()
        self.assertEqual(sorted(it for *_, it in graph.edges(keys=True, data="capacity")), [4, 5, 7])
        self.assertEqual(dict(graph.nodes(data="demand")), {1: -5, 2: 1, 3: 4})
        cost, flow = networkx.network_simplex(graph)
        flows = [flow[u][v][k] + low for k, (u, v, low) in enumerate(zip(*listed(self.least)[1:4]))]
        self.assertEqual(self.least.flows_from(flow).tolist(), flows)
        self.assertEqual(cost + graph.graph["cost"], dimacs.certify_min_arrays(self.least, flows).value)
        self.assertEqual(dimacs.solve_min_arrays(MinInstance.from_networkx(graph)).value, cost)
        self.assertRaisesRegex(ValueError, "an entry of .*, which is no arc", self.least.flows_from, {1: {3: {0: 1}}})
        value, flow = networkx.maximum_flow(self.most.to_networkx(), 2, 3)
        self.assertEqual(dimacs.certify_max_arrays(self.most, self.most.flows_from(flow)).value, value)
        self.assertRaisesRegex(ValueError, "5 is no node of the instance", self.most.flows_from, {5: {1: 1}})

    @needs("networkx")
    def test_names(self):
        graph = networkx.DiGraph([("mine", "port", {"capacity": 4, "weight": 2}), ("port", "town", {"weight": 1})])
        networkx.set_node_attributes(graph, {"mine": -3, "town": 3}, "demand")
        found = MaxInstance.from_networkx(graph, "mine", "town")
        self.assertEqual((found.names, listed(found)), (("mine", "port", "town"), [3, 1, 3, [1, 2], [2, 3], [4, INF]]))
        self.assertEqual(sorted(found.to_networkx().edges(data="capacity")), [("mine", "port", 4), ("port", "town", None)])
        self.assertEqual(listed(MinInstance.from_networkx(graph))[-2:], [[2, 1], [3, 0, -3]])
        self.assertEqual(listed(Graph.from_networkx(graph))[-1], [2, 1])
        other = MinInstance.from_networkx(graph, demand="d", capacity="weight", weight="capacity")
        self.assertEqual(listed(other)[-3:], [[2, 1], [4, 0], [0, 0, 0]])
        graph["mine"]["port"]["capacity"] = 0.5
        found = MaxInstance.from_networkx(graph, "mine", "town", scale=(10, 1))
        self.assertEqual((found.caps.tolist(), found.units), ([5, LAST], (Fraction(1, 10), 1)))
        self.assertEqual(dimacs.write(found).split(b"\n")[0], b"c 1 is an amount of 1/10")
        again = found.to_networkx()
        self.assertEqual(MaxInstance.from_networkx(again, "mine", "town"), found)
        networkx.set_edge_attributes(again, 7, "tons")
        other = MaxInstance.from_networkx(again, "mine", "town", capacity="tons")
        self.assertEqual((other.caps.tolist(), other.units), ([7, 7], None))
        for call in MaxInstance.from_networkx, dimacs.solve_networkx_max:
            message = "scale= comes beside the attribute 'dimacs_units', '1/10 1': delete it if numbers aren't whole by it"
            self.assertRaisesRegex(ValueError, message, call, again, "mine", "town", scale=10)
        for unit in "metres", "1", "1 2 3", (1, 2), b"1/10 1", "1 1/0":
            other = networkx.DiGraph(again, dimacs_units=unit)
            message = "the attribute 'dimacs_units' is .*, and has to be two numbers, as '1/100 1'"
            self.assertRaisesRegex(ValueError, message, MaxInstance.from_networkx, other, "mine", "town")
        again.graph["units"] = "metres"
        self.assertEqual(MaxInstance.from_networkx(again, "mine", "town"), found)
        message = r"capacity of edge \('mine', 'port'\) is 0.5, not a whole number: scale= takes multiples of a unit$"
        self.assertRaisesRegex(ValueError, message, MaxInstance.from_networkx, graph, "mine", "town")

    @needs("networkx")
    def test_graphs_in_files(self):
        """Their formats keep the units."""
        import json

        for units in (Fraction(1, 10), 1), (Decimal("0.01"), Decimal("1E+2")), (3, Fraction(2, 7)):
            most = MaxInstance(2, 1, 2, [1], [2], [4], ["mine", "port"], units)
            graph, kept = most.to_networkx(), []
            kept.append(networkx.node_link_graph(json.loads(json.dumps(networkx.node_link_data(graph)))))
            kept.append(networkx.parse_graphml("\n".join(networkx.generate_graphml(graph))))
            kept.append(networkx.parse_gml("\n".join(networkx.generate_gml(graph))))
            for it in kept:
                self.assertEqual(MaxInstance.from_networkx(it, "mine", "port"), most)

    @needs("scipy")
    def test_scipy(self):
        from scipy.optimize import linprog
        from scipy.sparse import coo_matrix
        from scipy.sparse.csgraph import dijkstra, maximum_flow

        matrix = self.most.to_scipy()
        self.assertEqual(matrix.toarray().tolist(), [[0, 0, 9, 0], [8, 0, 1, 0], [0, 0, 0, 0], [0, 0, 0, 0]])
        flow = maximum_flow(matrix.astype("int32"), 1, 2)
        self.assertEqual(dimacs.certify_max_arrays(self.most, self.most.flows_from(flow)).value, flow.flow_value)
        found = MaxInstance.from_scipy(matrix, 1, 2)
        self.assertEqual((list(found.names), dimacs.solve_max_arrays(*found).value), ([0, 1, 2, 3], 9))
        matrix = self.graph.to_scipy()
        self.assertEqual(dijkstra(matrix, indices=0).tolist(), [0, 3, 3, float("inf")])
        found = Graph.from_scipy(matrix)
        self.assertEqual(listed(found), [4, [1, 2, 4], [2, 3, 4], [3, 0, 7]])
        program = self.least.to_scipy()
        found = linprog(**program)
        self.assertEqual(found.fun, dimacs.certify_min_arrays(self.least, self.least.flows_from(found)).value)
        twice = coo_matrix(([0.1, 0.2], ([0, 0], [1, 1])), shape=(2, 2))  # in this format one edge of their sum, by SciPy
        self.assertRaisesRegex(ValueError, "0.30000000000000004, not a multiple", lambda: Graph.from_scipy(twice, scale=10))
        found = Graph.from_scipy(matrix * 0.25, scale=Decimal("0.25"))
        self.assertEqual((found.weights.tolist(), found.units), ([3, 0, 7], (Decimal("0.25"), Decimal("0.25"))))
        with self.assertRaisesRegex(ValueError, r"the capacity at \(0, 1\) is \d+, which has more than 64 bits"):
            MaxInstance(2, 1, 2, [1, 1], [2, 2], [LAST, LAST]).to_scipy()

    @needs("pandas")
    def test_frames(self):
        table = self.least.to_frame()
        self.assertEqual(list(table.columns), ["source", "target", "low", "capacity", "cost"])
        self.assertEqual((table.index.tolist(), table["cost"].tolist()), ([1, 2, 3], [3, 7, 1]))
        supply = dict(enumerate(self.least.supplies.tolist(), 1))
        frame = dimacs.from_frame(table, "source", "target", low="low", capacity="capacity", cost="cost", supply=supply)
        self.assertEqual((frame.min_instance(), frame.min_instance().names), (self.least, (1, 2, 3)))
        frame = dimacs.from_frame(self.graph.to_frame(), "source", "target", cost="weight")
        self.assertEqual((listed(frame.graph())[-1], frame.graph().names), ([5, 3, 0, 7], (1, 2, 4, 3)))
        frame = dimacs.from_frame(self.most.to_frame(), "source", "target", capacity="capacity")
        scaled = dimacs.from_frame(self.most.to_frame(), "source", "target", capacity="capacity", scale=10).max_instance(2, 3)
        table, tenths = scaled.to_frame(), (Fraction(1, 10), Fraction(1, 10))
        self.assertEqual((scaled.caps.tolist(), table.attrs), ([50, 30, 10, 90], {"dimacs_units": "1/10 1/10"}))
        again = dimacs.from_frame(table, "source", "target", capacity="capacity")
        self.assertEqual((again.max_instance(2, 3).units, again.min_instance().units, again.graph().units), (tenths,) * 3)
        table["tons"] = 7  # which no unit was made for
        other = dimacs.from_frame(table, "source", "target", capacity="tons").max_instance(2, 3)
        self.assertEqual((other.caps.tolist(), other.units), ([7] * 4, None))
        self.assertEqual(dimacs.write(other).split(b"\n")[0], b"p max 3 4")
        message = "the attribute 'dimacs_units' isn't of all of 'tons' and 'capacity'"
        self.assertRaisesRegex(ValueError, message, dimacs.from_frame, table, "source", "target", low="tons", capacity="capacity")
        table["price"] = 2.5  # whole by no unit
        message = "scale= comes beside the attribute 'dimacs_units', '1/10 1/10'"
        self.assertRaisesRegex(ValueError, message, dimacs.from_frame, table, "source", "target", cost="price", scale=10)
        found = frame.max_instance(2, 3)
        self.assertEqual((found.names[found.source - 1], dimacs.solve_max_arrays(*found).value), (2, 9))
        self.assertEqual(found.to_frame()[["source", "target"]].values.tolist(), [[2, 1], [2, 1], [2, 3], [1, 3]])

    @needs("pandas")
    def test_columns_by_arc(self):
        """Items belong to arcs by their places, in each form, and there is one for each."""
        flows = [8, 3, 1, 0]
        for form in flows, iter(flows), numpy.array(flows), array("q", flows), pandas.Series(flows, [4, 3, 2, 1]):
            self.assertEqual(self.most.to_frame(flow=form)["flow"].tolist(), flows)
        for kind, message, flow in [
            (ValueError, "flow has 3 items, and there are 4 arcs", pandas.Series([8, 3, 1], [1, 2, 3])),
            (TypeError, "flow: one number, an array of 4 is wanted", 8),
            (TypeError, "flow is a dict, whose items have no places as those of an array", {1: 8}),
        ]:
            self.assertRaisesRegex(kind, message, self.most.to_frame, flow=flow)


if __name__ == "__main__":  # tests/targets.py runs it through node
    unittest.main()
