"""What explains answers, from Python: over texts, arrays and graphs. The lines were worked out by hand, as those of
tests/explain.py and docs/JUDGING.md were."""

import concurrent.futures
import copy
import pickle
import unittest
from decimal import Decimal
from pathlib import Path

import dimacs
import explain  # tests/explain.py
import explained_yes
import test_arrays
from test_arrays import DISTANCES, ENDS, GRAPH, POTENTIALS, PREDECESSORS
from test_networkx import pipes
from test_texts import CLAIMED, CUT, FLOW, LEAST, MAX, MIN, PAIRS, POT, SOURCE, SURPLUS
from test_texts import GRAPH as ROADS
from shared import networkx, pandas, raised

PIPES, SHIPS = test_arrays.MAX, test_arrays.MIN

EXAMPLES = Path(__file__).resolve().parents[2] / "examples"

# What the second reader of tests/explain.py writes of the maximum flow of test_texts.py.
MAXIMUM = "v max 6\n" + explained_yes.lines("judge-max I S C", explain.TEXTS.get)

# The same for the pipes of docs/JUDGING.md.
OF_PIPES = """\
v max 12
on the source's side of the cut, 3 of the 5 nodes: 1 2 3
arcs into it, all empty: 1
  arc 6: 4 -> 3, FLOW 0
arcs out of it, all full: 2
  arc 4: 2 -> 4, CAP 4
  arc 5: 3 -> 5, CAP 8
4 + 8 = 12, the value of the flow: all flow to the sink has to cross these arcs, so none has a greater value
"""

IN_SURPLUS = (2, [1], [2], [0], [5], [1], [1, 0])

BALANCE = """\
x node 2 Balance
0 leaves node 2, 4 enters it: 4 too little leaves
entries out of it: 0
entries into it: 1
"""

FAULT = """\
x instance 12 4 BadNumber
instance:12: a 3 4  500.5
                    ^^^^^
WEIGHT is a whole number, digits with a sign or without, and not `500.5`
"""


class Explained(unittest.TestCase):
    def refused(self, call, *words, **how):
        it = raised(dimacs.Refused, call, *words, **how)
        return it.explain()


class Texts(Explained):
    def test_yes(self):
        self.assertEqual(dimacs.judge_max(MAX, FLOW, CUT).explain(), MAXIMUM)
        self.assertEqual(dimacs.certify_max(MAX.encode(), FLOW).explain(), MAXIMUM)
        self.assertEqual(dimacs.solve_max(MAX).explain(), MAXIMUM)
        self.assertIn("16 - 2 = 14: no flow costs less\n", dimacs.judge_min(MIN, LEAST, POT).explain())
        unmet = dimacs.judge_infeasible(SURPLUS, "p cut 2 2\nu 1\nu 2\n").explain()
        self.assertTrue(unmet.startswith("v infeasible\nin the set, 2 of the 2 nodes: 1 2\nits supply: 1\n"))
        self.assertEqual(dimacs.certify_infeasible(SURPLUS).explain(), unmet)

    def test_files(self):
        texts = [EXAMPLES / f"pipes.{ending}" for ending in ("max", "solution", "cut")]
        self.assertEqual(dimacs.judge_max(*texts).explain(), OF_PIPES)
        self.assertEqual(self.refused(dimacs.convert, "gr", EXAMPLES / "road-faulty.gr"), FAULT)

    def test_routes(self):
        solved = dimacs.solve_paths(ROADS, PAIRS)
        for answer in (solved, dimacs.judge_paths(ROADS, PAIRS, solved.certificate)):
            self.assertEqual(answer.explain().splitlines()[:3], ["v 1 2 5", "v 1 4 unreachable", "1 -> 2: 5"])
        far = "the farthest node from 1, of 1 that it reaches: 1 -> 2: 5"
        self.assertEqual(dimacs.solve_paths(ROADS, SOURCE).explain().splitlines()[1], far)
        self.assertEqual(dimacs.certify_paths(ROADS, CLAIMED).explain().splitlines()[1], far)

    def test_refusals(self):
        entry = "  solution:2: f 1 2 4\n"
        self.assertEqual(self.refused(dimacs.judge_max, MAX, "s 4\nf 1 2 4\n", CUT), BALANCE + entry)
        more = self.refused(dimacs.certify_max, MAX, "s 0\n")
        self.assertIn("\nbetter:1: s 6\nthis flow is feasible, and has 6 more than the 0 that is claimed\n", more)
        flow = self.refused(dimacs.certify_infeasible, MIN).splitlines()
        costs = "the instance has a feasible flow, which costs "
        self.assertEqual(flow[0], "x instance 0 0 Feasible")
        self.assertRegex(flow[1], f"^{costs}[0-9]+: it is in `flow`$")
        self.assertEqual(self.refused(dimacs.solve_min, SURPLUS), dimacs.certify_infeasible(SURPLUS).explain())
        unknown = self.refused(dimacs.spread_max, MAX, "s 0\nf 4 3 2\n").splitlines()
        self.assertEqual(unknown[2:], ["instance has no arc from 4 to 3", "arc 5 leads from 3 to 4"])
        # A solver here empties no files.
        ends = self.refused(dimacs.solve_max, "p max 1 1\nn 1 s\nn 2 t\n")
        self.assertNotIn("is empty", ends)
        self.assertIn("node 2 is above the 1 nodes that line 1 declares", ends)

    def test_what_is_kept(self):
        text = bytearray(MAX.encode())
        answer = dimacs.judge_max(text, FLOW, CUT)
        text[-2:] = b"6\n"  # the last arc's capacity, which no line names
        self.assertEqual(answer.explain(), MAXIMUM)
        text[:] = b""
        self.assertEqual(answer.explain().splitlines()[0], "x instance 1 0 ProblemMissing")
        for again in (pickle.loads(pickle.dumps(answer)), copy.deepcopy(answer)):
            self.assertEqual(again, answer)
            self.assertRaises(ValueError, again.explain)
        self.assertRaises(ValueError, dimacs.Verdict("max", 6).explain)


class Arrays(Explained):
    def test_yes(self):
        for answer in (
            dimacs.judge_max_arrays(*PIPES, test_arrays.FLOW, test_arrays.CUT),
            dimacs.certify_max_arrays(*PIPES, test_arrays.FLOW),
            dimacs.solve_max_arrays(*PIPES),
        ):
            self.assertEqual(answer.explain(), MAXIMUM)
        cheapest = dimacs.judge_min(MIN, LEAST, POT).explain().replace(" (0 without a line)", "")
        self.assertEqual(dimacs.judge_min_arrays(*SHIPS, test_arrays.LEAST, POTENTIALS).explain(), cheapest)
        unmet = dimacs.certify_infeasible(SURPLUS).explain()
        self.assertEqual(dimacs.certify_infeasible_arrays(*IN_SURPLUS).explain(), unmet)
        self.assertEqual(self.refused(dimacs.solve_min_arrays, *IN_SURPLUS), unmet)
        far = "the farthest node from 1, of 1 that it reaches: 1 -> 2: 5"
        for answer in (
            dimacs.judge_paths_arrays(*GRAPH, 1, DISTANCES, PREDECESSORS),
            dimacs.certify_paths_arrays(*GRAPH, 1, DISTANCES),
            dimacs.solve_paths_arrays(*GRAPH, 1),
        ):
            self.assertEqual(answer.explain().splitlines()[:2], ["v sp ss 1", far])

    def test_refusals(self):
        # Each arc has an entry: two leave the node.
        leave = "entries out of it: 2\n  arc 3: 2 -> 3, FLOW 0\n  arc 4: 2 -> 4, FLOW 0\n"
        lines = f"{BALANCE}  arc 1: 1 -> 2, FLOW 4\n".replace("entries out of it: 0\n", leave).replace("entries", "flows")
        self.assertEqual(self.refused(dimacs.certify_max_arrays, *PIPES, [4, 0, 0, 0, 0]), lines)
        above = self.refused(dimacs.judge_max_arrays, *PIPES, [9, 2, 1, 3, 3], test_arrays.CUT).splitlines()
        self.assertEqual(above[0], "x arc 1 AboveCap")
        self.assertEqual(above[-1], "arc 1 carries 9, more than its CAP, 4")
        self.assertIn("arc 1: 1 -> 2, FLOW 9", above)
        less = self.refused(dimacs.certify_min_arrays, *SHIPS, test_arrays.DEAR).splitlines()
        is_less = "the flow in `better` is feasible, and costs 1 less than the 15 that is claimed"
        self.assertEqual(less, ["x solution 0 0 NotLeast", is_less])
        loose = self.refused(dimacs.judge_paths_arrays, *GRAPH, 1, [0, 4, *DISTANCES[2:]], PREDECESSORS).splitlines()
        self.assertEqual(loose[:2], ["x node 2 NoTightArc", "node 2: distance 4, predecessor 1"])
        negative = self.refused(dimacs.solve_paths_arrays, 2, [1], [2], [-4], 1).splitlines()
        below = "arc 1 has the WEIGHT -4, below 0: the solver takes no such graph"
        self.assertEqual(negative, ["x arc 1 NegativeWeight", "arc 1: 1 -> 2, WEIGHT -4", below])

    def test_what_no_text_says(self):
        """The source's distance isn't in a text."""
        source = "x node 1 NotShortest\nnode 1 is the source: its distance has to be 0, and is 1\n"
        lines = self.refused(dimacs.judge_paths_arrays, *GRAPH, 1, [1, 5, *DISTANCES[2:]], PREDECESSORS)
        self.assertEqual(lines, source)
        if networkx:
            graph = networkx.path_graph("ab", networkx.DiGraph)
            lines = self.refused(dimacs.certify_networkx_paths, graph, "a", {"a": 2, "b": 3})
            self.assertEqual(lines, source.replace("is 1", "is 2") + "nodes by number: 1 is 'a'\n")

    def test_words_of_arrays(self):
        """No line speaks of lines, orders or bounds that arrays don't have."""
        inf, most = float("inf"), 2**63 - 1
        wide = self.refused(dimacs.judge_max_arrays, 2, 1, 2, [1, 1], [2, 2], [1, inf], [3, -most], [True, False])
        ends = "arc 1: 1 -> 2"
        carries = "arc 1 carries 3, more than its CAP, 1"
        self.assertEqual(wide, f"x arc 1 AboveCap\n{ends}, CAP 1\n{ends}, FLOW 3\n{carries}\n")
        far = 4, [1, 2, 3], [2, 3, 4], [5, 4, 0], 1
        late = self.refused(dimacs.judge_paths_arrays, *far, [0, 5, 10, 10], [0, 1, 2, 3])
        self.assertEqual(late.splitlines()[:2], ["x node 3 NoTightArc", "node 3: distance 10, predecessor 2"])
        late = self.refused(dimacs.certify_paths_arrays, *far, [0, 5, 10, 10]).splitlines()
        self.assertEqual(late[1:3], ["arc 2: 2 -> 3, WEIGHT 4", "node 3: distance 10"])
        self.assertRegex(late[3], "^arc 2 leads from .*: node 3 is at distance 9 at most, and its distance is 10$")
        escaped = self.refused(dimacs.certify_paths_arrays, *far, [0, 5, inf, inf]).splitlines()
        self.assertEqual(escaped[2], "node 2: distance 5")
        self.assertTrue(escaped[3].endswith(", and has no distance"), escaped)
        alone = self.refused(dimacs.certify_paths_arrays, 2, [], [], [], 1, [0, 3]).splitlines()
        self.assertEqual(alone[-1], "if no walk leads to node 2, it has no distance")

    def test_no_words_of_texts(self):
        """Each part stands in the lines of its call, and no word that only texts have."""
        wrong = test_arrays.FLOW[:-1] + [0]
        near, outside = [0, 4, *DISTANCES[2:]], [False] * 4
        rows = (
            ("with potentials y and r = COST - y(TAIL) + ", dimacs.judge_min_arrays, *SHIPS, test_arrays.LEAST, POTENTIALS),
            ("whose distance is 0, each arc raises the distance by its WEIGHT", dimacs.solve_paths_arrays, *GRAPH, 1),
            ("flows out of it: 1\n  arc 5: 3 -> 4, FLOW 0\nflows into it: 2\n", dimacs.certify_max_arrays, *PIPES, wrong),
            ("at distance 4, and its predecessor, node 1, at ", dimacs.judge_paths_arrays, *GRAPH, 1, near, PREDECESSORS),
            ("below 0: the solver takes no such graph\n", dimacs.solve_paths_arrays, 2, [1], [2], [-4], 1),
            ("it marks the nodes on the source's side", dimacs.judge_max_arrays, *PIPES, test_arrays.FLOW, outside),
            ("side: mark the other nodes", dimacs.judge_max_arrays, *PIPES, test_arrays.FLOW, [*outside[1:], True]),
        )
        for part, call, *arrays in rows:
            try:
                lines = call(*arrays).explain()
            except dimacs.Refused as no:
                lines = no.explain()
            self.assertIn(part, lines)
            self.assertNotRegex(lines, r"\b(block|entr(y|ies)|labels?|lines?|lists?|PREDs?|RADIUS)\b")

    def test_units_and_bases(self):
        tens = [Decimal(it) / 10 for it in PIPES[-1]]
        scaled = dimacs.solve_max_arrays(*PIPES[:-1], tens, scale=10).explain()
        self.assertEqual(scaled, f"{MAXIMUM}numbers are whole here: 1 is an amount of 1/10\n")
        *_, units = dimacs.solve_min_arrays(2, [1], [2], [0], [5], [3], [4, -4], scale=10).explain().splitlines()
        costs = "a COST or potential of 1/10, a cost of a flow of 1/100"
        self.assertEqual(units, f"numbers are whole here: 1 is an amount of 1/10, {costs}")
        ends = [[it - 1 for it in ids] for ids in ENDS]
        from_0 = dimacs.solve_max_arrays(4, 0, 3, *ends, PIPES[-1], base=0).explain()
        self.assertEqual(from_0, f"{MAXIMUM}nodes and arcs are numbered from 1 here, and from 0 in the arrays\n")

    def test_no_limit(self):
        wide = (2, 1, 2, [1], [2], [float("inf")])
        lines = self.refused(dimacs.judge_max_arrays, *wide, [3], [True, False])
        self.assertIn("CAP inf\n", lines)
        self.assertIn("carries 3 of its CAP, inf\n", lines)
        most = 2**63 - 1
        lines = dimacs.solve_max_arrays(3, 1, 2, [1, 1, 3], [2, 2, 1], [most, most, float("inf")]).explain()
        self.assertIn(f"arc 2: 1 -> 2, CAP {most}\n{most} + {most} = {2 * most}, the value", lines)

    def test_predecessors_of_any_number(self):
        graph = 4, [1, 4, 3], [4, 3, 2], [5, 4, 1], 1
        distances, before = [0, 10, 9, 5], [0, 3, 4, 1]
        for answer in (
            dimacs.solve_paths_arrays(*graph),
            dimacs.certify_paths_arrays(*graph, distances),
            dimacs.judge_paths_arrays(*graph, distances, before),
        ):
            lines = answer.explain().splitlines()
            self.assertEqual(lines[0], "v sp ss 1")
            self.assertIn("1 -> 4 -> 3 -> 2: 5 + 4 + 1 = 10", lines[1])
        near = self.refused(dimacs.judge_paths_arrays, *graph, [0, 9, 9, 5], before)
        self.assertTrue(near.startswith("x node 2 NoTightArc\nnode 2: distance 9, predecessor 3\n"), near)
        in_a_circle = self.refused(dimacs.judge_paths_arrays, *graph, distances, [0, 3, 2, 1])
        self.assertTrue(in_a_circle.startswith("x node "), in_a_circle)

    def test_threads(self):
        answer = dimacs.solve_max_arrays(*PIPES)
        with concurrent.futures.ThreadPoolExecutor(4) as pool:
            self.assertEqual({it.result() for it in [pool.submit(answer.explain) for _ in range(40)]}, {MAXIMUM})

    def test_arrays_that_changed(self):
        caps = list(PIPES[-1])
        answer = dimacs.solve_max_arrays(*PIPES[:-1], caps)
        caps[1] = -1
        self.assertEqual(answer.explain().splitlines()[0].partition(",")[0], "the arrays hold other numbers now")


@unittest.skipUnless(networkx, "networkx isn't there")
class Graphs(Explained):
    NAMES = "nodes by number: 1 is 'spring', 2 is 'mill', 3 is 'farm', 4 is 'fort', 5 is 'town'\n"
    ARCS = "arcs by number: 4 is ('mill', 'fort'), 5 is ('farm', 'town'), 6 is ('fort', 'farm')\n"

    def test_yes(self):
        graph = pipes()
        value, flow = networkx.maximum_flow(graph, "spring", "town")
        self.assertEqual(value, 12)
        for answer in (
            dimacs.certify_networkx_max(graph, "spring", "town", flow),
            dimacs.judge_networkx_max(graph, "spring", "town", flow, {"spring", "mill", "farm"}),
            dimacs.solve_networkx_max(graph, "spring", "town"),
        ):
            self.assertEqual(answer.explain(), OF_PIPES + self.NAMES + self.ARCS)

    def test_refusal(self):
        flow = {"spring": {"mill": 4}}
        lines = self.refused(dimacs.certify_networkx_max, pipes(), "spring", "town", flow).splitlines()
        self.assertEqual(lines[:2], ["x node 2 Balance", "0 leaves node 2, 4 enters it: 4 too little leaves"])
        nodes = "nodes by number: 1 is 'spring', 2 is 'mill', 3 is 'farm', 4 is 'fort'"
        arcs = "arcs by number: 1 is ('spring', 'mill'), 3 is ('mill', 'farm'), 4 is ('mill', 'fort')"
        self.assertEqual(lines[-2:], [nodes, arcs])

    def test_amounts_are_no_nodes(self):
        """Of 7 units, 4 + 2 can leave node 1; node 4 is in no line."""
        graph = networkx.DiGraph()
        graph.add_nodes_from([("a", {"demand": -7}), "b", "c", ("d", {"demand": 7})])
        graph.add_weighted_edges_from([("a", "b", 4), ("a", "c", 2), ("b", "d", 9), ("c", "d", 9)], "capacity")
        *_, nodes, _ = dimacs.certify_networkx_infeasible(graph).explain().splitlines()
        self.assertEqual(nodes, "nodes by number: 1 is 'a', 2 is 'b', 3 is 'c'")


@unittest.skipUnless(pandas, "pandas isn't there")
class Frames(Explained):
    def test_yes(self):
        table = {"from": list("11223"), "to": list("23344"), "tons": PIPES[-1]}
        frame = pandas.DataFrame(table, index=list("abcde"))
        answer = dimacs.from_frame(frame, "from", "to", capacity="tons").solve_max("1", "4")
        names = "nodes by number: 1 is '1', 2 is '2', 3 is '3'\narcs by number: 1 is 'a', 2 is 'b'\n"
        self.assertEqual(answer.explain(), MAXIMUM + names)
        frame.sort_index(ascending=False, inplace=True)
        self.assertEqual(answer.explain(), MAXIMUM + names)
