"""The calls over arrays of a million items, in each kind of outcome, over what tests/large_runs.py has as texts; and those
over texts of 100 MB. A call that gave up for want of memory above some size would keep its contract, and is seen by
nothing else. Which refusal it is, is in contracts."""

import array
import unittest

import dimacs
import large_runs
from large_runs import ITEMS, LESS, NODES, PAIRS, STEPS, VALUE
from shared import raised


def answer(call, *words):
    """The value of a yes, or the line of what isn't one."""
    try:
        return call(*words).value
    except dimacs.GaveUp:
        return "g limit"
    except dimacs.answers.Placed as it:
        return it.printed


def with_other(place, number, numbers):
    """The same numbers with another one at a place."""
    found = numbers.tolist()
    found[place] = number
    return found


def flows_of(kind, instance, texts):
    """The flows of the best solution, of one that isn't best, and of one with too much on the last arc."""
    return [dimacs.read("solution", texts[f"{kind}.{it}"], instance).flows for it in ("flow", "worse", "above")]


class Large(unittest.TestCase):
    @classmethod
    def setUpClass(cls):
        cls.max_texts = dict(large_runs.max_texts())

    def answers(self, *rows):
        for wanted, call, *words in rows:
            with self.subTest(call.__name__, wanted=wanted):
                self.assertEqual(answer(call, *words), wanted)

    def test_maximum_flows(self):
        texts = self.max_texts
        instance = nodes, source, sink, tails, heads, caps = dimacs.read("max", texts["max"])
        flows, slow, above = flows_of("max", instance, texts)
        cut, narrow = (dimacs.read("cut", texts[it]).inside for it in ("cut", "narrow"))
        lost = with_other(-1, flows[-1] - 1, flows)
        no_node = nodes, source, sink, tails, with_other(-1, 0, heads), caps
        judge, certify, solve = dimacs.judge_max_arrays, dimacs.certify_max_arrays, dimacs.solve_max_arrays
        made = solve(*instance)
        self.answers(
            (VALUE, judge, *instance, flows, cut),
            (VALUE, judge, *instance, flows, certify(*instance, flows).inside),
            (VALUE, judge, *instance, raised(dimacs.NotOptimal, certify, *instance, slow).better, cut),
            (VALUE, judge, *instance, made.flows, made.inside),
            ("g limit", solve, *instance, 1),
            (f"x arc {ITEMS - 1} NotSaturated", judge, *instance, flows, narrow),
            (f"x arc {ITEMS} AboveCap", certify, *instance, above),
            (f"x node {NODES} Balance", certify, *instance, lost),
            (f"x arc {ITEMS} NodeRange", judge, *no_node, flows, cut),
            (f"x arc {ITEMS} NodeRange", certify, *no_node, flows),
            (f"x arc {ITEMS} NodeRange", solve, *no_node),
        )

    def test_least_costs(self):
        texts = dict(large_runs.min_texts())
        instance = nodes, tails, heads, lows, caps, costs, supplies = dimacs.read("min", texts["min"])
        flows, dear, above = flows_of("min", instance, texts)
        potentials, steep = (dimacs.read("pot", texts[it]).potentials for it in ("pot", "steep"))
        more = with_other(-1, flows[-1] + 1, flows)
        disordered = nodes, tails, heads, with_other(-1, caps[-1] + 1, lows), caps, costs, supplies
        judge, certify = dimacs.judge_min_arrays, dimacs.certify_min_arrays
        cost = LESS * STEPS
        self.answers(
            (cost, judge, *instance, flows, potentials),
            (cost, judge, *instance, flows, certify(*instance, flows).potentials),
            (cost, judge, *instance, raised(dimacs.NotOptimal, certify, *instance, dear).better, potentials),
            ("x instance 0 0 Feasible", dimacs.certify_infeasible_arrays, *instance),
            (f"x arc {ITEMS} NotTight", judge, *instance, flows, steep),
            (f"x arc {ITEMS} AboveCap", certify, *instance, above),
            ("x node 2 Balance", certify, *instance, more),
            (f"x arc {ITEMS} BoundOrder", judge, *disordered, flows, potentials),
            (f"x arc {ITEMS} BoundOrder", certify, *disordered, flows),
        )

    def test_supplies(self):
        texts = dict(large_runs.supply_texts())
        met, unmet = (dimacs.read("min", texts[it]) for it in ("supplies", "unmet"))
        no_node = unmet.nodes, with_other(-1, 0, unmet.tails), *[*unmet][2:]
        judge, certify = dimacs.judge_infeasible_arrays, dimacs.certify_infeasible_arrays
        solve = dimacs.solve_min_arrays
        inside, made = dimacs.read("cut", texts["set"]).inside, solve(*met)
        self.answers(
            (None, judge, *unmet, inside),
            (None, judge, *unmet, certify(*unmet).inside),
            (None, judge, *unmet, raised(dimacs.Infeasible, solve, *unmet).inside),
            (PAIRS, dimacs.judge_min_arrays, *met, made.flows, made.potentials),
            ("g limit", solve, *met, 0),
            ("x certificate 0 0 NotViolated", judge, *met, inside),
            (f"x arc {ITEMS} NodeRange", judge, *no_node, inside),
            (f"x arc {ITEMS} NodeRange", solve, *no_node),
        )

    def test_distances(self):
        """Along a cycle, whose arcs weigh 1, or nothing: then labels are made of the distances."""
        texts = dict(large_runs.path_texts())
        nodes, tails, heads, ones = dimacs.read("gr", texts["gr"])
        labels, zeros = dimacs.read("dist", texts["dist"], 1), array.array("q", bytes(8 * ITEMS))
        judge, certify, solve = dimacs.judge_paths_arrays, dimacs.certify_paths_arrays, dimacs.solve_paths_arrays
        for weights, distances in (ones, labels.distances), (zeros, zeros):
            graph, before = (nodes, tails, heads, weights, 1), labels.predecessors
            looped = nodes, tails, with_other(-1, ITEMS, heads), with_other(-1, -1, weights), 1
            long = with_other(-1, distances[-1] + 1, distances)
            made = solve(*graph)
            self.answers(
                (1, judge, *graph, distances, before),
                (1, judge, *graph, distances, certify(*graph, distances).predecessors),
                (1, judge, *graph, made.distances, made.predecessors),
                (f"x node {ITEMS} NoTightArc", judge, *graph, long, before),
                (f"x arc {ITEMS - 1} NotShortest", certify, *graph, long),
                (f"x arc {ITEMS} NotShortest", judge, *looped, distances, before),
                (f"x arc {ITEMS} NegativeWeight", solve, *looped),
            )

    def test_texts_of_100_mb(self):
        short_text, flow, cut = (self.max_texts[it] for it in ("max", "max.flow", "cut"))
        long_text = short_text.replace("\na ", "\na " + 45 * " \t")
        self.assertGreater(len(long_text), 100_000_000)
        made = dimacs.solve_max(long_text)
        self.answers(
            (VALUE, dimacs.judge_max, long_text, flow, cut),
            (VALUE, dimacs.judge_max, long_text, flow, dimacs.certify_max(long_text, flow).certificate),
            (VALUE, dimacs.judge_max, long_text, made.solution, made.certificate),
        )
        self.assertEqual(dimacs.convert("max", long_text), short_text)
        self.assertEqual(dimacs.show("max", long_text), f"i max {NODES} {ITEMS} 1 2\n")
