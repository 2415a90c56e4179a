"""The calls over graphs of networkx, with what its solvers answer."""

import unittest

import dimacs
from shared import Said, networkx, numpy, raised
from test_arrays import improved

ENDS = "spring", "town"
FLOW = {"spring": {"mill": 4, "farm": 8}, "mill": {"fort": 4}, "farm": {"town": 8}, "fort": {"town": 4}}
SIDE = {"spring", "mill", "farm"}
LAST = 2**63 - 1


def weighted(edges, name="capacity", kind="DiGraph"):
    """A graph of edges with a number by this name."""
    graph = getattr(networkx, kind)()
    graph.add_weighted_edges_from(edges, weight=name)
    return graph


def pipes():
    """A network from "spring" to "town"; a maximum flow has the value 12, and the cut has the first three nodes."""
    edges = [("spring", "mill", 6), ("spring", "farm", 8), ("mill", "farm", 3), ("mill", "fort", 4)]
    return weighted([*edges, ("farm", "town", 8), ("fort", "farm", 2), ("fort", "town", 9)])


def shipping():
    """Two edges between "a" and "b"; three units cost 9 at least."""
    graph = networkx.MultiDiGraph()
    graph.add_nodes_from([("a", {"demand": -3}), ("c", {"demand": 3})])
    graph.add_edge("a", "b", key="rail", capacity=2, weight=1)
    graph.add_edge("a", "b", key="road", capacity=9, weight=4)
    graph.add_edge("b", "c", weight=1)
    graph.add_edge("a", "c", capacity=1, weight=6)
    return graph


@unittest.skipUnless(networkx, "networkx isn't there")
class Networkx(Said):
    """What needs networkx."""


class MaximumFlow(Networkx):
    def test_edges_without_capacity(self):
        graph = pipes()
        graph.add_edge("mill", "moat", capacity=float("inf"))
        graph.add_edge("moat", "town")
        value, flow = networkx.maximum_flow(graph, *ENDS)
        self.assertEqual(dimacs.certify_networkx_max(graph, *ENDS, flow).value, value)
        del graph["spring"]["mill"]["capacity"]
        it = raised(dimacs.NotOptimal, dimacs.certify_networkx_max, graph, *ENDS, flow)
        self.assertGreater(sum(it.better["spring"].values()), value)
        message = "arc ('spring', 'mill') NotSaturated: it leaves the cut and carries 6, its capacity is inf"
        self.says(dimacs.Refused, message, dimacs.judge_networkx_max, graph, *ENDS, flow, {"spring"})
        flow["spring"]["mill"] = LAST
        raised(dimacs.Refused, dimacs.certify_networkx_max, graph, *ENDS, flow)

    def test_forms_of_a_side(self):
        graph = pipes()
        words, inside = (graph, *ENDS, FLOW), {node: node in SIDE for node in graph}
        forms = [SIDE, sorted(SIDE), iter(SIDE), inside, dict.fromkeys(SIDE, True), graph.subgraph(SIDE).nodes]
        if numpy is not None:
            forms.append({node: numpy.bool_(is_inside) for node, is_inside in inside.items()})
        for form in forms:
            self.assertEqual(dimacs.judge_networkx_max(*words, form), dimacs.Verdict("max", 12))
        outside = "node 'spring' SourceOutside"
        self.says(dimacs.Refused, outside, dimacs.judge_networkx_max, *words, dict.fromkeys(graph, False))

        class Table(list):
            """Is gone through by the names of its columns, as a DataFrame is."""

            def to_numpy(self):
                return [[1] * len(self)]

        forms = [dict.fromkeys(SIDE, 1), {**inside, "town": None}, {node: graph[node] for node in SIDE}, FLOW]
        for form in *forms, (SIDE, set(graph) - SIDE), Table(SIDE), 3, None:
            self.assertRaisesRegex(TypeError, "side", dimacs.judge_networkx_max, *words, form)
        for form in {**inside, "moat": False}, {*SIDE, "moat"}:
            self.says(ValueError, "'moat' is no node of the graph", dimacs.judge_networkx_max, *words, form)

    def test_bools_are_no_numbers_of_nodes(self):
        words = weighted([(0, 1, 3), (1, 2, 2)]), 0, 2, {0: {1: 2}, 1: {2: 2}}
        self.assertEqual(dimacs.judge_networkx_max(*words, [0, 1]).value, 2)
        marks = [True, False, False]
        for form in marks, set(marks), *([numpy.array(marks)] if numpy else []):
            self.assertRaisesRegex(TypeError, "side", dimacs.judge_networkx_max, *words, form)

    def test_several_edges_between_two_nodes(self):
        graph = weighted([("s", "t", 2), ("s", "t", 3)], kind="MultiDiGraph")
        flow, certify = {"s": {"t": {0: 2, 1: 3}}}, dimacs.certify_networkx_max
        self.assertEqual(certify(graph, "s", "t", flow).value, 5)
        it = raised(dimacs.NotOptimal, certify, graph, "s", "t", {"s": {"t": {1: 3}}})
        self.assertEqual(it.better, {**flow, "t": {}})
        message = "arc ('s', 't', 0) AboveCap: it carries 3, its capacity is 2"
        self.says(dimacs.Refused, message, certify, graph, "s", "t", {"s": {"t": {0: 3}}})


class LeastCost(Networkx):
    def test_attributes_that_are_missing(self):
        cost, flow = networkx.network_simplex(shipping())
        self.assertEqual((cost, dimacs.judge_networkx_min(shipping(), flow).value), (9, 9))
        graph = shipping()
        del graph["b"]["c"][0]["weight"]
        self.assertEqual(dimacs.solve_networkx_min(graph).value, 6)

    def test_better(self):
        graph = shipping()
        flow = {"a": {"b": {"road": 3}}, "b": {"c": {0: 3}}}
        for call in (dimacs.judge_networkx_min, dimacs.certify_networkx_min):
            it = raised(dimacs.NotOptimal, call, graph, flow)
            self.assertEqual(it.reason, "NotLeast")
            self.assertEqual(improved(dimacs.certify_networkx_min, graph, it.better).value, 9)
        message = "arc ('a', 'b', 'road') NotTight: its reduced cost is 4, and it carries 3 of 0 to 9"
        self.says(dimacs.Refused, message, dimacs.judge_networkx_min, graph, flow, {})

    def test_a_circle_that_pays_without_end(self):
        graph = weighted([("a", "b", -1), ("b", "a", 0)], "weight")
        it = raised(dimacs.NotOptimal, dimacs.certify_networkx_min, graph, {"a": {"b": 5}, "b": {"a": 5}})
        self.assertGreater(it.better["a"]["b"], 5)
        self.assertRaises(networkx.NetworkXUnbounded, dimacs.solve_networkx_min, graph)

    def test_floats_that_are_whole(self):
        graph, flow = shipping(), {"a": {"b": {"rail": 2, "road": 1}}, "b": {"c": {0: 3.0}}}
        graph.nodes["a"]["demand"], graph["b"]["c"][0]["weight"] = -3.0, 1.0
        self.assertEqual(dimacs.certify_networkx_min(graph, flow).value, 9)


class NoFlow(Networkx):
    def test_edges_without_capacity(self):
        graph = networkx.DiGraph([("a", "c"), ("b", "c")])
        networkx.set_node_attributes(graph, {"a": -LAST, "b": -LAST, "c": LAST}, "demand")
        graph.add_node("d", demand=LAST)
        self.assertIn(dimacs.certify_networkx_infeasible(graph).inside, (set("abc"), set("d")))
        graph.add_edge("c", "d")
        it = raised(dimacs.Feasible, dimacs.certify_networkx_infeasible, graph)
        self.assertEqual(it.flow["c"], {"d": LAST})
        graph.add_edge("d", "e")
        networkx.set_node_attributes(graph, {"d": LAST, "e": LAST, "c": 0}, "demand")
        for call in (dimacs.certify_networkx_infeasible, dimacs.solve_networkx_min):
            self.assertRaisesRegex(dimacs.GaveUp, "arcs without a limit", call, graph)


class Demands(Networkx):
    """Of two nodes with an edge from "a" to "b"."""

    def certified(self, leaves, enters, amount):
        graph = networkx.DiGraph([("a", "b", {"capacity": 500, "weight": 1})])
        networkx.set_node_attributes(graph, {"a": leaves, "b": enters}, "demand")
        return dimacs.certify_networkx_min(graph, {"a": {"b": amount}})

    @unittest.skipUnless(numpy, "numpy isn't there")
    def test_numbers_of_numpy(self):
        for leaves, enters, amount in [
            (-1, numpy.uint8(1), 1),
            (-1, numpy.uint64(1), 1),
            (-1, numpy.True_, 1),
            (numpy.int8(-1), numpy.float32(1), 1),
            (numpy.int8(-128), 128, 128),
        ]:
            with self.subTest(repr(enters)):
                self.assertEqual(self.certified(leaves, enters, amount).value, amount)

    @unittest.skipUnless(numpy, "numpy isn't there")
    def test_those_that_have_no_sign(self):
        for leaves in numpy.uint8(255), numpy.uint32(2**32 - 1), 255:
            message = f"node 'a' Balance: 1 leaves, its supply is {-int(leaves)}"
            self.says(dimacs.Refused, message, self.certified, leaves, 1, 1)
        message = f"demand of node 'a' is {2**64 - 1}, not a whole number of {1 - 2**63} to {2**63}"
        self.says(ValueError, message, self.certified, numpy.uint64(2**64 - 1), 1, 1)

    def test_ends(self):
        for leaves, enters in ((-LAST, LAST), (0, 2**63)):
            message = f"node 'a' Balance: 1 leaves, its supply is {-leaves}"
            self.says(dimacs.Refused, message, self.certified, leaves, enters, 1)
        for demand in (-(2**63), 2**63 + 1):
            message = f"demand of node 'a' is {demand}, not a whole number of {1 - 2**63} to {2**63}"
            self.says(ValueError, message, self.certified, demand, 0, 1)


class Distances(Networkx):
    def test_weights(self):
        graph = networkx.DiGraph([("a", "b"), ("b", "c")])
        graph.add_edge("a", "c", weight=3)
        graph.add_node("alone")
        for distances in ({"a": 0, "b": 1, "c": 2}, {"a": 0, "b": 1.0, "c": 2, "alone": float("inf")}):
            found = dimacs.certify_networkx_paths(graph, "a", distances)
            self.assertEqual(found.predecessors, {"a": None, "b": "a", "c": "b"})

    def test_refused(self):
        graph = networkx.DiGraph([("a", "b"), ("b", "c")])
        for distances, message in [
            ({"a": 0, "b": 1, "c": 3}, "arc ('b', 'c') NotShortest: 1 and its weight 1 are less than 3"),
            ({"a": 0, "b": 1}, "arc ('b', 'c') Escapes: its tail is at 1, its head isn't reached"),
            ({"a": 0, "b": 1, "c": 1}, "node 'c' NoTightArc: no walk gives its distance 1"),
            ({"b": 1, "c": 2}, "node 'a' NotShortest: the source is at inf"),
        ]:
            self.says(dimacs.Refused, message, dimacs.certify_networkx_paths, graph, "a", distances)


class Solves(Networkx):
    def setUp(self):
        self.graph = weighted(zip("aabbc", "bccdd", [4, 2, 2, 3, 5]))

    def test_no_flow(self):
        networkx.set_node_attributes(self.graph, {"a": -7, "d": 7}, "demand")
        no = raised(dimacs.Infeasible, dimacs.solve_networkx_min, self.graph)
        self.assertEqual(no.inside, {"a"})

    def test_an_edge_without_end(self):
        self.graph.add_edge("a", "d")
        self.assertRaises(networkx.NetworkXUnbounded, dimacs.solve_networkx_max, self.graph, "a", "d")
        del self.graph.edges["a", "b"]["capacity"]
        self.graph.remove_edge("a", "d")
        self.assertEqual(dimacs.solve_networkx_max(self.graph, "a", "d").value, 7)

    def test_distances(self):
        self.graph.add_node("e")
        self.graph.edges["c", "d"]["weight"] = 2
        none, distances, before = dimacs.solve_networkx_paths(self.graph, "a")
        self.assertEqual((none, distances), (None, {"a": 0, "b": 1, "c": 1, "d": 2}))
        self.assertEqual(dimacs.certify_networkx_paths(self.graph, "a", distances).predecessors, before)
        self.graph.edges["b", "c"]["weight"] = -1
        message = "arc ('b', 'c') NegativeWeight: its weight is -1"
        self.says(dimacs.Refused, message, dimacs.solve_networkx_paths, self.graph, "a")


class Misuse(Networkx):
    def test_what_does_not_belong_to_the_graph(self):
        graph = pipes()
        for call, *words in [
            (dimacs.certify_networkx_max, graph, "well", "town", FLOW),
            (dimacs.judge_networkx_max, graph, *ENDS, FLOW, {"spring", "well"}),
            (dimacs.certify_networkx_paths, graph, "well", {}),
            (dimacs.certify_networkx_paths, graph, "spring", {"well": 3}),
            (dimacs.judge_networkx_min, graph, FLOW, {"well": 3}),
        ]:
            self.says(ValueError, "'well' is no node of the graph", call, *words)
        for edge in ("well", "town"), ("town", "spring"):
            message = f"the flow has an entry of {edge!r}, which is no edge of the graph"
            self.says(ValueError, message, dimacs.certify_networkx_max, graph, *ENDS, {**FLOW, edge[0]: {edge[1]: 1}})
        message = "the graph is undirected: graph.to_directed() has an arc each way"
        self.says(ValueError, message, dimacs.certify_networkx_min, networkx.Graph(graph), FLOW)

    def test_shapes(self):
        one, several = networkx.DiGraph([("a", "b")]), networkx.MultiDiGraph([("a", "b")])
        shapes = [
            (one, "flow[u][v]", [None, [1], (1, {"a": {"b": 1}}), {"a": 1}, {("a", "b"): 1}, {"a": {"b": {0: 1}}}]),
            (several, "flow[u][v][key]", [{"a": {"b": 1}}, {"a": {"b": [1]}}, {"a": {"b": {0: {}}}}, {"a": None}]),
        ]
        for graph, shape, flows in shapes:
            for flow in flows:
                message = f"the flow isn't a dict of dicts with the amounts {shape}, as it has to be for this graph"
                if isinstance(flow, tuple):
                    message = "the flow is a tuple, which has its value too: pass the second of the two"
                with self.subTest(str(flow)):
                    self.says(TypeError, message, dimacs.certify_networkx_max, graph, "a", "b", flow)
                    self.says(TypeError, message, dimacs.certify_networkx_min, graph, flow)
        for form in [0, 1], None, ({"a": 0, "b": 1}, {}):
            message = f"distances is a {type(form).__name__}, and has to be a dict by node"
            self.says(TypeError, message, dimacs.certify_networkx_paths, one, "a", form)
        message = "potentials is a list, and has to be a dict by node"
        self.says(TypeError, message, dimacs.judge_networkx_min, one, {}, [0, 0])
        message = "the graph is a dict, and has to be a DiGraph or MultiDiGraph of networkx"
        self.says(TypeError, message, dimacs.certify_networkx_max, {"a": {"b": {}}}, "a", "b", {})

    def test_limits(self):
        graph = pipes()
        graph["mill"]["farm"]["capacity"] = -1
        message = "arc ('mill', 'farm') BoundOrder: its lower bound is 0, its capacity -1"
        self.says(dimacs.PastLimit, message, dimacs.certify_networkx_max, graph, *ENDS, {})
        message = "node 'town' NodeTwice: it is the source and the sink"
        self.says(dimacs.PastLimit, message, dimacs.certify_networkx_max, pipes(), "town", "town", {})
