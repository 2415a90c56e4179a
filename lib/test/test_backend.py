"""The backend of networkx, next to networkx' own answers, over random graphs."""

import contextlib
import importlib.metadata
import inspect
import itertools
import math
import unittest
import unittest.mock
import warnings

import dimacs
from shared import draws, networkx, raised


def lacks():
    """What isn't there that these tests need."""
    if networkx is None:
        return "no networkx"
    if not hasattr(networkx, "_dispatchable"):
        return f"networkx {networkx.__version__}, and these tests need 3.3"
    if not list(importlib.metadata.entry_points(group="networkx.backends", name="dimacs")):
        return "networkx finds a backend by what is installed, and the package isn't"
    return None


LACKS = lacks()
if not LACKS:
    from dimacs import backend
    from dimacs.backend import info, running
CAPACITIES = [0, 1, 2, 5, 9, math.inf]
GRAPHS = "DiGraph MultiDiGraph Graph MultiGraph"


def answer_of(function, words, backend):
    """What is answered, or the kind and the text of what is raised."""
    try:
        return "answer", function(*words, backend=backend)
    except (networkx.NetworkXException, KeyError, TypeError, ValueError) as it:
        return type(it).__name__, str(it)


def pipes(kind="DiGraph"):
    """A network from s to t; a maximum flow has the value 6."""
    graph = getattr(networkx, kind)()
    for ends, capacity, weight in ("sa", 4, 1), ("sb", 2, 2), ("ab", 2, 1), ("at", 2, 3), ("bt", 5, 1):
        graph.add_edge(*ends, capacity=capacity, weight=weight)
    return graph


def graphs(seed, count, kinds, edges, **attributes):
    """Graphs of a few nodes, with loops, whose edges have most of these attributes, each one of some numbers, and what
    draws more of each."""
    for chance in draws(seed, count):
        graph = getattr(networkx, chance.choice(kinds.split()))()
        nodes = chance.randrange(1, 8)
        graph.add_nodes_from(range(nodes))
        for _ in range(chance.randrange(edges)):
            data = {name: chance.choice(some) for name, some in attributes.items() if chance.random() < 0.85}
            graph.add_edge(chance.randrange(nodes), chance.randrange(nodes), **data)
        yield chance, graph


def bring(chance, graph):
    """Adds demands that sum up to 0."""
    for _ in range(chance.randrange(4)):
        amount = chance.randrange(3)
        for node, units in (chance.choice(list(graph)), -amount), (chance.choice(list(graph)), amount):
            graph.nodes[node]["demand"] = graph.nodes[node].get("demand", 0) + units


def length_of(graph, path, weight):
    """How long a path is."""
    total = 0
    for tail, head in zip(path, path[1:]):
        data = graph[tail][head]
        total += min(it.get(weight, 1) for it in data.values()) if graph.is_multigraph() else data.get(weight, 1)
    return total


def measured(graph, answer, weight):
    """An answer with the last node and the length of a path in place of it: of equal ones another may be found."""
    if isinstance(answer, list):
        return answer[-1], length_of(graph, answer, weight)
    if isinstance(answer, tuple):
        return tuple(measured(graph, it, weight) for it in answer)
    if isinstance(answer, dict) or hasattr(answer, "__next__"):
        return {node: measured(graph, it, weight) for node, it in dict(answer).items()}
    return answer


@unittest.skipIf(LACKS, LACKS)
class Backend(unittest.TestCase):
    def compared(self, function, *words):
        """What networkx and the backend answer; None if both raise the same."""
        theirs, ours = (answer_of(function, words, backend) for backend in ("networkx", "dimacs"))
        if theirs[0] != "answer":
            self.assertEqual(ours, theirs)
            return None
        self.assertEqual(ours[0], "answer", ours[1])
        return theirs[1], ours[1]

    def same(self, function, *words):
        if both := self.compared(function, *words):
            self.assertEqual(both[1], both[0])

    def are_as_long(self, name, graph, *words, weight="weight"):
        """Both answer the same distances, and paths of the same lengths; or raise the same kind."""
        theirs, ours = (answer_of(getattr(networkx, name), (graph, *words), it) for it in ("networkx", "dimacs"))
        self.assertEqual(ours[0], theirs[0], (name, words, ours, theirs))
        if ours[0] == "answer":
            self.assertEqual(*(measured(graph, it[1], weight) for it in (ours, theirs)))

    def refused(self, name, *words, **more):
        """The reason with which the backend declines a call, which networkx answers then."""
        it = raised(NotImplementedError, getattr(networkx, name), *words, backend="dimacs", **more)
        self.assertIsInstance(it.__cause__, backend.Unable)
        return str(it.__cause__)


class Flows(Backend):
    def test_what_networkx_finds(self):
        for chance, graph in graphs(1, 300, "DiGraph Graph", 20, capacity=[*range(10), *[-1, 100, math.inf] * 3]):
            ends = chance.randrange(len(graph) + 1), chance.choice(list(graph))
            if both := self.compared(networkx.maximum_flow, graph, *ends):
                (value, _), (ours, flow) = both
                self.assertEqual(ours, value)
                self.test_flow(graph, *ends, value, flow)
                self.test_cut(graph, *ends, value)

    def test_flow(self, graph=None, source="s", sink="t", value=6, flow=None):
        graph = graph or pipes()
        flow = flow or networkx.maximum_flow(graph, source, sink, backend="dimacs")[1]
        self.assertEqual({node: set(heads) for node, heads in flow.items()}, {node: set(graph[node]) for node in graph})
        net = dict.fromkeys(graph, 0)
        for tail, heads in flow.items():
            for head, amount in heads.items():
                self.assertTrue(0 <= amount <= max(0, graph[tail][head].get("capacity", math.inf)))
                self.assertTrue(graph.is_directed() or tail == head or not amount or not flow[head][tail])
                net[tail] += amount
                net[head] -= amount
        self.assertEqual(net, {**dict.fromkeys(graph, 0), source: value, sink: -value})

    def test_cut(self, graph=None, source="s", sink="t", value=6):
        graph = graph or pipes()
        found, (side, others) = networkx.minimum_cut(graph, source, sink, backend="dimacs")
        self.assertTrue(source in side and sink in others and not side & others and side | others == set(graph))
        leaving = [it for tail in side for head, it in graph[tail].items() if head in others]
        across = sum(max(0, it.get("capacity", math.inf)) for it in leaving)
        self.assertEqual((found, across), (value, value))
        for function in networkx.minimum_cut_value, networkx.maximum_flow_value:
            self.assertEqual(function(graph, source, sink, backend="dimacs"), value)

    def test_exceptions(self):
        unbounded = networkx.DiGraph([("s", "a"), ("a", "t")])
        for graph, *ends in (
            (pipes(), "s", "s"),
            (pipes(), "s", "elsewhere"),
            (pipes("MultiDiGraph"), "s", "t"),
            (unbounded, "s", "t"),
            (networkx.DiGraph(), "s", "t"),
        ):
            for name in "maximum_flow", "minimum_cut", "maximum_flow_value", "max_flow_min_cost":
                self.assertIsNone(self.compared(getattr(networkx, name), graph, *ends))

    def test_capacities_near_the_end_of_64_bits(self):
        wide = {"capacity": 2**63 - 1}
        graph = networkx.DiGraph([("s", "a", wide), ("s", "b", wide), ("a", "t"), ("b", "t", {"capacity": 5})])
        self.assertEqual(networkx.maximum_flow_value(graph, "s", "t", backend="dimacs"), 2**63 + 4)
        graph.edges["s", "a"]["capacity"] = 2**63
        self.assertIn("more than 64 bits", self.refused("maximum_flow", graph, "s", "t"))

    def test_what_networkx_is_left(self):
        graph = pipes()
        by_name = {"flow_func": networkx.algorithms.flow.edmonds_karp}
        self.assertIn("flow_func", self.refused("maximum_flow", graph, "s", "t", **by_name))
        for amount in 2.5, 2.0**53 + 2, math.nan, "2", None:
            graph.edges["s", "a"]["capacity"] = amount
            self.assertIn("edge ('s', 'a')", self.refused("minimum_cut", graph, "s", "t"))
        graph.edges["s", "a"]["capacity"] = 0.5
        self.assertRaises(NotImplementedError, networkx.maximum_flow, graph, "s", "t", backend="dimacs")
        with networkx.config(backend_priority=["dimacs"]):
            self.assertEqual(networkx.maximum_flow_value(graph, "s", "t"), 2.5)

    def test_floats_that_are_whole(self):
        graph = pipes()
        graph.edges["s", "a"]["capacity"] = 3.0
        value, flow = networkx.maximum_flow(graph, "s", "t", backend="dimacs")
        self.assertEqual((repr(value), repr(flow["s"])), ("5.0", "{'a': 3.0, 'b': 2.0}"))
        self.assertEqual(repr(networkx.minimum_cut_value(graph, "s", "t", backend="dimacs")), "5.0")
        graph.add_edge("s", "t", capacity=2.0**53)
        with networkx.config(backend_priority=["dimacs"]):
            self.assertIsInstance(networkx.maximum_flow_value(graph, "s", "t"), float)
        self.assertRaises(NotImplementedError, networkx.maximum_flow, graph, "s", "t", backend="dimacs")

    def test_numbers_of_other_types(self):
        class Whole:
            def __index__(self):
                return 4

        graph = pipes()
        graph.edges["s", "a"]["capacity"] = Whole()
        graph.edges["a", "b"]["capacity"] = True
        self.assertEqual(networkx.maximum_flow_value(graph, "s", "t", backend="dimacs"), 5)

    def test_the_graph_as_it_is_now(self):
        """Where networkx keeps what it converted, it warns, and answers for the graph of then."""
        graph = pipes()
        with warnings.catch_warnings():
            warnings.simplefilter("error")
            for capacity in 1, 2, 3:
                graph["s"]["a"]["capacity"] = capacity
                self.assertEqual(networkx.maximum_flow_value(graph, "s", "t", backend="dimacs"), capacity + 2)

    def test_trees_of_cuts(self):
        for chance, graph in graphs(6, 100, "Graph", 20, capacity=range(9)):
            for *_, data in graph.edges(data=True):
                data.setdefault("capacity", 3)
            tree = networkx.gomory_hu_tree(graph, backend="dimacs")
            self.assertTrue(networkx.is_tree(tree) and set(tree) == set(graph))
            for one, other in itertools.combinations(graph, 2):
                path = networkx.shortest_path(tree, one, other)
                lightest = min(tree[tail][head]["weight"] for tail, head in zip(path, path[1:]))
                self.assertEqual(lightest, networkx.maximum_flow_value(graph, one, other))
        self.assertIsNone(self.compared(networkx.gomory_hu_tree, networkx.Graph()))
        self.assertIsNone(self.compared(networkx.gomory_hu_tree, networkx.DiGraph()))

    def test_views(self):
        graph = pipes()
        for view in graph.subgraph("sat"), graph.reverse(copy=False), graph.to_undirected(as_view=True):
            for ends in ("s", "t"), ("t", "s"):
                theirs, ours = self.compared(networkx.maximum_flow, view, *ends)
                self.assertEqual(ours[0], theirs[0])


class Costs(Backend):
    def test_what_networkx_finds(self):
        for chance, graph in graphs(2, 400, "DiGraph MultiDiGraph", 14, capacity=CAPACITIES, weight=range(-2, 9)):
            bring(chance, graph)
            if both := self.compared(networkx.network_simplex, graph):
                (cost, _), (ours, flow) = both
                self.assertEqual(ours, cost)
                self.assertEqual(dimacs.certify_networkx_min(graph, flow).value, cost)
                self.assertEqual(networkx.min_cost_flow_cost(graph, backend="dimacs"), cost)

    def test_capacity_scaling(self):
        caps = [*CAPACITIES, -1]
        for chance, graph in graphs(7, 300, "DiGraph MultiDiGraph", 14, capacity=caps, weight=range(-2, 9)):
            bring(chance, graph)
            if not any(tail != head and cap > 0 for tail, head, cap in graph.edges(data="capacity", default=math.inf)):
                continue  # networkx finds nothing wrong with demands then
            if both := self.compared(networkx.capacity_scaling, graph):
                (cost, _), (ours, flow) = both
                self.assertEqual(ours, cost)
                for *_, data in graph.edges(data=True):
                    data["capacity"] = max(0, data.get("capacity", math.inf))
                self.assertEqual(dimacs.certify_networkx_min(graph, flow).value, cost)
        self.assertIsNone(self.compared(networkx.capacity_scaling, pipes("Graph")))

    def test_least_cost_among_maximum_flows(self):
        for chance, graph in graphs(3, 200, "DiGraph Graph", 20, capacity=CAPACITIES, weight=range(9)):
            if both := self.compared(networkx.max_flow_min_cost, graph, 0, chance.choice(list(graph))):
                theirs, ours = (networkx.cost_of_flow(networkx.DiGraph(graph), it) for it in both)
                self.assertEqual(ours, theirs)

    def test_cost_of_a_flow(self):
        graph = pipes()
        flow = networkx.max_flow_min_cost(graph, "s", "t", backend="dimacs")
        for amount in flow["s"]["a"], 10**12, 2.0:
            flow["s"]["a"] = amount
            self.same(networkx.cost_of_flow, graph, flow)
        for amount, reason in (-1, "is negative"), (2.5, "the flow of edge"):
            flow["s"]["a"] = amount
            self.assertIn(reason, self.refused("cost_of_flow", graph, flow))
        del flow["s"]["a"]
        self.same(networkx.cost_of_flow, graph, flow)
        self.same(networkx.cost_of_flow, networkx.Graph(), {})

    def test_exceptions(self):
        cases = [networkx.DiGraph()]
        for change in (
            lambda it: it.nodes["s"].update(demand=-1),
            lambda it: (it.nodes["s"].update(demand=-9), it.nodes["t"].update(demand=9)),
            lambda it: it.nodes["s"].update(demand=-math.inf),
            lambda it: it.edges["s", "a"].update(weight=math.inf),
            lambda it: it.edges["s", "a"].update(capacity=-1),
            lambda it: it.add_edge("a", "a", weight=-1),
            lambda it: (it.add_edge("b", "c", weight=-3), it.add_edge("c", "b")),
            lambda it: (it.add_edge("a", "a", capacity=-1), it.edges["a", "b"].update(capacity=-1)),
        ):
            cases.append(pipes())
            change(cases[-1])
        for graph in cases:
            for function in networkx.network_simplex, networkx.min_cost_flow, networkx.min_cost_flow_cost:
                self.assertIsNone(self.compared(function, graph))
        self.assertIsNone(self.compared(networkx.min_cost_flow, pipes("Graph")))

    def test_floats_that_are_whole(self):
        graph = pipes()
        graph.nodes["s"]["demand"], graph.nodes["t"]["demand"] = -2, 2
        graph.edges["s", "a"]["weight"] = 1.0
        cost, flow = networkx.network_simplex(graph, backend="dimacs")
        self.assertEqual((repr(cost), repr(flow["b"])), ("6.0", "{'t': 2}"))
        graph.nodes["s"]["demand"] = -2.0
        self.assertEqual(repr(networkx.min_cost_flow(graph, backend="dimacs")["b"]), "{'t': 2.0}")

    def test_other_names(self):
        graph = networkx.DiGraph([(0, 1, {"room": 3, "price": 4})])
        graph.add_nodes_from([(0, {"supply": -2}), (1, {"supply": 2})])
        self.same(networkx.network_simplex, graph, "supply", "room", "price")

    def test_supplies_past_64_bits(self):
        """What a node supplies is its demand negated, which -2^63 can't be."""
        graph = networkx.DiGraph()
        graph.add_nodes_from([("s", {"demand": -(2**63)}), ("t", {"demand": 2**62}), ("u", {"demand": 2**62})])
        graph.add_edges_from([("s", "t"), ("s", "u")], weight=1)
        self.assertIn("more than 64 bits", self.refused("network_simplex", graph))
        with networkx.config(backend_priority=["dimacs"]):
            self.assertEqual(networkx.min_cost_flow_cost(graph), 2**63)
        wide = networkx.DiGraph()
        wide.add_edges_from([("s", "a"), ("s", "b"), ("a", "t"), ("b", "t")], capacity=2**63 - 1)
        self.assertIn("more than 64 bits", self.refused("max_flow_min_cost", wide, "s", "t"))

    def test_what_networkx_is_left(self):
        graph = pipes()
        graph.nodes["a"]["demand"] = 1
        self.assertIn("demands", self.refused("max_flow_min_cost", graph, "s", "t"))
        graph.nodes["a"]["demand"] = 0.5
        self.assertIn("the demand of node 'a'", self.refused("min_cost_flow", graph))
        graph.nodes["a"]["demand"] = 0
        graph.edges["s", "a"]["weight"] = 1.5
        self.assertIn("the weight of edge ('s', 'a')", self.refused("network_simplex", graph))


class Paths(Backend):
    def test_are_paths(self, graph=None, source="s", weight="weight", found=None):
        graph = graph or pipes()
        lengths, paths = found or networkx.single_source_dijkstra(graph, source, backend="dimacs")
        self.assertEqual(set(lengths), set(paths))
        for node, path in paths.items():
            self.assertEqual((path[0], path[-1], length_of(graph, path, weight)), (source, node, lengths[node]))

    def test_what_networkx_finds(self):
        for chance, graph in graphs(4, 300, GRAPHS, 20, weight=range(9)):
            source, target = chance.randrange(len(graph) + 1), chance.randrange(len(graph) + 1)
            cutoff, weight = chance.choice([None, 0, 3, 7.5, -1]), chance.choice(["weight", None])
            self.same(networkx.single_source_dijkstra_path_length, graph, source, cutoff, weight)
            self.same(networkx.dijkstra_path_length, graph, source, target, weight)
            if both := self.compared(networkx.single_source_dijkstra, graph, source, None, cutoff, weight):
                self.assertEqual(*((it[0], list(it[0].values())) for it in both))
                self.test_are_paths(graph, source, weight, both[1])
            if both := self.compared(networkx.single_source_dijkstra, graph, source, target, cutoff, weight):
                self.assertEqual(*(measured(graph, it, weight) for it in both))

    def test_other_forms(self):
        """None is no target, also where networkx has no default for it."""
        for chance, graph in graphs(8, 200, GRAPHS, 20, weight=range(9)):
            nodes = [*range(len(graph) + 1), None]
            source, target, cutoff = chance.choice(nodes), chance.choice(nodes), chance.choice([None, 0, 3, 7.5])
            weight, method = chance.choice(["weight", None]), chance.choice(["dijkstra", "bellman-ford", "other"])
            sources = chance.sample(nodes[:-1], chance.randrange(3))
            for name, *words in (
                ("dijkstra_path", source, target, weight),
                ("bellman_ford_path", source, target, weight),
                ("bellman_ford_path_length", source, target, weight),
                ("has_path", source, target),
                ("multi_source_dijkstra", sources, target, cutoff, weight),
                ("multi_source_dijkstra_path", sources, cutoff, weight),
                ("multi_source_dijkstra_path_length", sources, cutoff, weight),
                ("all_pairs_dijkstra", cutoff, weight),
                ("all_pairs_dijkstra_path", cutoff, weight),
                ("all_pairs_dijkstra_path_length", cutoff, weight),
                *(
                    (name, *ends, weight, method)
                    for name in ("shortest_path", "shortest_path_length")
                    for ends in ((source, target), (None, target), (source, None), (None, None))
                ),
            ):
                self.are_as_long(name, graph, *words, weight=weight)
            self.are_as_long("single_source_shortest_path", graph, source, cutoff, weight=None)
            self.are_as_long("single_source_shortest_path_length", graph, source, cutoff)

    def test_cycles(self):
        found = {True: 0, False: 0}
        for chance, graph in graphs(9, 300, "DiGraph MultiDiGraph", 16, weight=range(-2, 9)):
            theirs = networkx.negative_edge_cycle(graph.copy())
            self.assertEqual(networkx.negative_edge_cycle(graph, backend="dimacs"), theirs)
            found[theirs] += 1
        self.assertGreater(min(found.values()), 50)

    def test_negative_weights(self):
        for chance, graph in graphs(5, 300, "DiGraph MultiDiGraph Graph", 16, weight=[-2, -1, 0, 2, 3, 5, 8, 9]):
            source, target = chance.randrange(len(graph) + 1), chance.randrange(len(graph) + 1)
            self.same(networkx.single_source_bellman_ford_path_length, graph, source)
            if both := self.compared(networkx.single_source_bellman_ford, graph, source):
                self.assertEqual(both[1][0], both[0][0])
                self.test_are_paths(graph, source, "weight", both[1])
                self.assertEqual(networkx.single_source_bellman_ford_path(graph, source, backend="dimacs"), both[1][1])
            self.are_as_long("single_source_bellman_ford", graph, source, target)

    def test_what_networkx_is_left(self):
        graph = pipes()
        no = self.refused("single_source_dijkstra", graph, "s", weight=lambda *edge: 1)
        self.assertIn("function", no)
        graph.edges["a", "b"]["weight"] = -1
        self.assertIn("edge ('a', 'b') is negative", self.refused("dijkstra_path_length", graph, "s", "t"))
        graph.edges["a", "b"]["weight"] = 1.5
        self.assertIn("edge ('a', 'b')", self.refused("single_source_bellman_ford", graph, "s"))

    def test_floats_that_are_whole(self):
        graph = pipes()
        graph.edges["a", "b"]["weight"] = 1.0
        self.same(networkx.single_source_dijkstra, graph, "s", "t")
        lengths = networkx.single_source_bellman_ford_path_length(graph, "s", backend="dimacs")
        self.assertEqual(repr(lengths), "{'s': 0.0, 'a': 1.0, 'b': 2.0, 't': 3.0}")

    def test_numbers_out_of_range(self):
        graph = networkx.path_graph(3, networkx.DiGraph)
        networkx.set_edge_attributes(graph, 2**62, "weight")
        with networkx.config(backend_priority=["dimacs"]):
            self.assertEqual(networkx.dijkstra_path_length(graph, 0, 2), 2**63)
        self.assertRaises(NotImplementedError, networkx.dijkstra_path_length, graph, 0, 2, backend="dimacs")

    def test_what_is_yielded_is_answered(self):
        """A generator that networkx goes through can't be left to it when a number turns out not to be answered here."""
        for weight in 0.5, 2**62, 2.0**52:
            it = networkx.path_graph(4, networkx.DiGraph)
            networkx.set_edge_attributes(it, weight, "weight")
            for name in "all_pairs_dijkstra", "all_pairs_dijkstra_path", "all_pairs_dijkstra_path_length":
                self.refused(name, it)
                theirs = dict(getattr(networkx, name)(it, backend="networkx"))
                with all_run():
                    self.assertEqual(dict(getattr(networkx, name)(it)), theirs)
            for method in "dijkstra", "bellman-ford":
                self.refused("shortest_path", it, weight="weight", method=method)
                self.refused("shortest_path_length", it, weight="weight", method=method)

    def test_what_networkx_makes_of_distances(self):
        for chance in draws(11, 15):
            graph = networkx.connected_watts_strogatz_graph(8, 4, 0.4, seed=chance)
            some = chance.choice([range(1, 9), [0.5, 1, 2.25], list(map(float, range(1, 9)))])
            networkx.set_edge_attributes(graph, {edge: chance.choice(some) for edge in graph.edges}, "weight")
            for call in (
                lambda: networkx.wiener_index(graph, weight="weight"),
                lambda: networkx.barycenter(graph, weight="weight"),
                lambda: networkx.average_shortest_path_length(graph, weight="weight"),
                lambda: networkx.eccentricity(graph, weight="weight"),
                lambda: networkx.closeness_centrality(graph, distance="weight"),
                lambda: tour_of(graph, networkx.approximation.traveling_salesman_problem(graph, nodes=[0, 3, 5])),
                lambda: list(networkx.shortest_simple_paths(graph, 0, 5, weight="weight"))[0][-1],
            ):
                theirs = call()
                with all_run():
                    ours = call()
                self.assertEqual(ours, theirs)

    def test_the_graph_that_was_read(self):
        """The answers of one generator are of one graph."""
        graph = pipes()
        found = networkx.all_pairs_dijkstra_path_length(graph, backend="dimacs")
        wanted = dict(networkx.all_pairs_dijkstra_path_length(graph))
        next(found)
        graph.edges["a", "b"]["weight"] = 0.5
        graph.remove_node("t")
        self.assertEqual({"s": wanted["s"], **dict(found)}, wanted)


#: What isn't faster by networkx if no backend is named: a call, the number of nodes, and whether it runs here.
RUNS = """
maximum_flow(G, 0, 1)                                            | 2    | yes
network_simplex(G)                                               | 2    | yes
cost_of_flow(G, {})                                              | 9999 | no
has_path(G, 0, 1)                                                | 9999 | no
dijkstra_path(G, 0, 1)                                           | 9999 | no
dijkstra_path_length(G, 0, target=1)                             | 9999 | no
single_source_dijkstra(G, 0)                                     | 1000 | yes
single_source_dijkstra(G, 0)                                     | 999  | no
single_source_dijkstra(G, 0, None, None, "length")               | 1000 | yes
single_source_dijkstra(G, 0, 1)                                  | 9999 | no
single_source_dijkstra_path(G, 0, cutoff=5)                      | 9999 | no
multi_source_dijkstra(G, [0, 1])                                 | 1000 | yes
multi_source_dijkstra(G, [0, 1], target=5)                       | 9999 | no
all_pairs_dijkstra(G)                                            | 100  | yes
all_pairs_dijkstra(G)                                            | 99   | no
all_pairs_dijkstra_path(G, 7)                                    | 9999 | no
single_source_bellman_ford(G, 0, target=1)                       | 100  | yes
bellman_ford_path(G, 0, 1)                                       | 99   | no
negative_edge_cycle(G)                                           | 100  | yes
single_source_shortest_path(G, 0)                                | 9999 | no
shortest_path(G)                                                 | 9999 | no
shortest_path(G, weight="weight")                                | 100  | yes
shortest_path(G, 0, 1, weight="weight")                          | 9999 | no
shortest_path(G, 0, 1, weight="weight", method="bellman-ford")   | 100  | yes
shortest_path_length(G, target=1, weight="weight")               | 1000 | yes
shortest_path_length(G, target=1, weight="weight")               | 99   | no
shortest_path_length(G, 0, 1, "weight", "dijkstra", "too many")  | 9    | yes
"""


def all_run():
    """Has networkx call the backend for each graph, small ones too."""
    stack = contextlib.ExitStack()
    stack.enter_context(networkx.config(backend_priority=["dimacs"]))
    stack.enter_context(unittest.mock.patch.object(backend, "should_run", lambda *words: True))
    return stack


def tour_of(graph, nodes):
    """The ends of a tour and how many nodes it visits at least: of equal ones another may be found."""
    return nodes[0] == nodes[-1], set(nodes) >= {0, 3, 5}


class Registered(Backend):
    def test_what_runs(self):
        for line in RUNS.strip().splitlines():
            call, nodes, wanted = (it.strip() for it in line.split("|"))
            name, _, words = call.partition("(")
            graph = networkx.empty_graph(int(nodes), networkx.DiGraph)
            args, kwargs = eval(f"(lambda *args, **kwargs: (args, kwargs))({words}", {"G": graph})
            self.assertEqual(backend.should_run(name, args, kwargs), wanted == "yes", line)

    def test_what_networkx_does_faster(self):
        """It isn't called here, but if the backend is named."""
        graph = networkx.path_graph(5, networkx.DiGraph)
        with unittest.mock.patch("dimacs.backend.paths._Paths") as read:
            with networkx.config(backend_priority=["dimacs"]):
                self.assertTrue(networkx.has_path(graph, 0, 1))
                self.assertEqual(networkx.dijkstra_path(graph, 0, 2), [0, 1, 2])
                self.assertEqual(networkx.single_source_dijkstra_path_length(graph, 0, cutoff=1), {0: 0, 1: 1})
            read.assert_not_called()
        self.same(networkx.has_path, graph, 0, 1)

    def test_functions(self):
        dispatched = set(networkx.utils.backends._registered_algorithms)
        self.assertEqual(set(dir(backend)) & dispatched, set(info.FUNCTIONS))
        others = {"Unable", "can_run", "convert_from_nx", "convert_to_nx", "should_run"}
        self.assertEqual(set(backend.__all__), {*info.FUNCTIONS, *others})
        self.assertIn("certificate", networkx.minimum_cut.__doc__)

    def test_arguments(self):
        """They have the names, the order and the defaults that they have in networkx."""
        for name in info.FUNCTIONS:
            theirs = networkx.utils.backends._registered_algorithms[name].orig_func
            words = [inspect.signature(it).parameters.values() for it in (theirs, getattr(backend, name))]
            self.assertEqual(*([str(it.replace(annotation=it.empty)) for it in some] for some in words))

    def test_before_networkx_goes_on(self):
        """Before networkx 3.4 a call that isn't answered has to be known before it is made."""
        graph = pipes()
        with unittest.mock.patch.object(running, "_GOES_ON", False):
            self.assertTrue(running.can_run("maximum_flow", (graph, "s", "t"), {}))
            self.assertTrue(running.can_run("maximum_flow", (graph, "s"), {}))
            graph.edges["s", "a"]["capacity"] = 0.5
            self.assertFalse(running.can_run("maximum_flow", (graph, "s", "t"), {}))

    def test_wrong_arguments(self):
        self.assertRaises(TypeError, networkx.maximum_flow, pipes(), "s", backend="dimacs")
