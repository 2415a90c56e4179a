"""The calls over graphs of networkx, which need not be installed: a DiGraph or MultiDiGraph, whose nodes may be anything.

The attributes of edges and nodes have the names and the defaults of networkx: without a capacity, or with inf, an edge
carries any amount; without a weight it costs 0, but is 1 long; without a demand a node has 0. Flows are dicts, as networkx
returns them: flow[u][v], of a MultiDiGraph flow[u][v][key]; an edge without an entry carries 0. Numbers may be whole floats;
with scale= (see dimacs.arrays) they are multiples of a unit.

Refused and PastLimit name nodes and edges as the graph does: an edge is (u, v), of a MultiDiGraph (u, v, key). ValueError
is raised if an argument doesn't belong to the graph, and TypeError if it has another shape.
"""

from __future__ import annotations

import math
from collections.abc import Mapping, Set
from itertools import repeat
from typing import Any, Iterable, Iterator, Sequence

from . import calls
from .answers import Certified, Number, Solved, Verdict
from .buffers import LIMIT, is_bool, unlabelled
from .explained import like
from .given import DISTANCES, FLOWS, GRAPH, INSIDE, MAX, MIN, POTENTIALS, Array, Given, Names
from .scales import Called, units_kept

#: flow[u][v] is an amount, or flow[u][v][key].
Flow = dict[Any, dict[Any, Any]]

#: What numbers are of, by the names of arrays.
_OF_EDGES = {"caps": "capacity", "costs": "weight", "weights": "weight", "flows": "flow"}
_OF_NODES = {"supplies": "demand", "distances": "distance", "potentials": "potential"}


def entries_of_flow(flow: Any, shape: str) -> dict[tuple[Any, ...], Any]:
    """The entries of a flow of this shape by their edges."""
    if isinstance(flow, tuple):
        raise TypeError("the flow is a tuple, which has its value too: pass the second of the two")
    entries: dict[tuple[Any, ...], Any] = {(): flow}
    for _ in range(shape.count("[")):
        _test_shape(all(isinstance(it, Mapping) for it in entries.values()), shape)
        entries = {(*edge, word): it for edge, more in entries.items() for word, it in more.items()}
    _test_shape(not any(isinstance(it, Mapping) for it in entries.values()), shape)
    return entries


def _test_shape(has_it: bool, shape: str) -> None:
    if not has_it:
        raise TypeError(f"the flow isn't a dict of dicts with the amounts {shape}, as it has to be for this graph")


class Arcs:
    """The nodes of a graph of networkx by their numbers, from 1, and its arcs in the order in which networkx has them: an
    undirected edge is two, one in each direction; a loop is one."""

    def __init__(self, graph: Any) -> None:
        self.graph = graph
        self.nodes = list(graph)
        self.number = {node: number for number, node in enumerate(self.nodes, 1)}
        self.tails: list[int] = []
        self.heads: list[int] = []
        is_multigraph = graph.is_multigraph()
        for tail, heads in graph.adjacency():
            ends = list(map(self.number.__getitem__, heads))
            if is_multigraph:
                ends = [head for head, keyed in zip(ends, heads.values()) for _ in keyed]
            self.tails.extend(repeat(self.number[tail], len(ends)))
            self.heads.extend(ends)

    def names(self) -> Iterator[tuple[Any, ...]]:
        """The name of each arc as networkx has it: (u, v), or (u, v, key) of a multigraph."""
        is_multigraph = self.graph.is_multigraph()
        for tail, heads in self.graph.adjacency():
            for head, keyed in heads.items():
                if is_multigraph:
                    yield from ((tail, head, key) for key in keyed)
                else:
                    yield tail, head

    def numbers(self, attribute: Any, missing: Any) -> list[Any]:
        """The number that each arc has by this attribute."""
        every = (heads.values() for _, heads in self.graph.adjacency())
        if self.graph.is_multigraph():
            every = (keyed.values() for some in every for keyed in some)
        return [data.get(attribute, missing) for some in every for data in some]

    def flow_dict(self, flows: Iterable[Any]) -> dict[Any, Any]:
        amounts = iter(flows)
        if not self.graph.is_multigraph():
            return {tail: dict(zip(heads, amounts)) for tail, heads in self.graph.adjacency()}
        return {
            tail: {head: dict(zip(keyed, amounts)) for head, keyed in heads.items()}
            for tail, heads in self.graph.adjacency()
        }


class NumberedGraph(Names):
    """The nodes and edges of a graph by the numbers that they have in arrays."""

    has_demands = has_inf_alone = True

    def __init__(self, graph: Any, scale: Any) -> None:
        super().__init__()
        if not hasattr(graph, "is_directed"):
            raise TypeError(f"the graph is a {type(graph).__name__}, and has to be a DiGraph or MultiDiGraph of networkx")
        if not graph.is_directed():
            raise ValueError("the graph is undirected: graph.to_directed() has an arc each way")
        self._arcs = Arcs(graph)
        self.nodes, self.edges = self._arcs.nodes, list(self._arcs.names())
        self._ends = self._arcs.tails, self._arcs.heads
        self._how: dict[str, Any] = {"scale": scale, "names": self}

    def number(self, node: Any) -> int:
        if node not in self._arcs.number:
            raise ValueError(f"{node!r} is no node of the graph")
        return self._arcs.number[node]

    def _keep_units(self, amounts: Called, costs: Called = ()) -> None:
        self.units = units_kept(self._arcs.graph.graph, self._how["scale"], amounts, costs)

    def max(self, source: Any, sink: Any, capacity: Any = "capacity") -> Given:
        ends = self.number(source), self.number(sink)
        self._keep_units([(capacity, ("capacity",))])
        return Given(MAX, len(self.nodes), *ends, *self._ends, self._arcs.numbers(capacity, math.inf), **self._how)

    def min(self, demand: Any = "demand", capacity: Any = "capacity", weight: Any = "weight") -> Given:
        demands = [it for _, it in self._arcs.graph.nodes(data=demand, default=0)]
        self._keep_units([(demand, ("demand",)), (capacity, ("capacity",))], [(weight, ("weight",))])
        numbers = [0] * len(self.edges), self._arcs.numbers(capacity, math.inf), self._arcs.numbers(weight, 0)
        return Given(MIN, len(self.nodes), *self._ends, *numbers, demands, **self._how)

    def graph(self, weight: Any = "weight") -> Given:
        self._keep_units([], [(weight, ("weight",))])
        return Given(GRAPH, len(self.nodes), *self._ends, self._arcs.numbers(weight, 1), **self._how)

    def paths(self, source: Any) -> Given:
        return self.graph().add_number("source", self.number(source))

    def by_node(self, values: Mapping[Any, Any], missing: Any, name: str) -> list[Any]:
        if not isinstance(values, Mapping):
            raise TypeError(f"{name} is a {type(values).__name__}, and has to be a dict by node")
        for node in values:
            self.number(node)
        return [values.get(node, missing) for node in self.nodes]

    def inside(self, side: Any) -> list[bool]:
        """Whether each node is on this side: one of these nodes, or one that a dict maps to True."""
        is_dict = isinstance(side, Mapping) and not isinstance(side, Set)  # a NodeView of networkx is both
        try:
            marks = side if is_dict else dict.fromkeys(unlabelled(side), True)
        except TypeError:
            raise TypeError(f"side is {side!r}, and has to be a set of nodes: the first of the two of minimum_cut") from None
        if not all(is_bool(it) for it in marks.values()):
            raise TypeError(f"side is a {type(side).__name__} that doesn't map nodes to bools, and has to be a set of nodes")
        # True is 1 to a dict: if nodes are numbers, a bool for each node would name the nodes 0 and 1.
        if any(is_bool(it) and not is_bool(self.nodes[self.number(it) - 1]) for it in marks):
            raise TypeError(f"side is a {type(side).__name__} of bools, and has to be a set of nodes")
        return self.by_node(marks, False, "side")

    def flows(self, flow: Mapping[Any, Any]) -> list[Any]:
        entries = entries_of_flow(flow, "flow[u][v][key]" if self._arcs.graph.is_multigraph() else "flow[u][v]")
        flows = [entries.pop(edge, 0) for edge in self.edges]
        for edge, amount in entries.items():
            if amount != 0:
                raise ValueError(f"the flow has an entry of {edge!r}, which is no edge of the graph")
        return flows

    # ---- what is named, and handed out, as networkx has it

    def arc(self, place: int) -> Any:
        return self.edges[place]

    def item(self, name: str, place: int) -> str:
        if name in _OF_EDGES:
            return f"{_OF_EDGES[name]} of edge {self.edges[place]!r}"
        return f"{_OF_NODES[name]} of node {self.nodes[place]!r}"

    def formed(self, kind: Array, items: Any) -> Any:
        if kind is FLOWS:
            return self._arcs.flow_dict(items)
        if kind is INSIDE:
            return {node for node, is_inside in zip(self.nodes, items) if is_inside}
        return dict(zip(self.nodes, items)) if kind is POTENTIALS else items

    def unbounded(self, message: str) -> Any:
        from networkx import NetworkXUnbounded

        return NetworkXUnbounded(message)

    def predecessors(self, source: Any, by_node: Sequence[int]) -> dict[Any, Any]:
        """The predecessor of each node that is reached; None of the source."""
        found = {node: self.nodes[it - 1] for node, it in zip(self.nodes, by_node) if it != 0}
        return {source: None, **found}


def judge_networkx_max(graph: Any, source: Any, sink: Any, flow: Any, side: Any, *, scale: Any = None) -> Verdict[Number]:
    """Judges that a flow, as maximum_flow returns it, is maximum, by the source's side of a cut: the first set of minimum_cut.

    The side is a set or list of nodes, or a dict that maps the nodes on it to True and others to False; a node that isn't in
    the dict isn't on it. Raises Refused if a test fails, and TypeError if the side is another dict.

    >>> import networkx
    >>> graph = networkx.DiGraph([("spring", "town", {"capacity": 3})])
    >>> judge_networkx_max(graph, "spring", "town", {"spring": {"town": 3}}, {"spring"}).value
    3
    """
    given = NumberedGraph(graph, scale)
    claim = given.max(source, sink).add(FLOWS, given.flows(flow)).add(INSIDE, given.inside(side))
    return calls.judge(claim)


def judge_networkx_min(graph: Any, flow: Any, potentials: Any = None, *, scale: Any = None) -> Verdict[Number]:
    """Judges that a flow, as network_simplex or max_flow_min_cost returns it, costs least, by a dict of potentials.

    The reduced cost of an edge is its weight, minus the potential of its tail, plus that of its head; a node that isn't in
    the dict has the potential 0. Raises Refused if a test fails. Without potentials it certifies the flow, as
    certify_networkx_min.

    >>> import networkx
    >>> graph = networkx.DiGraph([("mine", "port", {"weight": 7})])
    >>> judge_networkx_min(graph, {}, {"mine": 7}).value
    0
    """
    if potentials is None:
        certified = certify_networkx_min(graph, flow, scale=scale)
        return like(Verdict("min", certified.value), certified)
    given = NumberedGraph(graph, scale)
    prices = given.by_node(potentials, 0, "potentials")
    return calls.judge(given.min().add(FLOWS, given.flows(flow)).add(POTENTIALS, prices))


def certify_networkx_max(graph: Any, source: Any, sink: Any, flow: Any, *, scale: Any = None) -> Certified[Number, set[Any]]:
    """Decides whether a flow is maximum. Returns its value, and the nodes on the source's side of a cut that shows it.

    Raises NotOptimal with a flow of greater value, a dict, if the flow is feasible, but not maximum; Refused if it isn't
    feasible.

    >>> import networkx
    >>> graph = networkx.DiGraph([("spring", "town", {"capacity": 3})])
    >>> certify_networkx_max(graph, "spring", "town", {"spring": {"town": 3}})
    Certified(value=3, certificate={'spring'})
    """
    given = NumberedGraph(graph, scale)
    return calls.certify(given.max(source, sink).add(FLOWS, given.flows(flow)))


def certify_networkx_min(graph: Any, flow: Any, *, scale: Any = None) -> Certified[Number, dict[Any, Number]]:
    """Decides whether a flow costs least. Returns its cost, and a dict of potentials by node that show it.

    Raises NotOptimal with a cheaper flow, a dict, if the flow is feasible, but doesn't cost least; Refused as
    certify_networkx_max; GaveUp as certify_min_arrays.

    >>> import networkx
    >>> graph = networkx.DiGraph([("mine", "port", {"weight": 7})])
    >>> graph.add_nodes_from([("mine", {"demand": -2}), ("port", {"demand": 2})])
    >>> certify_networkx_min(graph, {"mine": {"port": 2}}).value
    14
    """
    given = NumberedGraph(graph, scale)
    return calls.certify(given.min().add(FLOWS, given.flows(flow)))


def certify_networkx_infeasible(graph: Any, *, scale: Any = None) -> Certified[None, set[Any]]:
    """Decides whether no flow meets the demands. Returns a set of nodes that shows it.

    Raises Feasible with a flow, a dict, if one does; GaveUp if one would have to carry 2^63 or more by edges without a
    capacity.

    >>> import networkx
    >>> graph = networkx.DiGraph([("mine", "port", {"capacity": 1})])
    >>> graph.add_nodes_from([("mine", {"demand": -2}), ("port", {"demand": 2})])
    >>> certify_networkx_infeasible(graph).inside
    {'mine'}
    """
    return calls.certify(NumberedGraph(graph, scale).min())


def certify_networkx_paths(graph: Any, source: Any, distances: Any, *, scale: Any = None) -> Certified[None, dict[Any, Any]]:
    """Decides whether these are the distances from a source, a dict by node. Returns a dict of predecessors.

    A node that isn't in the dict, or has inf there, is claimed to be unreachable. The predecessor of each node that is
    reached is on a shortest path to it; that of the source is None. Raises Refused if a distance isn't true, and ValueError
    if one isn't below 2^63 - 1.

    >>> import networkx
    >>> graph = networkx.path_graph("abc", networkx.DiGraph)
    >>> certify_networkx_paths(graph, "a", {"a": 0, "b": 1, "c": 2}).predecessors
    {'a': None, 'b': 'a', 'c': 'b'}
    """
    given = NumberedGraph(graph, scale)
    claim = given.paths(source).add(DISTANCES, given.by_node(distances, math.inf, "distances"))
    found = calls.certify(claim)
    return like(Certified(None, given.predecessors(source, found.predecessors)), found)


def solve_networkx_max(
    graph: Any, source: Any, sink: Any, limit: int = LIMIT, *, scale: Any = None
) -> Solved[Number, Flow, set[Any]]:
    """Makes a maximum flow. Returns its value, the flow, and the nodes on the source's side of a cut that shows it.

    Raises NetworkXUnbounded if edges without a capacity lead from the source to the sink; GaveUp after `limit` flows that
    aren't maximum.

    >>> import networkx
    >>> graph = networkx.DiGraph([("spring", "town", {"capacity": 0.3})])
    >>> solve_networkx_max(graph, "spring", "town", scale=10)
    Solved(value=Fraction(3, 10), solution={'spring': {'town': Fraction(3, 10)}, 'town': {}}, certificate={'spring'})
    """
    return calls.solve_max(NumberedGraph(graph, scale).max(source, sink), limit=limit)


def solve_networkx_min(graph: Any, limit: int = LIMIT, *, scale: Any = None) -> Solved[Number, Flow, dict[Any, Number]]:
    """Makes a flow of least cost. Returns its cost, the flow, and a dict of potentials by node that show it.

    Raises Infeasible with a set of nodes that shows it, if no flow is feasible; NetworkXUnbounded if a cycle of edges without
    a capacity costs less than nothing; GaveUp as solve_min_arrays.

    >>> import networkx
    >>> graph = networkx.DiGraph([("mine", "port", {"weight": 7})])
    >>> graph.add_nodes_from([("mine", {"demand": -2}), ("port", {"demand": 2})])
    >>> solve_networkx_min(graph)[:2]
    (14, {'mine': {'port': 2}, 'port': {}})
    """
    return calls.solve_min(NumberedGraph(graph, scale).min(), limit=limit)


def solve_networkx_paths(graph: Any, source: Any, *, scale: Any = None) -> Solved[None, dict[Any, Number], dict[Any, Any]]:
    """Makes the distances from a source. Returns a dict of the nodes that are reached, and a dict of predecessors, as
    certify_networkx_paths. Raises Refused if a weight is negative.

    >>> import networkx
    >>> solve_networkx_paths(networkx.path_graph("abc", networkx.DiGraph), "a").distances
    {'a': 0, 'b': 1, 'c': 2}
    """
    given = NumberedGraph(graph, scale)
    solved = calls.solve_paths(given.paths(source))
    found = given.predecessors(source, solved.predecessors)
    distances = {node: it for node, it in zip(given.nodes, solved.distances) if node in found}
    return like(Solved(None, distances, found), solved)
