"""Flows of least cost, with the arguments, answers and exceptions of networkx."""

from __future__ import annotations

import math
from typing import Any, NamedTuple

import networkx as nx
from networkx.utils import BinaryHeap

from ..answers import AmountsLike, Infeasible, Refused, Unbounded
from ..arrays import certify_min_arrays, solve_min_arrays
from ..buffers import NUMBERS
from ..distances import NegativeCycle, potentials_of
from ..graphs import Arcs
from .flows import solved as solved_max
from .given import Numbers, Unable, answered, graph_of, of_edges, of_nodes, unable, whole_ones


class Network(NamedTuple):
    """The capacities and weights of the arcs of a graph, and the demands of its nodes; and which of them came as floats."""

    arcs: Arcs
    caps: list[Any]
    weights: list[Any]
    demands: list[Any]
    are_amounts_floats: bool
    are_weights_floats: bool

    def shown(self, cost: int, flows: AmountsLike) -> tuple[Any, dict[Any, Any]]:
        """A cost and a flow as networkx has them."""
        costs = answered([cost], self.are_amounts_floats or self.are_weights_floats)
        return costs[0], self.arcs.flow_dict(answered(flows, self.are_amounts_floats))


def read(arcs: Arcs, capacity: Any, weight: Any) -> tuple[Numbers, Numbers]:
    return of_edges(arcs, capacity, math.inf, "capacity", True), of_edges(arcs, weight, 0, "weight", True)


def _network(given: Any, demand: Any, capacity: Any, weight: Any) -> Network:
    graph = graph_of(given)
    if not graph.is_directed():
        raise nx.NetworkXNotImplemented("not implemented for undirected type")
    arcs = Arcs(graph)
    caps, weights = read(arcs, capacity, weight)
    demands = of_nodes(graph, demand, 0, "demand")
    are_floats = caps.are_floats or demands.are_floats
    return Network(arcs, caps.values, weights.values, demands.values, are_floats, weights.are_floats)


def _loops_last(given: Network) -> list[tuple[Any, Any, Any]]:
    """The name, capacity and weight of each arc, in the order in which networkx tests them."""
    every = zip(given.arcs.names(), given.caps, given.weights)
    return sorted(every, key=lambda it: bool(it[0][0] == it[0][1]))


def _test_finite(given: Network) -> None:
    if not given.arcs.nodes:
        raise nx.NetworkXError("graph has no nodes")
    for node, demand in zip(given.arcs.nodes, given.demands):
        if abs(demand) == math.inf:
            raise nx.NetworkXError(f"node {node!r} has infinite demand")
    if not any(abs(it) == math.inf for it in given.weights):
        return
    for edge, cap, weight in _loops_last(given):
        if abs(weight) == math.inf and (cap != 0 or edge[0] == edge[1]):
            raise nx.NetworkXError(f"edge {edge!r} has infinite weight")


def _test_feasible(given: Network) -> None:
    if sum(given.demands) != 0:
        raise nx.NetworkXUnfeasible("total node demand is not zero")
    if min(given.caps, default=0) >= 0:
        return
    for edge, cap, _ in _loops_last(given):
        if cap < 0:
            raise nx.NetworkXUnfeasible(f"edge {edge!r} has negative capacity")


def _solved(given: Network, caps: list[Any], infeasible: str, unbounded: str) -> tuple[int, AmountsLike]:
    """The least cost of a flow that meets the demands within these capacities, and the amounts of such a flow."""
    # An infinite weight is left where nothing can be carried.
    weights = [0 if cap == 0 else it for cap, it in zip(caps, given.weights)]
    arcs, supplies = given.arcs, [-it for it in given.demands]
    if not all(NUMBERS.least <= it <= NUMBERS.greatest for it in supplies):
        raise Unable("a supply has more than 64 bits")
    try:
        with unable():
            words = arcs.tails, arcs.heads, [0] * len(caps), caps, weights, supplies
            return solve_min_arrays(len(arcs.nodes), *words)[:2]
    except Infeasible:
        raise nx.NetworkXUnfeasible(infeasible) from None
    except Unbounded:
        raise nx.NetworkXUnbounded(unbounded) from None


def solved(given: Network) -> tuple[int, AmountsLike]:
    """The least cost, and the amounts of such a flow, as the network simplex method finds them."""
    _test_finite(given)
    _test_feasible(given)
    messages = "no flow satisfies all node demands", "negative cycle with infinite capacity found"
    return _solved(given, given.caps, *messages)


def capacity_scaling(
    G: Any, demand: Any = "demand", capacity: Any = "capacity", weight: Any = "weight", heap: Any = BinaryHeap
) -> tuple[Any, dict[Any, Any]]:
    """The least cost of a flow that meets all demands, and such a flow. It isn't found by scaling capacities."""
    given = _network(G, demand, capacity, weight)
    if sum(given.demands) != 0:
        raise nx.NetworkXUnfeasible("Sum of the demands should be 0.")
    if any(abs(it) == math.inf for it in given.weights):
        raise Unable("the weight of an edge is infinite")
    unbounded = "Negative cost cycle of infinite capacity found. Min cost flow may be unbounded below."
    limitless = [arc for arc, cap in enumerate(given.caps) if cap == math.inf]
    try:
        with unable():
            every = given.arcs.tails, given.arcs.heads, given.weights
            potentials_of(len(given.arcs.nodes), *([numbers[arc] for arc in limitless] for numbers in every))
    except NegativeCycle:
        raise nx.NetworkXUnbounded(unbounded) from None
    return given.shown(*_solved(given, [max(it, 0) for it in given.caps], "No flow satisfying all demands.", unbounded))


def network_simplex(
    G: Any, demand: Any = "demand", capacity: Any = "capacity", weight: Any = "weight"
) -> tuple[Any, dict[Any, Any]]:
    """The least cost of a flow that meets all demands, and such a flow. It isn't found by the network simplex method."""
    given = _network(G, demand, capacity, weight)
    return given.shown(*solved(given))


def min_cost_flow(G: Any, demand: Any = "demand", capacity: Any = "capacity", weight: Any = "weight") -> dict[Any, Any]:
    """A flow of least cost that meets all demands."""
    return network_simplex(G, demand, capacity, weight)[1]


def min_cost_flow_cost(G: Any, demand: Any = "demand", capacity: Any = "capacity", weight: Any = "weight") -> Any:
    """The least cost of a flow that meets all demands."""
    return network_simplex(G, demand, capacity, weight)[0]


def max_flow_min_cost(
    G: Any, s: Any, t: Any, capacity: Any = "capacity", weight: Any = "weight"
) -> dict[Any, dict[Any, int]]:
    """A flow of least cost among the maximum flows."""
    graph = graph_of(G)
    # networkx adds those of the source and the sink to what the other nodes demand.
    if any(data.get("demand") for node, data in graph.nodes(data=True) if node not in (s, t)):
        raise Unable("nodes have demands, which networkx would meet too")
    found = solved_max(graph, s, t, capacity)
    demands = {s: -found.value, t: found.value}
    caps, weights = read(found.arcs, capacity, weight)
    by_node = [demands.get(node, 0) for node in found.arcs.nodes]
    given = Network(found.arcs, caps.values, weights.values, by_node, caps.are_floats, weights.are_floats)
    return given.shown(*solved(given))[1]


def read_flow(graph: Any, flow: Any, weight: Any) -> tuple[Numbers, Numbers]:
    """What each edge carries, and what a unit costs there."""
    edges = list(graph.edges(data=True))
    names = [(tail, head) for tail, head, _ in edges]
    amounts = whole_ones([flow[tail][head] for tail, head in names], lambda: names, "the flow of edge")
    for name, amount in zip(names, amounts.values):
        if amount < 0:
            raise Unable(f"the flow of edge {name!r} is negative")
    weights = [data.get(weight, 0) for *_, data in edges]
    return amounts, whole_ones(weights, lambda: names, "the weight of edge")


def cost_of_flow(G: Any, flowDict: Any, weight: Any = "weight") -> Any:
    """The cost of a flow: the least cost if each edge has to carry what it carries."""
    graph = graph_of(G)
    number = {node: number for number, node in enumerate(graph, 1)}
    amounts, weights = read_flow(graph, flowDict, weight)
    tails, heads = [number[tail] for tail, _ in graph.edges()], [number[head] for _, head in graph.edges()]
    supplies = [0] * len(number)
    for tail, head, amount in zip(tails, heads, amounts.values):
        supplies[tail - 1] += amount
        supplies[head - 1] -= amount
    if not all(NUMBERS.least <= it <= NUMBERS.greatest for it in supplies):
        raise Unable("what a node sends has more than 64 bits")
    carried = amounts.values
    try:
        with unable():
            words = len(number), tails, heads, carried, carried, weights.values, supplies, carried
            cost = certify_min_arrays(*words).value
    except Refused as it:
        raise Unable(f"the cost is out of range: {it}") from it
    return answered([cost], amounts.are_floats or weights.are_floats)[0]
