"""Maximum flows and minimum cuts, with the arguments, answers and exceptions of networkx."""

from __future__ import annotations

import math
from typing import Any, NamedTuple

import networkx as nx

from ..answers import AmountsLike, MarksLike, Unbounded
from ..arrays import solve_max_arrays
from ..graphs import Arcs
from .given import Unable, answered, graph_of, of_edges, unable


class Found(NamedTuple):
    """A maximum flow, and the set that shows that it is one: for each node whether it is on the source's side."""

    arcs: Arcs
    value: int
    flows: AmountsLike
    inside: MarksLike
    are_floats: bool

    def shown_value(self) -> Any:
        return answered([self.value], self.are_floats)[0]


def _test_graph(graph: Any, source: Any, sink: Any) -> None:
    for node in (source, sink):
        if node not in graph:
            raise nx.NetworkXError(f"node {node} not in graph")
    if source == sink:
        raise nx.NetworkXError("source and sink are the same node")
    if graph.is_multigraph():
        raise nx.NetworkXError("MultiGraph and MultiDiGraph not supported (yet).")


def solved(given: Any, source: Any, sink: Any, capacity: Any) -> Found:
    graph = graph_of(given)
    _test_graph(graph, source, sink)
    arcs = Arcs(graph)
    capacities = of_edges(arcs, capacity, math.inf, "capacity", True)
    caps = [max(it, 0) for it in capacities.values]  # an edge without anything to carry is none to networkx
    ends = arcs.number[source], arcs.number[sink]
    try:
        with unable():
            value, flows, inside = solve_max_arrays(len(arcs.nodes), *ends, arcs.tails, arcs.heads, caps)
    except Unbounded:
        raise nx.NetworkXUnbounded("Infinite capacity path, flow unbounded above.") from None
    return Found(arcs, value, flows, inside, capacities.are_floats)


def _test_words(given: Any, flow_func: Any, kwargs: dict[str, Any]) -> None:
    graph_of(given)
    if flow_func is not None:
        raise Unable("flow_func names an algorithm of networkx")
    if kwargs:
        raise nx.NetworkXError("You have to explicitly set a flow_func if you need to pass parameters via kwargs.")


def _netted(flow: dict[Any, dict[Any, int]]) -> dict[Any, dict[Any, int]]:
    """A flow of an undirected graph, which goes along an edge in one direction only."""
    for tail, heads in flow.items():
        for head, amount in heads.items():
            less = min(amount, flow[head][tail])
            if less and head != tail:
                heads[head] -= less
                flow[head][tail] -= less
    return flow


def maximum_flow(
    flowG: Any, _s: Any, _t: Any, capacity: Any = "capacity", flow_func: Any = None, **kwargs: Any
) -> tuple[int, dict[Any, dict[Any, int]]]:
    """The value of a maximum flow, and the flow."""
    _test_words(flowG, flow_func, kwargs)
    found = solved(flowG, _s, _t, capacity)
    flow = found.arcs.flow_dict(answered(found.flows, found.are_floats))
    return found.shown_value(), flow if found.arcs.graph.is_directed() else _netted(flow)


def maximum_flow_value(
    flowG: Any, _s: Any, _t: Any, capacity: Any = "capacity", flow_func: Any = None, **kwargs: Any
) -> Any:
    """The value of a maximum flow."""
    _test_words(flowG, flow_func, kwargs)
    return solved(flowG, _s, _t, capacity).shown_value()


def minimum_cut(
    flowG: Any, _s: Any, _t: Any, capacity: Any = "capacity", flow_func: Any = None, **kwargs: Any
) -> tuple[int, tuple[set[Any], set[Any]]]:
    """The capacity of a minimum cut, and its two sides: the cut by which a maximum flow was judged."""
    _test_words(flowG, flow_func, kwargs)
    found = solved(flowG, _s, _t, capacity)
    side = {node for node, is_inside in zip(found.arcs.nodes, found.inside) if is_inside}
    return found.shown_value(), (side, set(found.arcs.nodes) - side)


def minimum_cut_value(flowG: Any, _s: Any, _t: Any, capacity: Any = "capacity", flow_func: Any = None, **kwargs: Any) -> Any:
    """The capacity of a minimum cut."""
    return maximum_flow_value(flowG, _s, _t, capacity, flow_func, **kwargs)


def gomory_hu_tree(G: Any, capacity: Any = "capacity", flow_func: Any = None) -> nx.Graph:
    """A tree whose lightest edge between two nodes is the capacity of a minimum cut between them, by Gusfield's method."""
    graph = graph_of(G)
    if graph.is_directed():
        raise nx.NetworkXNotImplemented("not implemented for directed type")
    if len(graph) == 0:
        raise nx.NetworkXError("Empty Graph does not have a Gomory-Hu tree representation")
    root, *others = graph
    parent, label = dict.fromkeys(others, root), {}
    for node in others:
        target = parent[node]
        value, (side, _) = minimum_cut(graph, node, target, capacity, flow_func)
        label[node] = value
        for it in others:
            if it != node and it in side and parent[it] == target:
                parent[it], label[it] = node, label.get(it, value)
        if target != root and parent[target] in side:
            parent[node], parent[target] = parent[target], node
            label[node], label[target] = label[target], value
    tree = nx.Graph()
    tree.add_nodes_from(graph)
    tree.add_weighted_edges_from((node, parent[node], label[node]) for node in others)
    return tree
