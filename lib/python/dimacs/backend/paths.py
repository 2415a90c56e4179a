"""Shortest paths, with the arguments, answers and exceptions of networkx."""

from __future__ import annotations

from typing import Any, Callable, Iterable, Iterator

import networkx as nx

from ..answers import UNREACHED
from ..distances import NegativeCycle, distances_from, potentials_of
from ..graphs import Arcs
from .given import MOST_FLOAT, Unable, answered, graph_of, of_edges, unable

Lengths = dict[Any, Any]
Paths = dict[Any, list[Any]]


class _Paths:
    """The arcs of a graph and their weights, as they are when it is read. If they aren't signed, none is negative."""

    def __init__(self, given: Any, weight: Any, signed: bool = False) -> None:
        graph = graph_of(given)
        if callable(weight):
            raise Unable("the weight is a function")
        self.arcs = Arcs(graph)
        self.weights = of_edges(self.arcs, weight, 1, "weight")
        if not signed and min(self.weights.values, default=0) < 0:
            edge = next(edge for edge, it in zip(self.arcs.names(), self.weights.values) if it < 0)
            raise Unable(f"the weight of edge {edge!r} is negative")

    def distances(self, starts: list[int]) -> tuple[list[int], list[int]]:
        """The distances from the nearest of these nodes."""
        arcs, lengths = self.arcs, self.weights.values
        nodes, tails, heads, start = len(arcs.nodes), arcs.tails, arcs.heads, starts[0]
        if len(starts) > 1:  # one more node leads to all sources
            nodes, start = nodes + 1, nodes + 1
            tails, heads, lengths = tails + [start] * len(starts), heads + starts, lengths + [0] * len(starts)
        try:
            with unable():
                return distances_from(nodes, tails, heads, lengths, start)
        except NegativeCycle:
            raise nx.NetworkXUnbounded("Negative cycle detected.") from None


class _Tree:
    """The nodes that sources reach, the nearest first, with their distances, and a shortest path to each."""

    def __init__(self, graph: _Paths, sources: Iterable[Any]) -> None:
        self._are_floats, self._nodes, self._number = graph.weights.are_floats, graph.arcs.nodes, graph.arcs.number
        self._sources = list(sources)
        self._distances, self._predecessors = graph.distances([self._number[it] for it in self._sources])

    def within(self, cutoff: Any = None) -> list[int]:
        """The places of the nodes whose distance isn't above the cutoff."""
        within = (it for it in range(len(self._nodes)) if self._is_within(self._distances[it], cutoff))
        return sorted(within, key=self._distances.__getitem__)

    def _is_within(self, length: int, cutoff: Any) -> bool:
        """Whether a node at this distance is reached, and not above the cutoff."""
        return length != UNREACHED and (cutoff is None or not length > cutoff)

    def lengths(self, cutoff: Any = None) -> Lengths:
        """The distances up to a cutoff, and those of the sources, which have one whatever the cutoff is."""
        places = self.within(cutoff)
        lengths = answered((self._distances[place] for place in places), self._are_floats)
        return {**dict.fromkeys(self._sources, 0), **dict(zip((self._nodes[place] for place in places), lengths))}

    def paths(self, cutoff: Any = None) -> Paths:
        """Shortest paths to the nodes up to a cutoff, and those to the sources."""
        places, found = self.within(cutoff), {source: [source] for source in self._sources}
        for place in places:
            waiting = []  # of nodes at one distance the predecessor may come later
            while self._nodes[place] not in found:
                waiting.append(self._nodes[place])
                place = self._predecessors[place] - 1
            path = found[self._nodes[place]]
            for node in reversed(waiting):
                path = found[node] = [*path, node]
        return found

    def to(self, target: Any, message: str, cutoff: Any = None) -> tuple[Any, list[Any]]:
        """The distance of a node, and a path. Raises NetworkXNoPath with this message if it isn't reached."""
        place = self._number.get(target, 0) - 1
        if place < 0 or not self._is_within(self._distances[place], cutoff):
            raise nx.NetworkXNoPath(message)
        path = [target]
        while path[-1] not in self._sources:
            path.append(self._nodes[self._predecessors[self._number[path[-1]] - 1] - 1])
        return answered([self._distances[place]], self._are_floats)[0], path[::-1]


def _test_nodes(graph: Any, message: str, *nodes: Any) -> None:
    for node in nodes:
        if node not in graph_of(graph):
            raise nx.NodeNotFound(message.format(node))


def _nearest(graph: Any, sources: Any, weight: Any) -> _Tree:
    """As Dijkstra's search finds them."""
    graph = graph_of(graph)
    if not sources:
        raise ValueError("sources must not be empty")
    _test_nodes(graph, "Node {} not found in graph", *sources)
    return _Tree(_Paths(graph, weight), sources)


def multi_source_dijkstra(
    G: Any, sources: Any, target: Any = None, cutoff: Any = None, weight: Any = "weight"
) -> tuple[Any, Any]:
    """The distances from the nearest source and shortest paths, or one distance and path."""
    tree = _nearest(G, sources, weight)
    if target in sources:
        return 0, [target]
    if target is None:
        return tree.lengths(cutoff), tree.paths(cutoff)
    return tree.to(target, f"No path to {target}.", cutoff)


def multi_source_dijkstra_path(G: Any, sources: Any, cutoff: Any = None, weight: Any = "weight") -> Paths:
    """Shortest paths from the nearest source."""
    return _nearest(G, sources, weight).paths(cutoff)


def multi_source_dijkstra_path_length(G: Any, sources: Any, cutoff: Any = None, weight: Any = "weight") -> Lengths:
    """The distances from the nearest source."""
    return _nearest(G, sources, weight).lengths(cutoff)


def single_source_dijkstra(
    G: Any, source: Any, target: Any = None, cutoff: Any = None, weight: Any = "weight"
) -> tuple[Any, Any]:
    """The distances from a node and shortest paths, or one distance and path."""
    return multi_source_dijkstra(G, [source], target, cutoff, weight)


def single_source_dijkstra_path(G: Any, source: Any, cutoff: Any = None, weight: Any = "weight") -> Paths:
    """Shortest paths from a node."""
    return multi_source_dijkstra_path(G, [source], cutoff, weight)


def single_source_dijkstra_path_length(G: Any, source: Any, cutoff: Any = None, weight: Any = "weight") -> Lengths:
    """The distances from a node."""
    return multi_source_dijkstra_path_length(G, [source], cutoff, weight)


def dijkstra_path(G: Any, source: Any, target: Any, weight: Any = "weight") -> Any:
    """A shortest path from one node to another."""
    return single_source_dijkstra(G, source, target, None, weight)[1]


def dijkstra_path_length(G: Any, source: Any, target: Any, weight: Any = "weight") -> Any:
    """The distance from one node to another."""
    tree = _nearest(G, [source], weight)
    return 0 if source == target else tree.to(target, f"Node {target} not reachable from {source}")[0]


def _from_each(graph: _Paths, show: Callable[[_Tree], Any]) -> Iterator[tuple[Any, Any]]:
    """What `show` makes of the tree from each node. What is yielded can't be left to networkx: Unable is raised before."""
    longest = sum(map(abs, graph.weights.values))
    if longest > (MOST_FLOAT if graph.weights.are_floats else 2**60):  # then potentials and sums with them have 64 bits
        raise Unable(f"weights add up to {longest}, and what is answered later may be out of range")
    return ((node, show(_Tree(graph, [node]))) for node in graph.arcs.nodes)


def all_pairs_dijkstra(G: Any, cutoff: Any = None, weight: Any = "weight") -> Iterator[tuple[Any, Any]]:
    """For each node the distances from it and shortest paths."""
    return _from_each(_Paths(G, weight), lambda tree: (tree.lengths(cutoff), tree.paths(cutoff)))


def all_pairs_dijkstra_path_length(G: Any, cutoff: Any = None, weight: Any = "weight") -> Iterator[tuple[Any, Any]]:
    """For each node the distances from it."""
    return _from_each(_Paths(G, weight), lambda tree: tree.lengths(cutoff))


def all_pairs_dijkstra_path(G: Any, cutoff: Any = None, weight: Any = "weight") -> Iterator[tuple[Any, Any]]:
    """For each node shortest paths from it."""
    return _from_each(_Paths(G, weight), lambda tree: tree.paths(cutoff))


def _nearest_signed(graph: Any, source: Any, weight: Any) -> _Tree:
    """As Bellman and Ford's search finds them."""
    _test_nodes(graph, "Source {} not in G", source)
    return _Tree(_Paths(graph, weight, True), [source])


def single_source_bellman_ford(G: Any, source: Any, target: Any = None, weight: Any = "weight") -> tuple[Any, Any]:
    """The distances from a node and shortest paths, or one distance and path; weights may be negative."""
    if source == target:
        _test_nodes(G, "Node {} is not found in the graph", source)
        return 0, [source]
    tree = _nearest_signed(G, source, weight)
    if target is None:
        return tree.lengths(), tree.paths()
    return tree.to(target, f"Target {target} cannot be reached from given sources")


def single_source_bellman_ford_path(G: Any, source: Any, weight: Any = "weight") -> Paths:
    """Shortest paths from a node; weights may be negative."""
    return _nearest_signed(G, source, weight).paths()


def single_source_bellman_ford_path_length(G: Any, source: Any, weight: Any = "weight") -> Lengths:
    """The distances from a node; weights may be negative."""
    return _nearest_signed(G, source, weight).lengths()


def bellman_ford_path(G: Any, source: Any, target: Any, weight: Any = "weight") -> Any:
    """A shortest path from one node to another; weights may be negative."""
    return single_source_bellman_ford(G, source, target, weight)[1]


def bellman_ford_path_length(G: Any, source: Any, target: Any, weight: Any = "weight") -> Any:
    """The distance from one node to another; weights may be negative."""
    if source == target:
        _test_nodes(G, "Node {} not found in graph", source)
        return 0
    return _nearest_signed(G, source, weight).to(target, f"node {target} not reachable from {source}")[0]


def negative_edge_cycle(G: Any, weight: Any = "weight", heuristic: bool = True) -> bool:
    """Whether a cycle has a negative weight: a proved call found one, or potentials that show that there is none."""
    graph = _Paths(G, weight, True)
    try:
        with unable():
            potentials_of(len(graph.arcs.nodes), graph.arcs.tails, graph.arcs.heads, graph.weights.values)
    except NegativeCycle:
        return True
    return False


def single_source_shortest_path(G: Any, source: Any, cutoff: Any = None) -> Paths:
    """Paths of the fewest edges from a node."""
    _test_nodes(G, "Source {} not in G", source)
    return _Tree(_Paths(G, None), [source]).paths(cutoff)


def single_source_shortest_path_length(G: Any, source: Any, cutoff: Any = None) -> Lengths:
    """The fewest edges of paths from a node."""
    _test_nodes(G, "Source {} is not in G", source)
    return _Tree(_Paths(G, None), [source]).lengths(cutoff)


def _tree(graph: Any, source: Any, weight: Any, method: str) -> _Tree:
    if weight is None:
        _test_nodes(graph, "Source {} is not in G", source)
        return _Tree(_Paths(graph, None), [source])
    return _nearest_signed(graph, source, weight) if method == "bellman-ford" else _nearest(graph, [source], weight)


def _some(given: Any, source: Any, target: Any, weight: Any, method: str, show: Callable[[_Tree], Any]) -> Any:
    """What `show` makes of the tree from a source, of that to a target, or of that from each node."""
    graph = graph_of(given)
    if source is None and target is None:
        return _from_each(_Paths(graph, weight, method == "bellman-ford"), show)
    if source is None and graph.is_directed():
        graph = graph.reverse(copy=False)
    return show(_tree(graph, target if source is None else source, weight, method))


def _one(graph: Any, source: Any, target: Any, weight: Any) -> tuple[Any, list[Any]]:
    _test_nodes(graph, "Source {} is not in G", source)
    _test_nodes(graph, "Target {} is not in G", target)
    return _Tree(_Paths(graph, weight), [source]).to(target, f"No path between {source} and {target}.")


def _test_method(given: Any, method: str) -> None:
    graph_of(given)
    if method not in ("dijkstra", "bellman-ford"):
        raise ValueError(f"method not supported: {method}")


def shortest_path(G: Any, source: Any = None, target: Any = None, weight: Any = None, method: str = "dijkstra") -> Any:
    """A shortest path; or those from a node, to a node, or between all."""
    _test_method(G, method)
    if source is not None and target is not None:
        is_signed = method == "bellman-ford" and weight is not None
        return bellman_ford_path(G, source, target, weight) if is_signed else _one(G, source, target, weight)[1]
    found = _some(G, source, target, weight, method, _Tree.paths)
    return found if target is None else {node: path[::-1] for node, path in found.items()}


def shortest_path_length(
    G: Any, source: Any = None, target: Any = None, weight: Any = None, method: str = "dijkstra"
) -> Any:
    """A distance; or those from a node, to a node, or between all."""
    _test_method(G, method)
    if source is not None and target is not None:
        if weight is None:
            return _one(G, source, target, None)[0]
        length = bellman_ford_path_length if method == "bellman-ford" else dijkstra_path_length
        return length(G, source, target, weight)
    return _some(G, source, target, weight, method, _Tree.lengths)


def has_path(G: Any, source: Any, target: Any) -> bool:
    """Whether a path leads from one node to another."""
    try:
        return bool(shortest_path(G, source, target))
    except nx.NetworkXNoPath:
        return False
