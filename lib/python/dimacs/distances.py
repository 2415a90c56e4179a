"""Distances for weights that may be negative, from calls that certify and judge."""

from __future__ import annotations

from typing import Sequence

from .answers import UNREACHED, GaveUp, NotOptimal
from .arrays import certify_min_arrays, judge_paths_arrays, solve_paths_arrays
from .buffers import NUMBERS


class NegativeCycle(ValueError):
    """There is a cycle of negative weight: walks along it have no least weight."""

    def __init__(self) -> None:
        super().__init__("there is a cycle of negative weight")


def distances_from(
    nodes: int, tails: Sequence[int], heads: Sequence[int], weights: Sequence[int], source: int,
    potentials: Sequence[int] | None = None,
) -> tuple[list[int], list[int]]:
    """Makes the distances from a source, UNREACHED of a node that isn't reached, and predecessors by number, from 1, or 0. They
    were judged with these weights before they are handed out.

    For negative weights it takes the potentials of potentials_of, if they are at hand. Raises NegativeCycle if the source
    reaches one, and GaveUp if a number that is needed is out of range.
    """
    if min(weights, default=0) >= 0:
        solved = solve_paths_arrays(nodes, tails, heads, weights, source)
        return list(solved.distances), list(solved.predecessors)
    if potentials is None:
        reached = solve_paths_arrays(nodes, tails, heads, [0] * len(tails), source).distances
        arcs = [arc for arc, tail in enumerate(tails) if reached[tail - 1] != UNREACHED]
        tails, heads, weights = ([numbers[arc] for arc in arcs] for numbers in (tails, heads, weights))
        potentials = potentials_of(nodes, tails, heads, weights)
    return _with_negative(nodes, tails, heads, weights, source, potentials)


def _with_negative(
    nodes: int, tails: Sequence[int], heads: Sequence[int], weights: Sequence[int], source: int, potentials: Sequence[int]
) -> tuple[list[int], list[int]]:
    """Weights are changed by potentials, so that none is negative: all walks between two nodes are longer by the same."""
    ends = zip(weights, tails, heads)
    reduced = [weight - potentials[tail - 1] + potentials[head - 1] for weight, tail, head in ends]
    if max(reduced, default=0) > NUMBERS.greatest:
        raise GaveUp("a reduced weight is out of range")
    _, found, predecessors = solve_paths_arrays(nodes, tails, heads, reduced, source)
    start = potentials[source - 1]
    reached = {node: it + start - own for node, (it, own) in enumerate(zip(found, potentials)) if it != UNREACHED}
    if not all(NUMBERS.least <= it < UNREACHED for it in reached.values()):
        raise GaveUp("a distance is out of range")
    distances = [reached.get(node, UNREACHED) for node in range(nodes)]
    judge_paths_arrays(nodes, tails, heads, weights, source, distances, predecessors)
    return distances, list(predecessors)


def potentials_of(nodes: int, tails: Sequence[int], heads: Sequence[int], weights: Sequence[int]) -> list[int]:
    """Potentials by which no arc has a negative reduced weight. Raises NegativeCycle if there is a negative cycle.

    If no arc carries more than 1 and no node has a supply, the flow of zeros costs least exactly if there is no such cycle.
    """
    none, ones = [0] * len(tails), [1] * len(tails)
    try:
        return list(certify_min_arrays(nodes, tails, heads, none, ones, weights, [0] * nodes, none).potentials)
    except NotOptimal:
        raise NegativeCycle() from None
