"""What the backend is given: graphs, and numbers that are whole, or that are left to networkx."""

from __future__ import annotations

import math
import operator
from contextlib import contextmanager
from typing import Any, Callable, Iterable, Iterator, NamedTuple

from ..answers import GaveUp, PastLimit
from ..buffers import NUMBERS
from ..graphs import Arcs

#: Up to here each whole number is a float.
MOST_FLOAT = 2**53


class Unable(NotImplementedError):
    """What this backend doesn't answer, and why. If networkx chooses backends by itself, it takes the next one."""


class Graph:
    """A graph that networkx hands over. It is read when a function runs: the answer is of the graph as it is then."""

    __networkx_backend__ = "dimacs"

    def __init__(self, graph: Any) -> None:
        self.graph = graph

    def is_directed(self) -> bool:
        return bool(self.graph.is_directed())

    def is_multigraph(self) -> bool:
        return bool(self.graph.is_multigraph())


def graph_of(given: Any) -> Any:
    """The graph of networkx itself. What networkx keeps of it for another call is forgotten: the graph may change."""
    if not isinstance(given, Graph):
        return given
    kept = getattr(given.graph, "__networkx_cache__", None) or {}
    kept.get("backends", {}).pop(Graph.__networkx_backend__, None)
    return given.graph


@contextmanager
def unable() -> Iterator[None]:
    """Leaves a call to networkx if a number is past a limit, or an answer is out of range."""
    try:
        yield
    except (GaveUp, PastLimit) as it:
        raise Unable(str(it)) from it


class Numbers(NamedTuple):
    """Numbers as ints, or infinite ones, and whether some of them came as floats: then what is answered is too."""

    values: list[Any]
    are_floats: bool


def of_edges(arcs: Arcs, attribute: Any, missing: Any, name: str, infinite: bool = False) -> Numbers:
    """The number that each arc has. Raises Unable if one isn't whole, nor infinite if that is allowed."""
    return whole_ones(arcs.numbers(attribute, missing), arcs.names, f"the {name} of edge", infinite)


def of_nodes(graph: Any, attribute: Any, missing: int, name: str) -> Numbers:
    """The number that each node has, as those of edges."""
    numbers = [data.get(attribute, missing) for _, data in graph.nodes(data=True)]
    return whole_ones(numbers, lambda: list(graph), f"the {name} of node", True)


def whole_ones(numbers: list[Any], names: Callable[[], Iterable[Any]], what: str, infinite: bool = False) -> Numbers:
    """Numbers as ints of 64 bits; the names of what they belong to are asked for only if they aren't ints already."""
    if not numbers or set(map(type, numbers)) == {int} and _fits(min(numbers)) and _fits(max(numbers)):
        return Numbers(numbers, False)
    values = [_whole(number, f"{what} {name!r}", infinite) for number, name in zip(numbers, names())]
    return Numbers(values, any(isinstance(it, float) and math.isfinite(it) for it in numbers))


def _fits(number: int) -> bool:
    return NUMBERS.least <= number <= NUMBERS.greatest


def _whole(number: Any, what: str, infinite: bool) -> Any:
    if isinstance(number, float):
        if infinite and math.isinf(number):
            return number
        if not number.is_integer() or abs(number) > MOST_FLOAT:
            raise Unable(f"{what} is {number!r}, not a whole number up to 2^53")
        return int(number)
    if not hasattr(number, "__index__"):
        raise Unable(f"{what} is {number!r}, not a whole number")
    found = operator.index(number)
    if not _fits(found):
        raise Unable(f"{what} is {found}, which has more than 64 bits")
    return found


def answered(numbers: Iterable[int], are_floats: bool) -> list[Any]:
    """Numbers that were found, in the form of those that came. Raises Unable if one isn't surely a float."""
    found = list(numbers)
    if not are_floats:
        return found
    if any(abs(it) > MOST_FLOAT for it in found):
        raise Unable("an answer is above 2^53, and the graph has floats")
    return [float(it) for it in found]
