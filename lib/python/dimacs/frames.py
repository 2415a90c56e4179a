"""Edges in a DataFrame of pandas, with nodes of any name; and answers on the same index."""

from __future__ import annotations

import math
from collections.abc import Mapping
from typing import Any, NamedTuple

import pandas as pd
from pandas.api.types import is_hashable

from . import calls
from .answers import Certified, Number, Parts, Solved
from .buffers import LIMIT
from .explained import like
from .instances import Graph, MaxInstance, MinInstance
from .given import DISTANCES, FLOWS, GRAPH, INSIDE, MAX, MIN, POTENTIALS, Array, Given, Names
from .scales import units_kept


__all__ = ["Frame", "FrameAnswer", "from_frame"]


class _FrameAnswer(NamedTuple):
    value: Number | None
    edges: pd.DataFrame | None
    nodes: pd.DataFrame


class FrameAnswer(Parts, _FrameAnswer):
    """An answer, which was judged: its value or cost, None for distances; a DataFrame of edges on the index of the frame, with
    its two columns of ends and "flow", None for distances; and a DataFrame by node, with what shows it: "inside",
    "potential", or "distance" and "predecessor".

    >>> table = {"from": ["mine", "port"], "to": ["port", "town"], "tons": [5, 4]}
    >>> answer = from_frame(pd.DataFrame(table), "from", "to", capacity="tons").solve_max("mine", "town")
    >>> answer.value
    4
    >>> answer.edges
       from    to  flow
    0  mine  port     4
    1  port  town     4
    >>> answer.nodes["inside"].to_dict()
    {'mine': True, 'port': True, 'town': False}
    """

    @property
    def flows(self) -> pd.Series:
        """The flows of edges, as a Series."""
        return None if self.edges is None else self.edges["flow"]


class _FrameNames(Names):
    """Arcs by the index of the frame, nodes by their names; flows and what is by node as a frame has them."""

    has_inf_alone = True

    def __init__(self, frame: Frame) -> None:
        super().__init__(nodes=frame.nodes)
        self._frame = frame

    def arc(self, place: int) -> Any:
        return self._frame.edges.index[place]

    def item(self, name: str, place: int) -> str:
        if name in ("supplies", "distances"):
            return f"{name}[{self.node(place)!r}]"
        return f"{self._frame.columns.get(name, name)} of row {self.arc(place)!r}"

    def formed(self, kind: Array, items: Any) -> Any:
        if kind is FLOWS:
            return self._frame._by_edge(items)
        columns = {INSIDE: "inside", POTENTIALS: "potential"}
        return self._frame._by_node(**{columns[kind]: items}) if kind in columns else items


def _listed(column: pd.Series) -> list[Any]:
    """The items of a column. A shorter float than Python's stands for another number than that: it stays what it is."""
    is_short = str(column.dtype).lower() in ("float16", "float32")
    return list(column.to_numpy() if is_short else column.tolist())


def _by_label(given: Any, name: str) -> dict[Any, Any]:
    """A dict or Series by node. Raises TypeError for anything else, and ValueError if a Series has a node twice: which of its
    numbers is meant isn't said."""
    if not isinstance(given, (Mapping, pd.Series)):
        raise TypeError(f"{name} is a {type(given).__name__}, and has to be a dict or a Series by node")
    found: dict[Any, Any] = {}
    for node, number in zip(given.index, _listed(given)) if isinstance(given, pd.Series) else given.items():
        if node in found:
            raise ValueError(f"{name} has the node {node!r} twice")
        found[node] = number
    return found


def _column(edges: pd.DataFrame, name: Any) -> pd.Series:
    """The only column of this name. Raises ValueError if there isn't one, and TypeError for what can't name one."""
    if not is_hashable(name):
        raise TypeError(f"a {type(name).__name__} names no column: pass the name of one")
    count = edges.columns.tolist().count(name)
    if count == 0:
        raise ValueError(f"the frame has no column {name!r}: it has {', '.join(map(repr, edges.columns))}")
    if count > 1:
        raise ValueError(f"the frame has the column {name!r} twice")
    return edges[name]


def _ends(edges: pd.DataFrame, name: Any) -> list[Any]:
    """The nodes that a column names. Raises ValueError if one is missing, and TypeError if one has no hash."""
    column = _column(edges, name)
    if name == "flow" or isinstance(name, tuple) and name[:1] == ("flow",):
        raise ValueError(f"the column {name!r} is one of ends, and answers have a column 'flow' of their own")
    missing = column.isna().to_numpy()
    nodes: list[Any] = column.tolist()
    for label, node, is_missing in zip(edges.index, nodes, missing):
        if is_missing or not is_hashable(node):
            kind = ValueError if is_missing else TypeError
            raise kind(f"{name} of row {label!r} is {node!r}, which can't name a node")
    return nodes


def _column_of(items: Any, index: Any) -> pd.Series:
    """A column in which items stay what they are: pandas makes ints beside inf or None floats, which lose digits."""
    listed = list(items)
    return pd.Series(listed, index, dtype=None if len(set(map(type, listed))) == 1 else object)


#: How to_frame calls columns of amounts, and of costs.
_WRITTEN: list[list[tuple[str, tuple[str, ...]]]] = [[("lows", ("low",)), ("caps", ("capacity",))], [("costs", ("cost", "weight"))]]


class Frame:
    """A network of edges in a DataFrame. See from_frame.

    >>> from_frame(pd.DataFrame({"from": ["mine", "mine"], "to": ["port", "port"]}), "from", "to")
    Frame of 2 edges between 2 nodes
    """

    def __init__(self, edges: pd.DataFrame, tail: Any, head: Any, columns: dict[str, Any], supply: Any, scale: Any) -> None:
        if not isinstance(edges, pd.DataFrame):
            raise TypeError(f"edges is a {type(edges).__name__}, and has to be a DataFrame")
        edges = edges.copy()  # the caller's may change in place
        self.edges, self.columns, self._scale, self._named = edges, columns, scale, [tail, head]
        tails, heads = _ends(edges, tail), _ends(edges, head)
        for name in columns.values():
            _column(edges, name)
        supplies = {} if supply is None else _by_label(supply, "supply")
        self._numbers = {node: k for k, node in enumerate(dict.fromkeys([*tails, *heads, *supplies]), 1)}
        self.nodes = list(self._numbers)
        self._tails, self._heads = ([self._numbers[it] for it in ends] for ends in (tails, heads))
        self._supplies = [supplies.get(node, 0) for node in self.nodes]
        called = [[(columns[it], names) for it, names in group if it in columns] for group in _WRITTEN]
        self._units = units_kept(edges.attrs, scale, *called)

    def __repr__(self) -> str:
        return f"Frame of {len(self.edges)} edges between {len(self.nodes)} nodes"

    def _number(self, node: Any) -> int:
        if not is_hashable(node):
            raise TypeError(f"{node!r} can't name a node")
        if node not in self._numbers:
            raise ValueError(f"{node!r} is no node of the frame")
        return self._numbers[node]

    def _numbers_of(self, name: str, missing: Any) -> Any:
        if name not in self.columns:
            return [missing] * len(self.edges)
        return _listed(_column(self.edges, self.columns[name]))

    def _given(self, form: Any, *numbers: Any) -> Given:
        return Given(form, len(self.nodes), *numbers, scale=self._scale, names=_FrameNames(self))

    def _max(self, source: Any, sink: Any) -> Given:
        if "lows" in self.columns:
            raise ValueError(f"a maximum flow has no lower bounds: column {self.columns['lows']!r}")
        ends = self._number(source), self._number(sink)
        return self._given(MAX, *ends, self._tails, self._heads, self._numbers_of("caps", math.inf))

    def _min(self) -> Given:
        missing = {"lows": 0, "caps": math.inf, "costs": 0}
        numbers = (self._numbers_of(*it) for it in missing.items())
        return self._given(MIN, self._tails, self._heads, *numbers, self._supplies)

    def _graph(self) -> Given:
        return self._given(GRAPH, self._tails, self._heads, self._numbers_of("costs", 1))

    def _paths(self, source: Any) -> Given:
        return self._graph().add_number("source", self._number(source))

    def max_instance(self, source: Any, sink: Any) -> MaxInstance:
        """The network as arrays, whose names are the nodes. Without a capacity an edge has no limit."""
        return MaxInstance._of(self._max(source, sink), self.nodes, self._units)

    def min_instance(self) -> MinInstance:
        return MinInstance._of(self._min(), self.nodes, self._units)

    def graph(self) -> Graph:
        return Graph._of(self._graph(), self.nodes, self._units)

    def _is_name(self, flows: Any) -> bool:
        """Whether these flows are a column of the frame: one that it has, or what has letters, and so is no number."""
        if not is_hashable(flows) or flows is None:
            return False
        parts = flows if isinstance(flows, tuple) else (flows,)
        return any(isinstance(it, str) for it in parts) or flows in self.edges.columns

    def _flows(self, flows: Any) -> Any:
        """Claimed flows: a column of the frame, a Series on its index, or an array."""
        if self._is_name(flows):
            flows = _column(self.edges, flows)
        if isinstance(flows, pd.Series):
            if not flows.index.equals(self.edges.index):
                raise ValueError("flows has another index than the frame")
            return _listed(flows)
        return list(flows) if hasattr(flows, "__next__") else flows

    def _by_edge(self, flows: Any) -> pd.Series:
        return _column_of(flows, self.edges.index).rename("flow")

    def _answer(
        self, found: Certified[Any, Any] | Solved[Any, Any, Any], flows: pd.Series | None, nodes: pd.DataFrame
    ) -> FrameAnswer:
        edges = None if flows is None else self.edges[self._named].assign(flow=flows)
        return like(FrameAnswer(found.value, edges, nodes), found)

    def _by_node(self, **columns: Any) -> pd.DataFrame:
        index = pd.Index(self.nodes, name="node", tupleize_cols=False)
        return pd.DataFrame({name: _column_of(it, index) for name, it in columns.items()}, index)

    def solve_max(self, source: Any, sink: Any, limit: int = LIMIT) -> FrameAnswer:
        """A maximum flow, and which nodes are on the source's side of a cut that shows it. Raises as solve_max_arrays,
        and ValueError if the frame has a column of lower bounds."""
        found = calls.solve_max(self._max(source, sink), limit=limit)
        return self._answer(found, found.flows, found.certificate)

    def solve_min(self, limit: int = LIMIT) -> FrameAnswer:
        """A flow of least cost, and potentials that show it. Raises as solve_min_arrays."""
        found = calls.solve_min(self._min(), limit=limit)
        return self._answer(found, found.flows, found.certificate)

    def solve_paths(self, source: Any) -> FrameAnswer:
        """The distances from a node, by the column of costs, and predecessors; inf and None of a node that isn't reached:
        these columns have the dtype object then, in which distances stay ints."""
        found = calls.solve_paths(self._paths(source))
        before = found.predecessors
        reached = [it != 0 or self.nodes[place] == source for place, it in enumerate(before)]
        distances = [it if is_reached else math.inf for it, is_reached in zip(found.distances, reached)]
        return self._answer(found, None, self._labels(distances, before))

    def _labels(self, distances: Any, before: Any) -> pd.DataFrame:
        """The distances of nodes, and their predecessors by numbers."""
        return self._by_node(distance=distances, predecessor=[self.nodes[it - 1] if it else None for it in before])

    def certify_max(self, source: Any, sink: Any, flows: Any) -> FrameAnswer:
        """Decides whether flows, a column or a Series, are maximum. Raises as certify_max_arrays, and ValueError if the
        frame has a column of lower bounds."""
        flows = self._flows(flows)
        found = calls.certify(self._max(source, sink).add(FLOWS, flows))
        return self._answer(found, self._by_edge(flows), found.certificate)

    def certify_min(self, flows: Any) -> FrameAnswer:
        """Decides whether flows, a column or a Series, cost least. Raises as certify_min_arrays."""
        flows = self._flows(flows)
        found = calls.certify(self._min().add(FLOWS, flows))
        return self._answer(found, self._by_edge(flows), found.certificate)

    def certify_infeasible(self) -> FrameAnswer:
        """Decides whether no flow meets the supplies. Raises Feasible with flows if one does."""
        found = calls.certify(self._min())
        return self._answer(found, None, found.certificate)

    def certify_paths(self, source: Any, distances: Any) -> FrameAnswer:
        """Decides whether these are the distances from a node: a dict or Series by node, without those that aren't reached,
        or with inf. Raises Refused if one isn't true, and ValueError if a Series has a node twice."""
        claimed = _by_label(distances, "distances")
        for node in claimed:
            self._number(node)
        by_node = [claimed.get(node, math.inf) for node in self.nodes]
        found = calls.certify(self._paths(source).add(DISTANCES, by_node))
        return self._answer(found, None, self._labels(by_node, found.predecessors))


def from_frame(
    edges: pd.DataFrame, tail: Any, head: Any,
    *, capacity: Any = None, cost: Any = None, low: Any = None, supply: Any = None, scale: Any = None,
) -> Frame:
    """The network of a DataFrame as it is now, each row of which is an edge between the nodes that two columns name.

    capacity, cost and low name columns of numbers. Without one, edges carry any amount, cost 0 (for distances they are 1
    long), and may carry 0. supply is a dict or a Series by node, each once: what leaves it less what enters it. With
    scale= (see dimacs.arrays) numbers are multiples of a unit. Answers are on the index of the frame, or on that of the nodes.
    Raises ValueError if a column isn't there or stands twice, an end has no name, or a column of ends is called "flow", as
    that of answers; TypeError if an argument is of another kind, or a node is, as a list, one that can't be looked up.

    >>> import pandas
    >>> table = {"from": ["mine", "mine"], "to": ["port", "port"], "tons": [5, 5], "price": [3, 7]}
    >>> supply = {"mine": 6, "port": -6}
    >>> network = from_frame(pandas.DataFrame(table), "from", "to", capacity="tons", cost="price", supply=supply)
    >>> network.solve_min().flows.tolist()
    [5, 1]
    """
    columns = {"caps": capacity, "costs": cost, "weights": cost, "lows": low}
    return Frame(edges, tail, head, {name: it for name, it in columns.items() if it is not None}, supply, scale)
