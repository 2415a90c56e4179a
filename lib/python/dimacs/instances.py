"""Instances, claims, certificates and queries as arrays, which dimacs.read makes of texts, and classmethods of graphs, matrices
and frames.

The calls over arrays take a value in place of its fields, into which it unpacks too. The length of an instance is the number
of its arcs. Nodes and arcs are numbered from 1: base=0 tells a constructor that they come numbered from 0. Arrays are those of
numpy, which can't be written to; without numpy they are array.array. IDs are uint32, so tails - heads wraps at 2^32.

An arc with the capacity inf has no limit: caps has 2^63 - 1 there, and unlimited whether each arc is one, or None if none is.
An instance unpacks into the arguments that make it, with inf there, and calls see these. names has what nodes are called where
it comes from, node 1 first, or is None; calls name them so, and count from the base that the instance was made with. units
has what 1 stands for in its amounts and in its costs, as (Fraction(1, 100), 1), or is None if numbers are as they came; graphs
and frames keep "1/100 1" as "dimacs_units". Instances are equal if all of this but the base is; solutions if their instances
are.
"""

from __future__ import annotations

import ctypes
import importlib
import math
import operator
from array import array
from collections import Counter
from collections.abc import Hashable, Iterable, Mapping, Sized
from typing import Any, ClassVar, Iterator, Sequence, TypeVar, Union

from . import library
from .answers import Amounts, Ids, Marks, PastLimit
from .buffers import IDS, MARKS, NUMBERS, Buffer, Items, Numbers, array_of, gone_through, is_numpy, number_of, room_of
from .buffers import test_array, unlabelled
from .given import DISTANCES, FLOWS, FROMS, GRAPH, INSIDE, MAX, MIN, POTENTIALS, PREDECESSORS, TAILS, TOS, Array, Form, Given
from .given import Names
from .scales import UNITS, ones_of

#: The nodes by their numbers, from 1; what 1 stands for in amounts, and in costs.
NodeNames = Union[Sequence[Any], None]
Units = Union[tuple[Any, Any], None]

_Made = TypeVar("_Made", bound="Value")
_Instance = TypeVar("_Instance", bound="Instance")


def numpy() -> Any:
    """The module, or None if it isn't installed."""
    try:
        return importlib.import_module("numpy")
    except ImportError:
        return None


def _copied(buffer: Buffer, items: Items) -> Any:
    """The items, which nobody else can write to."""
    kept = ctypes.string_at(buffer.address, buffer.length * items.width) if buffer.length else b""
    module = numpy()
    if module is None:
        return array(items.code, kept)
    found = module.frombuffer(kept, items.code)
    return fixed(found != 0) if items is MARKS else found


def fixed(found: Any) -> Any:
    """A view of an array of numpy that nobody can make writable."""
    return numpy().frombuffer(memoryview(found).toreadonly(), found.dtype)


class Value(Sized, Iterable[Any]):
    """What a text spells: fields in an order. name is the kind of the text, as dimacs.read takes it."""

    name: ClassVar[str]
    _fields: ClassVar[tuple[str, ...]]

    @classmethod
    def _made(cls: type[_Made], *fields: Any, **more: Any) -> _Made:
        """The value of fields that have been tested, and that nobody else has."""
        value = object.__new__(cls)
        value._set(*fields, **more)
        return value

    def _set(self, *fields: Any, **more: Any) -> None:
        for name, it in (*zip(self._fields, fields), *more.items()):
            object.__setattr__(self, name, it)

    def __setattr__(self, name: str, *_: Any) -> None:
        raise AttributeError(f"{name!r} of a {type(self).__name__} can't be set: a value doesn't change")

    __delattr__ = __setattr__

    def __setstate__(self, state: dict[str, Any]) -> None:
        """A copy, whose arrays can't be written to either."""
        self._set(**{name: fixed(it) if hasattr(it, "flags") else it for name, it in state.items()})

    def __iter__(self) -> Iterator[Any]:
        return iter([getattr(self, name) for name in self._fields])

    def __bool__(self) -> bool:
        return True

    def __eq__(self, other: object) -> bool:
        if not isinstance(other, Value) or type(other) is not type(self):
            return NotImplemented
        return self._compared() == other._compared()

    def __hash__(self) -> int:
        return hash(self._compared())

    def _compared(self) -> tuple[Any, ...]:
        fields = (getattr(self, name) for name in self._fields)
        return tuple(it.tobytes() if hasattr(it, "tobytes") else it for it in fields)

    def numbered(self, base: int) -> dict[str, Any]:
        """The fields by their names, as calls take them: source and sink numbered from a base, arrays where they lie."""
        fields, are_nodes = zip(self._fields, self), ("source", "sink")
        return {name: it + base - 1 if name in are_nodes else _handed(name, it) for name, it in fields}

    def _lines(self) -> int:
        """About as many lines as its text has."""
        return len(self)

    def _words(self) -> tuple[list[int], list[Buffer]]:
        """The numbers and the arrays that the call takes that writes its text."""
        raise NotImplementedError


#: The arrays whose form answers have.
_FORMS = {"caps", "weights", "flows", "distances"}


def _handed(name: str, field: Any) -> Any:
    """A field as calls take it: they don't test an array again that comes as it lies in memory."""
    if name in _FORMS or field is None or isinstance(field, int):
        return field
    return Buffer(field, *((field.ctypes.data, len(field)) if hasattr(field, "ctypes") else field.buffer_info()))


def _test_limits(given: Given) -> None:
    """Raises PastLimit as each call does that takes the instance: as one that refuses a flow at its first arc, or that reads
    a solution of a graph."""
    instance, flows, none = given.words()[0], room_of(NUMBERS, given.count(TAILS)), room_of(NUMBERS, 0)
    flows[:1] = array(NUMBERS.code, [-1] * len(flows[:1]))
    with given.named():
        if given.form is GRAPH:
            value, needed = ctypes.byref(ctypes.c_int64()), ctypes.byref(ctypes.c_size_t())
            library.call_with_line(library.readers["solution"], [*given.ends(), b"s 0\n", 4], [value, 0, 0, needed])
        else:
            certify = library.certify_max_arrays if given.form is MAX else library.certify_min_arrays
            library.call_with_rooms(certify, [instance, *flows.buffer_info()], [none, none])


def _names(given: Any, nodes: int) -> NodeNames:
    """The names of nodes. Raises ValueError if they aren't as many or one stands twice, and TypeError if they have no order."""
    if given is None:
        return None
    names = given if isinstance(given, range) else tuple(gone_through(unlabelled(given), "names"))
    if len(names) != nodes:
        raise ValueError(f"names has {len(names)} items, and there are {nodes} nodes")
    for place, it in enumerate(names if not isinstance(names, range) else ()):
        if not isinstance(it, Hashable):
            raise TypeError(f"names[{place}] is {it!r}, which can't name a node")
    if not isinstance(names, range) and len(set(names)) != nodes:
        raise ValueError(f"names has {Counter(names).most_common(1)[0][0]!r} twice")
    return names


class Instance(Value):
    """What MaxInstance, MinInstance and Graph have in common."""

    _form: ClassVar[Form]
    nodes: int
    tails: Ids
    heads: Ids
    names: NodeNames
    units: Units
    unlimited: Marks | None
    base: int

    def __init_subclass__(cls) -> None:
        cls._fields = (*cls._form.numbers, *(it.name for it in cls._form.arrays))

    def _take(self, given: Given, names: Any, units: Units = None, base: int | None = None) -> None:
        """The arrays of arguments, which have to pass the tests of calls."""
        numbers = given.instance(_copied)
        _test_limits(given)
        marks, base = array("B", bytes(given.count(TAILS))), given.names.base if base is None else base
        for arc in given.limitless():
            marks[arc] = 1
        unlimited = _copied(Buffer(marks, *marks.buffer_info()), MARKS) if any(marks) else None
        given.forget()
        ones = ones_of(units) if units is not None else given.units and given.units.ones()
        shown = names if names is not None or base else range(numbers[0])
        found = {"names": _names(shown, numbers[0]), "units": ones, "base": base}
        self._set(*numbers, **found, unlimited=unlimited)

    @classmethod
    def _of(cls: type[_Instance], given: Given, names: Any, units: Units = None, base: int | None = None) -> _Instance:
        value = object.__new__(cls)
        value._take(given, names, units, base)
        return value

    @classmethod
    def _of_graph(cls: type[_Instance], graph: Any, scale: Any, form: str, *words: Any) -> _Instance:
        from .graphs import NumberedGraph

        found = NumberedGraph(graph, scale)
        return cls._of(getattr(found, form)(*words), found.nodes, found.units)

    def __len__(self) -> int:
        return len(self.tails)

    def __iter__(self) -> Iterator[Any]:
        return iter([self._limits() if name == "caps" else getattr(self, name) for name in self._fields])

    def _limits(self) -> Any:
        """The capacities, inf of arcs without a limit: as floats if these are exact, else as objects."""
        caps: Any = self.caps  # type: ignore[attr-defined]
        if self.unlimited is None:
            return caps
        if numpy() is None:
            return self._items("caps")
        is_exact = caps[~self.unlimited].max(initial=0) <= 2**53
        return numpy().where(self.unlimited, math.inf, caps if is_exact else caps.astype(object))

    def _items(self, name: str) -> list[Any]:
        """Numbers of arcs as ints, and inf as the capacity of one without a limit."""
        found: list[Any] = getattr(self, name).tolist()
        if name != "caps" or self.unlimited is None:
            return found
        return [math.inf if is_unlimited else it for it, is_unlimited in zip(found, self.unlimited.tolist())]

    def __repr__(self) -> str:
        return f"{type(self).__name__} of {self.nodes} nodes and {len(self)} arcs"

    def _compared(self) -> tuple[Any, ...]:
        called = self._called()
        if isinstance(called, tuple) and called[:1] == (1,) and called == (*range(1, self.nodes + 1),):
            called = range(1, self.nodes + 1)
        return (*super()._compared(), called, self.units, self.unlimited is not None and self.unlimited.tobytes())

    def _called(self) -> Sequence[Any]:
        return range(1, self.nodes + 1) if self.names is None else self.names

    def _listed(self, *names: str) -> Iterator[Any]:
        """The arcs in order: the names of their ends, and these numbers."""
        called = self._called()
        ends = ([called[it - 1] for it in ends.tolist()] for ends in (self.tails, self.heads))
        return zip(*ends, *map(self._items, names))

    def called(self) -> Names:
        """How calls over it name nodes and arcs."""
        is_plain = self._called() == range(self.base, self.base + self.nodes)
        return Names(self.base, None if is_plain else self.names)

    def ends(self) -> tuple[bytes, bytes]:
        return self.tails.tobytes(), self.heads.tobytes()

    def _digraph(self, kind: str) -> Any:
        graph = getattr(importlib.import_module("networkx"), kind)()
        graph.add_nodes_from(self._called())
        graph.graph.update(self._attributes())
        return graph

    def _attributes(self) -> dict[str, str]:
        """What graphs and frames keep of the units."""
        return {UNITS: "{} {}".format(*self.units)} if self.units else {}

    def to_frame(self, **by_arc: Any) -> Any:
        """The arcs in a DataFrame of pandas, a row each: source, target, their numbers (a capacity may be inf), and others,
        as flow=answer.flows. The index has the numbers of arcs, from the base, and attrs the units."""
        pandas, called = importlib.import_module("pandas"), self._called()
        columns: dict[str, Any] = {"source": self.tails.astype("int64"), "target": self.heads.astype("int64")}
        if called != range(1, self.nodes + 1):
            nodes = pandas.Series(list(called), dtype="O").infer_objects().to_numpy()
            columns = {name: nodes.take(it - 1) for name, it in columns.items()}
        columns.update((_COLUMNS[name], it) for name, it in zip(self._fields, self) if name in _COLUMNS)
        columns.update((name, _by_place(it, name, len(self))) for name, it in by_arc.items())
        frame = pandas.DataFrame(columns, pandas.RangeIndex(self.base, self.base + len(self), name="arc"))
        frame.attrs.update(self._attributes())
        return frame


def _by_place(column: Any, name: str, arcs: int) -> Any:
    """An item for each arc, by its place: what labels a Series has says nothing of arcs."""
    test_array(column, MARKS, name, f"an array of {arcs}")
    items = unlabelled(column)
    items = items if is_numpy(items) else gone_through(items, name)
    if len(items) != arcs:
        raise ValueError(f"{name} has {len(items)} items, and there are {arcs} arcs")
    return items


#: What the numbers of arcs are called in a frame.
_COLUMNS = {"lows": "low", "caps": "capacity", "costs": "cost", "weights": "weight"}


class MaxInstance(Instance):
    """A maximum flow instance: nodes, source and sink, and the tail, head and capacity of each arc, inf for no limit. Nodes are
    numbered from 1, or with base=0 from 0, in what is given and by calls over the value, whose fields have them from 1. Its
    arrays can't be written to; those of nodes are uint32, so tails - heads wraps. names has what nodes are called, each once,
    and units what 1 stands for in amounts and in costs. Raises PastLimit as the calls over arrays.

    >>> import dimacs
    >>> instance = MaxInstance(3, 0, 2, [0, 1], [1, 2], [5, 4], base=0)
    >>> instance, instance.source, instance.tails.tolist()
    (MaxInstance of 3 nodes and 2 arcs, 1, [1, 2])
    >>> dimacs.certify_max_arrays(instance, [4, 4]).value
    4
    """

    name = "max"
    _form = MAX
    source: int
    sink: int
    caps: Amounts

    def __init__(
        self, nodes: int, source: int, sink: int, tails: Numbers, heads: Numbers, caps: Numbers,
        names: NodeNames = None, units: Units = None, *, base: int = 1,
    ) -> None:
        self._take(Given(MAX, nodes, source, sink, tails, heads, caps, names=base), names, units)

    @classmethod
    def from_networkx(
        cls, graph: Any, source: Any, sink: Any, *, capacity: Any = "capacity", scale: Any = None
    ) -> MaxInstance:
        """That of a DiGraph or MultiDiGraph, with the capacities of its edges; without one an edge has no limit. With scale=
        (see dimacs.arrays) they are multiples of a unit."""
        return cls._of_graph(graph, scale, "max", source, sink, capacity)

    @classmethod
    def from_scipy(cls, matrix: Any, source: int, sink: int, *, scale: Any = None) -> MaxInstance:
        """That of a matrix of capacities in CSR format, as maximum_flow takes it; with scale= they are multiples of a unit.
        Vertices are numbered from 0."""
        from .scipy.flows import Network

        return cls._of(Network(matrix, source, sink, scale).given(), None, base=0)

    def to_networkx(self) -> Any:
        """A DiGraph, which networkx' maximum flows need. An edge has the capacities of parallel arcs, added up, or none if one
        of these has no limit."""
        graph, sums = self._digraph("DiGraph"), Counter[Any]()
        for tail, head, cap in self._listed("caps"):
            sums[tail, head] += cap
        graph.add_edges_from((*ends, {"capacity": cap} if cap < math.inf else {}) for ends, cap in sums.items())
        return graph

    def to_scipy(self) -> Any:
        """A matrix of capacities in CSR format, of 64 bits. An entry has the capacities of parallel arcs, added up. Raises
        ValueError if an arc has no limit."""
        from .scipy.entries import summed

        if self.unlimited is not None:
            arc = self.base + self.unlimited.tolist().index(True)
            raise ValueError(f"arc {arc} has no limit, and in a matrix of SciPy each capacity is a number")
        return summed(self.tails, self.heads, self.caps, self.nodes)

    def flows_from(self, flow: Any) -> Amounts:
        r"""The flows of arcs by those of to_networkx(), a dict flow[u][v], or of to_scipy(), SciPy's result or its matrix. What
        parallel arcs carry together is dealt out to them as by spread_max_arrays, which says what is raised.

        >>> import dimacs
        >>> instance = MaxInstance(2, 1, 2, [1, 1], [2, 2], [3, 5], ["spring", "town"])
        >>> flows = instance.flows_from({"spring": {"town": 6}})
        >>> flows.tolist(), dimacs.write(Solution(6, flows, instance))
        ([3, 3], b's 6\nf 1 2 3\nf 1 2 3\n')
        """
        from .spread import spread_max_arrays

        if isinstance(flow, (Mapping, tuple)):
            number = {name: node for node, name in enumerate(self._called(), self.base)}
            found = _entries(flow, "flow[u][v]")
            for node in {node for edge in found for node in edge if node not in number}:
                raise ValueError(f"{node!r} is no node of the instance")
            sums = [(number[tail], number[head], it) for (tail, head), it in found.items() if it != 0]
        else:
            from .scipy.flows import flow_of

            rows, columns, amounts = (it.tolist() for it in flow_of(flow, self.nodes))
            sums = [(u + self.base, v + self.base, it) for u, v, it in zip(rows, columns, amounts) if it > 0]
        columns = [list(it) for it in zip(*sums)] or [[], [], []]
        return _amounts(spread_max_arrays(self, *columns))


class MinInstance(Instance):
    """A minimum cost flow instance: the tail, head, lower bound, capacity and cost of each arc, and the supply of each node,
    which is what leaves it less what enters it. Numbers of nodes, arrays, names and units are as in MaxInstance.

    >>> import dimacs
    >>> instance = MinInstance(2, [1, 1], [2, 2], [0, 0], [5, 5], [3, 7], [6, -6])
    >>> dimacs.solve_min_arrays(instance).value
    22
    """

    name = "min"
    _form = MIN
    lows: Amounts
    caps: Amounts
    costs: Amounts
    supplies: Amounts

    def __init__(
        self, nodes: int, tails: Numbers, heads: Numbers, lows: Numbers, caps: Numbers, costs: Numbers, supplies: Numbers,
        names: NodeNames = None, units: Units = None, *, base: int = 1,
    ) -> None:
        self._take(Given(MIN, nodes, tails, heads, lows, caps, costs, supplies, names=base), names, units)

    @classmethod
    def from_networkx(
        cls, graph: Any, *, demand: Any = "demand", capacity: Any = "capacity", weight: Any = "weight", scale: Any = None
    ) -> MinInstance:
        """That of a DiGraph or MultiDiGraph, as network_simplex takes it; without a capacity an edge has no limit. With scale=
        (see dimacs.arrays) numbers are multiples of a unit."""
        return cls._of_graph(graph, scale, "min", demand, capacity, weight)

    def to_networkx(self) -> Any:
        """A MultiDiGraph whose keys are the places of arcs, from 0. It has no lower bounds: what they take is moved to the
        ends, a flow of the graph is what flows above them, and graph.graph["cost"] is what they cost, so that the least cost
        here is that of the graph and this. from_networkx makes another instance of it, of what flows above them."""
        graph = self._digraph("MultiDiGraph")
        for node, supply in zip(self._called(), self.supplies.tolist()):
            graph.nodes[node]["demand"] = -supply
        for key, (tail, head, low, cap, cost) in enumerate(self._listed("lows", "caps", "costs")):
            graph.add_edge(tail, head, key, **({"capacity": cap - low} if cap < math.inf else {}), weight=cost)
            graph.nodes[tail]["demand"] += low
            graph.nodes[head]["demand"] -= low
        graph.graph["cost"] = sum(map(operator.mul, self.lows.tolist(), self.costs.tolist()))
        return graph

    def to_scipy(self) -> dict[str, Any]:
        """The arguments of linprog: linprog(**instance.to_scipy()). Potentials are the duals of its equations."""
        from .scipy.entries import incidence

        rows = incidence(self.tails, self.heads, self.nodes)
        bounds = [(low, None if cap == math.inf else cap) for low, cap in zip(self.lows.tolist(), self._items("caps"))]
        return {"c": self.costs, "A_eq": rows, "b_eq": self.supplies, "bounds": bounds}

    def flows_from(self, flow: Any) -> Amounts:
        """The flows of arcs by those of to_networkx(), a dict flow[u][v][key], to which the lower bounds are added, or by the
        result of linprog, which may be as far as 10^-6 from whole numbers. Raises ValueError for an entry of no arc.

        >>> instance = MinInstance(2, [1, 1], [2, 2], [1, 0], [5, 5], [3, 7], [6, -6])
        >>> instance.flows_from({1: {2: {0: 4, 1: 1}}}).tolist()
        [5, 1]
        """
        if hasattr(flow, "x"):
            from .scipy.programs import rounded_of

            return _amounts(rounded_of(flow, len(self)))
        entries, arcs = _entries(flow, "flow[u][v][key]"), enumerate(self._listed("lows"))
        flows = [low + entries.pop((tail, head, key), 0) for key, (tail, head, low) in arcs]
        for edge, amount in entries.items():
            if amount != 0:
                raise ValueError(f"the flow has an entry of {edge!r}, which is no arc of the instance")
        return _amounts(flows)


class Graph(Instance):
    """A graph, for shortest paths: the tail, head and weight of each arc. Numbers of nodes, arrays, names and units are as in
    MaxInstance.

    >>> import dimacs
    >>> graph = Graph(3, [1, 2], [2, 3], [5, 4])
    >>> dimacs.solve_paths_arrays(graph, 1).distances.tolist()
    [0, 5, 9]
    """

    name = "gr"
    _form = GRAPH
    weights: Amounts

    def __init__(
        self, nodes: int, tails: Numbers, heads: Numbers, weights: Numbers, names: NodeNames = None, units: Units = None,
        *, base: int = 1,
    ) -> None:
        self._take(Given(GRAPH, nodes, tails, heads, weights, names=base), names, units)

    @classmethod
    def from_networkx(cls, graph: Any, *, weight: Any = "weight", scale: Any = None) -> Graph:
        """That of a DiGraph or MultiDiGraph; without a weight an edge is 1 long. With scale= (see dimacs.arrays) weights are
        multiples of a unit."""
        return cls._of_graph(graph, scale, "graph", weight)

    @classmethod
    def from_scipy(cls, matrix: Any, *, scale: Any = None) -> Graph:
        """That of a matrix of weights, as shortest_path takes it; with scale= they are multiples of a unit. Vertices are
        numbered from 0."""
        from .scipy.entries import numbers_of
        from .scipy.paths import arcs_of

        vertices, tails, heads, weights = arcs_of(matrix, True, False, scale=scale)
        given = Given(GRAPH, vertices, numbers_of(tails), numbers_of(heads), weights, scale=scale)
        return cls._of(given, None, base=0)

    def to_networkx(self) -> Any:
        """A MultiDiGraph whose keys are the places of arcs, from 0."""
        graph = self._digraph("MultiDiGraph")
        for key, (tail, head, weight) in enumerate(self._listed("weights")):
            graph.add_edge(tail, head, key, weight=weight)
        return graph

    def to_scipy(self) -> Any:
        """A matrix of weights in CSR format, of 64 bits. An entry has the weight of the shortest of parallel arcs."""
        from .scipy.entries import shortest

        return shortest(self.tails, self.heads, self.weights, self.nodes)


def _entries(flow: Any, shape: str) -> dict[tuple[Any, ...], int]:
    """The entries of a flow of networkx by their edges, as ints."""
    from .graphs import entries_of_flow

    found = entries_of_flow(flow, shape)
    edges = list(found)
    return dict(zip(edges, array_of([*found.values()], NUMBERS, lambda k: f"flow of edge {edges[k]!r}").listed(NUMBERS)))


def _amounts(numbers: Any) -> Amounts:
    """Flows as an array that can't be written to."""
    found: Amounts = _copied(array_of(numbers, NUMBERS, "flows"), NUMBERS)
    return found


class Solution(Value):
    """A claimed value or cost, and the amount that each arc of an instance carries.

    >>> value, flows = Solution(4, [4, 4], MaxInstance(3, 1, 3, [1, 2], [2, 3], [5, 4]))
    >>> flows.tolist()
    [4, 4]
    """

    name = "solution"
    _fields = ("value", "flows")
    value: int
    flows: Amounts
    instance: Instance

    def __init__(self, value: int, flows: Numbers, instance: Instance) -> None:
        if not isinstance(instance, Instance):
            raise TypeError(f"instance is a {type(instance).__name__}, and has to be a MaxInstance, MinInstance or Graph")
        given = Given(instance._form, *instance).add(FLOWS, flows)
        given.words()
        self._set(number_of(value, NUMBERS, "value"), given.array(FLOWS, _copied), instance=instance)

    def __len__(self) -> int:
        return len(self.flows)

    def __repr__(self) -> str:
        return f"Solution of the value {self.value} on {len(self)} arcs"

    def _compared(self) -> tuple[Any, ...]:
        return (*super()._compared(), self.instance)


#: Arguments without an instance.
_NO_INSTANCE = Form("", "")


class ByNode(Value):
    """What Cut, Potentials, Distances and Labels have in common: the source of some, then arrays of an item for each node. Its
    length is the number of nodes."""

    _ids: ClassVar[tuple[str, ...]] = ()
    _arrays: ClassVar[tuple[Array, ...]]

    def __init_subclass__(cls) -> None:
        cls._fields = (*cls._ids, *(it.name for it in cls._arrays))

    def _take(self, *arrays: Numbers, base: int = 1, **source: int) -> None:
        given = Given(_NO_INSTANCE, names=base)
        for kind, numbers in zip(self._arrays, arrays):
            given.add(kind, numbers)
        given.words()
        ids = [given.add_number(*it).number(it[0]) for it in source.items()]
        with given.named():
            if ids and not 1 <= ids[0] <= given.number("nodes"):
                raise PastLimit("NodeRange", node=ids[0])
        self._set(*ids, *(given.array(it, _copied) for it in self._arrays))

    def __len__(self) -> int:
        return len(getattr(self, self._arrays[0].name))

    def _words(self) -> tuple[list[int], list[Buffer]]:
        arrays = [array_of(getattr(self, it.name), it.items, it.name) for it in self._arrays]
        return [it for it in self if isinstance(it, int)], arrays


class Cut(ByNode):
    """A cut or a set: whether each node is inside.

    >>> cut = Cut([True, True, False])
    >>> cut
    Cut of 3 nodes, of which 2 are inside
    >>> import dimacs
    >>> dimacs.judge_max_arrays(MaxInstance(3, 1, 3, [1, 2], [2, 3], [5, 4]), [4, 4], cut).value
    4
    """

    name = "cut"
    _arrays = (INSIDE,)
    inside: Marks

    def __init__(self, inside: Numbers) -> None:
        self._take(inside)

    def __repr__(self) -> str:
        return f"Cut of {len(self)} nodes, of which {self._lines()} are inside"

    def _lines(self) -> int:
        """The number of nodes inside, each of which has a line in a text."""
        return len(self) - bytes(self.inside.tobytes()).count(0)


class Potentials(ByNode):
    """A potential for each node.

    >>> import dimacs
    >>> least = MinInstance(2, [1], [2], [0], [5], [3], [4, -4])
    >>> dimacs.judge_min_arrays(least, [4], Potentials([3, 0])).value
    12
    """

    name = "pot"
    _arrays = (POTENTIALS,)
    potentials: Amounts

    def __init__(self, potentials: Numbers) -> None:
        self._take(potentials)

    def __repr__(self) -> str:
        return f"Potentials of {len(self)} nodes"


class Distances(ByNode):
    """The distance of each node from a source, UNREACHED of a node that isn't reached. With base=0 the source is numbered
    from 0 in what is given.

    >>> far = Distances(1, [0, 5, float("inf")])
    >>> far
    Distances of 3 nodes from 1
    >>> import dimacs
    >>> dimacs.certify_paths_arrays(Graph(3, [1, 3], [2, 2], [5, 4]), far).predecessors.tolist()
    [0, 1, 0]
    """

    name = "distances"
    _arrays: ClassVar[tuple[Array, ...]] = (DISTANCES,)
    _ids = ("source",)
    source: int
    distances: Amounts

    def __init__(self, source: int, distances: Numbers, *, base: int = 1) -> None:
        self._take(distances, source=source, base=base)

    def __repr__(self) -> str:
        return f"{type(self).__name__} of {len(self)} nodes from {self.source}"


class Labels(Distances):
    """The same with the predecessor of each node, which is 0 at the source and where there is no label (with base=0 it is -1 in
    what is given). If there is a radius, nodes without a label are farther, and may be reached.

    >>> import dimacs
    >>> labels = Labels(1, [0, 5, dimacs.UNREACHED], [0, 1, 0])
    >>> dimacs.judge_paths_arrays(Graph(3, [1, 3], [2, 2], [5, 4]), labels).kind
    'sp'
    """

    name = "dist"
    _arrays = (DISTANCES, PREDECESSORS)
    predecessors: Ids
    radius: int | None

    def __init__(
        self, source: int, distances: Numbers, predecessors: Numbers, radius: int | None = None, *, base: int = 1
    ) -> None:
        self._take(distances, predecessors, source=source, base=base)
        self._set(radius=None if radius is None else number_of(radius, NUMBERS, "radius"))

    def _compared(self) -> tuple[Any, ...]:
        return (*super()._compared(), self.radius)

    def _words(self) -> tuple[list[int], list[Buffer]]:
        if self.radius is not None:
            raise ValueError(f"labels with a radius, here {self.radius}, aren't written")
        return super()._words()


class Blocks(Mapping[int, Distances]):
    r"""All blocks of a text of distances, or of labels, by their sources, in the order of the text, whose kind is the name.

    >>> import dimacs
    >>> blocks = dimacs.read("distances", "p distances 2 2\nt 2 0\nt 1 1\nd 2 7\n")
    >>> blocks, blocks[1].distances.tolist()
    (Blocks of 2 nodes from 2, 1, [0, 7])
    >>> dimacs.write(Blocks(2, blocks.values())) == dimacs.write(blocks)
    True
    """

    def __init__(self, nodes: int, blocks: Iterable[Distances], name: str | None = None) -> None:
        self.nodes = number_of(nodes, IDS, "nodes")
        self._blocks: dict[int, Distances] = {}
        for it in blocks:
            is_block = isinstance(it, Distances) and len(it) == self.nodes and name in (None, it.name)
            if not is_block or it.source in self._blocks:
                raise ValueError(f"{it!r} comes beside blocks of {self.nodes} nodes, one from each source, all of a kind")
            self._blocks[it.source], name = it, it.name
        self.name = name or Distances.name

    @property
    def sources(self) -> tuple[int, ...]:
        return tuple(self._blocks)

    def __getitem__(self, source: int) -> Distances:
        return self._blocks[source]

    def __iter__(self) -> Iterator[int]:
        return iter(self._blocks)

    def __len__(self) -> int:
        return len(self._blocks)

    def __repr__(self) -> str:
        return f"Blocks of {self.nodes} nodes from {', '.join(map(str, self))}"


class Queries(Value):
    """What distances are asked for: from each node of froms to that of tos, or to all nodes if tos is None. With base=0 nodes
    are numbered from 0 in what is given.

    >>> Queries([1, 1], [4, 5])
    Queries for 2 pairs
    >>> len(Queries([1, 1]))
    2
    """

    name = "query"
    _fields = ("froms", "tos")
    froms: Ids
    tos: Ids | None

    def __init__(self, froms: Numbers, tos: Numbers | None = None, *, base: int = 1) -> None:
        given = Given(_NO_INSTANCE, names=base).add(FROMS, froms)
        if tos is not None:
            given.add(TOS, tos)
        given.words()
        self._set(*(given.array(it, _copied) if given.has(it) else None for it in (FROMS, TOS)))
        numbers, arrays = self._words()
        with given.named():
            words = [*numbers, *(word for it in arrays for word in it.words())]
            library.call_with_line(library.writers[self.name], words, [])

    def __len__(self) -> int:
        return len(self.froms)

    def __repr__(self) -> str:
        return f"Queries for {len(self)} {'sources' if self.tos is None else 'pairs'}"

    def _words(self) -> tuple[list[int], list[Buffer]]:
        tos: Any = [] if self.tos is None else self.tos
        return [int(self.tos is not None)], [array_of(it, IDS, kind.name) for kind, it in zip((FROMS, TOS), (self.froms, tos))]
