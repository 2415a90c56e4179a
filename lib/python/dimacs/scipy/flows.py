"""Maximum flows of sparse matrices."""

from __future__ import annotations

import operator
from dataclasses import dataclass
from typing import Any

import numpy as np
from numpy.typing import NDArray
from scipy import sparse

from .. import calls
from ..answers import Certified, GaveUp
from ..buffers import test_mask
from ..given import FLOWS, MAX, Array, Given, Names
from .entries import Places, Sums, entries_of, exact, matrix_of, netted, numbers_of, terms_of, whole


@dataclass(repr=False)
class MaximumFlowResult:
    """A maximum flow as SciPy returns it, with a cut that shows it.

    flow_value is its value, flow a matrix in CSR format, whose (i, j)'th entry is what goes from i to j less what goes
    from j to i, and inside has for each vertex whether it is on the source's side of the cut.

    >>> from scipy.sparse import csr_array
    >>> maximum_flow(csr_array([[0, 5, 0], [0, 0, 4], [0, 0, 0]]), 0, 2)
    MaximumFlowResult with value of 4
    """

    flow_value: int | np.int64
    flow: Any
    inside: NDArray[np.bool_]

    def __repr__(self) -> str:
        return f"MaximumFlowResult with value of {self.flow_value}"


class Network(Names):
    """The entries of a matrix of capacities as arcs, and the source and the sink. Vertices are named by numbers from 0,
    arcs by their two."""

    def __init__(self, csgraph: Any, source: int, sink: int, scale: Any = None) -> None:
        super().__init__()
        self._scale = scale
        if not (sparse.issparse(csgraph) and csgraph.format == "csr"):
            raise TypeError("graph must be in CSR format")
        if csgraph.dtype.kind not in "iu" and scale is None:
            raise ValueError("graph capacities must be integers")
        if csgraph.shape[0] != csgraph.shape[1]:
            raise ValueError("graph must be specified as a square matrix.")
        self.vertices = csgraph.shape[0]
        self.nodes = range(self.vertices)
        self.source, self.sink = operator.index(source), operator.index(sink)
        if self.source == self.sink:
            raise ValueError("source and sink vertices must differ")
        for name, vertex in ("source", self.source), ("sink", self.sink):
            if not 0 <= vertex < self.vertices:
                raise ValueError(f"{name} value ({vertex}) must be between 0 and {self.vertices - 1}")
        self.form = sparse.csr_array if isinstance(csgraph, sparse.csr_array) else sparse.csr_matrix
        self.tails, self.heads, caps = entries_of(csgraph)
        self.caps = whole(caps, self.tails, self.heads) if scale is None else caps
        if len(self.caps) and self.caps.min() < 0:
            arc = int(np.argmax(self.caps < 0))
            raise ValueError(f"the capacity from {self.tails[arc]} to {self.heads[arc]} is {self.caps[arc]}")

    def given(self) -> Given:
        ends = self.source + 1, self.sink + 1, numbers_of(self.tails), numbers_of(self.heads)
        return Given(MAX, self.vertices, *ends, self.caps, scale=self._scale, names=self)

    def arc(self, place: int) -> Any:
        return int(self.tails[place]), int(self.heads[place])

    def formed(self, kind: Array, items: Any) -> Any:
        """A flow as SciPy has it: of 32 bits if all capacities and all of its sums fit those."""
        if kind is not FLOWS:
            return items
        parts = [netted(matrix_of(self.tails, self.heads, it, self.vertices)) for it in terms_of(items)]
        matrix = parts[0]
        sums = Sums(*(it.data for it in parts))
        amounts = sums.fitting("the flow", lambda arc: tuple(int(it[arc]) for it in entries_of(matrix)[:2]), GaveUp)
        most = max(self.caps.max(initial=0), amounts.max(initial=0))
        matrix.data = amounts.astype(np.int32 if most <= np.iinfo(np.int32).max else np.int64)
        return self.form(matrix)


def maximum_flow(csgraph: Any, source: int, sink: int, *, method: str = "dinic") -> MaximumFlowResult:
    """A maximum flow between two vertices, as scipy.sparse.csgraph.maximum_flow returns it, judged by a cut.

    Capacities are integers of up to 64 bits, and none is negative. The method isn't used: the flow may differ from SciPy's,
    but not its value. TypeError and ValueError are raised as by SciPy, GaveUp as by solve_max_arrays.

    >>> from scipy.sparse import csr_matrix
    >>> found = maximum_flow(csr_matrix([[0, 5, 0], [0, 0, 4], [0, 0, 0]]), 0, 2)
    >>> int(found.flow_value), found.inside.tolist()
    (4, [True, True, False])
    """
    given = Network(csgraph, source, sink)
    if method not in ("edmonds_karp", "dinic"):
        raise ValueError(f"{method} method is not supported yet.")
    value, flow, inside = calls.solve_max(given.given(), given.caps)
    return MaximumFlowResult(np.int64(value) if value <= np.iinfo(np.int64).max else value, flow, inside)


def certify_maximum_flow(csgraph: Any, source: int, sink: int, flow: Any) -> Certified[int, NDArray[np.bool_]]:
    """Decides whether a flow of SciPy is maximum. Returns its value, and for each vertex whether it is inside a cut.

    flow is the result of maximum_flow, or its matrix: an entry that isn't stored is 0, and the one at (j, i) is that at
    (i, j) negated. Raises NotOptimal with such a matrix of greater value if the flow is feasible, but not maximum; Refused
    if the flow isn't feasible, or doesn't have the value of the result; ValueError if it is no such matrix, or if the value
    isn't whole. A refusal names a vertex, or an edge as (i, j).

    >>> from scipy.sparse import csgraph, csr_matrix
    >>> capacities = csr_matrix([[0, 5, 0], [0, 0, 4], [0, 0, 0]])
    >>> certify_maximum_flow(capacities, 0, 2, csgraph.maximum_flow(capacities, 0, 2)).value
    4
    """
    given = Network(csgraph, source, sink)
    given.tails, given.heads, given.caps, flows = _by_pair(given, flow)
    found = calls.certify(given.given().add(FLOWS, flows), flows)
    return calls.of_value(found, getattr(flow, "flow_value", found.value), "flow_value")


def flow_of(flow: Any, vertices: int) -> tuple[Any, Any, Any]:
    """The entries of the result of maximum_flow, or of its matrix."""
    flow = getattr(flow, "flow", flow)
    test_mask(flow, "the flow")
    matrix = sparse.coo_matrix(exact(flow))
    if matrix.shape != (vertices, vertices):
        raise ValueError(f"the flow has the shape {matrix.shape}, and the graph has {vertices} vertices")
    rows, columns, values = entries_of(matrix)
    return rows, columns, whole(values, rows, columns)


def _by_pair(given: Network, flow: Any) -> tuple[Any, Any, Any, Any]:
    """Each pair of vertices from one of which to the other there is a capacity or a flow: the two, and the sum of either."""
    rows, columns, amounts = flow_of(flow, given.vertices)
    places = Places(np.append(given.tails, rows), np.append(given.heads, columns), given.vertices)
    none = np.zeros(len(amounts), np.int64), np.zeros(len(given.caps), np.int64)
    caps = places.fitting(np.append(given.caps, none[0]), "the capacity")
    flows = places.fitting(np.append(none[1], amounts), "the flow")
    _test_negated(places, flows, given.vertices)
    kept = (caps > 0) | (flows > 0)
    return places.rows[kept], places.columns[kept], caps[kept], np.maximum(flows[kept], 0)


def _test_negated(places: Places, flows: Any, vertices: int) -> None:
    """Raises ValueError if the flow at a place isn't that of its vertices the other way round, negated."""
    carries = np.flatnonzero(flows)
    one = matrix_of(places.rows[carries], places.columns[carries], flows[carries], vertices)
    both = [entries_of(it) for it in (one, one.T.tocsr())]
    rows, columns, amounts = (np.append(*it) for it in zip(*both))
    found = Places(rows, columns, vertices)
    are_zero = found.sums(amounts).are_zero()
    if not are_zero.all():
        place = found.at(int(np.argmin(are_zero)))
        raise ValueError(f"the flow at {place} isn't that at {place[::-1]} negated, as SciPy has it")
