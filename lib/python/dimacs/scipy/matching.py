"""Assignments and matchings, which are flows: from each row along an edge to a column, and from there to a sink."""

from __future__ import annotations

import warnings
from itertools import chain
from typing import Any, NamedTuple

import numpy as np
from numpy.typing import NDArray
from scipy import sparse

from .. import calls
from ..answers import GaveUp, Infeasible, NotOptimal
from ..buffers import NUMBERS, test_mask
from ..given import FLOWS, MAX, MIN, Array, Given, Names
from .entries import edges_of, entries_of, exact, whole, whole_items


class Assignment(NamedTuple):
    """Rows and their columns, as SciPy returns them: row_ind[k] is assigned to col_ind[k].

    >>> linear_sum_assignment([[4, 1, 3], [2, 0, 5], [3, 2, 2]])
    Assignment(row_ind=array([0, 1, 2]), col_ind=array([1, 0, 2]))
    """

    row_ind: NDArray[np.intp]
    col_ind: NDArray[np.intp]


class CertifiedAssignment(NamedTuple):
    """The cost of an assignment, and numbers that show that it is the least (or the greatest).

    By row and by column: the cost of each entry is at least u[row] + v[column], and exactly that if it is assigned. No v is
    above 0, and v is 0 if the column isn't assigned; where rows outnumber columns, this holds of u and the rows in place of
    v and the columns. If the greatest is meant, all of this holds of costs negated.

    >>> value, u, v = certify_assignment([[1, 9], [9, 1]], [0, 1], [0, 1])
    >>> value == u.sum() + v.sum()
    True
    """

    value: int
    u: NDArray[np.int64]
    v: NDArray[np.int64]


class _Edges(Names):
    """The edges between rows and columns, with their costs. A matrix with more rows than columns is turned."""

    def __init__(self, shape: tuple[int, int], rows: Any, columns: Any, costs: Any, maximize: bool) -> None:
        super().__init__()
        self._is_turned = shape[0] > shape[1]
        self.sign = -1 if maximize else 1
        self.shape = self.turned(*shape)
        self.rows, self.columns = self.turned(rows, columns)
        self.costs = costs

    def turned(self, of_rows: Any, of_columns: Any) -> tuple[Any, Any]:
        """What rows and columns have, the other way round if the matrix is turned."""
        return (of_columns, of_rows) if self._is_turned else (of_rows, of_columns)

    def ends(self) -> tuple[int, NDArray[np.uint32], NDArray[np.uint32]]:
        """The number of nodes, and the ends of arcs: those of edges, and one from each column to the sink."""
        count, sink = self.shape[0], sum(self.shape) + 1
        columns = np.arange(count + 1, sink)
        tails = np.concatenate((self.rows + 1, columns))
        heads = np.concatenate((self.columns + count + 1, np.full(len(columns), sink)))
        return sink, tails.astype(np.uint32), heads.astype(np.uint32)

    def given(self) -> Given:
        """The instance: each row sends one unit, and each column hands on one at most."""
        nodes, tails, heads = self.ends()
        count, more = self.shape
        if self.sign < 0 and len(self.costs) and self.costs.min() == np.iinfo(np.int64).min:
            raise ValueError(f"the cost {self.costs.min()} can't be negated")
        # An edge has room for two, so that one on it makes it tight.
        caps = np.concatenate((np.full(len(self.costs), 2), np.ones(more, np.int64)))
        costs = np.concatenate((self.sign * self.costs, np.zeros(more, np.int64)))
        supplies = np.zeros(nodes, np.int64)
        supplies[:count], supplies[-1] = 1, -count
        return Given(MIN, nodes, tails, heads, np.zeros(len(caps), np.int64), caps, costs, supplies, names=self)

    def arc(self, place: int) -> Any:
        """Arcs are named by the rows and columns of entries, or by the columns from which they lead to the sink."""
        edges = len(self.costs)
        if place >= edges:
            return self.node(self.shape[0] + place - edges)
        return tuple(int(it[place]) for it in self.turned(self.rows, self.columns))

    def node(self, place: int) -> Any:
        count, (row, column) = self.shape[0], self.turned("row", "column")
        if place == sum(self.shape):
            return "the sink"
        return (row, place) if place < count else (column, place - count)

    def formed(self, kind: Array, items: Any) -> Any:
        return self.assigned(items) if kind is FLOWS else items

    def assigned(self, flows: Any) -> Assignment:
        used = np.flatnonzero(flows[: len(self.costs)])
        rows, columns = self.turned(self.rows[used], self.columns[used])
        order = np.argsort(rows, kind="stable")
        return Assignment(rows[order].astype(np.intp), columns[order].astype(np.intp))

    def solved(self, infeasible: str) -> Assignment:
        try:
            found: Assignment = calls.solve_min(self.given(), self.costs).flows
        except Infeasible:
            raise ValueError(infeasible) from None
        return found

    def duals(self, potentials: Any) -> tuple[Any, Any]:
        """What rows and columns add to the costs of their entries. Raises GaveUp if a number has more than 64 bits."""
        *prices, last = potentials.tolist()  # as ints, since differences may have more
        count = self.shape[0]
        found = [it - last for it in prices[:count]], [min(last - it, 0) for it in prices[count:]]
        for it in chain(*found):
            if not NUMBERS.least <= it <= NUMBERS.greatest:
                raise GaveUp(f"the assignment is optimal, but {it}, which would show it, has more than 64 bits")
        return self.turned(*(np.array(it, np.int64) for it in found))


def _of_matrix(cost_matrix: Any, maximize: bool) -> _Edges:
    """The entries of a matrix. One of inf (or of -inf, for the greatest) is no edge, as by SciPy; a mask, which SciPy doesn't
    see, is refused."""
    test_mask(cost_matrix, "the cost matrix")
    matrix = np.asarray(exact(cost_matrix))
    if matrix.ndim != 2:
        raise ValueError(f"expected a matrix (2-D array), got a {matrix.ndim} array")
    if matrix.dtype.kind == "f" and (np.isnan(matrix).any() or (matrix == (np.inf if maximize else -np.inf)).any()):
        raise ValueError("matrix contains invalid numeric entries")
    rows, columns = np.nonzero(~np.isinf(matrix) if matrix.dtype.kind == "f" else np.ones(matrix.shape, bool))
    shape = matrix.shape[0], matrix.shape[1]
    return _Edges(shape, rows, columns, whole(matrix[rows, columns], rows, columns), maximize)


def linear_sum_assignment(cost_matrix: Any, maximize: bool = False) -> Assignment:
    """An assignment of least cost, as scipy.optimize.linear_sum_assignment returns it, judged by potentials.

    Costs are whole numbers. Raises ValueError as SciPy, and if a cost isn't whole.

    >>> linear_sum_assignment([[4, 1, 3], [2, 0, 5], [3, 2, 2]]).col_ind
    array([1, 0, 2])
    """
    return _of_matrix(cost_matrix, maximize).solved("cost matrix is infeasible")


def certify_assignment(cost_matrix: Any, row_ind: Any, col_ind: Any, maximize: bool = False) -> CertifiedAssignment:
    """Decides whether an assignment costs least. Returns its cost, and numbers by row and column that show it.

    Raises NotOptimal with a better Assignment if it doesn't cost least; Refused with a row or column if it isn't assigned
    once; ValueError if a place isn't in the matrix, or isn't whole; GaveUp if the assignment costs least, but one of the
    numbers that were found has more than 64 bits; others may fit.

    >>> certify_assignment([[4, 1, 3], [2, 0, 5], [3, 2, 2]], [0, 1, 2], [1, 0, 2]).value
    5
    """
    edges = _of_matrix(cost_matrix, maximize)
    flows = _claimed(edges, row_ind, col_ind)
    try:
        cost, potentials = calls.certify(edges.given().add(FLOWS, flows), flows)
    except NotOptimal as it:
        it.numbers = {name: edges.sign * number for name, number in it.numbers.items()}
        raise
    return CertifiedAssignment(edges.sign * cost, *edges.duals(potentials))


def _claimed(edges: _Edges, row_ind: Any, col_ind: Any) -> Any:
    rows, columns = whole_items(row_ind, "row_ind"), whole_items(col_ind, "col_ind")
    if len(rows) != len(columns):
        raise ValueError(f"row_ind has {len(rows)} items, and col_ind {len(columns)}")
    rows, columns = edges.turned(rows, columns)
    flows = np.zeros(len(edges.costs) + edges.shape[1], np.int64)
    number = {place: arc for arc, place in enumerate(zip(edges.rows.tolist(), edges.columns.tolist()))}
    for place in zip(rows.tolist(), columns.tolist()):
        if place not in number:
            raise ValueError(f"{edges.turned(*place)} is no place of the matrix with a finite cost")
        flows[number[place]] += 1
        flows[len(edges.costs) + place[1]] += 1
    return flows


def _of_sparse(matrix: Any, maximize: bool, has_costs: bool = True) -> _Edges:
    if not sparse.issparse(matrix):
        raise TypeError("graph must be in sparse format (CSC, CSR, or COO)")
    rows, columns, values = entries_of(matrix)
    if not has_costs:
        return _Edges(matrix.shape, rows, columns, np.zeros(len(rows), np.int64), maximize)
    is_zero = values == 0
    if is_zero.any():
        warnings.warn("explicit zero weights are removed before matching", stacklevel=3)
    kept = ~is_zero & (values != (-np.inf if maximize else np.inf))
    rows, columns, values = rows[kept], columns[kept], values[kept]
    return _Edges(matrix.shape, *edges_of(matrix, rows, columns, values), maximize)


def min_weight_full_bipartite_matching(biadjacency: Any, maximize: bool = False) -> Assignment:
    """A full matching of least weight, as scipy.sparse.csgraph returns it, judged by potentials. Weights are whole numbers;
    each entry that is stored, but for zeros and inf, is an edge. Raises ValueError as SciPy if there is none.

    >>> from scipy.sparse import csr_matrix
    >>> min_weight_full_bipartite_matching(csr_matrix([[3, 3], [0, 4]])).col_ind
    array([0, 1])
    """
    return _of_sparse(biadjacency, maximize).solved("no full matching exists")


def maximum_bipartite_matching(graph: Any, perm_type: str = "row") -> NDArray[np.int32]:
    """A matching of the most rows and columns, as scipy.sparse.csgraph returns it, judged by a cut: for each column its row
    (or for perm_type "column" for each row its column), or -1.

    >>> from scipy.sparse import csr_matrix
    >>> maximum_bipartite_matching(csr_matrix([[1, 1], [1, 0]]), "column")
    array([1, 0], dtype=int32)
    """
    if perm_type not in ("row", "column"):
        raise ValueError("perm_type must be 'row' or 'column'")
    edges = _of_sparse(graph, False, False)
    nodes, tails, heads = edges.ends()
    rows = np.arange(1, edges.shape[0] + 1, dtype=np.uint32)
    tails, heads = np.append(tails, np.full(len(rows), nodes + 1, np.uint32)), np.append(heads, rows)
    given = Given(MAX, nodes + 1, nodes + 1, nodes, tails, heads, np.ones(len(tails), np.int64))
    found = edges.assigned(calls.solve_max(given, edges.costs).flows)
    wanted, others = (found.col_ind, found.row_ind) if perm_type == "row" else (found.row_ind, found.col_ind)
    matched = np.full(graph.shape[1 if perm_type == "row" else 0], -1, np.int32)
    matched[wanted] = others
    return matched
