"""Shortest paths of matrices."""

from __future__ import annotations

from typing import Any, Callable, Literal, overload

import numpy as np
from numpy.typing import NDArray
from scipy import sparse
from scipy.sparse import csgraph as scipy_graphs

from .. import calls
from ..answers import UNREACHED, GaveUp
from ..arrays import solve_paths_arrays
from ..buffers import test_mask
from ..distances import NegativeCycle, distances_from, potentials_of
from ..given import DISTANCES, GRAPH, PREDECESSORS, Given, Names
from .entries import SEVERAL, Places, edges_of, entries_of, exact, numbers_of, whole, whole_items

#: SciPy's predecessor of a vertex that has none.
NO_PREDECESSOR = -9999

_METHODS = ("auto", "FW", "D", "BF", "J")


def _shown(csgraph: Any) -> tuple[Any, Any, Any, Any]:
    """The shape of a matrix that isn't sparse, and its entries that are edges: of a masked array those that aren't masked,
    zeros among them, else those that are neither 0 nor inf nor nan."""
    masked: Any = np.ma
    is_masked = masked.isMaskedArray(csgraph)
    matrix = np.asarray(exact(csgraph))
    if matrix.ndim != 2:
        raise ValueError("compressed-sparse graph must be 2-D")
    kept = ~masked.getmaskarray(csgraph) if is_masked else matrix != 0
    if matrix.dtype.kind == "f" and not is_masked:
        kept &= np.isfinite(matrix)
    rows, columns = np.nonzero(kept)
    return matrix.shape, rows, columns, matrix[rows, columns]


def _edges(csgraph: Any, unweighted: bool, has_more: bool) -> tuple[int, Any, Any, Any]:
    """The number of vertices of a graph, and the ends and weights of its edges. A stored inf is none, as distances have it; if
    more than those are asked for, or edges are counted, the methods of SciPy differ, and ValueError is raised. So they do on
    a stored nan, which is no weight anyhow."""
    is_sparse = sparse.issparse(csgraph)
    shape, rows, columns, values = (csgraph.shape, *entries_of(csgraph)) if is_sparse else _shown(csgraph)
    if shape[0] != shape[1]:
        raise ValueError("graph should be a square array")
    kept = (values != np.inf) & ((values == values) | (not unweighted))
    if not kept.all():
        first = int(np.argmin(kept))
        if unweighted or has_more:
            shown = f"the entry at {int(rows[first]), int(columns[first])} is {values[first]}"
            raise ValueError(f"{shown}: by some methods of SciPy it is an edge, by others none")
        if is_sparse and csgraph.format not in SEVERAL:
            kept = ~Places(rows, columns, shape[1]).share(~kept)
        rows, columns, values = rows[kept], columns[kept], values[kept]
    return shape[0], rows, columns, values


def _sources(indices: Any, vertices: int) -> Any:
    """The vertices that are asked for, in the shape in which they are."""
    if indices is None:
        return np.arange(vertices)
    test_mask(indices, "indices")
    given = np.asarray(indices)
    found = whole_items(given.ravel(), "indices" if given.ndim else lambda place: "indices")
    found = np.where(found < 0, found + vertices, found).reshape(given.shape)
    if ((found < 0) | (found >= vertices)).any():
        raise ValueError("indices out of range 0...N")
    return found


def arcs_of(
    csgraph: Any, directed: bool, unweighted: bool, has_more: bool = False, scale: Any = None
) -> tuple[int, Any, Any, Any]:
    """The number of vertices, and the arcs: an edge of a graph that isn't directed is two. More than distances may be given.
    With a scale weights stay as they are."""
    if scale is not None and sparse.issparse(csgraph) and csgraph.format not in SEVERAL:
        csgraph = csgraph.tocsr()
    vertices, tails, heads, weights = _edges(csgraph, unweighted, has_more)
    if unweighted:
        weights = np.ones(len(tails), np.int64)
    elif scale is not None:
        pass
    elif sparse.issparse(csgraph):
        tails, heads, weights = edges_of(csgraph, tails, heads, weights)
    else:
        weights = whole(weights, tails, heads)
    if not directed:
        tails, heads, weights = np.append(tails, heads), np.append(heads, tails), np.append(weights, weights)
    return vertices, tails, heads, weights


def _search(vertices: int, tails: Any, heads: Any, weights: Any, method: str) -> Callable[[int], Any]:
    """What makes the distances from a source, and predecessors: one call, or more if weights are negative."""
    graph = vertices, numbers_of(tails), numbers_of(heads), weights
    if not len(weights) or weights.min() >= 0:
        return lambda source: solve_paths_arrays(*graph, source + 1)[1:]
    tails, heads, weights = (it.tolist() for it in graph[1:])
    # By this method SciPy asks only of what the sources reach whether there is a negative cycle.
    potentials = None if method == "BF" else potentials_of(vertices, tails, heads, weights)
    return lambda source: map(np.array, distances_from(vertices, tails, heads, weights, source + 1, potentials))


def _as_floats(distances: Any, source: int) -> Any:
    """Distances as SciPy has them. Raises GaveUp if one is no float."""
    found = distances.astype(np.float64)
    with np.errstate(invalid="ignore"):  # 2^63 is past the end
        lost = (found.astype(np.int64) != distances) & (distances != UNREACHED)
    if lost.any():
        vertex = int(np.argmax(lost))
        raise GaveUp(f"the distance from {source} to {vertex} is {distances[vertex]}, and there is no such float")
    found[distances == UNREACHED] = np.inf
    return found


@overload
def shortest_path(
    csgraph: Any, method: str = ..., directed: bool = ..., return_predecessors: Literal[False] = ...,
    unweighted: bool = ..., overwrite: bool = ..., indices: Any = ...,
) -> NDArray[np.float64]: ...
@overload
def shortest_path(
    csgraph: Any, method: str = ..., directed: bool = ..., *, return_predecessors: Literal[True],
    unweighted: bool = ..., overwrite: bool = ..., indices: Any = ...,
) -> tuple[NDArray[np.float64], NDArray[np.int32]]: ...
def shortest_path(
    csgraph: Any, method: str = "auto", directed: bool = True, return_predecessors: bool = False,
    unweighted: bool = False, overwrite: bool = False, indices: Any = None,
) -> Any:
    """Distances between vertices, as scipy.sparse.csgraph.shortest_path returns them, judged by predecessors.

    Weights are whole numbers of up to 64 bits, in integers or floats; some may be negative. The method isn't used, except
    that "BF" allows a negative cycle that no source reaches. Raises ValueError and NegativeCycleError as SciPy, ValueError
    if a weight isn't whole, and GaveUp if a distance is above 2^53 and no float, or if it, or a number that is needed for
    negative weights, is out of the range of 64 bits.

    >>> shortest_path([[0, 5, 0], [0, 0, 4], [0, 0, 0]], indices=0)
    array([0., 5., 9.])
    """
    if method not in _METHODS:
        raise ValueError(f"unrecognized method '{method}'")
    if method == "FW" and indices is not None:
        raise ValueError("Cannot specify indices with method == 'FW'.")
    vertices, tails, heads, weights = arcs_of(csgraph, directed, unweighted)
    sources = _sources(indices, vertices)
    distances = np.empty((sources.size, vertices), np.float64)
    predecessors = np.empty((sources.size, vertices), np.int32)
    try:
        search = _search(vertices, tails, heads, weights, method)
        for row, source in enumerate(map(int, sources.flat)):
            found, before = search(source)
            distances[row] = _as_floats(found, source)
            predecessors[row] = np.where(before > 0, before.astype(np.int64) - 1, NO_PREDECESSOR)
    except NegativeCycle as it:
        raise scipy_graphs.NegativeCycleError(str(it)) from None
    shape = (*sources.shape, vertices)
    if return_predecessors:
        return distances.reshape(shape), predecessors.reshape(shape)
    return distances.reshape(shape)


class _TableNames(Names):
    """The entries of a table of distances, and arcs by their two vertices."""

    has_inf_alone = True

    def __init__(self, tails: Any, heads: Any, source: int) -> None:
        super().__init__()
        self._ends, self._source = (tails, heads), source

    def arc(self, place: int) -> Any:
        return tuple(int(it[place]) for it in self._ends)

    def node(self, place: int) -> Any:
        return self._source, place

    def item(self, name: str, place: int) -> str:
        return f"{name}[{self._source}, {place}]"


def certify_shortest_path(
    csgraph: Any, dist: Any, predecessors: Any = None,
    *, directed: bool = True, unweighted: bool = False, indices: Any = None,
) -> NDArray[np.int32]:
    """Decides whether these are the distances that shortest_path returns, with its predecessors if they are given.

    dist has a row for each source, as predecessors: for each vertex, or for those that indices names. Returns predecessors
    by which the rows were judged. Raises Refused if an entry isn't true, which it names as (source, vertex), or an arc by
    its two vertices; ValueError if an entry of dist isn't a whole number below 2^63 - 1, or inf, or one of predecessors no
    vertex, or NO_PREDECESSOR.

    >>> certify_shortest_path([[0, 5, 0], [0, 0, 4], [0, 0, 0]], [[0, 5, 9]], indices=[0])
    array([[-9999,     0,     1]], dtype=int32)
    """
    vertices, tails, heads, weights = arcs_of(csgraph, directed, unweighted, predecessors is not None)
    sources = _sources(indices, vertices)
    rows, before = _table(dist, "dist", sources, vertices), None
    if predecessors is not None:
        before = _predecessors(predecessors, sources, vertices)
    found = np.empty((sources.size, vertices), np.int32)
    ends = numbers_of(tails), numbers_of(heads)
    for row, source in enumerate(map(int, sources.flat)):
        given = Given(GRAPH, vertices, *ends, weights, names=_TableNames(tails, heads, source))
        given.add_number("source", source + 1).add(DISTANCES, rows[row])
        if before is None:
            shown = calls.certify(given, rows[row]).predecessors
            found[row] = np.where(shown > 0, shown.astype(np.int64) - 1, NO_PREDECESSOR)
        else:
            calls.judge(given.add(PREDECESSORS, before[row]))
            found[row] = np.where(before[row] > 0, before[row] - 1, NO_PREDECESSOR)
    return found.reshape((*sources.shape, vertices))


def _table(given: Any, name: str, sources: Any, vertices: int) -> Any:
    """A table with a row for each source."""
    test_mask(given, name)
    found, wanted = np.asarray(exact(given)), (*sources.shape, vertices)
    if found.shape != wanted:
        raise ValueError(f"{name} has the shape {found.shape}, and has to have {wanted}")
    return found.reshape((sources.size, vertices))


def _predecessors(given: Any, sources: Any, vertices: int) -> Any:
    """A table of predecessors by their numbers, from 1; 0 is none, which SciPy alone has a number for."""
    table = _table(given, "predecessors", sources, vertices)

    def name(place: int) -> str:
        return f"predecessors[{sources.flat[place // vertices]}, {place % vertices}]"

    found = whole_items(table.ravel(), name)
    is_none = found == NO_PREDECESSOR
    wrong = ~is_none & ((found < 0) | (found >= vertices))
    if wrong.any():
        place = int(np.argmax(wrong))
        raise ValueError(f"{name(place)} is {found[place]}, which is no vertex, and not {NO_PREDECESSOR}")
    return np.where(is_none, 0, found + 1).reshape(table.shape)
