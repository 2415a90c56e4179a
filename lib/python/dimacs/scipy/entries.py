"""The entries of matrices: whole numbers of 64 bits, and their exact sums at each place."""

from __future__ import annotations

import operator
from typing import Any, Callable, NamedTuple

import numpy as np
from scipy import sparse

from ..buffers import NUMBERS, Name, array_of, whole_floats


def exact(given: Any) -> Any:
    """An array, or a list as one. Raises ValueError that names the place of the first int that numpy would round, as it does
    beside floats."""
    found = given if hasattr(given, "dtype") else np.asarray(given)
    if found is given or found.dtype.kind != "f":
        return found
    for place, number in np.ndenumerate(np.asarray(given, object)):
        if hasattr(number, "__index__") and operator.index(number) != float(found[place]):
            raise ValueError(f"the entry at {place} is {number}, and beside floats it would be {found[place]:.0f}")
    return found


def whole(values: Any, rows: Any, columns: Any) -> Any:
    """Values as integers of 64 bits. Raises ValueError that names the place of the first that is none."""
    kind = values.dtype.kind
    if kind == "f":
        found, fits = whole_floats(np, values)
    elif kind in "uib":
        found = values.astype(np.int64)
        fits = found >= 0 if kind == "u" else np.ones(len(values), bool)
    else:
        raise TypeError(f"the graph has entries of {values.dtype}, which are no numbers")
    if not fits.all():
        entry = int(np.argmin(fits))
        place = int(rows[entry]), int(columns[entry])
        raise ValueError(f"the entry at {place} is {values[entry]}, not a whole number of 64 bits")
    return found


def whole_items(values: Any, name: Name) -> Any:
    """The items of an array, as of rows or vertices, as integers of 64 bits. Raises ValueError that names the first that is
    none, and TypeError if they are no numbers."""
    return np.asarray(array_of(values, NUMBERS, name).kept)


_LOW = 2**32 - 1


class Sums(NamedTuple):
    """Sums of the terms of terms_of: as they are, or multiples of 2^32 and what they are more."""

    highs: Any
    lows: Any = None

    def are_zero(self) -> Any:
        return self.highs == 0 if self.lows is None else (self.highs + (self.lows >> 32) == 0) & (self.lows & _LOW == 0)

    def fitting(self, what: str, at: Callable[[int], Any], refuse: Callable[[str], Exception] = ValueError) -> Any:
        """The sums as integers of 64 bits. Raises an exception that names the place of the first that has more."""
        if self.lows is None:
            return self.highs
        highs = self.highs + (self.lows >> 32)
        fit = (highs >= -(2**31)) & (highs < 2**31)
        if not fit.all():
            first = int(np.argmin(fit))
            found = (int(self.highs[first]) << 32) + int(self.lows[first])
            raise refuse(f"{what} at {at(first)} is {found}, which has more than 64 bits")
        return (self.highs << 32) + self.lows


def terms_of(amounts: Any) -> list[Any]:
    """Integers of 64 bits as terms whose sums have 62: as they are, or as multiples of 2^32 and what they are more."""
    is_small = np.abs(amounts.astype(np.float64)).sum() < 2**59
    return [amounts] if is_small else [amounts >> 32, amounts & _LOW]


class Places:
    """The places of some entries, each once, in the order of rows and columns."""

    def __init__(self, rows: Any, columns: Any, vertices: int) -> None:
        self._keys = rows * np.int64(vertices) + columns
        self._order = np.argsort(self._keys, kind="stable")  # takes less time the fewer runs there are
        keys = self._keys[self._order]
        self._starts = np.flatnonzero(np.diff(keys, prepend=-1))
        first = self._order[self._starts]
        self.rows, self.columns = rows[first], columns[first]

    def sums(self, amounts: Any) -> Sums:
        """What the amounts of the entries, integers of 64 bits, add up to at each place."""
        if not len(amounts):
            return Sums(amounts)
        return Sums(*(np.add.reduceat(it, self._starts) for it in terms_of(amounts[self._order])))

    def share(self, marks: Any) -> Any:
        """Whether each entry is at the place of one with a mark."""
        return np.isin(self._keys, self._keys[marks])

    def at(self, number: int) -> tuple[int, int]:
        return int(self.rows[number]), int(self.columns[number])

    def fitting(self, amounts: Any, what: str) -> Any:
        """The sums as integers of 64 bits. Raises ValueError that names the place of the first that has more."""
        return self.sums(amounts).fitting(what, self.at)


def entries_of(matrix: Any) -> tuple[Any, Any, Any]:
    """The rows, columns and values of all entries that are stored, several at a place among them."""
    if matrix.format == "csc":
        columns, rows, values = entries_of(matrix.T)
        return rows, columns, values
    if matrix.format != "csr":
        found = matrix.tocoo(copy=False)
        return found.row.astype(np.int64), found.col.astype(np.int64), found.data
    count = matrix.indptr[-1]  # the arrays may be longer
    rows = np.repeat(np.arange(matrix.shape[0], dtype=np.int64), np.diff(matrix.indptr))
    return rows, matrix.indices[:count].astype(np.int64), matrix.data[:count]


#: The formats in which several entries at a place are several edges, as by SciPy. In others they are one, of their sum.
SEVERAL = ("csr", "csc")


def edges_of(matrix: Any, rows: Any, columns: Any, values: Any) -> tuple[Any, Any, Any]:
    """The entries of a matrix as edges, whose weights are whole numbers. The sum of bools is a bool, as by SciPy."""
    weights = whole(values, rows, columns)
    if matrix.format in SEVERAL:
        return rows, columns, weights
    places = Places(rows, columns, matrix.shape[1])
    sums = places.fitting(weights, "the weight")
    return places.rows, places.columns, np.minimum(sums, 1) if values.dtype.kind == "b" else sums


def matrix_of(rows: Any, columns: Any, amounts: Any, vertices: int) -> Any:
    """A matrix in CSR format with these entries, which stand in the order of rows."""
    starts = np.searchsorted(rows, np.arange(vertices + 1))
    return sparse.csr_matrix((amounts, columns, starts), shape=(vertices, vertices))


def netted(entries: Any) -> Any:
    """A matrix less its transpose, which has an entry where one of them has, also if that is 0. Sums have 62 bits."""
    entries.sum_duplicates()
    back = entries.T.tocsr()
    # SciPy leaves sums out that are 0. None is: the last two bits say which of both have an entry.
    entries.data, back.data = 4 * entries.data + 1, 2 - 4 * back.data
    found = entries + back
    found.data >>= 2
    return found


def numbers_of(vertices: Any) -> Any:
    """Vertices as the calls over arrays number them, from 1."""
    return (vertices + 1).astype(np.uint32)


def summed(tails: Any, heads: Any, caps: Any, vertices: int) -> Any:
    """The matrix of capacities between nodes that are numbered from 1."""
    places = Places(tails.astype(np.int64) - 1, heads.astype(np.int64) - 1, vertices)
    return matrix_of(places.rows, places.columns, places.fitting(caps, "the capacity"), vertices)


def shortest(tails: Any, heads: Any, weights: Any, vertices: int) -> Any:
    """The matrix of the least weights between nodes that are numbered from 1."""
    order = np.lexsort((weights, heads, tails))
    rows, columns = (it[order].astype(np.int64) - 1 for it in (tails, heads))
    is_first = (np.diff(rows, prepend=-1) != 0) | (np.diff(columns, prepend=-1) != 0)
    return matrix_of(rows[is_first], columns[is_first], weights[order][is_first], vertices)


def incidence(tails: Any, heads: Any, vertices: int) -> Any:
    """The matrix of what leaves each node less what enters it: a column for each arc."""
    arcs = np.arange(len(tails))
    signs = np.repeat(np.array([1, -1]), len(arcs))
    ends = np.append(tails, heads).astype(np.int64) - 1
    return sparse.csr_matrix((signs, (ends, np.append(arcs, arcs))), shape=(vertices, len(arcs)))
