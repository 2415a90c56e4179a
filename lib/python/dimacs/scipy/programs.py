"""Linear programs whose matrix is that of a network, certified as flows of least cost.

A variable is an arc. It has an entry in two constraints at most, from one of which it goes to the other: entries of 1 and
-1, once some constraints are negated. One with a single entry goes from or to one more node. An inequality has one more arc
there, for what it leaves open.
"""

from __future__ import annotations

import math
from fractions import Fraction
from functools import partial
from typing import Any, Iterator, NamedTuple, Sequence

import numpy as np
from numpy.typing import NDArray
from scipy import sparse

from .. import calls
from ..answers import NotOptimal, Refused
from ..buffers import NUMBERS, number_of, test_mask
from ..given import FLOWS, MIN, Array, Given, Names
from ..scales import fraction_of


class CertifiedProgram(NamedTuple):
    """The value of an optimal solution, the solution in whole numbers, and the dual value of each constraint: first those of
    A_ub, then those of A_eq. Each reduced cost, c - A^T duals, is at least 0 where a variable can be greater, and at most 0
    where it can be less. Of a program that is infeasible the value and the solution are None, and duals are the names of
    constraints whose sum can't be met within the bounds, each as it is or negated.

    >>> from scipy.optimize import linprog
    >>> program = dict(c=[3, 7], A_eq=[[1, 1]], b_eq=[6], bounds=(0, 5))
    >>> certify_linprog(linprog(**program), **program)
    CertifiedProgram(value=22, x=array([5, 1]), duals=[7])
    """

    value: int | None
    x: NDArray[np.int64] | None
    duals: list[int] | list[str]


class _Part:
    """The constraints of a matrix, A_ub or A_eq, and their right sides."""

    def __init__(self, A: Any, b: Any, name: str, variables: int) -> None:
        self._name = name
        test_mask(A, f"A_{name}")
        self._matrix = sparse.coo_matrix((0, variables), dtype=np.int64) if A is None else sparse.coo_matrix(A)
        self.rows, columns = self._matrix.shape
        if columns != variables:
            raise ValueError(f"A_{name} has {columns} columns, and c has {variables} numbers")
        self.right = [] if b is None else _numbers(b, f"b_{name}")
        if len(self.right) != self.rows:
            raise ValueError(f"b_{name} has {len(self.right)} numbers, and A_{name} has {self.rows} rows")

    def entries(self) -> Iterator[tuple[int, int, Fraction]]:
        """The row, the column and the value of each entry that is stored, several at a place among them."""
        stored = self._matrix.row.tolist(), self._matrix.col.tolist(), self._matrix.data.tolist()
        for row, column, it in zip(*stored):
            yield row, column, fraction_of(it, partial("A_{}[{}, {}]".format, self._name, row, column))


def _numbers(given: Any, name: str) -> list[int]:
    """Numbers as ints. As objects they keep what they are: in an array of floats an int may be rounded."""
    test_mask(given, name)
    listed = np.asarray(given, object).ravel().tolist()
    return [number_of(it, NUMBERS, f"{name}[{place}]") for place, it in enumerate(listed)]


def _columns(parts: Sequence[_Part], count: int) -> list[list[tuple[int, Any]]]:
    """The entries of each variable that aren't 0, by constraints: several at a place are their exact sum."""
    found: list[dict[int, Fraction]] = [{} for _ in range(count)]
    first = 0
    for part in parts:
        for row, column, it in part.entries():
            found[column][first + row] = found[column].get(first + row, 0) + it
        first += part.rows
    return [[(row, it) for row, it in by_row.items() if it != 0] for by_row in found]


class _Program(Names):
    """The arcs of a program, and its numbers. Nodes are named by constraints, and arcs by variables."""

    def __init__(self, c: Any, A_ub: Any, b_ub: Any, A_eq: Any, b_eq: Any, bounds: Any) -> None:
        super().__init__()
        self.costs = _numbers(c, "c")
        parts = [_Part(A, b, name, len(self.costs)) for A, b, name in ((A_ub, b_ub, "ub"), (A_eq, b_eq, "eq"))]
        self.right = [it for part in parts for it in part.right]
        self.inequalities, self.rows = parts[0].rows, sum(part.rows for part in parts)
        entries = _columns(parts, len(self.costs))
        self.signs = _signs(self.rows, entries)
        slacks = [[(row, 1)] for row in range(self.inequalities)]
        self.ends: list[tuple[Any, Any]] = [_ends(it, self.signs) for it in [*entries, *slacks]]
        self.bounds = _bounds(bounds, len(self.costs)) + [(0, math.inf)] * self.inequalities
        self.shifts = [min(low, 0) for low, _ in self.bounds]  # an arc carries 0 or more

    def given(self) -> Given:
        last = self.rows + 1
        tails, heads = ([last if ends[k] is None else ends[k] + 1 for ends in self.ends] for k in (0, 1))
        supplies = [sign * it for sign, it in zip(self.signs, self.right)] + [0]
        for (tail, head), shift in zip(self.ends, self.shifts):
            supplies[self.rows if tail is None else tail] -= shift
            supplies[self.rows if head is None else head] += shift
        supplies[self.rows] = -sum(supplies[: self.rows])
        lows, caps = ([bound[k] - shift for bound, shift in zip(self.bounds, self.shifts)] for k in (0, 1))
        costs = self.costs + [0] * (len(self.ends) - len(self.costs))
        return Given(MIN, last, tails, heads, lows, caps, costs, supplies, names=self)

    def arc(self, place: int) -> Any:
        count = len(self.costs)
        return f"x[{place}]" if place < count else f"the slack of A_ub[{place - count}]"

    def node(self, place: int) -> Any:
        count = self.inequalities
        if place == self.rows:
            return "the end of variables in one constraint"
        return f"A_ub[{place}]" if place < count else f"A_eq[{place - count}]"

    def item(self, name: str, place: int) -> str:
        return f"{name} of {self.node(place) if name == 'supplies' else self.arc(place)}"

    def formed(self, kind: Array, items: Any) -> Any:
        return self.variables(items) if kind is FLOWS else items

    def flows(self, x: Sequence[int]) -> list[Any]:
        """What arcs carry, those of inequalities too."""
        left = [0] * self.rows
        for (tail, head), it in zip(self.ends, x):
            for row, way in ((tail, 1), (head, -1)):
                if row is not None:
                    left[row] += way * self.signs[row] * it
        slacks = [self.right[row] - left[row] for row in range(self.inequalities)]
        return [it - shift for it, shift in zip([*x, *slacks], self.shifts)]

    def variables(self, flows: Any) -> NDArray[np.int64]:
        return np.array([it + shift for it, shift in zip(flows[: len(self.costs)], self.shifts)], np.int64)

    def constant(self) -> Any:
        """What arcs cost more than variables."""
        return sum(cost * shift for cost, shift in zip(self.costs, self.shifts))


def _signs(rows: int, entries: list[list[tuple[int, Any]]]) -> list[int]:
    """The sign of each constraint by which every variable has entries of 1 and -1. Raises ValueError that names a variable
    if there are none."""
    near: dict[int, list[tuple[int, int, int]]] = {row: [] for row in range(rows)}
    for column, some in enumerate(entries):
        if len(some) > 2:
            raise ValueError(f"this is no network: x[{column}] has {len(some)} entries, and may have two")
        for _, it in some:
            if abs(it) != 1:
                raise ValueError(f"this is no network: x[{column}] has an entry of {it}, not 1 or -1")
        if len(some) == 2:
            (one, first), (other, second) = some
            near[one].append((other, int(-first * second), column))
            near[other].append((one, int(-first * second), column))
    signs = [0] * rows
    for start in range(rows):
        signs[start] = signs[start] or 1
        waiting = [start]
        while waiting:
            row = waiting.pop()
            for other, way, column in near[row]:
                if not signs[other]:
                    signs[other] = way * signs[row]
                    waiting.append(other)
                elif signs[other] != way * signs[row]:
                    raise ValueError(f"this is no network: no signs of constraints give x[{column}] entries of 1 and -1")
    return signs


def _ends(entries: list[tuple[int, Any]], signs: list[int]) -> tuple[int | None, int | None]:
    """The constraint that an arc leaves, and the one that it enters; None is the node that is no constraint."""
    by_way = {int(signs[row] * it): row for row, it in entries}
    return by_way.get(1), by_way.get(-1)


def _bounds(bounds: Any, count: int) -> list[tuple[Any, Any]]:
    """The bounds of each variable, as linprog takes them: a pair for each, or one for all, where None and nan are no bound."""
    test_mask(bounds, "bounds")
    table = np.asarray((0, None) if bounds is None or np.size(bounds) == 0 else bounds, object)
    if table.shape in ((2,), (1, 2), (2, 1)):
        table = np.tile(table.ravel(), (count, 1))
    if table.shape != (count, 2):
        raise ValueError(f"bounds have the shape {table.shape}, and there are {count} variables")
    for place, (low, _) in enumerate(table):
        if low is None or low == -math.inf or low != low:
            raise ValueError(f"x[{place}] has no lower bound: a variable of a network has to have one")
    return [(_bound(low, place), _bound(high, place)) for place, (low, high) in enumerate(table)]


def _bound(number: Any, place: int) -> Any:
    """A bound as an int, or inf."""
    is_limitless = number is None or number == math.inf or number != number
    return math.inf if is_limitless else number_of(number, NUMBERS, f"bounds[{place}]")


def certify_linprog(
    result: Any, c: Any, A_ub: Any = None, b_ub: Any = None, A_eq: Any = None, b_eq: Any = None, bounds: Any = None,
    *, tolerance: float = 1e-6,
) -> CertifiedProgram:
    """Decides whether a result of scipy.optimize.linprog is optimal, of a program of a network, whose numbers are whole.

    The words after the result are those of linprog. Each x may be as far as the tolerance from a whole number, which is taken
    then; the value of the result from that of x too, or by that value times the tolerance if it is above 1. Raises NotOptimal
    with a better x; Refused if x isn't feasible, or the value differs; ValueError that names a variable if the matrix isn't
    that of a network, and if a number isn't whole, a size doesn't fit, or the tolerance is below 0 or not finite. The result
    of status 2 is certified to be infeasible: see CertifiedProgram for what is returned then.

    >>> from scipy.optimize import linprog
    >>> program = dict(c=[3, 7], A_eq=[[1, 1]], b_eq=[11], bounds=(0, 5))
    >>> certify_linprog(linprog(**program), **program)
    CertifiedProgram(value=None, x=None, duals=['A_eq[0]'])
    """
    if not 0 <= tolerance < math.inf:
        raise ValueError(f"tolerance is {tolerance}, and has to be finite, and 0 or above")
    allowed = fraction_of(tolerance, lambda: "tolerance")
    program = _Program(c, A_ub, b_ub, A_eq, b_eq, bounds)
    if result.status == 2:
        return CertifiedProgram(None, None, _unmet(program))
    x = rounded_of(result, len(program.costs), allowed)
    try:
        cost, potentials = calls.certify(program.given().add(FLOWS, program.flows(x)))
    except NotOptimal as it:
        it.numbers = {name: number + program.constant() for name, number in it.numbers.items()}
        raise
    value = cost + program.constant()
    if abs(fraction_of(result.fun, lambda: "fun") - value) > allowed * max(1, abs(value)):
        raise Refused("ValueDiffers", text="solution", line=0, field=0, numbers={"claimed": result.fun, "value": value})
    duals = [sign * (it - potentials[-1]) for sign, it in zip(program.signs, potentials)]
    return CertifiedProgram(value, np.array(x, np.int64), duals)


def _unmet(program: _Program) -> list[Any]:
    """The names of constraints that can't be met together: those of a set that is violated, or those outside of it if it has
    the node that is no constraint."""
    *rows, last = calls.certify(program.given()).inside
    return [program.node(row) for row, inside in enumerate(rows) if inside != last]


def rounded_of(result: Any, variables: int, allowed: Fraction = Fraction(1, 10**6)) -> list[int]:
    """The whole numbers that the x of a result are near to."""
    found: list[int] = []
    if result.status != 0:
        raise ValueError(f"the result has the status {result.status}, and no solution")
    if len(result.x) != variables:
        raise ValueError(f"x has {len(result.x)} numbers, and c has {variables}")
    for place, it in enumerate(result.x):
        exact = fraction_of(it, partial("x[{}]".format, place))
        near = round(exact)
        if abs(exact - near) > allowed:
            raise ValueError(f"x[{place}] is {it}, not a whole number: the nearest is {near}")
        found.append(near)
    return found
