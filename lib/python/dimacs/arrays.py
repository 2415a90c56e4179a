"""The calls over arrays.

Nodes and arcs are numbered from 1, or from 0 with base=0. The first items of tails, heads, caps, .. belong to the first arc,
the first items of supplies, inside, distances, .. to the first node. An array is a list, array.array, numpy array, or
anything else with a buffer or an iterator. It isn't copied if its items are contiguous and aligned and have the library's
width: uint32 for tails, heads and predecessors, uint8 or bool for inside, int64 for all others; then no other thread may
write to it during the call. Otherwise, or if Ctrl-C may leave the call, it is copied or converted. A Series of pandas is read
by its places, and not by its labels. An item of caps may be inf: such an arc carries any amount.

What dimacs.read returns stands in place of its fields: certify_max_arrays(instance, solution). The value of a Solution is
tested too, and that it is of these arcs. Refusals name arcs and nodes as the instance does, by its names or from 0.

With scale= numbers needn't be whole: they are multiples of a unit, and answers are Fractions (ints if the factor is 1).

    scale=100                   multiples of 1/100: 12.34 is 1234 of them
    scale=Decimal("0.01")       the same, and answers are Decimals
    scale=(1, 100)              amounts (caps, lows, supplies, flows) are whole, costs, weights and so on aren't
    scale="exact"               each float is the fraction that it is, and all have a common denominator

A float stands for the multiple of the unit that it is the nearest float to, if there is only one.

ValueError is raised if a number doesn't fit or isn't whole, or if an array has a wrong length; PastLimit, which is a
ValueError, if a number is past a limit of instances. TypeError is raised for items that are no numbers, and for a dict, a
set or a masked array.
"""

from __future__ import annotations

from functools import wraps
from typing import Any, Callable, ParamSpec, Protocol, TypeVar, Union, overload

from . import calls
from .answers import Amounts, AmountsLike, Certified, Ids, IdsLike, Lengths, Marks, MarksLike, Number, Scaled, Scales, Solved
from .answers import Verdict
from .buffers import LIMIT, Numbers
from .given import DISTANCES, FLOWS, GRAPH, INSIDE, MAX, MIN, POTENTIALS, PREDECESSORS, Given
from .instances import Blocks, Cut, Instance, Solution, Value

_Words = ParamSpec("_Words")
_Answer = TypeVar("_Answer", covariant=True)
_OfValues = TypeVar("_OfValues", covariant=True)
_Scaled = TypeVar("_Scaled", covariant=True)


class _Call(Protocol[_Words, _Answer, _OfValues, _Scaled]):
    @overload
    def __call__(self, *words: _Words.args, **more: _Words.kwargs) -> _Answer: ...
    @overload
    def __call__(self, instance: Instance, /, *words: Union[Value, int], **more: Union[Value, int]) -> _OfValues: ...
    @overload
    def __call__(self, instance: Instance, /, *words: Any, **more: Any) -> _Answer: ...
    @overload
    def __call__(self, *words: Any, scale: Scales, **more: Any) -> _Scaled: ...


def of_values(
    values: type[_OfValues], scaled: type[_Scaled]
) -> Callable[[Callable[_Words, _Answer]], _Call[_Words, _Answer, _OfValues, _Scaled]]:
    """The same call, which takes values in place of their fields too. To mypy its answer has the first type over values alone,
    and the second with scale=."""
    return _of_values


def _of_values(call: Callable[..., Any]) -> Any:
    names = [*call.__code__.co_varnames[: call.__code__.co_argcount]]  # inspect takes long to import

    @wraps(call)
    def made(*words: Any, **more: Any) -> Any:
        values = [it for it in (*words, *more.values()) if isinstance(it, Value)]
        if not values:
            return call(*words, **more)
        has_numbers = any(not isinstance(it, Cut) for it in values)
        if has_numbers and (more.get("scale") is not None or more.get("base", 1) != 1):
            raise TypeError("values have whole numbers, and a base: scale= and base= are for arrays")
        of = next((it for it in values if isinstance(it, Instance)), None)
        called = of.called() if of else None
        named = _named(call.__name__, names, words, more, called.base if called else 1)
        named |= {"base": called} if called else {}
        claimed = [it for it in values if isinstance(it, Solution)]
        if of and any(it.instance is not of and it.instance.ends() != of.ends() for it in claimed):
            raise ValueError(f"the solution is of another instance than this {of!r}: its arcs go between other nodes")
        found: Any = call(**named)
        for it in claimed if isinstance(found, (Certified, Verdict)) else ():
            calls.of_value(found, it.value, "value")
        return found

    return made


#: What values have that not each call takes.
_LEFT_OUT = {"value", "supplies", "predecessors"}


def _named(call: str, names: list[str], words: tuple[Any, ...], more: dict[str, Any], base: int) -> dict[str, Any]:
    """The arguments by their names: a value stands for its fields, and others for what is left, in order."""
    named = {name: it for name, it in more.items() if not isinstance(it, Value)}
    for name, it in [*((None, it) for it in words), *more.items()]:
        if isinstance(it, Value):
            fields = it.numbered(base)
            if fields.keys() - _LEFT_OUT - {*names} or fields.keys() & named or name not in (None, *fields):
                raise TypeError(f"{call} takes no {type(it).__name__} {'there' if name is None else f'for {name}'}")
            named.update({name: field for name, field in fields.items() if name in names})
        elif isinstance(it, Blocks):
            raise TypeError(f"{call} takes one block: pass blocks[source]")
    others, left = [it for it in words if not isinstance(it, Value)], [it for it in names if it not in named]
    if len(others) > len(left):
        raise TypeError(f"{call} takes {len(others) - len(left)} arguments less beside these values")
    return {**named, **dict(zip(left, others))}


@of_values(Verdict[int], Verdict[Number])
def judge_max_arrays(
    nodes: int, source: int, sink: int, tails: Numbers, heads: Numbers, caps: Numbers, flows: Numbers, inside: Numbers,
    *, scale: None = None, base: int = 1,
) -> Verdict[int]:
    """Judges that a flow is maximum, by the cut of the nodes inside. Raises Refused if a test fails.

    flows has an amount for each arc, inside a byte or bool for each node, which isn't 0 on the source's side.

    >>> judge_max_arrays(3, 1, 3, [1, 2], [2, 3], [5, 4], [4, 4], [True, True, False])
    Verdict(kind='max', value=4, pairs=())
    """
    given = Given(MAX, nodes, source, sink, tails, heads, caps, scale=scale, names=base)
    return calls.judge(given.add(FLOWS, flows).add(INSIDE, inside))


@of_values(Verdict[int], Verdict[Number])
def judge_min_arrays(
    nodes: int, tails: Numbers, heads: Numbers, lows: Numbers, caps: Numbers, costs: Numbers, supplies: Numbers,
    flows: Numbers, potentials: Numbers,
    *, scale: None = None, base: int = 1,
) -> Verdict[int]:
    """Judges that a flow costs least, by potentials. Raises Refused if a test fails.

    A supply is what leaves a node less what enters it. The reduced cost of an arc is its cost, minus the potential of its
    tail, plus that of its head.

    >>> judge_min_arrays(2, [1, 1], [2, 2], [0, 0], [5, 5], [3, 7], [6, -6], [5, 1], [7, 0])
    Verdict(kind='min', value=22, pairs=())
    """
    given = Given(MIN, nodes, tails, heads, lows, caps, costs, supplies, scale=scale, names=base)
    return calls.judge(given.add(FLOWS, flows).add(POTENTIALS, potentials))


@of_values(Verdict[None], Verdict[None])
def judge_infeasible_arrays(
    nodes: int, tails: Numbers, heads: Numbers, lows: Numbers, caps: Numbers, costs: Numbers, supplies: Numbers,
    inside: Numbers,
    *, scale: None = None, base: int = 1,
) -> Verdict[None]:
    """Judges that no flow is feasible, by the set of the nodes inside. Raises Refused if the set isn't violated.

    >>> judge_infeasible_arrays(2, [1], [2], [0], [5], [3], [6, -6], [True, False])
    Verdict(kind='infeasible', value=None, pairs=())
    """
    given = Given(MIN, nodes, tails, heads, lows, caps, costs, supplies, scale=scale, names=base)
    return calls.judge(given.add(INSIDE, inside))


@of_values(Verdict[int], Verdict[int])
def judge_paths_arrays(
    nodes: int, tails: Numbers, heads: Numbers, weights: Numbers, source: int, distances: Numbers,
    predecessors: Numbers,
    *, scale: None = None, base: int = 1,
) -> Verdict[int]:
    """Judges that these are the distances from the source, by predecessors. Raises Refused if a test fails.

    A node that isn't reached has the distance UNREACHED, or inf in floats, and the predecessor 0, as the source has; with
    base=0 their predecessor is -1.

    >>> judge_paths_arrays(3, [1, 2], [2, 3], [5, 4], 1, [0, 5, 9], [0, 1, 2])
    Verdict(kind='sp', value=1, pairs=())
    """
    given = Given(GRAPH, nodes, tails, heads, weights, scale=scale, names=base).add_number("source", source)
    given.add(DISTANCES, distances).add(PREDECESSORS, predecessors)
    return calls.judge(given)


@of_values(Certified[int, Marks], Certified[Number, MarksLike])
def certify_max_arrays(
    nodes: int, source: int, sink: int, tails: Numbers, heads: Numbers, caps: Numbers, flows: Numbers,
    *, scale: None = None, base: int = 1,
) -> Certified[int, MarksLike]:
    """Decides whether a flow is maximum. Returns its value, and for each node whether it is inside a cut that shows it.

    Raises NotOptimal with a flow of greater value if the flow is feasible, but not maximum, and Refused if it isn't feasible.
    The result is a numpy array or an array.array if flows is one, else a list.

    >>> certify_max_arrays(3, 1, 3, [1, 2], [2, 3], [5, 4], [4, 4])
    Certified(value=4, certificate=[True, True, False])
    >>> certify_max_arrays(3, 1, 3, [1, 2], [2, 3], [0.5, 0.4], [0.4, 0.4], scale=10).value
    Fraction(2, 5)
    """
    given = Given(MAX, nodes, source, sink, tails, heads, caps, scale=scale, names=base).add(FLOWS, flows)
    return calls.certify(given, flows)


@of_values(Certified[int, Amounts], Certified[Number, Scaled])
def certify_min_arrays(
    nodes: int, tails: Numbers, heads: Numbers, lows: Numbers, caps: Numbers, costs: Numbers, supplies: Numbers,
    flows: Numbers,
    *, scale: None = None, base: int = 1,
) -> Certified[int, AmountsLike]:
    """Decides whether a flow costs least. Returns its cost, and potentials that show it.

    Raises NotOptimal with a cheaper flow if the flow is feasible, but doesn't cost least; Refused as certify_max_arrays;
    GaveUp if the flow costs least, but two of the potentials that were found are 2^64 or more apart; others may fit.

    >>> certify_min_arrays(2, [1, 1], [2, 2], [0, 0], [5, 5], [3, 7], [6, -6], [5, 1]).value
    22
    """
    given = Given(MIN, nodes, tails, heads, lows, caps, costs, supplies, scale=scale, names=base)
    return calls.certify(given.add(FLOWS, flows), flows)


@of_values(Certified[None, Marks], Certified[None, MarksLike])
def certify_infeasible_arrays(
    nodes: int, tails: Numbers, heads: Numbers, lows: Numbers, caps: Numbers, costs: Numbers, supplies: Numbers,
    *, scale: None = None, base: int = 1,
) -> Certified[None, MarksLike]:
    """Decides whether no flow is feasible. Returns for each node whether it is inside a set that shows it.

    Raises Feasible with a flow if one is. The result has the form of caps, as in certify_max_arrays.

    >>> certify_infeasible_arrays(2, [1], [2], [0], [5], [3], [6, -6]).inside
    [True, False]
    """
    given = Given(MIN, nodes, tails, heads, lows, caps, costs, supplies, scale=scale, names=base)
    return calls.certify(given, caps)


@of_values(Certified[None, Union[Ids, Amounts]], Certified[None, IdsLike])
def certify_paths_arrays(
    nodes: int, tails: Numbers, heads: Numbers, weights: Numbers, source: int, distances: Numbers,
    *, scale: None = None, base: int = 1,
) -> Certified[None, IdsLike]:
    """Decides whether these are the distances from the source. Returns predecessors that show it.

    Raises Refused if they aren't. The result has the form of distances, as in certify_max_arrays.

    >>> certify_paths_arrays(3, [1, 2], [2, 3], [5, 4], 1, [0, 5, 9]).predecessors
    [0, 1, 2]
    """
    given = Given(GRAPH, nodes, tails, heads, weights, scale=scale, names=base).add_number("source", source)
    return calls.certify(given.add(DISTANCES, distances), distances)


@of_values(Solved[int, Amounts, Marks], Solved[Number, Scaled, MarksLike])
def solve_max_arrays(
    nodes: int, source: int, sink: int, tails: Numbers, heads: Numbers, caps: Numbers, limit: int = LIMIT,
    *, scale: None = None, base: int = 1,
) -> Solved[int, AmountsLike, MarksLike]:
    """Makes a maximum flow. Returns its value, the amounts of the arcs, and for each node whether it is inside a cut.

    Raises GaveUp after `limit` flows that aren't maximum; Unbounded if arcs with the capacity inf lead from the source to the
    sink. The result has the form of caps, as in certify_max_arrays.

    >>> solve_max_arrays(3, 0, 2, [0, 1], [1, 2], [5, float("inf")], base=0)
    Solved(value=5, solution=[5, 5], certificate=[True, False, False])
    """
    given = Given(MAX, nodes, source, sink, tails, heads, caps, scale=scale, names=base)
    return calls.solve_max(given, caps, limit)


@of_values(Solved[int, Amounts, Amounts], Solved[Number, Scaled, Scaled])
def solve_min_arrays(
    nodes: int, tails: Numbers, heads: Numbers, lows: Numbers, caps: Numbers, costs: Numbers, supplies: Numbers,
    limit: int = LIMIT,
    *, scale: None = None, base: int = 1,
) -> Solved[int, AmountsLike, AmountsLike]:
    """Makes a flow of least cost. Returns its cost, the amounts of the arcs, and potentials that show it.

    Raises Infeasible if no flow is feasible, with whether each node is inside a set that shows it; Unbounded if a cycle of
    arcs with the capacity inf costs less than nothing; GaveUp after `limit` steps to better flows, if the least cost is out
    of range, or if two of the potentials that were found are 2^64 or more apart. The result has the form of caps.

    >>> solve_min_arrays(2, [1, 1], [2, 2], [0, 0], [5, 5], [3, 7], [6, -6])[:2]
    (22, [5, 1])
    """
    given = Given(MIN, nodes, tails, heads, lows, caps, costs, supplies, scale=scale, names=base)
    return calls.solve_min(given, caps, limit)


@of_values(Solved[None, Amounts, Union[Ids, Amounts]], Solved[None, Lengths, IdsLike])
def solve_paths_arrays(
    nodes: int, tails: Numbers, heads: Numbers, weights: Numbers, source: int, *, scale: None = None, base: int = 1
) -> Solved[None, AmountsLike, IdsLike]:
    """Makes the distances from the source. Returns them, and predecessors that show them.

    A node that isn't reached has the distance UNREACHED and the predecessor 0, as the source has; with scale= the distance
    inf, and with base=0 the predecessor -1. Raises Refused if a weight is negative, and GaveUp if a distance is as great as
    UNREACHED. The result has the form of weights.

    >>> solve_paths_arrays(3, [1, 2], [2, 3], [5, 4], 1)
    Solved(value=None, solution=[0, 5, 9], certificate=[0, 1, 2])
    """
    given = Given(GRAPH, nodes, tails, heads, weights, scale=scale, names=base).add_number("source", source)
    return calls.solve_paths(given, weights)
