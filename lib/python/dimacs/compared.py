"""The numbers that a test compared, by its reason: what an exception says of an arc or a node."""

from __future__ import annotations

import math
from itertools import accumulate, compress
from typing import Any, Callable

from .answers import UNREACHED, Placed
from .given import CAPS, COSTS, DISTANCES, FLOWS, HEADS, INSIDE, LOWS, MAX, MIN, MOST_NODES, POTENTIALS
from .given import PREDECESSORS, SUPPLIES, TAILS, WEIGHTS, Array, Given


def _at(given: Given, kind: Array, number: int) -> Any:
    """An item of an array, by the number of its arc or node, as the user has it."""
    found = given.column(kind)[number - 1]
    return found if not kind.unit else given.amount(kind.unit, found)


def _bounds(given: Given, arc: int) -> dict[str, Any]:
    """The bounds of an arc. One without a limit has the capacity inf."""
    low = 0 if given.form is MAX else _at(given, LOWS, arc)
    is_limitless = arc - 1 in given.limitless()
    return {"low": low, "capacity": math.inf if is_limitless else _at(given, CAPS, arc)}


def _carried(given: Given, arc: int) -> dict[str, Any]:
    return {"flow": _at(given, FLOWS, arc), **_bounds(given, arc)}


def _balance(given: Given, node: int) -> dict[str, Any]:
    flows = given.column(FLOWS)
    if given.form is MIN:
        return {"leaves": given.amount("amount", given.sent(node, flows)), "supply": _at(given, SUPPLIES, node)}
    leaving = sum(it for it, tail in zip(flows, given.column(TAILS)) if tail == node)
    entering = leaving - given.sent(node, flows)
    return {"leaves": given.amount("amount", leaving), "enters": given.amount("amount", entering)}


def _tight(given: Given, arc: int) -> dict[str, Any]:
    prices = given.column(POTENTIALS)
    tail, head = given.column(TAILS)[arc - 1], given.column(HEADS)[arc - 1]
    reduced = given.column(COSTS)[arc - 1] - prices[tail - 1] + prices[head - 1]
    return {"reduced_cost": given.amount("cost", reduced), **_carried(given, arc)}


def _costs_up_to(given: Given, arc: int) -> dict[str, Any]:
    products = (flow * cost for flow, cost in zip(given.column(FLOWS), given.column(COSTS)))
    return {"cost": given.value(list(accumulate(products))[arc - 1])}


def _along(given: Given, arc: int) -> dict[str, Any]:
    """The distances of an arc's ends, and its weight."""
    claimed = given.column(DISTANCES)
    at = {name: claimed[given.column(kind)[arc - 1] - 1] for name, kind in (("tail", TAILS), ("head", HEADS))}
    shown = {name: given.amount("cost", it) for name, it in at.items() if it != UNREACHED}
    return {**shown, "weight": _at(given, WEIGHTS, arc)}


def _claimed(given: Given, node: int) -> dict[str, Any]:
    found = given.column(DISTANCES)[node - 1]
    numbers = {"distance": math.inf if found == UNREACHED else given.amount("cost", found)}
    if not given.has(PREDECESSORS):
        return numbers
    return {**numbers, "predecessor": given.node(given.column(PREDECESSORS)[node - 1])}


def _ends(given: Given, arc: int) -> dict[str, Any]:
    base = given.names.base
    ends = {name: given.column(kind)[arc - 1] - 1 + base for name, kind in (("tail", TAILS), ("head", HEADS))}
    return {**ends, **_range(given, min(ends.values()))}


def _range(given: Given, node: int) -> dict[str, Any]:
    base = given.names.base
    hint = "; base=0 numbers them from 0" if base and node == 0 and not given.is_of_value else ""
    return {"base": base, "nodes": given.number("nodes"), "hint": hint}


def _node_range(given: Given, node: int) -> dict[str, Any]:
    if node > given.number("nodes") or node == 0:
        return _range(given, node)
    claimed = _claimed(given, node)
    if not 0 <= given.column(PREDECESSORS)[node - 1] <= given.number("nodes"):
        return {**claimed, "nodes": given.number("nodes")}
    return {**claimed, "it_is": "it isn't reached" if claimed["distance"] == math.inf else "it is the source"}


def _no_violation(given: Given) -> dict[str, Any]:
    """What a set supplies, and what can leave and has to enter it, and so on."""
    inside = given.column(INSIDE)
    supply = sum(it for it, is_inside in zip(given.column(SUPPLIES), inside) if is_inside)
    numbers = {"supply": supply, "least": -crossing(given, inside, -1), "most": crossing(given, inside, 1)}
    return {name: it if math.isinf(it) else given.amount("amount", it) for name, it in numbers.items()}


def crossing(given: Given, inside: Any, direction: int) -> Any:
    """The most that arcs carry out of a set (1), or into it (-1), less the least that arcs carry back."""
    ends = list(zip(given.column(TAILS), given.column(HEADS)))
    out = [bool(inside[tail - 1] and not inside[head - 1]) for tail, head in ends]
    back = [bool(inside[head - 1] and not inside[tail - 1]) for tail, head in ends]
    most, least = (out, back)[::direction]
    if any(most[arc] for arc in given.limitless()):
        return math.inf
    return sum(compress(given.column(CAPS), most)) - sum(compress(given.column(LOWS), least))


#: By the reason: what was compared at an arc.
_ARCS: dict[str, Callable[[Given, int], dict[str, Any]]] = {
    "AboveCap": _carried,
    "BackFlow": _carried,
    "BelowLow": _carried,
    "BoundOrder": _bounds,
    "CostRange": _costs_up_to,
    "Escapes": _along,
    "NegativeWeight": lambda given, arc: {"weight": _at(given, WEIGHTS, arc)},
    "NodeRange": _ends,
    "NotSaturated": _carried,
    "NotShortest": _along,
    "NotTight": _tight,
}

#: What was compared at a node.
_NODES: dict[str, Callable[[Given, int], dict[str, Any]]] = {
    "Balance": _balance,
    "NoTightArc": _claimed,
    "NodeRange": _node_range,
    "NodeTwice": _range,
    "NotShortest": _claimed,
    "NumberRange": lambda given, node: {"most": MOST_NODES},
    "PredUnknown": _claimed,
}


def compared(given: Given, it: Placed) -> dict[str, Any]:
    """The numbers by which the test failed that an exception names; none if there are none."""
    if it.reason == "NotViolated":
        return _no_violation(given)
    table, number = (_ARCS, it.arc) if it.arc is not None else (_NODES, it.node)
    found = table.get(it.reason)
    if found is None or number is None:
        return {}
    return found(given, number)
