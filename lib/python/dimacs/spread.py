"""Sums between two nodes, dealt out to the arcs of arrays.

A matrix of SciPy and a DiGraph of networkx have one number for all arcs from one node to another. These calls deal it out
to parallel arcs. They go through texts, and spread_max and spread_min.
"""

from __future__ import annotations

from array import array
from typing import Any

from . import texts
from .answers import AmountsLike, PastLimit, Refused
from .arrays import of_values
from .buffers import IDS, NUMBERS, Numbers, in_form_of, number_of
from .given import MAX, MIN, MOST_NODES, PAIR_HEADS, PAIR_TAILS, SUMS, Form, Given
from .instances import Instance, MaxInstance, MinInstance
from .reading import read
from .writing import text_of_instance

#: The arguments of pairs, without an instance.
_PAIRS = Form("", "", PAIR_TAILS, PAIR_HEADS, SUMS)


def _spread(call: Any, kind: type[Instance], given: Given, *pairs: Any) -> AmountsLike:
    """Spreads the sums of pairs over arcs. A fault of a pair has its two nodes."""
    instance, base = kind._of(given, None), given.names.base
    added = Given(_PAIRS, *pairs)
    added.words()
    columns = [added.column(it) for it in _PAIRS.arrays]
    claim = "s 0\n" + "".join(f"f {tail + 1 - base} {head + 1 - base} {it}\n" for tail, head, it in zip(*columns))
    try:
        solution = call(text_of_instance(given), claim.encode("ascii"))
    except Refused as it:
        if it.text is None and it.arc is not None:
            it.arc = given.names.arc(it.arc - 1)
        if it.text == "solution" and it.line is not None:
            ends = zip(("tail", "head"), columns)
            it.numbers = {name: given.node(column[it.line - 2] + 1 - base) for name, column in ends}
        raise
    found: AmountsLike = in_form_of(pairs[-1], array(NUMBERS.code, read("solution", solution, instance).flows.tolist()))
    return found


@of_values(list[int], list[int])
def spread_max_arrays(
    nodes: int, source: int, sink: int, tails: Numbers, heads: Numbers, caps: Numbers, pair_tails: Numbers,
    pair_heads: Numbers, sums: Numbers,
    *, base: int = 1,
) -> AmountsLike:
    """Deals sums out to the arcs of a maximum flow instance: sums[k] is carried from pair_tails[k] to pair_heads[k].

    Returns the flow of each arc, in the form of sums: arcs with the same ends carry the sum between these, each within its
    bounds if possible. Raises Refused if no arc has the ends of a pair, with its line in a text of the pairs from line 2 on,
    or if what is left for the first of parallel arcs has more than 64 bits: then AboveCap or BelowLow names that arc; PastLimit
    as the other calls over arrays. With base=0 nodes and arcs are numbered from 0.

    >>> spread_max_arrays(2, 1, 2, [1, 1], [2, 2], [3, 5], [1], [2], [6])
    [3, 3]
    """
    given = Given(MAX, nodes, source, sink, tails, heads, caps, names=base)
    return _spread(texts.spread_max, MaxInstance, given, pair_tails, pair_heads, sums)


@of_values(list[int], list[int])
def spread_min_arrays(
    nodes: int, tails: Numbers, heads: Numbers, lows: Numbers, caps: Numbers, costs: Numbers, pair_tails: Numbers,
    pair_heads: Numbers, sums: Numbers,
    *, base: int = 1,
) -> AmountsLike:
    """The same for an instance of least cost: of all such flows within the bounds, one that costs least.

    >>> spread_min_arrays(2, [1, 1], [2, 2], [0, 0], [3, 5], [9, 1], [1], [2], [6])
    [1, 5]
    """
    count = number_of(nodes, IDS, "nodes")
    if count > MOST_NODES:
        raise PastLimit("NumberRange", node=MOST_NODES + base, numbers={"most": MOST_NODES})
    supplies = memoryview(bytes(NUMBERS.width * count)).cast("q")
    given = Given(MIN, count, tails, heads, lows, caps, costs, supplies, names=base)
    return _spread(texts.spread_min, MinInstance, given, pair_tails, pair_heads, sums)
