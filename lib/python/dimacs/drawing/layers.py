"""Lays a network out in layers from left to right, as Sugiyama, Tagawa and Toda do.

Columns of nodes alternate with columns of labels. An arc passes through a place in each column between its ends, and has
its label in one of them. In a column it lies flat, between columns it bends: so it crosses no node and no label.
"""

from __future__ import annotations

import bisect
from dataclasses import dataclass, field
from typing import Dict, List, Tuple

from .layout import Box, Edge, Layout, Point, Sketch, inset

GAP = 34  # between columns, in which arcs bend
APART = 14  # between what lies in a column
THIN = 8  # the height of an arc that only passes
TURN = 5  # half the height of a loop where it turns
ROUNDS = 12


@dataclass
class _Place:
    """What lies in a column: a node, a label, or an arc that passes; and what it is linked with in the column before and
    in the one after."""

    box: Box
    column: int
    is_node: bool
    before: List["_Place"] = field(default_factory=list)
    after: List["_Place"] = field(default_factory=list)
    y: float = 0.0


def place(sketch: Sketch) -> Layout:
    order = sketch.ordered()
    columns_of = _columns(sketch, order)
    nodes = {node: _Place(sketch.boxes[node], columns_of[node], True) for node in order}
    chains = [_chain(edge, nodes) for edge in sketch.edges]
    columns = _filled([*nodes.values(), *(it for chain in chains for it in chain)])
    _order(columns)
    _align(columns)
    return _measured(sketch, columns, nodes, chains)


# ---- columns


def _columns(sketch: Sketch, order: List[int]) -> Dict[int, int]:
    """The column of each node, which is even: after those of the nodes before it that it is linked with."""
    at = {node: place for place, node in enumerate(order)}
    columns = dict.fromkeys(order, 0)
    links = sorted((min(at[it.tail], at[it.head]), max(at[it.tail], at[it.head])) for it in sketch.edges)
    for first, second in links:
        if first != second:
            columns[order[second]] = max(columns[order[second]], columns[order[first]] + 2)
    return columns


def _chain(edge: Edge, nodes: Dict[int, _Place]) -> List[_Place]:
    """The places of an arc between its ends, from left to right; the label is in the middle one of those for labels."""
    first, last = sorted((nodes[edge.tail], nodes[edge.head]), key=lambda it: it.column)
    is_loop = first is last
    inner = range(first.column + 1, last.column + 2 * is_loop)
    labelled = inner[len(inner) // 4 * 2]
    label = Box(edge.box.width + 2 * TURN, edge.box.height) if is_loop else edge.box
    chain = [_Place(label if column == labelled else Box(0, THIN), column, False) for column in inner]
    linked = [first, *chain] if is_loop else [first, *chain, last]
    for left, right in zip(linked, linked[1:]):
        left.after.append(right)
        right.before.append(left)
    return chain


def _filled(places: List[_Place]) -> List[List[_Place]]:
    columns: List[List[_Place]] = [[] for _ in range(1 + max((it.column for it in places), default=0))]
    for it in places:
        columns[it.column].append(it)
    return columns


# ---- the order in columns


def _order(columns: List[List[_Place]]) -> None:
    """Orders columns by where their neighbours lie, to and fro, and keeps the order with the fewest crossings."""
    best, least = [list(it) for it in columns], _crossings(columns)
    for k in range(ROUNDS):
        forward = k % 2 == 0
        for column in columns if forward else reversed(columns):
            _sort(column, columns, forward)
        found = _crossings(columns)
        if found < least:
            best, least = [list(it) for it in columns], found
    columns[:] = best


def _sort(column: List[_Place], columns: List[List[_Place]], forward: bool) -> None:
    beside = column[0].column + (-1 if forward else 1) if column else -1
    near = columns[beside] if 0 <= beside < len(columns) else []
    at = {id(it): k for k, it in enumerate(near)}
    own = {id(it): k * len(near) / max(1, len(column)) for k, it in enumerate(column)}

    def height(it: _Place) -> float:
        found = [at[id(other)] for other in (it.before if forward else it.after)]
        return sum(found) / len(found) if found else own[id(it)]

    column.sort(key=height)


def _crossings(columns: List[List[_Place]]) -> int:
    """How many links cross between columns."""
    count = 0
    for left, right in zip(columns, columns[1:]):
        at = {id(it): k for k, it in enumerate(right)}
        seen: List[int] = []
        for it in left:
            ends = sorted(at[id(other)] for other in it.after)
            count += sum(len(seen) - bisect.bisect_right(seen, end) for end in ends)
            for end in ends:
                bisect.insort(seen, end)
    return count


# ---- heights


def _align(columns: List[List[_Place]]) -> None:
    """Moves what is linked to one height, as far as nothing overlaps."""
    for column in columns:
        _spread(column, [0.0] * len(column))
    for k in range(2 * ROUNDS):
        for column in columns if k % 2 == 0 else reversed(columns):
            _spread(column, [_wanted(it, k) for it in column])


def _wanted(it: _Place, k: int) -> float:
    """The mean height of the neighbours, at first on one side. Inside of an arc they count more, so that it is straight."""
    near = it.before if k % 2 == 0 else it.after
    if k >= ROUNDS or not near:
        near = [*it.before, *it.after]
    weights = [1 if it.is_node or other.is_node else 6 for other in near]
    return sum(w * other.y for w, other in zip(weights, near)) / sum(weights) if near else it.y


def _spread(column: List[_Place], wanted: List[float]) -> None:
    """Heights near to those that are wanted, in order and apart: the mean of the lowest and the highest that are so."""
    steps = [(a.box.height + b.box.height) / 2 + APART for a, b in zip(column, column[1:])]
    down, up = list(wanted), list(wanted)
    for k, step in enumerate(steps):
        down[k + 1] = max(down[k + 1], down[k] + step)
    for k, step in reversed(list(enumerate(steps))):
        up[k] = min(up[k], up[k + 1] - step)
    for it, low, high in zip(column, down, up):
        it.y = (low + high) / 2


# ---- places and curves


def _measured(sketch: Sketch, columns: List[List[_Place]], nodes: Dict[int, _Place], chains: List[List[_Place]]) -> Layout:
    spans = _spans(columns)
    everything = [it for column in columns for it in column]
    top = min((it.y - it.box.height / 2 for it in everything), default=0.0)
    for it in everything:
        it.y -= top
    layout = Layout(spans[-1][1], max((it.y + it.box.height / 2 for it in everything), default=0.0))
    for node in sketch.boxes:
        left, right = spans[nodes[node].column]
        layout.places[node] = Point((left + right) / 2, nodes[node].y)
    ports = _ports(sketch, layout, nodes, chains)
    for edge, chain, ends in zip(sketch.edges, chains, ports):
        if edge.tail == edge.head:
            curve, label = _loop(edge, chain[0], ends, spans)
        else:
            curve, label = _curve(chain, ends, spans)
        is_backward = nodes[edge.tail].column > nodes[edge.head].column
        layout.curves.append(curve[::-1] if is_backward else curve)
        layout.labels.append(label)
    return layout


def _spans(columns: List[List[_Place]]) -> List[Tuple[float, float]]:
    """Where each column begins and ends."""
    spans, left = [], 0.0
    for column in columns:
        width = max((it.box.width for it in column), default=0.0)
        spans.append((left, left + width))
        left += width + GAP
    return spans


_Ends = Tuple[Point, Point]


def _ports(sketch: Sketch, layout: Layout, nodes: Dict[int, _Place], chains: List[List[_Place]]) -> List[_Ends]:
    """Where each arc meets the borders of its ends, the left one first: those of one side lie below one another, in the
    order in which the arcs come. A loop has both on the right."""
    met: Dict[Tuple[int, bool], List[Tuple[float, int, int]]] = {}
    for k, (edge, chain) in enumerate(zip(sketch.edges, chains)):
        left, right = sorted((edge.tail, edge.head), key=lambda node: nodes[node].column)
        met.setdefault((left, True), []).append((chain[0].y, k, 0))
        met.setdefault((right, left == right), []).append((chain[-1].y, k, 1))
    ends: List[List[Point]] = [[Point(0, 0), Point(0, 0)] for _ in chains]
    for (node, is_right), arcs in met.items():
        middle = layout.places[node]
        for (_, k, end), port in zip(sorted(arcs), _ports_of(sketch.boxes[node], len(arcs), is_right)):
            ends[k][end] = Point(middle.x + port.x, middle.y + port.y)
    return [(first, last) for first, last in ends]


def _ports_of(box: Box, count: int, is_right: bool) -> List[Point]:
    room = max(0.0, box.height - 14)
    step = min(9.0, room / (count - 1)) if count > 1 else 0.0
    heights = [(k - (count - 1) / 2) * step for k in range(count)]
    return [Point((1 if is_right else -1) * (box.width / 2 - inset(box, it)), it) for it in heights]


def _curve(chain: List[_Place], ends: _Ends, spans: List[Tuple[float, float]]) -> Tuple[List[Point], Point]:
    """The curve of an arc from left to right, and the middle of its label."""
    flat = [(Point(spans[it.column][0], it.y), Point(spans[it.column][1], it.y)) for it in chain]
    out, into = Point(spans[chain[0].column - 1][1], ends[0].y), Point(spans[chain[-1].column + 1][0], ends[1].y)
    curve = _through([ends[0], out, *(point for both in flat for point in both), into, ends[1]])
    labelled = max(range(len(chain)), key=lambda k: chain[k].box.width)
    left, right = flat[labelled]
    return curve, Point((left.x + right.x) / 2, left.y)


def _loop(edge: Edge, place: _Place, ends: _Ends, spans: List[Tuple[float, float]]) -> Tuple[List[Point], Point]:
    """The curve of a loop, which turns before its label, and the middle of that."""
    right, left = spans[place.column - 1][1], spans[place.column][0]
    over, under = Point(left, place.y - TURN), Point(left, place.y + TURN)
    turn = [Point(left + 2 * TURN, over.y), Point(left + 2 * TURN, under.y)]
    there = _through([ends[0], Point(right, ends[0].y), over])
    back = _through([under, Point(right, ends[1].y), ends[1]])
    return [*there, *turn, *back], Point(left + 2 * TURN + edge.box.width / 2, place.y)


def _through(stops: List[Point]) -> List[Point]:
    """A curve through places, which lies flat at each."""
    curve = stops[:1]
    for start, end in zip(stops, stops[1:]):
        middle = (start.x + end.x) / 2
        if start != end:
            curve += [Point(middle, start.y), Point(middle, end.y), end]
    return curve
