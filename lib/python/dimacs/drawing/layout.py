"""What a layout is made of, and what it is: sizes go in, places come out. Lengths are in pixels, downwards."""

from __future__ import annotations

import math
from dataclasses import dataclass, field
from typing import Dict, List, NamedTuple


class Box(NamedTuple):
    width: float
    height: float


class Point(NamedTuple):
    x: float
    y: float


class Edge(NamedTuple):
    """An arc with its label, and the size of that."""

    tail: int
    head: int
    label: str
    box: Box


@dataclass
class Sketch:
    """The lines in each node, the sizes of nodes, the arcs, and the nodes from which layers begin."""

    lines: Dict[int, List[str]]
    boxes: Dict[int, Box]
    edges: List[Edge]
    roots: List[int]

    def ordered(self) -> List[int]:
        """The nodes as a search from the roots reaches them; then those from which these are reached; then others."""
        heads: Dict[int, List[int]] = {}
        both: Dict[int, List[int]] = {}
        for it in self.edges:
            heads.setdefault(it.tail, []).append(it.head)
            both.setdefault(it.tail, []).append(it.head)
            both.setdefault(it.head, []).append(it.tail)
        found = _search(dict.fromkeys(self.roots), heads)
        found = _search(found, both)
        for node in self.boxes:
            if node not in found:
                found = _search({**found, node: None}, heads)
        return list(found)


def _search(begun: Dict[int, None], ways: Dict[int, List[int]]) -> Dict[int, None]:
    """The nodes that are begun with, and those that are reached from them, breadth first."""
    found, queue = dict(begun), list(begun)
    for node in queue:
        for it in ways.get(node, ()):
            if it not in found:
                found[it] = None
                queue.append(it)
    return found


@dataclass
class Layout:
    """The middle of each node; of each arc a chain of cubic curves from border to border, of three points more each, and
    the middle of its label, which lies on the arc, or at the end of a loop."""

    width: float
    height: float
    places: Dict[int, Point] = field(default_factory=dict)
    curves: List[List[Point]] = field(default_factory=list)
    labels: List[Point] = field(default_factory=list)


def corner(box: Box) -> float:
    """The radius of a node's corners."""
    return min(18, box.height / 2)


def inset(box: Box, above: float) -> float:
    """How far the border of a node lies inside of its box, so far above its middle."""
    radius = corner(box)
    over = abs(above) - (box.height / 2 - radius)
    return radius - math.sqrt(max(0.0, radius * radius - over * over)) if over > 0 else 0.0
