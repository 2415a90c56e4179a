"""The value that is drawn: nodes and arcs, with their marks."""

from __future__ import annotations

from dataclasses import dataclass, field
from typing import Dict, List, Optional, Set

#: More can't be told apart in a picture.
MOST_NODES, MOST_ARCS = 60, 200

# Marks of arcs.
SATURATED = "saturated"  # it carries its capacity
EMPTY = "empty"  # it carries nothing
LEAVES, ENTERS = "leaves", "enters"  # only its tail, or only its head, is in the set
TREE = "tree"  # by it the label of its head was reached
CLAIMED = "claimed"  # the solution has it, and the network doesn't

# Marks of nodes.
INSIDE = "inside"  # it is in the set
ENDS = "ends"  # it is the source or the sink
ASKED = "asked"  # a query asks for its distance

# Mark of both: it was refused.
WRONG = "wrong"


class TooLarge(ValueError):
    """More nodes or arcs than a picture has."""


@dataclass
class Arc:
    """An arc. Its cost is the weight in a graph; the number is that of its line."""

    number: Optional[int]
    tail: int
    head: int
    low: int = 0
    cap: Optional[int] = None
    cost: Optional[int] = None
    flow: Optional[int] = None
    reduced: Optional[int] = None
    marks: Set[str] = field(default_factory=set)


@dataclass
class Node:
    """A node. The distance is a text, as it may be beyond a radius."""

    supply: int = 0
    potential: Optional[int] = None
    distance: Optional[str] = None
    marks: Set[str] = field(default_factory=set)


@dataclass
class Network:
    """What is drawn of an instance. It has node_count nodes and arc_count arcs, of which others may not be drawn."""

    kind: str
    node_count: int
    arc_count: int
    source: Optional[int] = None
    sink: Optional[int] = None
    nodes: Dict[int, Node] = field(default_factory=dict)
    arcs: List[Arc] = field(default_factory=list)
    notes: List[str] = field(default_factory=list)

    def roots(self) -> List[int]:
        """The nodes from which layers begin: the source, or those with a supply, or those that no arc leads to."""
        if self.source in self.nodes:
            return [it for it in (self.source,) if it]
        supplying = [node for node, it in self.nodes.items() if it.supply > 0]
        reached = {it.head for it in self.arcs if it.head != it.tail}
        return supplying or [it for it in self.nodes if it not in reached] or list(self.nodes)[:1]
