"""Which arcs are saturated, cross a set or are of a tree; and which arc or node was refused. By the definitions alone."""

from __future__ import annotations

import re
from typing import Dict, Iterable, List, NamedTuple, Optional, Set, Tuple

from .network import ASKED, CLAIMED, EMPTY, ENDS, ENTERS, INSIDE, LEAVES, SATURATED, TREE, WRONG, Arc, Network
from .reading import Block, Solution


class Refusal(NamedTuple):
    """A line `x PLACE .. REASON`: its arc or node, or its text with a line."""

    reason: str
    arc: Optional[int] = None
    node: Optional[int] = None
    text: Optional[str] = None
    line: int = 0


def refusal_of(line: str) -> Optional[Refusal]:
    """The refusal that a line is; None of a verdict."""
    found = re.fullmatch(r"x (?:arc (\d+)|node (\d+)|(\w+) (\d+) \d+) (\w+)", line)
    if not found:
        return None
    arc, node, text, at, reason = found.groups()
    return Refusal(reason, int(arc) if arc else None, int(node) if node else None, text, int(at or 0))


# ---- flows and sets


def mark_flows(network: Network, solution: Solution) -> None:
    """The first entry from a tail to a head belongs to the first arc, and so on; an arc without one carries 0."""
    seen: Dict[Tuple[int, int], int] = {}
    for arc in network.arcs:
        ends = arc.tail, arc.head
        flows, place = solution.get(ends, []), seen.get(ends, 0)
        arc.flow = flows[place] if place < len(flows) else 0
        seen[ends] = place + 1
        if arc.flow == arc.cap:
            arc.marks.add(SATURATED)
        if arc.flow == 0:
            arc.marks.add(EMPTY)


def mark_set(network: Network, inside: Set[int]) -> None:
    for node, it in network.nodes.items():
        if node in inside:
            it.marks.add(INSIDE)
    for arc in network.arcs:
        if (arc.tail in inside) != (arc.head in inside):
            arc.marks.add(LEAVES if arc.tail in inside else ENTERS)


def mark_potentials(network: Network, potentials: Dict[int, int]) -> None:
    """A node without a line has the potential 0."""
    for node, it in network.nodes.items():
        it.potential = potentials.get(node, 0)
    for arc in network.arcs:
        arc.reduced = (arc.cost or 0) - potentials.get(arc.tail, 0) + potentials.get(arc.head, 0)


# ---- distances


def mark_block(network: Network, block: Block, targets: Iterable[int]) -> None:
    """The distances from one source, and the arcs by which labels were reached."""
    missing = "∞" if block.radius is None else f"> {block.radius}"
    for node, it in network.nodes.items():
        it.distance = str(block.distances[node]) if node in block.distances else missing
        it.marks |= {mark for mark, is_so in ((ASKED, node in targets), (ENDS, node == block.source)) if is_so}
    network.source = block.source
    left = dict(block.predecessors)
    for arc in network.arcs:
        if left.get(arc.head) == arc.tail and _is_tight(arc, block):
            arc.marks.add(TREE)
            del left[arc.head]


def _is_tight(arc: Arc, block: Block) -> bool:
    """Whether the head's distance is the tail's plus the weight."""
    found = block.distances
    return arc.tail in found and arc.head in found and found[arc.tail] + (arc.cost or 0) == found[arc.head]


# ---- what was refused


def mark_refused(network: Network, refusal: Refusal, entry: Optional[Tuple[int, int, int]]) -> None:
    """The arc or node of a refusal; of an entry of the solution, its arcs, or one that the network doesn't have."""
    places = [it.marks for it in network.arcs if it.number == refusal.arc and it.number is not None]
    if refusal.node in network.nodes:
        places.append(network.nodes[refusal.node].marks)
    if entry:
        places = _marks_of_entry(network, *entry)
    for marks in places:
        marks.add(WRONG)
    if not places and (refusal.arc or refusal.node or entry):
        network.notes.append("what is refused isn't among what is drawn")


def _marks_of_entry(network: Network, tail: int, head: int, flow: int) -> List[Set[str]]:
    found = [it.marks for it in network.arcs if (it.tail, it.head) == (tail, head)]
    if not found and tail in network.nodes and head in network.nodes:
        network.arcs.append(Arc(None, tail, head, flow=flow, marks={CLAIMED}))
        found = [network.arcs[-1].marks]
    return found
