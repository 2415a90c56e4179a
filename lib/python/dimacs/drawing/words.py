"""The words of a picture: labels of nodes and arcs, the caption, the legend and the description."""

from __future__ import annotations

import re
from collections import Counter
from typing import Iterator, List, NamedTuple, Sequence, Set, Tuple

from .colours import is_strong
from .layout import Box, Edge, Sketch
from .marks import refusal_of
from .network import ASKED, CLAIMED, EMPTY, ENDS, ENTERS, INSIDE, LEAVES, SATURATED, TREE, WRONG, Arc, Network

#: The widths of a letter in a wide font, in the sizes in which nodes, what is below them, and arcs are written.
NAME, BELOW, ALONG, STRONG = 9.8, 7.1, 7.7, 8.4

#: Lines of a verdict that a caption has.
MOST_LINES = 4

#: What a line of XML has no way to write, or what ends it.
_UNREADABLE = re.compile("[^\x20-\x7e\xa0-\ud7ff\ue000-\ufffd\U00010000-\U0010ffff]")


def readable(text: str) -> str:
    """A text in one line, of characters that a picture can have."""
    return _UNREADABLE.sub("\ufffd", text)


class Said(NamedTuple):
    """What stands beside the network: lines above it, whether the first is of a refusal, the legend below, and a
    description. An item of the legend is a mark, or none, and its meaning."""

    title: str
    verdict: List[str]
    is_refused: bool
    notes: List[str]
    legend: List[Tuple[str, str]]
    description: str


# ---- labels


def sketch_of(network: Network) -> Sketch:
    nodes = {node: node_lines(network, node) for node in network.nodes}
    has_costs = _has_costs(network)
    edges = [_edge(arc, arc_label(network.kind, arc, has_costs)) for arc in network.arcs]
    loops = Counter(it.tail for it in edges if it.tail == it.head)
    return Sketch(nodes, {node: _node_box(lines, loops[node]) for node, lines in nodes.items()}, edges, network.roots())


def _edge(arc: Arc, label: str) -> Edge:
    return Edge(arc.tail, arc.head, label, Box(len(label) * (STRONG if is_strong(arc.marks) else ALONG) + 6, 16))


def _node_box(lines: Sequence[str], loops: int) -> Box:
    """The size of a node, which is higher if loops begin and end at it."""
    name, *below = lines
    width = max([36, len(name) * NAME + 16, *(len(it) * BELOW + 16 for it in below)])
    return Box(width, (36 if not below else 28 + 13 * len(below)) + 14 * loops)


def node_lines(network: Network, node: int) -> List[str]:
    """The ID, and what is said below it."""
    return [str(node), *(line for line, _ in _facts(network, node) if line)]


def _facts(network: Network, node: int) -> Iterator[Tuple[str, str]]:
    """What is known of a node: a line below its ID, if there is one, and in words."""
    it = network.nodes[node]
    if ENDS in it.marks:
        end = "source" if node == network.source else "sink"
        yield end, end
    if it.supply:
        yield f"{it.supply:+}", f"supply {it.supply}" if it.supply > 0 else f"demand {-it.supply}"
    if it.potential is not None:
        yield f"y {it.potential}", f"potential {it.potential}"
    if it.distance is not None:
        yield it.distance, f"distance {it.distance}"
    meanings = {INSIDE: f"inside the {_set_of(network)}", ASKED: "asked for", WRONG: "refused"}
    yield from (("", words) for mark, words in meanings.items() if mark in it.marks)


def _set_of(network: Network) -> str:
    return "cut" if network.kind == "max" else "set"


def _has_costs(network: Network) -> bool:
    return network.kind == "min" and any(it.cost for it in network.arcs)


def arc_label(kind: str, arc: Arc, has_costs: bool) -> str:
    """The flow, the bounds and the cost, as far as there are such."""
    if CLAIMED in arc.marks:
        return f"claims {arc.flow}"
    if kind == "gr":
        return str(arc.cost)
    bounds = f"{arc.low}..{arc.cap}" if arc.low else str(arc.cap)
    label = bounds if arc.flow is None else f"{arc.flow}/{bounds}"
    return f"{label} ({arc.cost})" if has_costs else label


# ---- around the network


def said_of(network: Network, command: str, lines: Sequence[str], names: Sequence[str]) -> Said:
    """All that is said beside the network. A verdict is that of dimacs, word for word."""
    refused = bool(lines) and refusal_of(lines[0]) is not None
    verdict = [f"dimacs {command}: {lines[0] if lines else 'no refusal, and nothing is asked'}", *lines[1:MOST_LINES]]
    if len(lines) > MOST_LINES:
        verdict.append(f"and {len(lines) - MOST_LINES} more lines")
    notes = ["no claim was judged"] if command == "show" else []
    notes += network.notes
    shown = readable(", ".join(names))
    legend = _legend(network, refused)
    return Said(shown, verdict, refused, notes, legend, _description(network, shown, verdict, notes))


def _legend(network: Network, refused: bool) -> List[Tuple[str, str]]:
    """What the marks mean that are there."""
    of_arcs: Set[str] = {mark for it in network.arcs for mark in it.marks}
    of_nodes: Set[str] = {mark for it in network.nodes.values() for mark in it.marks}
    name = f"the {_set_of(network)}"
    meanings = {
        SATURATED: "saturated: carries its capacity",
        EMPTY: "carries nothing",
        TREE: "by which a label was reached",
        CLAIMED: "no arc of the network",
    }
    found = [("", it) for it in (_arcs_meaning(network), *_nodes_meanings(network)) if it]
    found += [(f"arc {mark}", it) for mark, it in meanings.items() if mark in of_arcs]
    crossing = [verb for mark, verb in ((LEAVES, "leaves"), (ENTERS, "enters")) if mark in of_arcs]
    if crossing:
        found.append(("arc leaves", f"{' or '.join(crossing)} {name}"))
    if INSIDE in of_nodes:
        found.append(("node inside", f"inside {name}"))
    if ASKED in of_nodes:
        found.append(("node asked", "asked for"))
    if WRONG in of_arcs - {CLAIMED} and any(it.number and WRONG in it.marks for it in network.arcs):
        found.append(("arc wrong", "refused"))
    if WRONG in of_nodes:
        found.append(("node wrong", "refused"))
    return found


def _arcs_meaning(network: Network) -> str:
    """What the label of an arc has."""
    if not network.arcs:
        return ""
    if network.kind == "gr":
        return "at an arc: its weight"
    flow = "flow/" if any(it.flow is not None for it in network.arcs) else ""
    bounds = "lower bound..capacity" if any(it.low for it in network.arcs) else "capacity"
    return f"at an arc: {flow}{bounds}{' (cost)' if _has_costs(network) else ''}"


def _nodes_meanings(network: Network) -> List[str]:
    """What stands below the name of a node."""
    nodes = network.nodes.values()
    found = []
    if any(it.supply for it in nodes):
        found.append("+ supply, - demand")
    if any(it.potential is not None for it in nodes):
        found.append("y: potential")
    distances = {it.distance for it in nodes if it.distance is not None}
    if distances:
        missing = "; ∞: none" if "∞" in distances else "; >: none within the radius" if any(
            it.startswith(">") for it in distances
        ) else ""
        found.append(f"in a node: its distance from {network.source}{missing}")
    return found


# ---- for who doesn't see it


def _counted(count: int, noun: str) -> str:
    return f"{count} {noun}" if count == 1 else f"{count} {noun}s"


def _description(network: Network, shown: str, verdict: Sequence[str], notes: Sequence[str]) -> str:
    sentences = [f"{shown}.", *(f"{it}." for it in [*verdict, *notes])]
    sentences.append(f"The network has {_counted(network.node_count, 'node')} and {_counted(network.arc_count, 'arc')}.")
    sentences += [f"{node_words(network, node)}." for node in network.nodes]
    sentences += [f"{arc_words(network, it)}." for it in network.arcs]
    sentences.append("The verdict is that of dimacs; the drawing isn't proved.")
    return " ".join(sentences)


def node_words(network: Network, node: int) -> str:
    """What is drawn of a node, in words."""
    said = ", ".join(words for _, words in _facts(network, node))
    return f"Node {node}: {said}" if said else f"Node {node}"


def arc_words(network: Network, it: Arc) -> str:
    """What is drawn of an arc, in words."""
    name, cost = _set_of(network), "weight" if network.kind == "gr" else "cost"
    found = [
        (it.flow is not None, f"flow {it.flow}"),
        (it.low != 0, f"lower bound {it.low}"),
        (it.cap is not None, f"capacity {it.cap}"),
        (it.cost is not None, f"{cost} {it.cost}"),
        (it.reduced is not None, f"reduced cost {it.reduced}"),
        (SATURATED in it.marks, "saturated"),
        (LEAVES in it.marks, f"leaves the {name}"),
        (ENTERS in it.marks, f"enters the {name}"),
        (TREE in it.marks, "of the tree"),
        (CLAIMED in it.marks, "no arc of the network"),
        (WRONG in it.marks, "refused"),
    ]
    number = f"Arc {it.number}" if it.number else "An entry"
    return f"{number} from {it.tail} to {it.head}: {', '.join(words for is_so, words in found if is_so)}"
