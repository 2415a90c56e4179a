"""Lays a network out by dot of Graphviz, and writes one in its language."""

from __future__ import annotations

import shlex
import shutil
import subprocess
from typing import Dict, List, Optional

from . import colours
from .layout import Box, Layout, Point, Sketch, corner
from .network import Network

POINTS = 72  # of an inch, in which dot measures
FLAT = 9  # how far a curve lies about flat before a label
SECONDS = 8  # after which the own layers are taken


def place(sketch: Sketch) -> Optional[Layout]:
    """A layout by dot; None where dot isn't there or fails."""
    if not shutil.which("dot"):
        return None
    words = ["dot", "-Tplain", "-y", "-Earrowhead=none"]
    try:
        ran = subprocess.run(
            words, input=_plain(sketch), capture_output=True, text=True, timeout=SECONDS, check=True, encoding="utf-8"
        )
        return _layout(sketch, ran.stdout)
    except (OSError, subprocess.SubprocessError, ValueError, LookupError):
        return None


def _head(sketch: Sketch) -> List[str]:
    ranked = f"{{ rank=source; {sketch.roots[0]} }}" if len(sketch.roots) == 1 else ""
    lines = ["graph [rankdir=LR, nodesep=0.3, ranksep=0.45]", 'edge [fontname="Helvetica", fontsize=12]']
    return [*lines, 'node [fontname="Helvetica", fontsize=12, fixedsize=true]', *([ranked] if ranked else [])]


def _node(sketch: Sketch, node: int) -> Dict[str, str]:
    box = sketch.boxes[node]
    is_round = box.width == box.height == 2 * corner(box)
    shape = {"shape": "circle"} if is_round else {"shape": "box", "style": "rounded"}
    return {**shape, "width": f"{box.width / POINTS:.4f}", "height": f"{box.height / POINTS:.4f}"}


def _graph(lines: List[str]) -> str:
    return "\n".join(["digraph {", *(f"    {it};" for it in lines), "}", ""])


def _quoted(text: str) -> str:
    return '"' + text.replace("\\", "\\\\").replace('"', '\\"').replace("\n", "\\n") + '"'


def _attributes(found: Dict[str, str]) -> str:
    return "[" + ", ".join(f"{name}={_quoted(it)}" for name, it in found.items()) + "]"


# ---- a layout


def _plain(sketch: Sketch) -> str:
    """The network for dot, with sizes alone. An arc goes by its label, which is a node: so parallel ones and loops lie
    apart, and no arc crosses a label."""
    lines = _head(sketch)
    lines += [f"{node} {_attributes({**_node(sketch, node), 'label': ''})}" for node in sketch.ordered()]
    for k, (it, (first, last)) in enumerate(zip(sketch.edges, _ends(sketch))):
        size = {"width": f"{it.box.width / POINTS:.4f}", "height": f"{it.box.height / POINTS:.4f}"}
        lines.append(f"by{k} {_attributes({'shape': 'box', 'label': '', **size})}")
        lines.append(f"{first} -> by{k} -> {last}")
    return _graph(lines)


def _ends(sketch: Sketch) -> List[List[int]]:
    """The ends of each arc from left to right."""
    at = {node: place for place, node in enumerate(sketch.ordered())}
    return [sorted((it.tail, it.head), key=at.__getitem__) for it in sketch.edges]


def _layout(sketch: Sketch, printed: str) -> Layout:
    """What dot printed: its lines begin with graph, node or edge."""
    lines = [shlex.split(it) for it in printed.split("\n") if it]
    layout = Layout(*_point(lines[0][2:]))
    places = {words[1]: _point(words[2:]) for words in lines if words[0] == "node"}
    layout.places = {node: places[str(node)] for node in sketch.boxes}
    drawn = {tuple(words[1:3]): _curve(words[3:]) for words in lines if words[0] == "edge"}
    for k, (edge, (first, last)) in enumerate(zip(sketch.edges, _ends(sketch))):
        label = places[f"by{k}"]
        there = _up_to(drawn[str(first), f"by{k}"], label, edge.box)
        on = _up_to(drawn[f"by{k}", str(last)][::-1], label, edge.box)[::-1]
        curve = [*there, there[-1], on[0], *on]
        layout.curves.append(curve if first == edge.tail else curve[::-1])
        layout.labels.append(label)
    return layout


def _curve(words: List[str]) -> List[Point]:
    """A curve: the number of its points, and these."""
    return [_point(words[k:]) for k in range(1, 2 * int(words[0]), 2)]


def _up_to(curve: List[Point], label: Point, box: Box) -> List[Point]:
    """A curve to a label, which ends in the middle of the side where it comes from."""
    side = -1 if curve[0].x < label.x else 1
    end = Point(label.x + side * box.width / 2, label.y)
    while len(curve) > 4 and (curve[-4].x - end.x) * side < FLAT:
        curve = curve[:-3]
    return [*curve[:-2], Point(end.x + side * FLAT, end.y), end]


def _point(words: List[str]) -> Point:
    return Point(float(words[0]) * POINTS, float(words[1]) * POINTS)


# ---- a network in the language of dot


def write(sketch: Sketch, network: Network, caption: List[str]) -> str:
    """The network with its labels and marks."""
    lines = [*_head(sketch), f"label={_quoted(chr(10).join(caption))}", 'labelloc="t"']
    for node in sketch.ordered():
        marked = colours.of_node(network.nodes[node].marks)
        label = {"label": "\n".join(sketch.lines[node])}
        lines.append(f"{node} {_attributes({**_node(sketch, node), **label, **marked})}")
    for edge, arc in zip(sketch.edges, network.arcs):
        lines.append(f"{edge.tail} -> {edge.head} {_attributes({'label': edge.label, **colours.of_arc(arc.marks)})}")
    return _graph(lines)
