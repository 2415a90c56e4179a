"""Writes a picture as SVG: on light and dark ground, with a title and a description for who doesn't see it."""

from __future__ import annotations

import html
import math
import textwrap
from typing import List, Sequence, Set, Tuple

from .colours import PALETTE, arc_colour, arc_dash, arc_width, is_doubled, is_strong, node_colours
from .layout import Box, Edge, Layout, Point, Sketch, corner
from .network import INSIDE, Arc, Network
from .words import Said, arc_words, node_words, readable

MARGIN = 22
LEAST = 450  # width
LINE = 18  # from a line of text to the next
LETTER = 7.2  # the width of a letter in the caption and the legend
SAMPLE = 34  # the width of a sample in the legend

_STYLE = """
{0} text {{ font-family: system-ui, "Segoe UI", Helvetica, Arial, sans-serif; font-size: 12px }}
{0} .middle {{ text-anchor: middle }}
{0} .name {{ font-size: 14px; font-weight: 600 }}
{0} .below {{ font-size: 11px }}
{0} .strong {{ font-weight: 600 }}
{0} .along {{ paint-order: stroke; stroke-width: 7px; stroke-linejoin: round }}
{0} .shade * {{ stroke-linecap: round; stroke-linejoin: round }}
"""


def escaped(text: str) -> str:
    return html.escape(readable(text))


def write(network: Network, sketch: Sketch, layout: Layout, said: Said) -> str:
    width = max(LEAST, layout.width + 2 * MARGIN)
    caption, top = _caption(said, width)
    legend, height = _legend(said.legend, width, top + layout.height + 2 * MARGIN)
    left = (width - layout.width) / 2
    size = f'width="{width:.0f}" height="{height:.0f}" viewBox="0 0 {width:.0f} {height:.0f}"'
    lines = [
        f'<svg xmlns="http://www.w3.org/2000/svg" class="dimacs-drawing" role="img" {size}>',
        f"<title>{escaped(said.title + ': ' + said.verdict[0])}</title>",
        f"<desc>{escaped(said.description)}</desc>",
        f"<style>{_style()}</style>",
        f'<rect class="f-ground" width="{width:.0f}" height="{height:.0f}"/>',
        *caption,
        f'<g transform="translate({left:.1f} {top + MARGIN:.1f})">',
        *_shade(network, sketch, layout),
        *(_arc(network, *it) for it in zip(network.arcs, layout.curves)),
        *(_label(*it) for it in zip(network.arcs, sketch.edges, layout.labels)),
        *(_node(network, sketch, node, place) for node, place in layout.places.items()),
        "</g>",
        *legend,
        "</svg>",
    ]
    return "\n".join([*lines, ""])


def _style() -> str:
    """The classes s-NAME and f-NAME give strokes and insides a colour. They are of this picture alone in a page."""
    here = ".dimacs-drawing"
    rule = "{0} .s-{1} {{ stroke: {2} }} {0} .f-{1} {{ fill: {2} }}"
    light = [rule.format(here, name, it.light) for name, it in PALETTE.items()]
    dark = [rule.format(here, name, it.dark) for name, it in PALETTE.items()]
    return _STYLE.format(here) + "\n".join([*light, "@media (prefers-color-scheme: dark) {", *dark, "}", ""])


# ---- text


def _text(x: float, y: float, classes: str, text: str) -> str:
    return f'<text x="{x:.1f}" y="{y:.1f}" class="{classes}">{escaped(text)}</text>'


def _caption(said: Said, width: float) -> Tuple[List[str], float]:
    """The lines above the network, and how high they are."""
    letters = int((width - 2 * MARGIN) / LETTER)
    colour = "f-refused" if said.is_refused else "f-ink"
    styled = [("f-line", said.title), *((f"{colour} strong", it) for it in said.verdict)]
    styled += [("f-line", it) for it in said.notes]
    lines = [(style, line) for style, text in styled for line in textwrap.wrap(text, letters)[:4]]
    texts = [_text(MARGIN, MARGIN + k * LINE + 6, style, line) for k, (style, line) in enumerate(lines)]
    return texts, MARGIN + len(lines) * LINE - 10


def _legend(items: Sequence[Tuple[str, str]], width: float, top: float) -> Tuple[List[str], float]:
    """What marks mean, below the network, and the height of the picture with it."""
    found, x, y = [], float(MARGIN), top
    for sample, meaning in items:
        wide = (SAMPLE if sample else 0) + len(meaning) * LETTER + 18
        if x > MARGIN and x + wide > width - MARGIN / 2:
            x, y = MARGIN, y + LINE + 2
        if sample:
            found.append(_sample(sample.split(), x, y - 4))
        found.append(_text(x + (SAMPLE if sample else 0), y, "f-line", meaning))
        x += wide
    return found, y + MARGIN - 6


def _sample(sample: Sequence[str], x: float, y: float) -> str:
    """An arc or a node with a mark."""
    kind, *words = sample
    marks = set(words)
    if kind == "arc":
        return _stroked(f"M{x:.1f} {y:.1f} h26", marks)
    border, inside = node_colours(marks)
    drawn = f'<rect class="s-{border} f-{inside}" x="{x + 4:.1f}" y="{y - 7:.1f}" width="18" height="14" rx="7"/>'
    if is_doubled(marks):
        place = f'x="{x + 1:.1f}" y="{y - 10:.1f}" width="24" height="20" rx="10"'
        drawn += f'<rect class="s-{border}" fill="none" {place}/>'
    return drawn


# ---- the network


def _shade(network: Network, sketch: Sketch, layout: Layout) -> List[str]:
    """The ground of a set: around its nodes, and along the arcs between them."""
    inside = {node for node, it in network.nodes.items() if INSIDE in it.marks}
    if not inside:
        return []
    found = ['<g class="shade">']
    for arc, curve in zip(network.arcs, layout.curves):
        if arc.tail in inside and arc.head in inside:
            found.append(f'<path class="s-shade" fill="none" stroke-width="30" d="{_path(curve)}"/>')
    for node in sorted(inside):
        found.append(_box("f-shade", layout.places[node], sketch.boxes[node], 13))
    return [*found, "</g>"]


def _box(classes: str, middle: Point, box: Box, more: float = 0.0) -> str:
    """A rectangle with round corners, larger than a box by so much on each side."""
    x, y = middle.x - box.width / 2 - more, middle.y - box.height / 2 - more
    size = f'width="{box.width + 2 * more:.1f}" height="{box.height + 2 * more:.1f}" rx="{corner(box) + more:.1f}"'
    return f'<rect class="{classes}" x="{x:.1f}" y="{y:.1f}" {size}/>'


def _node(network: Network, sketch: Sketch, node: int, middle: Point) -> str:
    it, box = network.nodes[node], sketch.boxes[node]
    border, inside = node_colours(it.marks)
    name, *below = sketch.lines[node]
    drawn = [f'<g class="{" ".join(["node", *sorted(it.marks)])}" data-node="{node}">']
    drawn.append(f"<title>{escaped(node_words(network, node))}</title>")
    drawn.append(_box(f"s-{border} f-{inside}", middle, box))
    if is_doubled(it.marks):
        drawn.append(_box(f"s-{border}", middle, box, 3).replace("/>", ' fill="none"/>'))
    top = middle.y + 5 - 6.5 * len(below)
    drawn.append(_text(middle.x, top, "middle name f-ink", name))
    drawn += [_text(middle.x, top + 13 * (k + 1), "middle below f-ink", line) for k, line in enumerate(below)]
    return "".join([*drawn, "</g>"])


def _arc(network: Network, arc: Arc, curve: List[Point]) -> str:
    """An arc with its head. Its words are shown where one points at it."""
    colour, width = arc_colour(arc.marks), arc_width(arc.marks)
    front, tip = _split(curve, 7 + width)
    number = f' data-arc="{arc.number}"' if arc.number else ""
    drawn = [f'<g class="{" ".join(["arc", *sorted(arc.marks)])}"{number}>']
    drawn.append(f"<title>{escaped(arc_words(network, arc))}</title>")
    drawn.append(_stroked(_path(front), arc.marks))
    drawn.append(f'<polygon class="f-{colour}" points="{_head(front[-1], tip, 3.2 + width * 0.6)}"/>')
    return "".join([*drawn, "</g>"])


def _stroked(path: str, marks: Set[str]) -> str:
    dash = arc_dash(marks)
    dashed = f' stroke-dasharray="{dash}"' if dash else ""
    return f'<path class="s-{arc_colour(marks)}" fill="none" stroke-width="{arc_width(marks):g}"{dashed} d="{path}"/>'


def _label(arc: Arc, edge: Edge, middle: Point) -> str:
    colour = arc_colour(arc.marks)
    strong = " strong" if is_strong(arc.marks) else ""
    fill = "ink" if colour == "line" else colour
    return _text(middle.x, middle.y + 4, f"middle along s-ground f-{fill}{strong}", edge.label)


# ---- curves


def _path(curve: Sequence[Point]) -> str:
    first, *rest = [f"{it.x:.1f} {it.y:.1f}" for it in curve]
    return f"M{first} C{' '.join(rest)}"


def _head(back: Point, tip: Point, half: float) -> str:
    """The corners of an arrow's head."""
    length = math.hypot(tip.x - back.x, tip.y - back.y) or 1.0
    x, y = (back.y - tip.y) * half / length, (tip.x - back.x) * half / length
    corners = [tip, Point(back.x + x, back.y + y), Point(back.x - x, back.y - y)]
    return " ".join(f"{it.x:.1f},{it.y:.1f}" for it in corners)


def _split(curve: Sequence[Point], length: float) -> Tuple[List[Point], Point]:
    """The curve without its end, which is straight and so long, and the end's tip."""
    tip = curve[-1]
    while len(curve) > 4 and math.hypot(curve[-4].x - tip.x, curve[-4].y - tip.y) < length:
        curve = curve[:-3]
    before = curve[-2]
    share = length / (math.hypot(tip.x - before.x, tip.y - before.y) or 1.0)
    return [*curve[:-1], Point(tip.x + (before.x - tip.x) * share, tip.y + (before.y - tip.y) * share)], tip
