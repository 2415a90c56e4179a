"""The colours and strokes of marks, on light and dark ground."""

from __future__ import annotations

from typing import Dict, NamedTuple, Set

from .network import ASKED, CLAIMED, EMPTY, ENDS, ENTERS, INSIDE, LEAVES, SATURATED, TREE, WRONG


class Colour(NamedTuple):
    light: str
    dark: str


#: The colours by their names.
PALETTE = {
    "ground": Colour("#ffffff", "#0d1117"),
    "ink": Colour("#1f2328", "#e6edf3"),
    "line": Colour("#57606a", "#9da7b3"),
    "node": Colour("#f6f8fa", "#161b22"),
    "set": Colour("#b6d7ff", "#1d4472"),
    "shade": Colour("#e6f1ff", "#12253d"),
    "crossing": Colour("#b94a00", "#f0883e"),
    "branch": Colour("#0a5fc2", "#6cb6ff"),
    "refused": Colour("#cf222e", "#ff7b72"),
    "fault": Colour("#ffdcd8", "#5c1b1b"),
}

# For each of these the first mark counts that an arc has.
_COLOURS = {WRONG: "refused", CLAIMED: "refused", LEAVES: "crossing", ENTERS: "crossing", TREE: "branch"}
_WIDTHS = {WRONG: 3.0, SATURATED: 3.4, TREE: 3.0, EMPTY: 1.2}
_DASHES = {CLAIMED: "7 4", EMPTY: "2 3"}


def arc_colour(marks: Set[str]) -> str:
    return next((it for mark, it in _COLOURS.items() if mark in marks), "line")


def arc_width(marks: Set[str]) -> float:
    return next((it for mark, it in _WIDTHS.items() if mark in marks), 1.7)


def is_strong(marks: Set[str]) -> bool:
    """Whether an arc is wide, and its label too."""
    return arc_width(marks) >= 3


def arc_dash(marks: Set[str]) -> str:
    return next((it for mark, it in _DASHES.items() if mark in marks), "")


def node_colours(marks: Set[str]) -> tuple[str, str]:
    """The names of the colours of a node's border and inside."""
    if WRONG in marks:
        return "refused", "fault"
    return "line", "set" if INSIDE in marks else "node"


def is_doubled(marks: Set[str]) -> bool:
    """Whether a node has a second border."""
    return ENDS in marks or ASKED in marks


def of_arc(marks: Set[str]) -> Dict[str, str]:
    """The attributes of an arc in the language of Graphviz."""
    colour = PALETTE[arc_colour(marks)].light
    style = {"style": "dashed"} if CLAIMED in marks else {"style": "dotted"} if EMPTY in marks else {}
    return {"color": colour, "fontcolor": colour, "penwidth": f"{arc_width(marks):g}", **style}


def of_node(marks: Set[str]) -> Dict[str, str]:
    border, inside = (PALETTE[it].light for it in node_colours(marks))
    borders = "2" if is_doubled(marks) else "1"
    return {"style": "rounded,filled", "fillcolor": inside, "color": border, "peripheries": borders}
