"""Draws a small network, with what a claim says of it. dimacs judges the claim: nothing here is proved.

The modules, in the order in which a text passes through them:

    kinds     what a text is, by its first record, and the command that judges the texts
    network   the value that is drawn: nodes and arcs, with their marks
    reading   the texts in canonical form, as dimacs writes them
    marks     which arcs are saturated, cross a set or are of a tree, and what was refused
    words     the labels, the caption, the legend and the description
    layout    where nodes, arcs and labels lie: by layers, or by graphviz if it is there
    svg       the picture, and colours its colours
    drawing   all of it

They import nothing but Python's own, and nothing of the package around them: dimacs-draw uses them without it.
"""

from __future__ import annotations

from .drawing import Answer, Drawing, Judge, Text, draw
from .kinds import NoClaim
from .network import TooLarge

__all__ = ["Answer", "Drawing", "Judge", "NoClaim", "Text", "TooLarge", "draw"]
