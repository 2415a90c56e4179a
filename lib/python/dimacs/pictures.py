"""Pictures of texts, with what the library says of them. They aren't proved: only the verdict is."""

from __future__ import annotations

import os
from pathlib import Path
from typing import Any, Iterable, Sequence, Union

from . import drawing
from .answers import Certified, Solved
from .buffers import bytes_of
from .drawing import Answer, Drawing
from .commands import run
from .texts import Text, convert, show


class _Library:
    """What drawing asks: the judges and certifiers of the library, word for word."""

    def show(self, kind: str, text: bytes) -> str:
        return bytes(show(kind, text)).decode("ascii").rstrip("\n")

    def convert(self, kind: str, text: bytes) -> bytes:
        return bytes(convert(kind, text))

    def answer(self, command: str, texts: Sequence[bytes]) -> Answer:
        verb, _, kind = command.partition("-")
        _, line, made = run(verb, kind, [bytes_of(it) for it in texts])
        return Answer(command, line.decode("ascii").splitlines(), *made)


def _text(name: str, text: Any) -> drawing.Text:
    """A text, with the name of its file if it has one."""
    if isinstance(text, os.PathLike):
        name = Path(text).name
    elif isinstance(text, str) and "\n" not in text and os.path.isfile(text):
        raise ValueError(f"draw takes texts, and {text!r} names a file: pass pathlib.Path({text!r})")
    return drawing.Text(name, bytes(bytes_of(text, "draw").kept))


def draw(
    instance: Text, claim: Union[Text, Solved[Any, Any, Any], None] = None,
    certificate: Union[Text, Certified[Any, Any], None] = None,
    *, only: Iterable[int] = (), source: int | None = None, layers: bool = False,
) -> Drawing:
    r"""Draws an instance, with a claim about it and its certificate, as the command dimacs-draw does; a notebook shows it.

    The claim is a solution, a set of nodes, distances or queries, or what solve_max or solve_min returned. Without a
    certificate the claim is certified, if it can be; what certify_max and so on returned is one. A refusal is drawn, and not
    raised. only are nodes that are drawn with their neighbours; source is the node from which distances are drawn; layers
    is whether Graphviz isn't used, even if it is there. Raises Refused if a text has a fault; ValueError if no command
    judges these texts, or the network is too large.

    >>> drawn = draw("p max 2 1\nn 1 s\nn 2 t\na 1 2 3\n", "s 2\nf 1 2 2\n")
    >>> drawn
    <Drawing: x solution 1 2 NotMaximum>
    >>> drawn.svg[:4], drawn.dot[:7]
    ('<svg', 'digraph')
    """
    if isinstance(claim, Solved):
        certificate = claim.certificate if certificate is None else certificate
        claim = claim.solution
    if isinstance(certificate, Certified):
        certificate = certificate.certificate
    given = {"claim": claim, "certificate": certificate}
    texts = [_text("instance", instance), *(_text(name, it) for name, it in given.items() if it is not None)]
    try:
        return drawing.draw(_Library(), texts, only, source, layers)
    except drawing.TooLarge as error:
        raise drawing.TooLarge(f"{error}: only=[..] draws some nodes with their neighbours") from None
