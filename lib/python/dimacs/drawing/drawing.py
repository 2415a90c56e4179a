"""A drawing of texts: they are judged, read, marked, and written as a picture."""

from __future__ import annotations

import os
from dataclasses import dataclass
from typing import Dict, Iterable, List, NamedTuple, Optional, Protocol, Sequence, Tuple

from . import graphviz, kinds, layers, marks, reading, svg, words
from .network import Network


class Text(NamedTuple):
    """A text with the name by which the picture calls it."""

    name: str
    content: bytes


class Answer(NamedTuple):
    """What dimacs says: the command, its lines, and the certificate that it wrote, or none."""

    command: str
    lines: List[str]
    certificate: bytes = b""


class Judge(Protocol):
    """What draws asks dimacs, which may refuse a text by an exception."""

    def show(self, kind: str, text: bytes) -> str:
        """A line about a text."""

    def convert(self, kind: str, text: bytes) -> bytes:
        """The canonical form of a text."""

    def answer(self, command: str, texts: Sequence[bytes]) -> Answer:
        """The verdict on texts, or the refusal."""


@dataclass
class Drawing:
    """A picture of a network.

    svg is its text, dot the network in the language of Graphviz, and lines are those that dimacs printed: a verdict, a
    refusal, or one about the instance. A notebook shows the picture.

    >>> Drawing("<svg/>", "digraph {}", ("v max 3",))
    <Drawing: v max 3>
    """

    svg: str
    dot: str
    lines: Tuple[str, ...]

    def _repr_svg_(self) -> str:
        return self.svg

    def save(self, path: "str | os.PathLike[str]") -> None:
        """Writes the picture into a file: of the ending .dot or .gv in the language of Graphviz, else as SVG."""
        text = self.dot if os.fspath(path).endswith((".dot", ".gv")) else self.svg
        with open(path, "w", encoding="utf-8") as it:
            it.write(text)

    def __repr__(self) -> str:
        return f"<Drawing: {'; '.join(self.lines[:3])}>"


def draw(
    judge: Judge, texts: Sequence[Text], only: Iterable[int] = (), source: Optional[int] = None, has_own_layers: bool = False
) -> Drawing:
    """Draws an instance with a claim about it, or alone. Of a graph distances from one source are drawn."""
    found = kinds.kinds_of(texts)
    canonical = {kind: judge.convert(kind, it.content) for kind, it in zip(found, texts)}
    contents = [it.content for it in texts]
    if len(found) == 1:
        answer = Answer("show", [judge.show(found[0], contents[0])])
    else:
        answer = judge.answer(kinds.COMMANDS[found], contents)
    network = reading.read_instance(found[0], canonical[found[0]], list(only))
    _mark(network, judge, canonical, answer, source, texts)
    return picture(network, answer, [it.name for it in texts], has_own_layers)


def picture(network: Network, answer: Answer, names: Sequence[str], has_own_layers: bool = False) -> Drawing:
    """The picture of a network that is marked."""
    said = words.said_of(network, answer.command, answer.lines, names)
    sketch = words.sketch_of(network)
    layout = None if has_own_layers else graphviz.place(sketch)
    layout = layout or layers.place(sketch)
    dot = graphviz.write(sketch, network, [said.title, *said.verdict, *said.notes])
    return Drawing(svg.write(network, sketch, layout, said), dot, tuple(answer.lines))


def _mark(
    network: Network, judge: Judge, canonical: Dict[str, bytes], answer: Answer, source: Optional[int], texts: Sequence[Text]
) -> None:
    refusal = marks.refusal_of(answer.lines[0]) if answer.lines else None
    certificate = kinds.CERTIFICATES.get(answer.command)
    if certificate and answer.certificate and not refusal:
        canonical = {**canonical, certificate: answer.certificate}
    entry = None
    if "solution" in canonical:
        marks.mark_flows(network, reading.read_solution(canonical["solution"]))
        if refusal and refusal.text == "solution" and refusal.reason in ("UnknownArc", "ArcTwice"):
            entry = _entry(texts[1].content, refusal.line)
    is_other = refusal is not None and refusal.reason == "NodesDiffer"
    if "cut" in canonical and not is_other:
        marks.mark_set(network, reading.read_set(canonical["cut"]))
    if "pot" in canonical and not is_other:
        marks.mark_potentials(network, reading.read_potentials(canonical["pot"]))
    blocks = canonical.get("dist", canonical.get("distances"))
    if blocks and not is_other:
        refusal = _mark_block(network, judge, reading.read_blocks(blocks), canonical, source, refusal)
    if refusal:
        marks.mark_refused(network, refusal, entry)


def _mark_block(
    network: Network, judge: Judge, blocks: List[reading.Block], canonical: Dict[str, bytes], source: Optional[int],
    refusal: Optional[marks.Refusal],
) -> Optional[marks.Refusal]:
    """Marks the block of a source, or the first in which a test fails, or the first. The refusal, if it is of this one."""
    if source is not None and source not in [it.source for it in blocks]:
        raise ValueError(f"there are no distances from {source}")
    if not blocks:
        return refusal
    fitting = [it for it in blocks if source in (None, it.source)]
    failing = next((it for it in fitting if refusal and _fails_in(judge, canonical, network, it, refusal)), None)
    block = failing or fitting[0]
    targets = reading.read_targets(canonical["query"], block.source) if "query" in canonical else ()
    marks.mark_block(network, block, targets)
    if len(blocks) > 1:
        sources = ", ".join(str(it.source) for it in blocks[:5]) + (", .." if blocks[5:] else "")
        network.notes.append(f"distances from {block.source}, one of {len(blocks)} sources: {sources}")
    if refusal and not failing:
        network.notes.append("what is refused isn't among what is drawn")
        return None
    return refusal


def _fails_in(
    judge: Judge, canonical: Dict[str, bytes], network: Network, block: reading.Block, refusal: marks.Refusal
) -> bool:
    """Whether this block alone is refused for the same arc or node. What isn't of an arc or a label is of each block."""
    if refusal.arc is None and refusal.reason != "NoTightArc":
        return True
    kind = "dist" if "dist" in canonical else "distances"
    graph, claim = canonical["gr"], reading.text_of(kind, network.node_count, block)
    if kind == "dist":
        query = f"p aux sp p2p 1\nq {block.source} {block.source}\n"
        answer = judge.answer("judge-paths", [graph, query.encode(), claim])
    else:
        answer = judge.answer("certify-paths", [graph, claim])
    return bool(answer.lines) and marks.refusal_of(answer.lines[0]) == refusal


def _entry(text: bytes, line: int) -> Optional[Tuple[int, int, int]]:
    """The ends and the flow of an entry, by its line in a solution without a fault."""
    fields = kinds.fields_of(text.split(b"\n")[line - 1])
    return int(fields[1]), int(fields[2]), int(fields[3])
