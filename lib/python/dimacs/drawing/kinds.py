"""What a text is, by its first record, and the command that judges the texts."""

from __future__ import annotations

import io
import re
from typing import List, Optional, Sequence

#: The kinds of texts by the word in their problem line. A solution has none.
_BY_WORD = {b"sp": "gr", b"aux": "query"}
_BY_WORD.update((it.encode(), it) for it in ("max", "min", "cut", "pot", "dist", "distances"))

#: What a text of each kind has.
NAMES = {
    "max": "an instance of maximum flow",
    "min": "an instance of minimum cost flow",
    "gr": "a graph",
    "query": "queries",
    "solution": "a solution",
    "cut": "a set of nodes",
    "pot": "potentials",
    "dist": "labels",
    "distances": "distances",
}

#: The command that judges these texts; an instance alone claims nothing.
COMMANDS = {
    ("max", "solution"): "certify-max",
    ("max", "solution", "cut"): "judge-max",
    ("min", "solution"): "certify-min",
    ("min", "solution", "pot"): "judge-min",
    ("min", "cut"): "judge-infeasible",
    ("gr", "distances"): "certify-paths",
    ("gr", "query", "dist"): "judge-paths",
}

#: The kind of the certificate that a command writes.
CERTIFICATES = {"certify-max": "cut", "certify-min": "pot", "certify-paths": "dist"}

_INSTANCES = ("max", "min", "gr")


class NoClaim(ValueError):
    """Texts that no command judges."""


def fields_of(line: bytes) -> List[bytes]:
    return [it for it in re.split(b"[ \t\r\n]+", line) if it]


def kind_of(text: bytes) -> Optional[str]:
    """The kind of a text; None if its first record is of no kind."""
    for line in io.BytesIO(text):
        fields = fields_of(line)
        if not fields or fields[0].startswith(b"c"):
            continue
        if fields[0] in (b"s", b"f"):
            return "solution"
        return _BY_WORD.get(fields[1]) if fields[0] == b"p" and len(fields) > 1 else None
    return None


def kinds_of(texts: Sequence[tuple[str, bytes]]) -> tuple[str, ...]:
    """The kinds of texts with their names, of which the first is an instance. A text without a record may be a solution:
    dimacs says what it lacks."""
    found = [kind_of(content) for _, content in texts]
    if len(found) > 1 and found[0] != "gr" and found[1] is None:
        found[1] = "solution"
    for (name, _), kind in zip(texts, found):
        if kind is None:
            raise NoClaim(f"{name} is no text that dimacs reads, by its first record")
    kinds = tuple(it for it in found if it)
    if kinds[0] not in _INSTANCES:
        raise NoClaim(f"{texts[0][0]} is {NAMES[kinds[0]]}: an instance comes first")
    if len(kinds) > 1 and kinds not in COMMANDS:
        raise NoClaim(_misfit(kinds))
    return kinds


def _misfit(kinds: tuple[str, ...]) -> str:
    """What can follow this instance."""
    fitting = [" and ".join(NAMES[it] for it in rest) for first, *rest in COMMANDS if first == kinds[0]]
    came = " and ".join(NAMES[it] for it in kinds[1:])
    return f"{NAMES[kinds[0]]} is followed by {'; or by '.join(fitting)}: not by {came}"
