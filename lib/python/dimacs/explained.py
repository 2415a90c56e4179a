"""What explains an answer: the command that gives it, run once more over the same texts or arrays. The printed line is
proved to be the answer's; the lines after it aren't."""

from __future__ import annotations

import re
import threading
from typing import Any, Callable, Iterator, Sequence, TypeVar

from . import commands, library
from .answers import Explainable, PastLimit, Refused
from .buffers import LIMIT, UNLIMITED, Room, array_of, bytes_of
from .given import DISTANCES, FLOWS, HEADS, INSIDE, MAX, MIN, POTENTIALS, PREDECESSORS, TAILS, Array, Given, Names
from .writing import text_of, text_of_instance

#: The names of a call's texts, which the lines quote: those that refusals have for them.
_NAMES = {
    **dict.fromkeys(("judge_max", "judge_min", "certify_max", "certify_min"), "instance solution certificate"),
    **dict.fromkeys(("solve_max", "solve_min"), "instance solution certificate"),
    **dict.fromkeys(("judge_infeasible", "certify_infeasible"), "instance certificate"),
    **dict.fromkeys(("judge_paths", "solve_paths"), "instance query certificate"),
    **dict.fromkeys(("spread_max", "spread_min"), "instance solution spread"),
    "certify_paths": "instance distances certificate",
}

#: The names of single texts, by their kinds.
ROLES = {"query": "query", "solution": "solution", "distances": "distances"}
ROLES |= dict.fromkeys(("max", "min", "gr"), "instance") | dict.fromkeys(("cut", "pot", "dist"), "certificate")

_Answer = TypeVar("_Answer", bound=Explainable)
_Made = TypeVar("_Made")


def kept(answer: _Answer, asked: Any) -> _Answer:
    """An answer with what it was asked of."""
    object.__setattr__(answer, "_asked", asked)
    object.__setattr__(answer, "_kind", asked and asked.kind)
    return answer


def like(answer: _Answer, old: Explainable) -> _Answer:
    """An answer in another form."""
    return kept(answer, old._asked)


def _explanation(form: int, command: Sequence[str], texts: Sequence[Any]) -> list[str]:
    status, (lines, *_) = commands.run_words(form, ["explain", *command], [bytes_of(it) for it in texts])
    library.raise_for(status, b"", library.command, [LIMIT])
    return lines.decode().splitlines()


class Asked:
    """A call over texts: these, then what it hands out. It keeps them alive."""

    #: The line of a refusal, and what the exception says.
    printed: str | None = None
    said = ""

    def __init__(self, call: str, *texts: Any, shown: str = "certificate") -> None:
        self._call, self._texts, self._shown = call, texts, shown

    def of_refusal(self, no: Refused) -> None:
        kept(no, self)
        self.printed, self.said = no.printed, str(no)

    def __reduce__(self) -> Any:
        return type(None), ()  # a pickled answer keeps nothing

    @property
    def kind(self) -> str:
        """What the call is about: "max", "min", "infeasible" or "paths"."""
        return self._call.partition("_")[2]

    def command(self) -> list[str]:
        """The command, and the names of its texts. A certifier that shows nothing writes nothing."""
        if self._call not in _NAMES:
            return self._call.split()
        names = _NAMES[self._call].replace("certificate", self._shown).split()
        if self._call.startswith("certify"):
            names = names[: len(self._texts)]
        return [self._call.replace("_", "-"), *names]

    def lines(self) -> list[str]:
        lines = self.told()
        is_changed = self.printed is not None and lines[0] != self.printed
        return [str(self.printed), "the texts hold something else now: the refusal isn't theirs"] if is_changed else lines

    def told(self) -> list[str]:
        return _explanation(library.IN_NO_FILE, self.command(), self._texts)

    def explain(self) -> str:
        return "".join(f"{it}\n" for it in self.lines())


# ---- arrays


def _solution(given: Given, flows: Sequence[int]) -> Iterator[str]:
    yield f"s {given.value_of(flows)}\n"
    yield from (f"f {tail} {head} {it}\n" for tail, head, it in zip(given.column(TAILS), given.column(HEADS), flows))


_CHANGED = "the arrays hold other numbers now, and these are refused: the answer isn't theirs"

#: The marks in lines about arrays: before the numbers of arcs and of nodes, and before capacities.
_ARC, _NODE, _CAP = "\1", "\2", "\3"


class AskedOfArrays(Asked):
    """A call over arrays. It keeps them alive: what it explains is what they hold by then."""

    def __init__(self, call: str, given: Given, **more: Room) -> None:
        super().__init__(call)
        self._given, self._more = given, more
        self._lock = threading.Lock()

    def add(self, **more: Room) -> None:
        self._more.update(more)

    def _column(self, kind: Array) -> Any:
        return self._more[kind.name] if kind.name in self._more else self._given.column(kind)

    def _text(self, name: str) -> bytes:
        """Raises Refused for what no text has: a source whose distance isn't 0, or predecessors that don't lead back to it."""
        given, source = self._given, [self._given.number("source")] if self.kind == "paths" else []
        if name == "instance":
            return text_of_instance(given)
        if name == "query":
            return f"p aux sp ss 1\ns {source[0]}\n".encode()
        if name in ("solution", "better"):
            return "".join(_solution(given, self._more[name] if name == "better" else self._column(FLOWS))).encode()
        shown: dict[str, Any] = {"min": ("pot", POTENTIALS), "paths": ("dist", DISTANCES, PREDECESSORS)}
        called, *kinds = shown.get(self.kind, ("cut", INSIDE)) if name == "certificate" else (name, DISTANCES)
        arrays = [array_of(self._column(it), it.items, it.name) for it in kinds]
        return text_of(called, arrays[0].length, source, *arrays)

    def _in_memory(self, call: Callable[[], _Made]) -> _Made:
        with self._lock:
            self._given.words()
            try:
                return call()
            finally:
                self._given.forget()

    def written(self, name: str) -> bytes:
        """The text of an array by its name in commands."""
        return self._in_memory(lambda: self._text(name))

    def lines(self) -> list[str]:
        return self._in_memory(self._told)

    def _told(self) -> list[str]:
        names = _NAMES[self._call].split()
        if not self._call.startswith("judge"):
            read = 1 if self._call == "certify_infeasible" else 2
            names = [*names[:read], *(it for it in self._more if it == "better")]
        command = [self._call.replace("_", "-"), *names, *["certificate"] * (self._call == "solve_paths")]
        try:
            first, *more = _explanation(library.OF_ARRAYS, command, [self._text(it) for it in names])
        except PastLimit:
            return [_CHANGED] if self.printed is None else [self.printed, self.said]
        except Refused:
            first, more = "x", []
        if self.printed is None and first.startswith("x"):
            return [_CHANGED]
        if self.printed is not None and not self._is_same(first):
            more = [self._own()]
        return [self.printed or first, *map(self._plain, more), *self._notes("\n".join(more))]

    def _is_same(self, first: str) -> bool:
        """Whether texts are refused as the arrays were: for the same arc or node, or as a whole."""
        if not first.startswith("x "):
            return False
        mine, found = (library.refusal(it.encode("ascii")) for it in (str(self.printed), first))
        return (mine.reason, mine.arc, mine.node) == (found.reason, found.arc, found.node)

    def _own(self) -> str:
        """What explains a refusal that no text has."""
        no = library.refusal(str(self.printed).encode("ascii"))
        if no.reason != "NotShortest" or no.node != self._given.number("source"):
            return self.said
        distance = self._column(DISTANCES)[no.node - 1]
        return f"node {_NODE}{no.node} is the source: its distance has to be 0, and is {distance}"

    def _plain(self, line: str) -> str:
        """A line without marks, with inf as the capacity of an arc that has no limit."""
        arc = re.search(f"{_ARC}(\\d+)", line)
        if arc and int(arc[1]) - 1 in self._given.limitless():
            line = line.replace(f"{_CAP}{UNLIMITED}", "inf")
        return re.sub(f"[{_ARC}{_NODE}{_CAP}]", "", line)

    def _notes(self, lines: str) -> Iterator[str]:
        """What numbers in these lines are for the caller."""
        names, units = self._given.names, self._given.units
        if units:
            yield f"numbers are whole here: {self._scaled(*units)}"
        if names.nodes is not None or type(names) is not Names:
            yield from _named("node", re.findall(f"{_NODE}(\\d+)", lines), names.node)
            yield from _named("arc", re.findall(f"{_ARC}(\\d+)", lines), names.arc)
        elif names.base == 0:
            yield "nodes and arcs are numbered from 1 here, and from 0 in the arrays"

    def _scaled(self, amount: Any, cost: Any) -> str:
        """What 1 stands for."""
        if self._given.form is MAX:
            return f"1 is an amount of {amount.shown(1)}"
        if self._given.form is not MIN:
            return f"1 is a distance of {cost.shown(1)}"
        whole = amount.times(cost).shown(1)
        return f"1 is an amount of {amount.shown(1)}, a COST or potential of {cost.shown(1)}, a cost of a flow of {whole}"


def _named(what: str, numbers: list[str], name: Any) -> Iterator[str]:
    """What things are called that aren't called by their numbers."""
    called = {it: name(it - 1) for it in sorted({*map(int, numbers)})}
    others = [f"{number} is {it!r}" for number, it in called.items() if it != number]
    if others:
        yield f"{what}s by number: {', '.join(others)}"
