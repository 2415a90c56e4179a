"""Texts as arrays."""

from __future__ import annotations

import ctypes
from array import array
from typing import Any, Literal, Sequence, overload

from . import library
from .answers import UNREACHED, Refused
from .buffers import IDS, MARKS, NUMBERS, Buffer, Items, bytes_of, number_of
from .commands import test_kind
from .explained import ROLES, Asked
from .given import GRAPH, MIN, Given
from .instances import Blocks, ByNode, Cut, Distances, Graph, Instance, Labels, MaxInstance, MinInstance, Potentials, Queries
from .instances import Solution, Value, fixed, numpy
from .texts import Text, bytes_from, convert
from .writing import text_of_instance

#: The values of texts, by their kinds.
_KINDS: list[type[Value]] = [MaxInstance, MinInstance, Graph, Queries, Solution, Cut, Potentials, Labels, Distances]
_VALUES: dict[str, Any] = {it.name: it for it in _KINDS}

#: The least bytes that an arc, a query or a node takes; a node may have no line.
_ARC, _QUERY, _NODE = 8, 4, 8


class _Room:
    """Memory for as many items as a text may have. It isn't touched before it is filled, if numpy is there."""

    def __init__(self, items: Items, length: int) -> None:
        module = numpy()
        self.items, self.length, self._is_numpy = items, length, module is not None
        self._kept = module.empty(length, items.code) if module is not None else array(items.code, (0,)) * length

    def words(self) -> tuple[int, int]:
        return self._kept.ctypes.data if self._is_numpy else self._kept.buffer_info()[0], self.length

    def filled(self, count: int) -> Any:
        """The first items, which nobody else can write to."""
        if not self._is_numpy:
            del self._kept[count:]
            return self._kept
        self._kept.resize(count, refcheck=False)
        return fixed(self._kept.view(bool) if self.items is MARKS else self._kept)


def _arrays(
    name: str, text: Buffer, *numbers: Any, same: Sequence[_Room] = (), others: Sequence[_Room] = (),
    before: Sequence[Any] = (), after: Sequence[Any] = (),
) -> list[Any]:
    """Makes the call that reads a text, and again if one of the others had too little room. It takes words before and
    after the text; what it hands out are numbers, arrays of one length, and others. Raises Refused."""
    while True:
        count, counts = ctypes.c_size_t(), [ctypes.c_size_t() for _ in others]
        handed: list[Any] = [*map(ctypes.byref, numbers), *(word for it in same for word in it.words())]
        handed += [ctypes.byref(count)] if same else []
        for it, needed in zip(others, counts):
            handed += [*it.words(), ctypes.byref(needed)]
        status, line = library.call_with_line(library.readers[name], [*before, *text.words(), *after], handed)
        if status == library.REFUSED:
            raise library.refusal(line)
        if all(needed.value <= it.length for it, needed in zip(others, counts)):
            return [it.filled(count.value) for it in same] + [it.filled(its.value) for it, its in zip(others, counts)]
        others = [_Room(it.items, needed.value) for it, needed in zip(others, counts)]


def _instance(value: type[Instance], text: Buffer) -> Instance:
    form, numbers = value._form, [ctypes.c_uint32() for _ in value._form.numbers]
    by_arc, by_node = ([it.items for it in form.arrays if it.each == each] for each in ("arcs", "nodes"))
    same, others = [_Room(it, (text.length + 1) // _ARC) for it in by_arc], [_Room(it, text.length // _NODE) for it in by_node]
    arrays = _arrays(value.name, text, *numbers, same=same, others=others)
    return value._made(*(it.value for it in numbers), *arrays, names=None, units=None, unlimited=None, base=1)


def _solution(text: Buffer, instance: Instance) -> Solution:
    value, given = ctypes.c_int64(), Given(instance._form, *instance)
    given.words()
    with given.named():
        (flows,) = _arrays("solution", text, value, others=[_Room(NUMBERS, len(instance))], before=given.ends())
    return Solution._made(value.value, flows, instance=instance)


def _queries(text: Buffer) -> Queries:
    pairs = ctypes.c_uint32()
    froms, tos = _arrays("query", text, pairs, same=[_Room(IDS, (text.length + 1) // _QUERY) for _ in range(2)])
    return Queries._made(froms, tos if pairs.value else None)


def _by_node(value: Any, text: Buffer, *source: int) -> Any:
    """Of distances and labels the block of a source. Only labels have a radius."""
    radius, has_radius = ctypes.c_int64(), value is Labels
    rooms = [_Room(it.items, text.length // _NODE) for it in value._arrays]
    arrays = _arrays(value.name, text, *[radius] * has_radius, others=rooms, after=source)
    more = {"radius": None if radius.value == UNREACHED else radius.value} if has_radius else {}
    return value._made(*source, *arrays, **more)


def _blocks(value: type[Distances], text: Text) -> Blocks:
    """All blocks, each of which is read as a text of its own."""
    problem, *blocks = bytes(bytes_of(convert(value.name, bytes_of(text).kept)).kept).split(b"\nt ")
    head, nodes = b" ".join(problem.split()[:3]), int(problem.split()[2])
    found = []
    for it in blocks:
        source, block = int(it.split(maxsplit=1)[0]), bytes_of(head + b" 1\nt " + it + b"\n")
        with _explained(value.name, text, source):
            found.append(_by_node(value, block, source))
    return Blocks(nodes, found, value.name)


class _explained(Asked):
    """What read was asked of: a text, its kind, and what comes with it. A refusal that is raised inside is kept with it."""

    def __init__(self, kind: str, text: Text, of: Any) -> None:
        super().__init__(f"show {kind} {ROLES[kind]}", text)
        self._kind, self._of = kind, of

    def __enter__(self) -> None:
        pass

    def __exit__(self, _: Any, no: Any, where: Any) -> None:
        if isinstance(no, Refused):
            self.of_refusal(no)

    def told(self) -> list[str]:
        """The lines of the text's fault, or of what arrays alone refuse."""
        lines, printed = super().told(), str(self.printed)
        if lines[0] == printed:
            return lines
        if isinstance(self._of, Instance) and not printed.endswith("NumberRange"):
            return self._of_entry()
        name, found = ROLES[self._kind], self._lines(library.refusal(printed.encode()))
        if printed.endswith("BlockMissing"):
            listed = ", ".join(it.split()[2] for it in found[:8]) + ", .." * (len(found) > 8)
            return [printed, f"{name} has no block from source {self._of}; its blocks are from {listed}; {len(found)} in all"]
        wide = f"arrays have {'distances below 2^63 - 1' if self._kind.startswith('dist') else 'numbers of 64 bits'}"
        return [printed, *(f"{name}:{it}" for it in found[:1]), wide]

    def _of_entry(self) -> list[str]:
        """What the certifier says of an entry: of a graph one of arcs that carry nothing."""
        instance, none = self._of, [0] * len(self._of)
        if instance._form is GRAPH:
            given = Given(MIN, *list(instance)[:3], none, none, none, [0] * instance.nodes)
        else:
            given = Given(instance._form, *instance)
        kind = "min" if given.form is MIN else "max"
        return Asked(f"certify_{kind}", text_of_instance(given), *self._texts).told()

    def _lines(self, no: Refused) -> list[str]:
        """The lines that a number past its limit may stand on, or those with the sources of blocks, after their numbers."""
        found, is_here = [], not isinstance(self._of, int)
        for number, line in enumerate(bytes(bytes_of(*self._texts).kept).decode("ascii", "replace").split("\n"), 1):
            letter, word = [*line.split(), "", ""][:2]
            is_here = word.lstrip("+0") == str(self._of) if letter == "t" else is_here
            of_node = is_here and letter in ("t", "y", "d") and word.lstrip("+0") == str(no.node)
            if number == no.line or (letter == "t" if no.reason == "BlockMissing" else of_node):
                found.append(f"{number}: {line.strip()}")
        return found


#: What a text of a kind is of.
_OF = {"solution": "its instance", "dist": "the source of a block", "distances": "the source of a block"}


def _read(kind: str, text: Text, of: Any) -> Any:
    value, is_of_block = _VALUES[kind], kind in ("dist", "distances")
    if is_of_block and of is None:
        return _blocks(value, text)
    source = [number_of(of, IDS, "source")] if is_of_block else []
    with bytes_from("read", text) as (buffer,), _explained(kind, text, *source or [of]):
        if issubclass(value, Instance):
            return _instance(value, buffer)
        if issubclass(value, ByNode):
            return _by_node(value, buffer, *source)
        return _queries(buffer) if value is Queries else _solution(buffer, of)


@overload
def read(kind: Literal["max"], text: Text, /) -> MaxInstance: ...
@overload
def read(kind: Literal["min"], text: Text, /) -> MinInstance: ...
@overload
def read(kind: Literal["gr"], text: Text, /) -> Graph: ...
@overload
def read(kind: Literal["query"], text: Text, /) -> Queries: ...
@overload
def read(kind: Literal["solution"], text: Text, instance: Instance, /) -> Solution: ...
@overload
def read(kind: Literal["cut"], text: Text, /) -> Cut: ...
@overload
def read(kind: Literal["pot"], text: Text, /) -> Potentials: ...
@overload
def read(kind: Literal["dist"], text: Text, source: int, /) -> Labels: ...
@overload
def read(kind: Literal["distances"], text: Text, source: int, /) -> Distances: ...
@overload
def read(kind: Literal["dist", "distances"], text: Text, /) -> Blocks: ...
@overload
def read(kind: str, text: Text, of: Any = None, /) -> Any: ...
def read(kind: str, text: Text, of: Any = None, /) -> Any:
    r"""A text as arrays: of the kind "max" a MaxInstance, "min" a MinInstance, "gr" a Graph, "query" Queries, "cut" a Cut,
    "pot" Potentials; "solution" a Solution over an instance; of "distances" and "dist" Blocks, which has all, or with a source
    its Distances or Labels. Texts are those of convert and show, and a Path whose name ends with .gz is unpacked.

    The k-th entry of a solution with given ends belongs to the k-th arc with them; an arc without one carries 0. Raises
    Refused if the text has a fault, if an entry belongs to no arc (UnknownArc, ArcTwice), if the source has no block
    (BlockMissing), or if a number doesn't fit in 64 bits (NumberRange); ValueError if a file isn't wholly there.

    >>> instance = read("max", "p max 3 2\nn 1 s\nn 3 t\na 1 2 5\na 2 3 4\n")
    >>> instance, len(instance)
    (MaxInstance of 3 nodes and 2 arcs, 2)
    >>> read("solution", "s 4\nf 1 2 4\nf 2 3 4\n", instance).value
    4
    >>> read("distances", "p distances 2 1\nt 1 1\nd 2 7\n", 1).distances.tolist()
    [0, 7]
    """
    test_kind(kind)
    is_of_instance = kind == "solution"
    if kind not in _OF and of is not None:
        raise TypeError(f"a text of the kind {kind!r} comes alone, and not with {of!r}")
    if kind in _OF and is_of_instance != isinstance(of, Instance) and (is_of_instance or of is not None):
        raise TypeError(f"a text of the kind {kind!r} comes with {_OF[kind]}, and not with {of!r}")
    return _read(kind, text, of)
