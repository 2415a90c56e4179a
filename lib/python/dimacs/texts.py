"""The calls over texts. A text is bytes, str, or anything with a buffer of bytes, as a bytearray or mmap; or a pathlib.Path,
whose file is read. What is handed out is str if a str or a Path came, else bytes."""

from __future__ import annotations

import os
from contextlib import contextmanager
from mmap import mmap
from typing import Any, Iterator, Union, overload

from . import library
from .answers import Certified, Feasible, Infeasible, NotOptimal, Pair, Refused, Solved, Verdict
from .buffers import LIMIT, LIMITS, Buffer, bytes_of, number_of
from .commands import run, test_kind
from .explained import ROLES, Asked, kept

StrText = Union[str, "os.PathLike[str]"]
BytesText = Union[bytes, bytearray, memoryview, mmap]
Text = Union[StrText, BytesText]


@contextmanager
def bytes_from(call: str, *texts: Text) -> Iterator[list[Buffer]]:
    """The bytes of texts. If one is refused that names a file, an exception raised inside says so."""
    try:
        yield [bytes_of(it, call.split()[0]) for it in texts]
    except Refused as it:
        if it._asked is None:
            _asked(call, it, *texts).of_refusal(it)
        if it.text is None or it.line != 1:
            raise
        for text in texts:
            # Each line of a text begins with a letter.
            if isinstance(text, str) and "\n" not in text and (os.path.isfile(text) or len((text.split() or [""])[0]) > 1):
                names = "names a file" if os.path.isfile(text) else "is none, but may be a name"
                raise ValueError(f"{call.split()[0]} takes texts, and {text!r} {names}: pass pathlib.Path({text!r})") from it
        raise


def _asked(call: str, no: Refused, *texts: Text) -> Asked:
    """What a refusal was asked of, and what it shows."""
    name, _, kind = call.partition(" ")
    if kind:
        return Asked(f"{name} {kind} {ROLES[kind]}", *texts)
    for exception, shown in ((NotOptimal, "better"), (Feasible, "flow")):
        found = getattr(no, shown) if isinstance(no, exception) else None
        if found is not None:
            return Asked(call, *texts, found, shown=shown)
    return Asked(call, *texts)


def _run(call: str, *read: Text, limit: int = LIMIT) -> tuple[bytes, list[bytes]]:
    """What a call prints and makes of these texts. Raises Refused."""
    verb, kind = call.replace("_", " ").split()
    with bytes_from(call, *read) as texts:
        status, printed, made = run(verb, kind, texts, number_of(limit, LIMITS, "limit"))
        if status == library.REFUSED:
            raise _refusal(library.refusal(printed), made, *read)
    return printed, made


def _refusal(no: Refused, made: list[bytes], *read: Text) -> Refused:
    """The exception for a refusal, with the text that shows it."""
    if no.reason == "Feasible":
        return Feasible(_in_form_of(read[0], made[0]) if made[0] else None)
    if not no.is_about_value():
        return no
    (shown,), claim = made, read[1]
    if not shown:
        return NotOptimal(no.reason, None, text=no.text, line=no.line, field=no.field)
    numbers = {"value": _value(claim), "better_value": _value(shown)}
    return NotOptimal(no.reason, _in_form_of(claim, shown), text=no.text, line=no.line, field=no.field, numbers=numbers)


def _value(solution: Text) -> int:
    """The value that a solution claims, which has no fault."""
    return int(show("solution", solution).split()[2])


def _in_form_of(came: Text, text: bytes) -> Any:
    return text.decode("ascii") if isinstance(came, (str, os.PathLike)) else text


def _judge(kind: str, *read: Text) -> Verdict[Any]:
    printed, _ = _run(f"judge_{kind}", *read)
    return kept(library.verdict(printed), Asked(f"judge_{kind}", *read))


def judge_max(instance: Text, solution: Text, cut: Text) -> Verdict[int]:
    r"""Judges that a solution's flow is maximum, by a cut. Raises Refused if a test fails.

    >>> judge_max("p max 2 1\nn 1 s\nn 2 t\na 1 2 3\n", "s 3\nf 1 2 3\n", "p cut 2 1\nu 1\n")
    Verdict(kind='max', value=3, pairs=())
    """
    return _judge("max", instance, solution, cut)


def judge_min(instance: Text, solution: Text, potentials: Text) -> Verdict[int]:
    r"""Judges that a solution's flow costs least, by potentials. Raises Refused if a test fails.

    >>> judge_min("p min 2 1\nn 1 3\nn 2 -3\na 1 2 0 5 7\n", "s 21\nf 1 2 3\n", "p pot 2 1\ny 1 7\n").value
    21
    """
    return _judge("min", instance, solution, potentials)


def judge_infeasible(instance: Text, cut: Text) -> Verdict[None]:
    r"""Judges that no flow is feasible, by a set of nodes. Raises Refused if a test fails.

    >>> judge_infeasible("p min 2 1\nn 1 3\nn 2 -3\na 1 2 0 2 7\n", "p cut 2 1\nu 1\n").kind
    'infeasible'
    """
    return _judge("infeasible", instance, cut)


def judge_paths(graph: Text, queries: Text, labels: Text) -> Verdict[int | None]:
    r"""Judges that all labels are distances, and answers the queries by them. Raises Refused if a test fails.

    >>> judge_paths("p sp 2 1\na 1 2 5\n", "p aux sp p2p 1\nq 1 2\n", "p dist 2 1\nt 1 1\nd 2 5 1\n").pairs
    (Pair(source=1, target=2, distance=5),)
    """
    return _judge("paths", graph, queries, labels)


def _certify(kind: str, *read: Text) -> Certified[Any, Any]:
    printed, (shown,) = _run(f"certify_{kind}", *read)
    value = library.verdict(printed).value if kind in ("max", "min") else None
    return kept(Certified(value, _in_form_of(read[0], shown)), Asked(f"certify_{kind}", *read, shown))


@overload
def certify_max(instance: StrText, solution: Text) -> Certified[int, str]: ...
@overload
def certify_max(instance: BytesText, solution: Text) -> Certified[int, bytes]: ...
def certify_max(instance: Text, solution: Text) -> Certified[int, Any]:
    r"""Decides whether a solution's flow is maximum. Returns its value, and the text of a cut that shows it.

    Raises NotOptimal with the text of a better flow if the flow is feasible and has the claimed value, but isn't maximum;
    Refused if a text has a fault, or the flow isn't feasible or has another value. The certificate is str if the instance is.

    >>> certify_max("p max 2 1\nn 1 s\nn 2 t\na 1 2 3\n", "s 3\nf 1 2 3\n")
    Certified(value=3, certificate='p cut 2 1\nu 1\n')
    """
    return _certify("max", instance, solution)


@overload
def certify_min(instance: StrText, solution: Text) -> Certified[int, str]: ...
@overload
def certify_min(instance: BytesText, solution: Text) -> Certified[int, bytes]: ...
def certify_min(instance: Text, solution: Text) -> Certified[int, Any]:
    r"""Decides whether a solution's flow costs least. Returns its cost, and the text of potentials that show it.

    Raises NotOptimal with the text of a cheaper flow if the flow is feasible and has the claimed cost, but doesn't cost
    least; Refused as certify_max.

    >>> certify_min("p min 2 1\nn 1 3\nn 2 -3\na 1 2 0 5 7\n", "s 21\nf 1 2 3\n").value
    21
    """
    return _certify("min", instance, solution)


@overload
def certify_infeasible(instance: StrText) -> Certified[None, str]: ...
@overload
def certify_infeasible(instance: BytesText) -> Certified[None, bytes]: ...
def certify_infeasible(instance: Text) -> Certified[None, Any]:
    r"""Decides whether an instance has no feasible flow. Returns the text of a set that shows it.

    Raises Feasible with the text of a feasible flow if there is one; Refused if the text has a fault. The certificate and the
    flow are str if the instance is.

    >>> certify_infeasible("p min 2 1\nn 1 3\nn 2 -3\na 1 2 0 2 7\n").certificate
    'p cut 2 1\nu 1\n'
    """
    return _certify("infeasible", instance)


@overload
def certify_paths(graph: StrText, distances: Text) -> Certified[None, str]: ...
@overload
def certify_paths(graph: BytesText, distances: Text) -> Certified[None, bytes]: ...
def certify_paths(graph: Text, distances: Text) -> Certified[None, Any]:
    r"""Decides whether claimed distances are right, and nodes without one unreachable. Returns the text of labels that
    show it.

    Raises Refused if a text has a fault, or a test fails. The certificate is str if the graph is.

    >>> certify_paths("p sp 2 1\na 1 2 5\n", "p distances 2 1\nt 1 1\nd 2 5\n").certificate
    'p dist 2 1\nt 1 1\nd 2 5 1\n'
    """
    return _certify("paths", graph, distances)


@overload
def spread_max(instance: Text, solution: StrText) -> str: ...
@overload
def spread_max(instance: Text, solution: BytesText) -> bytes: ...
def spread_max(instance: Text, solution: Text) -> Any:
    r"""Deals a solution out to parallel arcs: adds up the entries with the same ends, and gives each arc with these ends its
    share, within its bounds if possible. Returns the text of a solution with the claimed value and an entry for every arc.

    Raises Refused if a text has a fault, an entry is of no arc, or what is left for the first of parallel arcs has more than
    64 bits: then AboveCap or BelowLow names that arc. The text is str if the solution is.

    >>> spread_max("p max 2 2\nn 1 s\nn 2 t\na 1 2 3\na 1 2 5\n", "s 6\nf 1 2 6\n")
    's 6\nf 1 2 3\nf 1 2 3\n'
    """
    _, (spread,) = _run("spread_max", instance, solution)
    return _in_form_of(solution, spread)


@overload
def spread_min(instance: Text, solution: StrText) -> str: ...
@overload
def spread_min(instance: Text, solution: BytesText) -> bytes: ...
def spread_min(instance: Text, solution: Text) -> Any:
    r"""The same for least cost: of all such flows within the bounds, one that costs least.

    >>> spread_min("p min 2 2\na 1 2 0 3 9\na 1 2 0 5 1\n", "s 0\nf 1 2 6\n")
    's 0\nf 1 2 1\nf 1 2 5\n'
    """
    _, (spread,) = _run("spread_min", instance, solution)
    return _in_form_of(solution, spread)


def _solve(kind: str, instance: Text, limit: int) -> Solved[Any, Any, Any]:
    printed, (solution, certificate) = _run(f"solve_{kind}", instance, limit=limit)
    shown, found = _in_form_of(instance, certificate), library.verdict(printed)
    if found.kind == "infeasible":
        raise kept(Infeasible(shown), Asked(f"solve_{kind}", instance, b"", shown))
    answer = Solved(found.value, _in_form_of(instance, solution), shown)
    return kept(answer, Asked(f"solve_{kind}", instance, solution, certificate))


@overload
def solve_max(instance: StrText, limit: int = LIMIT) -> Solved[int, str, str]: ...
@overload
def solve_max(instance: BytesText, limit: int = LIMIT) -> Solved[int, bytes, bytes]: ...
def solve_max(instance: Text, limit: int = LIMIT) -> Solved[int, Any, Any]:
    r"""Makes a maximum flow. Returns its value, and the texts of a solution and of a cut that shows it, str if the instance is.

    Raises GaveUp after `limit` flows that aren't maximum, and Refused if the text has a fault.

    >>> solve_max("p max 2 1\nn 1 s\nn 2 t\na 1 2 3\n")
    Solved(value=3, solution='s 3\nf 1 2 3\n', certificate='p cut 2 1\nu 1\n')
    """
    return _solve("max", instance, limit)


@overload
def solve_min(instance: StrText, limit: int = LIMIT) -> Solved[int, str, str]: ...
@overload
def solve_min(instance: BytesText, limit: int = LIMIT) -> Solved[int, bytes, bytes]: ...
def solve_min(instance: Text, limit: int = LIMIT) -> Solved[int, Any, Any]:
    r"""Makes a flow of least cost. Returns its cost, and the texts of a solution and of potentials that show it.

    Raises Infeasible with the text of a set if no flow is feasible; GaveUp after `limit` steps to better flows, or if the
    least cost is out of range; Refused as solve_max.

    >>> solve_min("p min 2 1\nn 1 3\nn 2 -3\na 1 2 0 5 7\n").value
    21
    """
    return _solve("min", instance, limit)


@overload
def solve_paths(graph: StrText, queries: Text) -> Solved[None, tuple[Pair, ...], str]: ...
@overload
def solve_paths(graph: BytesText, queries: Text) -> Solved[None, tuple[Pair, ...], bytes]: ...
def solve_paths(graph: Text, queries: Text) -> Solved[None, tuple[Pair, ...], Any]:
    r"""Makes labels that answer the queries. Returns the answers to queries for pairs, and the text of the labels.

    Raises Refused if a text has a fault, a query names no node, or a weight is negative.

    >>> solve_paths("p sp 2 1\na 1 2 5\n", "p aux sp p2p 1\nq 1 2\n").solution
    (Pair(source=1, target=2, distance=5),)
    """
    printed, (_, labels) = _run("solve_paths", graph, queries)
    answer = Solved(None, library.verdict(printed).pairs, _in_form_of(graph, labels))
    return kept(answer, Asked("solve_paths", graph, queries, labels))


def _printed(call: str, kind: str, text: Text) -> Any:
    test_kind(kind)
    printed, _ = _run(f"{call} {kind}", text)
    return _in_form_of(text, printed)


@overload
def convert(kind: str, text: StrText) -> str: ...
@overload
def convert(kind: str, text: BytesText) -> bytes: ...
def convert(kind: str, text: Text) -> Any:
    r"""The canonical form of a text: str if the text is str, else bytes. Raises Refused if it has a fault.

    kind is "max", "min", "gr", "query", "solution", "cut", "pot", "dist" or "distances".

    >>> convert("gr", "c a road\np  sp 2 1\na 1 2 05\n")
    'p sp 2 1\na 1 2 5\n'
    """
    return _printed("convert", kind, text)


@overload
def show(kind: str, text: StrText) -> str: ...
@overload
def show(kind: str, text: BytesText) -> bytes: ...
def show(kind: str, text: Text) -> Any:
    r"""A line that describes a text, as `i max 4 5 1 4`. The kinds and what is raised are those of convert.

    >>> show("gr", "p sp 2 1\na 1 2 5\n")
    'i sp 2 1\n'
    """
    return _printed("show", kind, text)
