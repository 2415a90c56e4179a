"""Arrays as texts."""

from __future__ import annotations

from typing import Any, Sequence

from . import library
from .answers import Certified, Explainable, Feasible, Infeasible, NotOptimal, Solved
from .buffers import UNLIMITED, Buffer, bytes_of
from .given import FLOWS, TAILS, Given
from .instances import Blocks, Instance, Solution, Value

#: About as many bytes as a line has.
_LINE = 32


def text_of(name: str, lines: int, numbers: Sequence[int], *arrays: Buffer) -> bytes:
    """The text of numbers of 32 bits and arrays, of about so many lines."""
    return _text(name, lines, *numbers, *(word for it in arrays for word in it.words()))


def text_of_instance(given: Given) -> bytes:
    """Raises PastLimit, which has its names of arcs and nodes."""
    words = given.words()
    with given.named():
        return _text(given.form.name, given.count(TAILS), words[0])


def _text(name: str, lines: int, *words: Any) -> bytes:
    status, (text,) = library.call_for_texts(library.writers[name], *words, rooms=[library.LINE + _LINE * lines])
    if status == library.REFUSED:
        raise library.refusal(text)
    return text


def _text_of_solution(value: Solution) -> bytes:
    given = Given(value.instance._form, *value.instance).add(FLOWS, value.flows)
    given.words()
    with given.named():
        return _text("solution", len(value), value.value, *given.ends(), *given.words()[1:])


def _text_of_blocks(blocks: Blocks) -> bytes:
    """A problem line, and the lines of each block after its own."""
    return f"p {blocks.name} {blocks.nodes} {len(blocks)}\n".encode() + b"".join(
        write(it).partition(b"\n")[2] for it in blocks.values()
    )


def _text_of_answer(answer: Any) -> bytes:
    """The text of a certificate that was asked for, or of a solution or a flow."""
    asked, name, found = answer._asked, "certificate", getattr(answer, "certificate", None)
    if isinstance(answer, Solved):
        name, found = "distances" if answer._kind == "paths" else "solution", answer.solution
    if isinstance(answer, (NotOptimal, Feasible)):
        name, found = "better", answer.better if isinstance(answer, NotOptimal) else answer.flow
    if isinstance(found, (str, bytes)):
        return bytes(bytes_of(found).kept)
    if asked is None or not hasattr(asked, "written"):
        raise ValueError("this answer doesn't keep what it was asked of")
    return bytes(asked.written(name))


def _comments(instance: Instance) -> bytes:
    """What 1 stands for, and what stands where an arc has no limit."""
    of = {"max": "an amount of {}", "min": "an amount of {}, a cost of {}", "gr": "a distance of {1}"}
    lines = [f"1 is {of[instance.name].format(*instance.units)}"] if instance.units else []
    lines += [f"an arc without a limit has the capacity {UNLIMITED}"] if instance.unlimited is not None else []
    return "".join(f"c {it}\n" for it in lines).encode()


def write(value: Value | Blocks | Explainable, /) -> bytes:
    r"""The canonical text of what read returns, which read again is the same. A solution has an entry for each arc. If an
    instance has units, comments say so, and if an arc has no limit: read gives it 2^63 - 1. Of an answer it is what was asked
    for, a certificate or a solution, or the flow of a refusal.

    Raises PastLimit if a number is past a limit of texts; Refused if the distance of the source isn't 0, or predecessors of
    labels don't lead back to it; ValueError for labels with a radius, and for an answer that was pickled since.

    >>> import dimacs
    >>> write(dimacs.Graph(2, [1], [2], [5]))
    b'p sp 2 1\na 1 2 5\n'
    >>> write(dimacs.certify_max_arrays(3, 1, 3, [1, 2], [2, 3], [5, 4], [4, 4]))
    b'p cut 3 2\nu 1\nu 2\n'
    """
    if isinstance(value, Instance):
        return _comments(value) + text_of_instance(Given(value._form, *value))
    if isinstance(value, Solution):
        return _comments(value.instance) + _text_of_solution(value)
    if isinstance(value, Blocks):
        return _text_of_blocks(value)
    if isinstance(value, (Certified, Solved, Infeasible, NotOptimal, Feasible)):
        return _text_of_answer(value)
    if not isinstance(value, Value):
        raise TypeError(f"write takes what read returns, or an answer, not {type(value).__name__}")
    numbers, arrays = value._words()
    return text_of(value.name, value._lines(), numbers, *arrays)
