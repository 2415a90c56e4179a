"""The shared library, and how one of its calls is made."""

from __future__ import annotations

import ctypes
import os
import sys
import threading
from typing import Any, Callable, Iterable, Sequence

from .answers import Beyond, GaveUp, Pair, PastLimit, Refused, Verdict
from .buffers import Buffer, Room

DONE, REFUSED, MISUSED, DEVICE, NO_MEMORY, GAVE_UP, RUN = range(7)

#: What the texts of a command are: files, in no file, or made of arrays.
FILES, IN_NO_FILE, OF_ARRAYS = range(3)

#: Room for any line, except for answers to pairs.
LINE = 256

_HERE = os.path.dirname(os.path.realpath(__file__))

#: Where the library of a system is in `build`. In the package it has the same name.
BUILT = {"linux": "libdimacs.so", "win32": "windows/dimacs.dll"}


def places(platform: str, named: str | None = None) -> list[str]:
    """Where the library is looked for: the one that DIMACS_LIBRARY names, else that of this package, or the one of proved
    code that make built."""
    if named:
        return [named]
    if platform not in BUILT:
        raise ImportError(
            f"there is no library of dimacs for {platform}, but for Linux and Windows: elsewhere `npx dimacs` judges, "
            "and so does the page for browsers"
        )
    top, built = os.path.realpath(f"{_HERE}/../../.."), BUILT[platform]
    return [f"{_HERE}/{os.path.basename(built)}", f"{top}/build/{built}"]


def _find() -> str:
    looked = places(sys.platform, os.environ.get("DIMACS_LIBRARY"))
    for place in looked:
        if os.path.isfile(place):
            return place
    raise ImportError(
        f"{looked[-1]} isn't there: build it by `make`, or by `make rust` without the kit, unproved, and name it by "
        "DIMACS_LIBRARY=build/rust/libdimacs.so"
    )


_address, _number, _limit, _size = ctypes.c_void_p, ctypes.c_uint32, ctypes.c_uint64, ctypes.c_size_t
_room = [_address, _size, ctypes.POINTER(_size)]
_Call = Callable[..., int]

_library = ctypes.CDLL(_find())


def _description() -> str:
    """The version of the library, and what it says of its proof."""
    out, needed = ctypes.create_string_buffer(LINE), _size()
    _library.dimacs_version_text(out, _size(LINE), ctypes.byref(needed))
    return out.raw[: needed.value].decode("ascii")


#: Whether the library says that each of its functions was proved.
proved = bool(_library.dimacs_proved())
description = _description()
_TRANSLATED = "+translated" if sys.platform == "win32" else ""
#: As PEP 440 spells it.
version = description.partition(" ")[0].replace("-dev", ".dev0") + (_TRANSLATED if proved else "+unproved")


def _export(name: str, *words: Any, texts: int = 0, more: Sequence[Any] = (), rooms: int = 1) -> Callable[..., int]:
    """A function of the library: it takes these arguments, this many texts or arrays, more arguments, and rooms for its
    output."""
    function = getattr(_library, name)
    function.argtypes = [*words, *[_address, _size] * texts, *more, *_room * rooms]
    function.restype = _number
    made: Callable[..., int] = function
    return made


judge = _export("dimacs_judge", _number, texts=3)
certify = _export("dimacs_certify", _number, texts=2, rooms=2)
spread = _export("dimacs_spread", _number, texts=2, rooms=2)
solve = _export("dimacs_solve", _number, texts=2, more=[_limit], rooms=3)
convert = _export("dimacs_convert", _number, texts=1)
show = _export("dimacs_show", _number, texts=1)
request = _export("dimacs_request", texts=2)
command = _export("dimacs_command", _number, texts=1, more=[_number, *[_address, _size] * 3], rooms=3)


def _reader(
    name: str, numbers: int, same: int, others: int, before: Sequence[Any] = (), after: Sequence[Any] = ()
) -> Callable[..., int]:
    """The call that reads a text, by what it hands out: numbers, arrays of one length, and others; and by the types of what it
    takes before and after the text."""
    arrays = [_address, _size] * same + [_address] * (same > 0) + [_address, _size, _address] * others
    more = [*after, *_room, *[_address] * numbers, *arrays]
    return _export(f"dimacs_read_{name}", *before, texts=1, more=more, rooms=0)


_ends = [_number, *[_address, _size] * 2]

#: By the kinds of texts.
readers = {
    "max": _reader("max", 3, 3, 0),
    "min": _reader("min", 1, 5, 1),
    "gr": _reader("graph", 1, 3, 0),
    "query": _reader("queries", 1, 2, 0),
    "solution": _reader("solution", 1, 0, 1, before=_ends),
    "cut": _reader("cut", 0, 0, 1),
    "pot": _reader("potentials", 0, 0, 1),
    "dist": _reader("labels", 1, 0, 2, after=[_number]),
    "distances": _reader("distances", 0, 0, 1, after=[_number]),
}
writers = {
    "max": _export("dimacs_write_max", _address),
    "min": _export("dimacs_write_min", _address),
    "gr": _export("dimacs_write_graph", _address),
    "query": _export("dimacs_write_queries", _number, texts=2),
    "solution": _export("dimacs_write_solution", ctypes.c_int64, *_ends, texts=1),
    "cut": _export("dimacs_write_cut", texts=1),
    "pot": _export("dimacs_write_potentials", texts=1),
    "dist": _export("dimacs_write_labels", _number, texts=2),
    "distances": _export("dimacs_write_distances", _number, texts=1),
}

judge_max_arrays = _export("dimacs_judge_max_arrays", _address, texts=2)
judge_min_arrays = _export("dimacs_judge_min_arrays", _address, texts=2)
judge_infeasible_arrays = _export("dimacs_judge_infeasible_arrays", _address, texts=1)
judge_paths_arrays = _export("dimacs_judge_paths_arrays", _address, _number, texts=2)
certify_max_arrays = _export("dimacs_certify_max_arrays", _address, texts=1, rooms=3)
certify_min_arrays = _export("dimacs_certify_min_arrays", _address, texts=1, rooms=3)
certify_infeasible_arrays = _export("dimacs_certify_infeasible_arrays", _address, rooms=3)
certify_paths_arrays = _export("dimacs_certify_paths_arrays", _address, _number, texts=1, rooms=2)
solve_max_arrays = _export("dimacs_solve_max_arrays", _address, _limit, rooms=3)
solve_min_arrays = _export("dimacs_solve_min_arrays", _address, _limit, rooms=4)
solve_paths_arrays = _export("dimacs_solve_paths_arrays", _address, _number, rooms=3)


def _if(is_it: bool, number: str) -> int | None:
    return int(number) if is_it else None


#: At what a call gives up, by its name: that of a solver of texts has the kind, which is its first argument.
_GAVE_UP = {
    "certify_min_arrays": "two of the potentials that were found are 2^64 or more apart; others may fit",
    "solve_max": "limit={limit} flows that aren't maximum were found",
    "solve_min": "limit={limit} steps led to better flows, or the least cost is out of range",
    "solve_min_arrays": "limit={limit} steps led to better flows, or the least cost or a potential is out of range",
    "solve_paths_arrays": "a distance is 2^63 - 1 or more",
}


def _gave_up(function: _Call, words: Sequence[Any]) -> GaveUp:
    name = function.__name__.removeprefix("dimacs_")
    name = f"solve_{'max' if words[0] == 0 else 'min'}" if name == "solve" else name.replace("max_arrays", "max")
    return GaveUp(_GAVE_UP.get(name, "a limit was reached").format(limit=words[-1]))


def raise_for(status: int, line: bytes, function: _Call, words: Sequence[Any]) -> None:
    """Raises the exception of a status that leaves the claim undecided, or whose certificate doesn't fit."""
    if status == NO_MEMORY:
        raise MemoryError("there was not enough memory to judge")
    if status == MISUSED and line:
        _, place, number, reason = line.decode("ascii").split()
        raise PastLimit(reason, arc=_if(place == "arc", number), node=_if(place == "node", number))
    if status == MISUSED:
        raise ValueError("the library doesn't take these words")
    if status == GAVE_UP:
        raise _gave_up(function, words)


#: From so many arcs on a call may be a long one; about as many bytes as the line of an arc has.
LONG, _ARC = 20_000, 16


#: The least stack of a thread in which Python makes a call, which needs 64 KB itself.
_STACK = 2**18


def is_long(arcs: int) -> bool:
    """Whether a call over so many arcs may hold up Ctrl-C, which Python raises in the main thread alone, and another thread can
    make it: none runs any more at the end of the process, nor in a stack that is too small."""
    can_start = not sys.is_finalizing() and not 0 < threading.stack_size() < _STACK
    return arcs >= LONG and can_start and threading.current_thread() is threading.main_thread()


def _status(function: _Call, words: Sequence[Any], arcs: int, *kept: Any) -> int:
    """Makes a call; a long one in a thread, which goes on to its end with what is kept for it if Ctrl-C is raised here."""
    if not is_long(arcs):
        return function(*words)
    found: list[int] = []
    ended = threading.Event()  # in place of a join: Ctrl-C in that makes Python 3.11 take the thread for one that has ended

    def make(*_: Any) -> None:
        try:
            found.append(function(*words))
        finally:
            ended.set()

    try:
        threading.Thread(target=make, args=kept, daemon=True).start()
    except RuntimeError:  # Python refuses it, as in handlers of atexit and in subinterpreters
        return function(*words)
    while not ended.wait(1):  # Windows raises Ctrl-C between two waits
        pass
    return found[0]


def call(function: _Call, *words: Any, read: Sequence[Buffer] = ()) -> tuple[int, bytes]:
    """Makes a call that hands out a text, twice if it is longer than a line. Returns its status and the text."""
    status, (output,) = call_for_texts(function, *words, rooms=[LINE], read=read)
    return status, output


def call_for_texts(function: _Call, *words: Any, rooms: Sequence[int], read: Sequence[Buffer] = ()) -> tuple[int, list[bytes]]:
    """Makes a call that hands out texts. Returns its status and the texts."""
    status, outputs = handed(function, *words, rooms=rooms, read=read)
    raise_for(status, outputs[0], function, words)
    return status, outputs


def handed(function: _Call, *words: Any, rooms: Sequence[int], read: Sequence[Buffer] = ()) -> tuple[int, list[bytes]]:
    """The same for any status. A call is made again if a text is longer than its room. What it reads, the instance first, says
    whether it is a long one."""
    arcs = read[0].length // _ARC if read else 0
    while True:
        needed = [_size() for _ in rooms]
        texts = [ctypes.create_string_buffer(room) for room in rooms]
        places = [word for it in zip(texts, rooms, map(ctypes.byref, needed)) for word in it]
        status = _status(function, (*words, *places), arcs, read)
        lengths = [it.value for it in needed]
        if all(length <= room for length, room in zip(lengths, rooms)):
            break
        rooms = [max(it) for it in zip(lengths, rooms)]
    return status, [ctypes.string_at(*it) for it in zip(texts, lengths)]


def call_with_rooms(function: _Call, words: Sequence[Any], rooms: Iterable[Room], arcs: int = 0) -> tuple[int, bytes]:
    """Makes a call over so many arcs that hands out items to rooms that have as many. Returns its status and the line."""
    handed = [word for it in rooms for word in (*it.buffer_info(), ctypes.byref(_size()))]
    return call_with_line(function, words, handed, arcs, rooms)


def call_with_line(
    function: _Call, words: Sequence[Any], handed: Sequence[Any], arcs: int = 0, kept: Any = None
) -> tuple[int, bytes]:
    """The same by the words for what is handed out after the line."""
    line, needed = ctypes.create_string_buffer(LINE), _size()
    status = _status(function, (*words, line, LINE, ctypes.byref(needed), *handed), arcs, kept)
    output = line.raw[: needed.value]
    raise_for(status, output, function, words)
    return status, output


def refusal(line: bytes) -> Refused:
    """The fields of a line that begins with x."""
    _, place, *numbers, reason = line.decode("ascii").split()
    if place in ("arc", "node"):
        return Refused(reason, arc=_if(place == "arc", numbers[0]), node=_if(place == "node", numbers[0]))
    return Refused(reason, text=place, line=int(numbers[0]), field=int(numbers[1]))


def _distance(words: list[str]) -> int | Beyond | None:
    if words[0] == "unreachable":
        return None
    if words[0] == "more":
        return Beyond(int(words[1]))
    return int(words[0])


def verdict(output: bytes) -> Verdict[Any]:
    """The fields of the lines of a verdict."""
    words = output.decode("ascii").split("\n", 1)[0].split()
    kind = words[1] if words else "pairs"
    if kind in ("max", "min"):
        return Verdict(kind, int(words[2]))
    if kind == "infeasible":
        return Verdict(kind, None)
    if kind == "sp":
        return Verdict(kind, int(words[3]))
    lines = (line.split() for line in output.decode("ascii").splitlines())
    pairs = tuple(Pair(int(line[1]), int(line[2]), _distance(line[3:])) for line in lines)
    return Verdict("pairs", None, pairs)
