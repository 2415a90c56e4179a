"""The command of the package: python -m dimacs COMMAND FILE.., or `dimacs` if it is installed.

The library reads the arguments, runs the command over the texts of its files, and has the words for all that is told. Here
files are opened, read and written.
"""

from __future__ import annotations

import array
import os
import signal
import stat
import sys
from contextlib import contextmanager, suppress
from typing import Callable, Iterator, NamedTuple, Sequence

from . import commands, library
from .buffers import bytes_of

_COMPLAINTS = {library.DEVICE: "device fault", library.NO_MEMORY: "out of memory"}
_STDOUT, _STDERR = 1, 2
_BYTES = getattr(os, "O_BINARY", 0)
#: What can be opened and not read. Windows opens no folder.
_FOLDER = os.devnull if os.name == "nt" else "/"

#: A line of more bytes is refused, whatever follows. So many are read at once too.
_LINE = 2**20


class _Fault(Exception):
    """An I/O error, with a line that says more."""

    def __init__(self, line: str) -> None:
        super().__init__(line)
        self.line = line


class _File(NamedTuple):
    """A file of a run: its mark in the plan, its name, and its name as messages have it."""

    mark: str
    name: str
    shown: str


@contextmanager
def _attempt(shown: str, call: str) -> Iterator[None]:
    """An error of the system raised inside ends the run."""
    try:
        yield
    except OSError as it:
        raise _Fault(f"dimacs: {shown}: cannot be {call}: {it.strerror} (os error {it.errno})\n") from None


def _opened(file: _File) -> int:
    with _attempt(file.shown, "opened"):
        return os.open(file.name, os.O_RDONLY | _BYTES)


def _created(file: _File) -> int:
    with _attempt(file.shown, "created"):
        return os.open(file.name, os.O_WRONLY | os.O_CREAT | os.O_TRUNC | _BYTES, 0o666)


def _read(file: _File, opened: int) -> memoryview:
    """The bytes of a file, or those up to a line that is too long."""
    text, line = bytearray(), 0
    with _attempt(file.shown, "read"), open(opened, "rb", buffering=0) as it:
        while line <= _LINE and (piece := it.read(_LINE)):
            text += piece
            end = piece.rfind(b"\n")
            line = line + len(piece) if end < 0 else len(piece) - end - 1
    return memoryview(text).toreadonly()


def _put(descriptor: int, text: bytes) -> None:
    left = memoryview(text)
    while left:
        left = left[os.write(descriptor, left) :]


def _write(file: _File, created: int, text: bytes) -> None:
    with _attempt(file.shown, "written"):
        _put(created, text)
    os.close(created)


def _print(text: bytes) -> None:
    with _attempt("standard output", "written"):
        _put(_STDOUT, text)


def _tell(text: str) -> None:
    """Writes to the standard error. If it can't be written, the status alone tells."""
    with suppress(OSError):
        _put(_STDERR, text.encode())


def _run(words: Sequence[str], files: Sequence[_File]) -> int:
    """Runs a command. The first text that can't be read ends it, unless it is refused before that one."""
    reads, writes = ([it for it in files if (it.mark == "r") == is_read] for is_read in (True, False))
    opened = [_opened(it) for it in reads]
    created = [_created(it) for it in writes if it.mark == "c"]
    texts: list[memoryview] = []
    fault: _Fault | None = None
    try:
        for file, it in zip(reads, opened):
            texts.append(_read(file, it))
    except _Fault as why:
        fault = why
    unread = len(texts) + 1 if fault else 0
    # A name has one text: the library takes one with two for a pipe.
    named = {it.name: text for it, text in zip(reads, texts)}
    texts += [named.get(it.name, memoryview(b"")) for it in reads[len(texts) :]]
    status, (printed, *made) = commands.run_words(library.FILES, words, [bytes_of(it) for it in texts], unread)
    if status == library.NO_MEMORY:
        raise MemoryError
    if fault and status == library.DEVICE:
        raise fault
    for place, (file, text) in enumerate(zip(writes, made)):
        if created or text:
            _write(file, created[place] if created else _created(file), text)
    _print(printed)
    return status


def _same(words: Sequence[str]) -> array.array[int]:
    """For each word the place of the first that names the same regular file, or its own."""
    first: dict[object, int] = {}
    return array.array("I", (first.setdefault(_identity(it) or place, place) for place, it in enumerate(words)))


def _identity(name: str) -> tuple[int, int] | None:
    try:
        it = os.stat(name)
    except OSError:
        return None
    return (it.st_dev, it.st_ino) if stat.S_ISREG(it.st_mode) else None


def _files(words: Sequence[str], marks: str, shown: Sequence[str]) -> list[_File]:
    named = [(mark, word) for mark, word in zip(marks, words) if mark != "-"]
    return [_File(*it, name) for it, name in zip(named, shown)]


def _answered(words: Sequence[str]) -> int:
    status, text = commands.request(words, _same(words))
    if status == library.NO_MEMORY:
        raise MemoryError
    if status == library.RUN:
        marks, *shown = text.decode().split("\n")
        files = _files(words, marks, shown)
        status = _ended(lambda: _run(words, files))
        _tell("\n".join(shown[len(files) :]))
    elif status == library.DONE:
        _print(text)
    else:
        _tell(text.decode())
    return status


def main() -> int:
    """Does what the arguments ask for, and returns the exit status."""
    # A call can't be interrupted: the process ends at once.
    signal.signal(signal.SIGINT, signal.SIG_DFL)
    # No file gets the descriptor of a standard stream that is closed, and none is read as empty there.
    while (stand_in := os.open(_FOLDER, os.O_RDONLY)) <= _STDERR:
        pass
    os.close(stand_in)
    return _ended(lambda: _answered(sys.argv[1:]))


def _ended(run: Callable[[], int]) -> int:
    """The status of a run, after a complaint if it ends without an answer."""
    try:
        return run()
    except (_Fault, MemoryError) as it:
        status, line = (library.DEVICE, it.line) if isinstance(it, _Fault) else (library.NO_MEMORY, "")
        _tell(f"dimacs: {_COMPLAINTS[status]}\n{line}")
        return status


if __name__ == "__main__":
    sys.exit(main())
