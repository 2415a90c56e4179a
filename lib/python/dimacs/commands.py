"""A command over texts, as one call of the library: what it prints, and what it has for files."""

from __future__ import annotations

import array
import os
from typing import Any, Callable, Sequence

from . import library
from .buffers import LIMIT, Buffer, bytes_of
from .library import LINE

PROBLEMS = {"max": 0, "min": 1, "infeasible": 2, "paths": 3}
TEXTS = {"max": 0, "min": 1, "gr": 2, "query": 3, "solution": 4, "cut": 5, "pot": 6, "dist": 7, "distances": 8}


def test_kind(kind: Any) -> None:
    """Raises ValueError for what is no kind of text."""
    if kind not in TEXTS:
        raise ValueError(f"{kind!r} is no kind of text: these are {', '.join(TEXTS)}")


#: In place of a text that a call doesn't read.
_NO_TEXT = bytes_of(b"")

#: How many texts a call takes, and how much room it is given at first, by the lengths of two of them.
_VERBS: dict[str, tuple[int, Callable[[int, int], list[int]]]] = {
    "judge": (3, lambda first, second: [LINE]),
    "certify": (2, lambda first, second: [LINE, LINE + first + second]),
    "spread": (2, lambda first, second: [LINE, LINE + first + second]),
    # An answer to a query is a longer line than the query, and a potential or label may be one than an arc.
    "solve": (2, lambda first, second: [LINE + 4 * second, LINE + first, LINE + 2 * first]),
    "convert": (1, lambda first, second: [LINE + first]),
    "show": (1, lambda first, second: [LINE]),
}


def _ended(words: Sequence[str]) -> Buffer:
    """The words of a command as the library takes them."""
    return bytes_of(b"".join(os.fsencode(it) + b"\0" for it in words))


def request(words: Sequence[str], same: array.array[int]) -> tuple[int, bytes]:
    """What the words of a command ask for; `same` has for each the place of the first that names the same regular file, or its
    own. Returns any status, and the text or the plan."""
    status, (text,) = library.handed(library.request, *_ended(words).words(), *same.buffer_info(), rooms=[16 * LINE])
    return status, text


def run_words(form: int, words: Sequence[str], texts: Sequence[Buffer], unread: int = 0) -> tuple[int, list[bytes]]:
    """Runs a command over the texts that its files stand for, of which the one at the place `unread`, from 1, can't be read.
    Returns any status, what it prints, and the texts that it makes."""
    read = [*texts, _NO_TEXT, _NO_TEXT, _NO_TEXT][:3]
    verb, _, kind = words[words[0] == "explain"].partition("-")
    printed, *made = _VERBS[verb][1](read[0].length, read[1].length)
    made = [*made[(verb, kind) == ("solve", "paths") :], 0, 0][:2]  # labels are the only text for a file then
    given = [form, *_ended(words).words(), unread, *(word for it in read for word in it.words())]
    return library.handed(library.command, *given, rooms=[printed + 16 * LINE, *made], read=read)


def run(verb: str, kind: str, texts: Sequence[Buffer], limit: int = LIMIT) -> tuple[int, bytes, list[bytes]]:
    """Makes the call of a command. Returns its status, which is a yes or a no, what it prints, and the texts for files.

    Raises GaveUp and MemoryError for the other statuses.
    """
    count, rooms = _VERBS[verb]
    read = [*texts, _NO_TEXT, _NO_TEXT][:count]
    if (verb, kind) == ("judge", "infeasible"):
        read = [texts[0], _NO_TEXT, texts[1]]
    words: list[Any] = [(TEXTS if count == 1 else PROBLEMS)[kind], *(word for it in read for word in it.words())]
    if verb == "solve":
        words.append(limit)
    first, second = [it.length for it in [*read, _NO_TEXT]][:2]
    status, (printed, *made) = library.call_for_texts(getattr(library, verb), *words, rooms=rooms(first, second), read=read)
    return status, printed, made
