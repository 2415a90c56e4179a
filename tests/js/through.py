#!/usr/bin/env python3
"""Runs a Python test of the library with each call made twice: through.py MODULE LIBRARY SCRIPT WORDS..

One call goes to LIBRARY, the other through node to MODULE, which is dimacs.wasm. Both have to return the same status
and to leave the same in every byte that they may write; the test gets what the module handed out. Prints last how many
calls were the same, and how many weren't. If the test itself fails, its output is printed, and one more has failed.
"""
import base64
import contextlib
import ctypes
import io
import json
import os
import re
import runpy
import subprocess
import sys
import traceback

HERE = os.path.dirname(os.path.abspath(__file__))
sys.path.append(os.path.dirname(HERE))
from abi import declared  # noqa: E402  (the folder isn't a package of this one)

WIDTHS = {"uint8_t": 1, "uint32_t": 4, "int64_t": 8, "size_t": 8}
ARRAYS = {"dimacs_nodes": 4, "dimacs_numbers": 8}

# The types of the parameters of each call, and the fields of each instance, as dimacs.h declares them.
CALLS, STRUCTS = declared()


def address(it):
    """The address that ctypes would hand on for an argument."""
    if it is None or isinstance(it, int):
        return it or 0
    if isinstance(it, bytes):
        return ctypes.cast(ctypes.c_char_p(it), ctypes.c_void_p).value
    if hasattr(it, "_obj"):
        return ctypes.addressof(it._obj)
    return it.value or 0 if isinstance(it, ctypes.c_void_p) else ctypes.addressof(it)


def number(it):
    """A number, which may be one of ctypes."""
    return it if isinstance(it, int) else it.value


def content(at, length):
    return ctypes.string_at(at, length) if length else b""


def encoded(at, length):
    return base64.b64encode(content(at, length)).decode()


def number_at(at):
    return ctypes.c_uint64.from_address(at).value


def kinds_of(struct):
    """Yields the type of each field."""
    for line in STRUCTS[struct].rstrip(";").split("; "):
        yield from [line.split()[0]] * len(line.split(","))


def instance(struct, at):
    """The bytes of an instance, whose layout is the same there, and by their places the arrays to which they lead."""
    arrays, length = {}, 0
    for kind in kinds_of(struct):
        if kind == "uint32_t":
            length += 4
        else:
            place = length + -length % 8
            arrays[place] = encoded(number_at(at + place), ARRAYS[kind] * number_at(at + place + 8))
            length = place + 16
    return {"b": encoded(at, length), "arrays": arrays}


def described(parameters, given):
    """The arguments of a call as calls.mjs takes them, and the memory that it may write. A pointer leads to as many
    items as the number after it says, or to one."""
    words, written = [], []
    for k, (kind, it) in enumerate(zip(parameters, given)):
        pointer = re.fullmatch(r"(const )?(\w+) \*", kind)
        if not pointer:
            words.append({"n": number(it)} if kind == "uint32_t" else {"q": str(number(it))})
        elif pointer[2] in STRUCTS:
            words.append(instance(pointer[2], address(it)))
        else:
            count = number(given[k + 1]) if parameters[k + 1 : k + 2] == ["size_t"] else 1
            place = address(it), WIDTHS[pointer[2]] * count
            words.append({"b": encoded(*place), "written": not pointer[1]})
            written += [] if pointer[1] else [place]
    return words, written


class Function:
    """A call, as ctypes has a function."""

    same = differing = 0

    def __init__(self, name, node, native):
        self.name = self.__name__ = name
        self.node, self.native = node, native
        self.argtypes = self.restype = None

    def __call__(self, *given):
        words, written = described([it for it in CALLS[self.name].split(", ") if it != "void"], given)
        self.native.argtypes, self.native.restype = self.argtypes, ctypes.c_uint32
        status = self.native(*given)
        wanted = status, [content(*it) for it in written]
        self.node.stdin.write(json.dumps({"name": self.name, "args": words}) + "\n")
        answer = json.loads(self.node.stdout.readline())
        found = answer["status"], [*map(base64.b64decode, answer["written"])]
        for (at, length), items in zip(written, found[1]):
            ctypes.memmove(at, items, length)
        self.compare(found, wanted)
        return answer["status"]

    def compare(self, found, wanted):
        Function.same += found == wanted
        Function.differing += found != wanted
        if found != wanted:
            print(f"{self.name}: the module {found}, the library {wanted}"[:600])


class Both:
    """Stands for the library of ctypes."""

    def __init__(self, node, native):
        self._node, self._native = node, native

    def __getattr__(self, name):
        if name not in CALLS:
            raise AttributeError(name)
        found = Function(name, self._node, getattr(self._native, name))
        setattr(self, name, found)
        return found


def stand_in(real, both):
    """What takes the place of ctypes.CDLL: the library is `both`, and other libraries are as before."""

    class Library(real):
        def __new__(cls, name=None, *more, **words):
            return both if name and "libdimacs" in os.path.basename(str(name)) else super().__new__(cls)

    return Library


def run_script(script, words):
    """Whether the test passes, and its output."""
    sys.argv = [script, *words]
    sys.path.insert(0, os.path.dirname(os.path.abspath(script)))
    output = io.StringIO()
    with contextlib.redirect_stdout(output), contextlib.redirect_stderr(output):
        try:
            runpy.run_path(script, run_name="__main__")
            status = 0
        except Exception:  # it is counted as failed, as one that ends by a status
            traceback.print_exc()
            status = 1
        except SystemExit as ended:
            status = ended.code
    return not status, output.getvalue()


def main():
    module, library, script, *words = sys.argv[1:]
    how = {"stdin": subprocess.PIPE, "stdout": subprocess.PIPE, "text": True, "bufsize": 1}
    with subprocess.Popen(["node", f"{HERE}/calls.mjs", module], **how) as node:
        ctypes.CDLL = stand_in(ctypes.CDLL, Both(node, ctypes.CDLL(library)))
        passes, output = run_script(script, words)
        node.stdin.close()
    if Function.differing or not passes:
        print(output)
    print(f"{Function.same} passed, {Function.differing + (not passes)} failed")
    return 1 if Function.differing or not passes or not Function.same else 0


if __name__ == "__main__":
    sys.exit(main())
