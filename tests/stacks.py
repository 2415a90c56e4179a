#!/usr/bin/env python3
"""Tests how much of its caller's stack a call of the library takes: tests/stacks.py [BUILD]

dimacs.h wants 64 KB of a stack, which leaves some for what the C library takes. objdump lists the code, in which each
function's frame is what it takes off the stack's register; frames of functions that call each other add up. What is
called by an address, or calls itself, isn't followed. BUILD is the folder of the library, build if none is given; one for
another processor than x86-64 is left out.
"""
import functools
import os
import re
import subprocess
import sys

import scripts

# The most that a chain of calls may take, and the least that it takes: less would mean that none was found.
MOST, LEAST = 60 * 1024, 16 * 1024

FUNCTION = re.compile(r"^([0-9a-f]+) <(.*)>:$", re.MULTILINE)
PUSH = re.compile(r"\tpush ")
TAKEN = re.compile(r"\tsub +\$0x([0-9a-f]{1,6}),%rsp")
# Of a large frame each page is touched: a loop takes a page each time, as far as this.
PAGES = re.compile(r"\t(?:lea +-0x([0-9a-f]{1,6})\(%rsp\),%r11|sub +\$0x([0-9a-f]{1,6}),%r11)")
GOES_TO = re.compile(r"\t(call|jmp|j[a-z]+) +([0-9a-f]+) <")


class Function:
    """The name of a function, its frame with the address to which it returns, and the functions to which it goes."""

    def __init__(self, name, code):
        self.name, self.calls = name, set(GOES_TO.findall(code))
        self.frame = 8 + 8 * len(PUSH.findall(code)) + sum(int(it, 16) for it in TAKEN.findall(code))
        self.frame += sum(int(it or other, 16) - 4096 for it, other in PAGES.findall(code))


def functions(library):
    """The functions of a library by their addresses."""
    words = ["objdump", "-d", "--no-show-raw-insn", "-C", library]
    parts = FUNCTION.split(subprocess.run(words, capture_output=True, text=True, check=True).stdout)
    return {int(at, 16): Function(name, code) for at, name, code in zip(parts[1::3], parts[2::3], parts[3::3])}


def deepest(found):
    """How much the deepest chain of calls from a function takes, and its functions, by an address."""
    open_ones = set()

    @functools.cache
    def chain(at):
        open_ones.add(at)
        its = found[at]
        most = (0, [])
        for how, to in its.calls:
            to = int(to, 16)
            if to in found and to not in open_ones:
                size, names = chain(to)
                # Where a function jumps to another, its frame is gone.
                most = max(most, (size - (0 if how == "call" else its.frame), names))
        open_ones.discard(at)
        return its.frame + most[0], [f"{its.name} {its.frame}", *most[1]]

    return chain


def main():
    build = sys.argv[1] if len(sys.argv) > 1 else f"{scripts.TOP}/build"
    sys.setrecursionlimit(100_000)
    found = functions(f"{build}/libdimacs.so")
    chain = deepest(found)
    size, names = max(chain(at) for at, it in found.items() if it.name.startswith("dimacs_") and ":" not in it.name)
    listed = "\n  ".join(names)
    print(f"the deepest chain of calls takes {size} bytes")
    scripts.end_with([(f"it takes more than {MOST}:\n  {listed}", size <= MOST), (f"no chain of {LEAST} was found", size >= LEAST)])


if __name__ == "__main__":
    main()
