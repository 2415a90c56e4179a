#!/usr/bin/env python3
"""Tests that programs built over the library's last release still run with this one: tests/abi.py [BUILD]

The file abi has each call and struct, and since which version. The header has to declare these and no others, and the
shared library in BUILD, build if none is given, to export these calls and no others, by the same soname. The last line
counts what agreed and what didn't.
"""
import re
import subprocess
import sys

import scripts
from scripts import TOP, read


def listed():
    """The soname, and what the file abi has of each call and struct."""
    lines = [it for it in read("abi").splitlines() if it and not it.startswith("#")]
    calls = dict(re.match(r"(dimacs_\w+) \S+ (.*)", it).groups() for it in lines if it.startswith("dimacs_"))
    structs = dict(re.match(r"struct (\w+) \S+ (.*)", it).groups() for it in lines if it.startswith("struct "))
    return next(it.split()[1] for it in lines if it.startswith("soname ")), calls, structs


def type_of(argument):
    """An argument's type: without its name."""
    words = " ".join(argument.split())
    return words if words == "void" else re.sub(r"\s*\w+$", "", words)


def declared():
    text = re.sub(r"/\*.*?\*/", "", read("lib/include/dimacs.h"), flags=re.DOTALL)
    calls = re.findall(r"^uint32_t (dimacs_\w+)\((.*?)\);", text, re.MULTILINE | re.DOTALL)
    structs = re.findall(r"^typedef struct \{(.*?)\} (\w+);", text, re.MULTILINE | re.DOTALL)
    by_types = {name: ", ".join(map(type_of, arguments.split(","))) for name, arguments in calls}
    return by_types, {name: " ".join(fields.split()) for fields, name in structs}


def exported(library):
    words = ["readelf", "--dynamic", "--dyn-syms", "--wide", library]
    shown = subprocess.run(words, capture_output=True, text=True, check=True).stdout
    calls = re.findall(r"GLOBAL +DEFAULT +\d+ (\w+)$", shown, re.MULTILINE)
    return re.search(r"soname: \[(.*)\]", shown)[1], sorted(calls)


def compared(library):
    """Yields what is compared: its name, what was found and what has to be."""
    soname, calls, structs = listed()
    by_header, fields = declared()
    named, symbols = exported(library)
    yield "the soname", named, soname
    yield "the exported calls", symbols, sorted(calls)
    for name in sorted({*calls, *by_header}):
        yield f"{name} in the header", by_header.get(name), calls.get(name)
    for name in sorted({*structs, *fields}):
        yield f"{name} in the header", fields.get(name), structs.get(name)


def main():
    build = sys.argv[1] if len(sys.argv) > 1 else f"{TOP}/build"
    cases = compared(f"{build}/libdimacs.so.0")
    scripts.end_with((f"{name}: {found}, and in the file abi {wanted}", found == wanted) for name, found, wanted in cases)


if __name__ == "__main__":
    main()
