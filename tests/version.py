#!/usr/bin/env python3
"""Tests that the version is the same everywhere as in the file VERSION: tests/version.py [BUILD]

The program and the library have to say too whether they are proved, and by a kit of which logic. BUILD is the folder of the two;
build if none is given. The last line counts what agreed and what didn't.
"""
import ctypes
import os
import re
import shutil
import subprocess
import sys

import scripts
from scripts import TOP, read

# What tools/quick_build.py leaves in what it builds, and what rustc does.
UNPROVED, BY_RUST = b"dimacs: not proved", re.compile(rb"rustc version (\S+)")


def parts(version):
    return version.partition("-")[0].split(".")


def number(version):
    first, second, third = map(int, parts(version))
    return 10000 * first + 100 * second + third


def logic():
    """The logic of the kit here, or the one that the sources name."""
    line = read("crates/dimacs_jobs/src/build.rt")
    if shutil.which("rt"):
        line = subprocess.run(["rt", "version"], capture_output=True, text=True, check=True).stdout
    return re.search(r"logic [0-9a-f]+", line)[0]


def rustc_of(file):
    """The version of the rustc that built a file, if one did."""
    with open(file, "rb") as it:
        return next((it.decode() for it in BY_RUST.findall(it.read())), None)


def is_proved(file):
    with open(file, "rb") as it:
        return UNPROVED not in it.read() and not rustc_of(file)


def full(version, file):
    """What a file that was built has to say of itself."""
    by = f" (by rustc {rustc_of(file)})" if rustc_of(file) else ""
    return f"{version} (proved by Rattle, {logic()})" if is_proved(file) else f"{version}{by} (not proved)"


def of_program(program, wanted):
    """Yields what the program names, by each way to ask it."""
    for words in ["--version"], ["-V"], ["help"], ["--help"], []:
        ran = subprocess.run([program, *words], capture_output=True, text=True, check=False)
        first = (ran.stdout + ran.stderr).removeprefix("dimacs: usage\n").partition("\n")[0]
        yield f"dimacs {' '.join(words)}", first, f"dimacs {full(wanted, program)}"


def of_library(file, wanted):
    """Yields what the library names, by each of its calls."""
    library, needed = ctypes.CDLL(os.path.abspath(file)), ctypes.c_size_t()
    yield "dimacs_version()", library.dimacs_version(), number(wanted)
    yield "dimacs_proved()", library.dimacs_proved(), int(is_proved(file))
    out = ctypes.create_string_buffer(200)
    status = library.dimacs_version_text(out, ctypes.c_size_t(200), ctypes.byref(needed))
    yield "dimacs_version_text()", (status, out.raw[: needed.value].decode()), (0, full(wanted, file))


def of_python(file, wanted):
    """Yields what the package for Python names: a version as PEP 440 spells it."""
    environment = {**os.environ, "DIMACS_LIBRARY": os.path.abspath(file), "PYTHONPATH": f"{TOP}/lib/python"}
    words = [sys.executable, "-B", "-c", "import dimacs; print(dimacs.__version__, dimacs.proved)"]
    ran = subprocess.run(words, capture_output=True, text=True, check=False, env=environment)
    version = wanted.replace("-dev", ".dev0") + ("" if is_proved(file) else "+unproved")
    yield "dimacs.__version__, dimacs.proved", ran.stdout.strip(), f"{version} {is_proved(file)}"


def of_files(wanted):
    header = dict(re.findall(r"^#define DIMACS_VERSION(\w*) ([\w\-.\"]+)$", read("lib/include/dimacs.h"), re.MULTILINE))
    numbers = dict(zip(("_MAJOR", "_MINOR", "_PATCH"), parts(wanted)))
    yield "dimacs.h", header, {"": f'"{wanted}"', **numbers}
    text = read("crates/dimacs_jobs/src/build.rt")
    yield "build.rt", re.findall(r'VERSION: &str = "(\S+) \(', text), [wanted, wanted]
    crate = [re.findall(r'^version = "(.*)"$', read(f"lib/rust/Cargo.{it}"), re.MULTILINE) for it in ("toml", "lock")]
    yield "the crate for Cargo", crate, [[wanted], [wanted]]
    yield "CITATION.cff", re.findall(r'^version: "(.*)"$', read("CITATION.cff"), re.MULTILINE), [wanted]
    yield "CHANGELOG.md", re.findall(r"^## ([^\s,]+)", read("CHANGELOG.md"), re.MULTILINE)[:1], [wanted]


def found(build, wanted):
    """Yields each place, the version that it names, and the one that it has to name."""
    yield from of_program(f"{build}/dimacs", wanted)
    yield from of_library(f"{build}/libdimacs.so", wanted)
    yield from of_python(f"{build}/libdimacs.so", wanted)
    yield from of_files(wanted)


def main():
    build = sys.argv[1] if len(sys.argv) > 1 else f"{TOP}/build"
    cases = found(build, read("VERSION").strip())
    scripts.end_with((f"{place} has {named}, and not {wanted}", named == wanted) for place, named, wanted in cases)


if __name__ == "__main__":
    main()
