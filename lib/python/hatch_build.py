"""Puts the shared library into the wheel, and names the wheel for the system that the library is for: hatchling asks it.

The library is the one that `make` proved and built, or another that DIMACS_LIBRARY names. If there is none, and cargo is,
`make rust` builds one, unproved. If a library doesn't have the mark of a proved one, the version ends in +unproved; in
+translated if it is compiled from proved code by a translation that isn't proved, as that for Windows.
"""

from __future__ import annotations

import os
import re
import shutil
import subprocess
import sys
from pathlib import Path
from typing import Any

from hatchling.builders.hooks.plugin.interface import BuildHookInterface
from hatchling.metadata.plugin.interface import MetadataHookInterface

HERE = Path(__file__).resolve().parent

#: The repository, or what the archive of sources has of it.
TOP = HERE / "top" if (HERE / "top").is_dir() else HERE.parents[1]

NO_LIBRARY = """{place} isn't there. There are three ways to get it:
    make          proves and builds it, which takes over an hour; then pip install ./lib/python
    make rust     builds it unproved, by Rust 1.88 or later; pip install ./lib/python does so itself where cargo is
    make quick    builds it unproved; then DIMACS_LIBRARY=build/quick/libdimacs.so pip install ./lib/python"""

NO_SYSTEM = "{place} isn't a library for x86-64 Linux, aarch64 Linux or 64-bit Windows"

#: What the compiler leaves in a library that is proved: the logic in which it is.
PROVED = b"rattle logic="

#: What a library for Windows, in which that isn't kept, says of itself if its code is proved.
PROVED_CODE = b" (proved by "

#: The machines of libraries, by the number that an ELF file has, or one for Windows.
ELF_MACHINES = {62: "x86_64", 183: "aarch64"}
PE_MACHINES = {0x8664: "amd64"}


def library_place() -> Path:
    """The shared library. pip builds in this folder, so a name is also one in the folder of the repository."""
    named = Path(os.environ.get("DIMACS_LIBRARY") or "build/libdimacs.so")
    for place in Path.cwd() / named, TOP / named:
        if place.is_file():
            return place.resolve()
    by_rust = TOP / "build/rust/libdimacs.so"
    if "DIMACS_LIBRARY" not in os.environ and is_built(by_rust):
        return by_rust
    raise SystemExit(NO_LIBRARY.format(place=TOP / named))


def is_built(library: Path) -> bool:
    """Whether make builds a library by Rust: it needs the repository, and cargo."""
    if not (TOP / "tools/rust_build.py").is_file() or not shutil.which("cargo"):
        return False
    words = ["make", "-C", str(TOP), str(library.relative_to(TOP))]
    return subprocess.run(words, stdout=sys.stderr, check=False).returncode == 0


def is_for_windows(library: bytes) -> bool:
    return library.startswith(b"MZ")


def machine_of(library: bytes) -> str | None:
    """The machine that a library is for, as wheels of its system name it."""
    if library.startswith(b"\x7fELF"):
        return ELF_MACHINES.get(int.from_bytes(library[18:20], "little"))
    header = int.from_bytes(library[60:64], "little")
    is_one = is_for_windows(library) and library[header : header + 4] == b"PE\0\0"
    return PE_MACHINES.get(int.from_bytes(library[header + 4 : header + 6], "little")) if is_one else None


def tag_of(library: bytes) -> str | None:
    """The systems that can load this library: it calls nothing but the C library, whose version its symbols ask for."""
    machine, glibc = machine_of(library), [int(it) for it in re.findall(rb"\0GLIBC_2\.(\d+)", library)]
    if not machine or not (glibc or is_for_windows(library)):
        return None
    return f"py3-none-{'win' if is_for_windows(library) else f'manylinux_2_{max(glibc)}'}_{machine}"


def version_of(library: bytes) -> str:
    """The version of a package that has this library, as PEP 440 spells it."""
    plain = (TOP / "VERSION").read_text().strip().replace("-dev", ".dev0")
    if is_for_windows(library):
        return plain + ("+translated" if PROVED_CODE in library else "+unproved")
    return plain + ("" if PROVED in library else "+unproved")


class Metadata(MetadataHookInterface):
    def update(self, metadata: dict[str, Any]) -> None:
        metadata["version"] = version_of(library_place().read_bytes())
        metadata["license"] = {"text": (TOP / "LICENCE-STATUS").read_text().splitlines()[0]}


class Library(BuildHookInterface):
    def initialize(self, version: str, build_data: dict[str, Any]) -> None:
        place = library_place()
        library = place.read_bytes()
        tag = tag_of(library)
        if not tag:
            raise SystemExit(NO_SYSTEM.format(place=place))
        name = "dimacs.dll" if is_for_windows(library) else "libdimacs.so"
        build_data |= {"tag": tag, "pure_python": False, "force_include": {str(place): f"dimacs/{name}"}}
