#!/usr/bin/env python3
"""Builds the program and the library for C by Rust's cargo, unproved and without the kit: tools/rust_build.py OUT [--debug]

tools/to_rust.py writes the sources as Rust to OUT/crates, and cargo builds them, with no other crate and no network. OUT
gets the program, and the archive dimacs_c.a, of which the Makefile links the library. Where it can't, for want of GNU's
objcopy, OUT gets the static and the dynamic library as cargo makes them. What is there already, of the same sources, is
left as it is. With --debug OUT/debug gets a program that tests itself: each index, sum and address.

It needs Python, Rust, and what links Rust's programs: on Linux a C compiler.
"""
import filecmp
import glob
import os
import re
import shutil
import subprocess
import sys

import sources
from texts import TOP

OLDEST = (1, 88)
WANTED = "get Rust 1.88 or later, by https://rustup.rs or as packages (Debian 12 and 13: cargo-web and rustc-web)"

# What is built, and of what.
PROGRAMS, LIBRARIES = ("dimacs", "dimacs.exe"), (".a", ".so", ".dylib", ".dll", ".lib")
STAND_IN = [os.path.relpath(it, TOP) for it in sorted(glob.glob(f"{TOP}/tools/rust/**/*.*", recursive=True))]
MADE_OF = sources.Parts(["src"], ["crates.txt", "VERSION", "tools/to_rust.py", "tools/rust_build.py", *STAND_IN])


def lacking():
    """Why the Rust that is there can't build this, if so."""
    for tool in (os.environ.get(it.upper(), it) for it in ("cargo", "rustc")):
        if not shutil.which(tool):
            return f"{tool} isn't there: {WANTED}"
        said = subprocess.run([tool, "--version"], capture_output=True, text=True, check=False)
        version = re.match(r"\w+ (\d+)\.(\d+)", said.stdout)
        if said.returncode or not version:
            return f"{tool} --version fails: {WANTED}"
        if tuple(map(int, version.groups())) < OLDEST:
            return f"{said.stdout.strip()} is too old: {WANTED}"
    return None


def run(*words, **how):
    ended = subprocess.run(words, check=False, **how).returncode
    if ended:
        sys.exit(f"rust_build.py: {' '.join(words[:2])} failed, with status {ended}")


def copy(made, name):
    """Copies what was made, but leaves a copy that is so already: make goes by times."""
    os.makedirs(os.path.dirname(name), exist_ok=True)
    if not os.path.exists(name) or not filecmp.cmp(made, name, shallow=False):
        shutil.copy(made, name)


def build(out, *words):
    """Has cargo build these; the folder of what it made."""
    why = lacking()
    if why:
        sys.exit(f"rust_build.py: {why}")
    run(sys.executable, f"{TOP}/tools/to_rust.py", f"{out}/crates")
    cargo = [os.environ.get("CARGO", "cargo"), "build", "--offline", "--target-dir", f"{out}/crates/target"]
    run(*cargo, *words, cwd=f"{out}/crates")
    return f"{out}/crates/target/{'release' if '--release' in words else 'debug'}"


def put_programs(made, out):
    for it in PROGRAMS:
        if os.path.exists(f"{made}/{it}"):
            copy(f"{made}/{it}", f"{out}/{it}")


def put_libraries(made, out):
    for it in glob.glob(f"{made}/*dimacs.*"):
        if it.endswith(LIBRARIES):
            copy(it, f"{out}/{os.path.basename(it)}")


def main():
    out, is_debug = os.path.abspath(sys.argv[1]), sys.argv[2:] == ["--debug"]
    if is_debug:
        put_programs(build(out, "-p", "dimacs_cli"), f"{out}/debug")
        return
    noted, made_of, linked = f"{out}/sources", sources.summed(MADE_OF)[:1], [f"{out}/dimacs", f"{out}/dimacs_c.a"]
    if sources.is_current(noted, made_of, linked):
        return
    made = build(out, "--release", "-p", "dimacs_cli", "-p", "dimacs_c")
    put_programs(made, out)
    if sys.platform == "linux" and shutil.which("objcopy"):
        copy(f"{made}/libdimacs.a", f"{out}/dimacs_c.a")
        sources.note(noted, made_of, linked)
    else:
        put_libraries(made, out)


if __name__ == "__main__":
    main()
