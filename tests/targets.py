#!/usr/bin/env python3
"""Tests what is built for other systems: tests/targets.py [--build FOLDER] [--all] [PART..]

FOLDER is where `make` built the library and the program for this one: build, or build/quick for those that aren't proved.
What a part tests is built by make first. The parts:
  module    the module that is kept is the one of which clang made the archive
  wasm      in node the library's tests, with each call compared with the library for this system, and 2,000 random
            instances; its heap, up to the end of 32-bit addresses; the layer for JavaScript; and the package
  command   the command in node: its statuses, output, files and complaints are those of the program
  page      the page in Chromium: answers, what explains them, downloads, refused requests; and what hands do with it, in
            Firefox too if it is there
  aarch64   under qemu the library's tests in C
With --all there are more instances and all runs over the examples, npm installs the package, the program for aarch64 is
compared as the command is, and there are two parts more:
  windows   under wine the library's tests in C; and the wheel, of what is proved
  firefox   the page in Firefox

What needs a tool that isn't there is left out, and named. The last line counts what passed and what failed.
"""
import argparse
import glob
import itertools
import os
import re
import shutil
import subprocess
import sys
import tempfile

import scripts
import usage
from instances import Folder
from library import CC, TEST, WARN, WRAPPED, package, run
from rows import odd_words, rows
from scripts import TOP

JS = f"{TOP}/tests/js"
PROVED = b"rattle logic="
QEMU = ["qemu-aarch64", "-L", "/usr/aarch64-linux-gnu"]


class Tests(scripts.Counts):
    """What is tested, and what passed and failed of it."""

    def __init__(self, build, is_all, room):
        super().__init__()
        self.build, self.is_all, self.room = build, is_all, room

    def counted(self, name, ran):
        """Adds a run that ends with a line of counts. One without it has failed."""
        added = scripts.counted(name, 1, ran.returncode, ran.stdout)
        self.passed += added.passed
        self.failed += added.failed
        print(*added.said, ran.stderr[-3000:] if added.failed else "", sep="\n", end="")

    def ended(self, name, ran, holds=True):
        self.expect(name, ran.returncode == 0 and holds, (ran.stdout + ran.stderr).strip()[-3000:])

    def made(self, *names):
        """Whether make built these files of the folder."""
        files = [f"{os.path.relpath(self.build, TOP)}/{it}" for it in names]
        unproved = ["UNPROVED=1"] if os.path.basename(self.build) == "quick" else []
        ran = run("make", "--no-print-directory", *unproved, *files, cwd=TOP)
        if ran.returncode:
            self.ended(f"make {' '.join(files)}", ran)
        return ran.returncode == 0


# ---- the module


def is_proved(tests):
    with open(f"{tests.build}/dimacs_c.a", "rb") as it:
        return PROVED in it.read()


def test_module(tests):
    if not is_proved(tests) and not os.path.exists(f"{tests.build}/dimacs_c.words"):
        return  # the words of clang are kept for what is proved alone
    kit = run(f"{TOP}/tools/kit.py").stdout.strip()
    shutil.copy(f"{tests.build}/dimacs_c.bc", f"{tests.room}/module.bc")
    with open(f"{tests.build}/dimacs_c.words", encoding="utf-8") as it:
        words = it.read().split("\n")[:-1]
    compiled = run(f"{kit}/toolchain/bin/clang", *words, cwd=tests.room)
    with open(f"{tests.room}/archived.o", "wb") as it:
        subprocess.run(["ar", "p", f"{tests.build}/dimacs_c.a"], stdout=it, check=False)
    made = next(it for word, it in itertools.pairwise(words) if word == "-o")
    tests.ended("the module that is kept", compiled)
    tests.ended("the archive is made of it", run("cmp", f"{tests.room}/{made}", f"{tests.room}/archived.o"))


# ---- WebAssembly


def test_wasm(tests):
    if not tests.made("wasm/dimacs.wasm", "npm/dimacs.tgz", "libdimacs.so", "dimacs"):
        return
    module, library = f"{tests.build}/wasm/dimacs.wasm", f"{tests.build}/libdimacs.so"
    instances = ["--instances", "50000" if tests.is_all else "2000"]
    for name, *words in (("agree", *instances), ("test_texts",), ("test_arrays",), ("test_reading",)):
        words = [sys.executable, f"{JS}/through.py", module, library, f"{TEST}/{name}.py", *words]
        tests.counted(f"{name}.py through node", run(*words, env=package(tests.build)))
    tests.counted("heap.mjs", run("node", f"{JS}/heap.mjs", module))
    test_in_c(tests, "this system", CC, [], [("int128", [])], [])
    environment = {**os.environ, "DIMACS_WASM": module}
    tests.counted("test_js.mjs", run("node", f"{TEST}/test_js.mjs", env=environment))
    test_package(tests)


def test_package(tests):
    """Unpacks the package as npm does, and with --all lets npm do it, without the network; then calls it."""
    place, package = f"{tests.room}/unpacked", f"{tests.build}/npm/dimacs.tgz"
    os.makedirs(f"{place}/node_modules")
    unpacked = run("tar", "-xzf", package, "--transform", "s/^package/dimacs/", "-C", f"{place}/node_modules")
    tests.ended("unpacking the package", unpacked)
    use_package(tests, place, ["node", "node_modules/dimacs/cli.js"])
    if tests.is_all and not shutil.which("npm"):
        print("left out: npm install: no npm")
    elif tests.is_all:
        place = f"{tests.room}/installed"
        os.mkdir(place)
        words = ["--offline", "--no-audit", "--no-fund", "--prefix", place]
        tests.ended("npm install", run("npm", "install", *words, package, cwd=place))
        use_package(tests, place, ["npx", "--offline", "dimacs"])


def use_package(tests, place, command):
    """Runs the command of a package that is installed in a folder, and imports it."""
    ran = run(*command, "show", "gr", f"{TOP}/examples/road.gr", cwd=place)
    tests.ended("the command of the package", ran, ran.stdout == "i sp 6 13\n")
    call = "import {show} from 'dimacs'; process.stdout.write(show('cut', 'p cut 4 1\\nu 1\\n'))"
    ran = run("node", "--input-type=module", "-e", call, cwd=place)
    tests.ended("import of the package", ran, ran.stdout == "i cut 4 1\n")


# ---- the command


def examples():
    found = {}
    for path in sorted(glob.glob(f"{TOP}/examples/*.*")):
        found.setdefault(path.rpartition(".")[2], []).append(f"examples/{os.path.basename(path)}")
    return found


def runs_over_examples():
    """Each command over all examples that fit it, and over some that don't."""
    by, found = examples(), []
    for kind in ("max", "min", "gr", "query", "solution", "cut", "pot", "dist", "distances"):
        found += [[verb, kind, it] for it in by[kind] for verb in ("convert", "show")]
        found.append(["show", kind, by["md"][0]])
    files = {"judge-max": "max solution cut", "judge-min": "min solution pot", "judge-infeasible": "min cut"}
    files |= {"judge-paths": "gr query dist", "certify-max": "max solution OUT", "certify-min": "min solution OUT"}
    files |= {"certify-infeasible": "min OUT", "certify-paths": "gr distances OUT", "spread-max": "max solution OUT"}
    files |= {"spread-min": "min solution OUT", "solve-max": "max OUT OUT2", "solve-min": "min OUT OUT2"}
    files |= {"solve-paths": "gr query OUT"}
    for verb, kinds in files.items():
        found += [[verb, *it] for it in itertools.product(*(by.get(kind, [kind]) for kind in kinds.split()))]
    return found


# What is run with an output that is full.
FULL = ["help", "--version", "help help", "help show", "frobnicate", "show gr examples/road.gr", "show gr missing"]


def outcome(words, room, **outputs):
    """The status, output, complaint and files of a command."""
    place = tempfile.mkdtemp(dir=room)
    os.symlink(f"{TOP}/examples", f"{place}/examples")
    os.mkdir(f"{place}/denied")
    for name, text in rows("files"):
        Folder(place).write(name, text)
    usage.lay(place)
    outputs = {"stdout": subprocess.PIPE, "stderr": subprocess.PIPE} | outputs
    ran = subprocess.run(words, cwd=place, check=False, **outputs)
    files = {}
    for name in set(os.listdir(place)) - {"examples", "denied"}:
        with open(f"{place}/{name}", "rb") as it:
            files[name] = it.read()
    return ran.returncode, ran.stdout or b"", ran.stderr or b"", files


def compare_commands(tests, name, words, likened=lambda text: text):
    """Runs another command as the program for this system: over the examples, for odd words, and with a full output."""
    over_examples = runs_over_examples()
    every = 1 if tests.is_all else max(1, len(over_examples) // 40)
    given = [words.split() for words, _ in usage.SLIPS]
    for row, *_ in rows("commands"):
        given.append(row.split() if row.startswith(("convert", "show")) else ["explain", *row.split()])

    def compare(arguments, **outputs):
        ran = [outcome([*it, *arguments], tests.room, **outputs) for it in ([f"{tests.build}/dimacs"], words)]
        wanted, found = ((status, likened(out), told, files) for status, out, told, files in ran)
        tests.expect(f"{name} {arguments}", found == wanted, f"{found}\nand not {wanted}")

    for it in [*over_examples[::every], *given, *odd_words()]:
        compare(it)
    with open("/dev/full", "wb") as full:
        for it, output in itertools.product(FULL, ("stdout", "stderr")):
            compare(it.split(), **{output: full})


def untranslated(text):
    """The version in node says more."""
    return re.sub(rb"^compiled to WebAssembly, .*\n", b"", text, flags=re.MULTILINE)


def test_command(tests):
    if not tests.made("npm/dimacs.tgz", "dimacs"):
        return
    command = ["node", f"{tests.build}/npm/package/cli.js"]
    compare_commands(tests, "npx dimacs", command, untranslated)
    for module in ("/dev/null", f"{tests.room}/missing"):
        environment = {**os.environ, "DIMACS_WASM": module}
        ran = run(*command, "show", "gr", f"{TOP}/examples/road.gr", env=environment)
        is_fine = ran.returncode == 4 and re.fullmatch(r"dimacs: .+\n", ran.stderr) and not ran.stdout
        tests.expect(f"npx dimacs over {module}", is_fine, ran.stderr)


# ---- the page


def test_page(tests):
    if tests.made("page/dimacs.html", "dimacs"):
        words = ["node", f"{JS}/page.mjs", f"{tests.build}/page/dimacs.html", "chromium", "chromium"]
        tests.counted("the page in Chromium", run(*words))
        test_hands(tests, words[2], "chromium", "chromium", [], 144)
        if shutil.which("firefox-esr") and socket_flags() is not None:
            test_hands(tests, words[2], "firefox", "firefox-esr", socket_flags(), 48)
        else:
            print("the page isn't tried in Firefox: no firefox-esr, or no node with WebSocket")
        is_small = os.path.getsize(words[2]) <= 450_000
        tests.expect("the page of what is proved has at most 450 KB", is_small or not is_proved(tests))
        test_reasons(tests)


def test_hands(tests, page, kind, browser, flags, count):
    """What hands do: so many acts, in about a minute, and with --all ten times as many."""
    count = count * 10 if tests.is_all else count
    words = ["node", *flags, f"{JS}/hands.mjs", page, kind, browser, f"{tests.build}/dimacs", str(count)]
    tests.counted(f"hands in {browser}", run(*words))


def test_reasons(tests):
    """The page knows what each reason of the page on judging says of a claim."""
    kinds = scripts.read("lib/page/kinds.js")
    found = set(" ".join(re.findall(r'^    \w+: "([A-Z][\w ]+)"', kinds, re.MULTILINE)).split())
    table = re.search(r"## What a refusal means\n\n.*\n.*\n((?:\|.*\n)+)\n", scripts.read("docs/JUDGING.md"))[1]
    wanted = set(re.findall(r"[A-Z]\w+", "".join(row.split("|")[1] for row in table.split("\n") if row)))
    tests.expect("the reasons", wanted == found, f"{wanted ^ found}")


def test_firefox(tests):
    flags = socket_flags()
    if flags is None:
        print("left out: firefox: no node with WebSocket")
    elif tests.made("page/dimacs.html"):
        words = ["node", *flags, f"{JS}/page.mjs", f"{tests.build}/page/dimacs.html", "firefox", "firefox-esr"]
        tests.counted("the page in Firefox", run(*words))


def socket_flags():
    """The flags by which node has WebSocket, or None."""
    test = ["-e", "process.exit(globalThis.WebSocket ? 0 : 1)"]
    return next((it for it in ([], ["--experimental-websocket"]) if run("node", *it, *test).returncode == 0), None)


# ---- aarch64 Linux, and Windows


def test_in_c(tests, system, compiler, flags, libraries, by):
    """The library's tests in C, each linked with the library that is named."""
    for name, library in libraries:
        made = f"{tests.room}/{system}-{name}.exe"
        built = run(compiler, *WARN, *flags, "-o", made, f"{TEST}/{name}.c", *library)
        tests.counted(f"{name}.c on {system}", run(*by, made, cwd=tests.room) if built.returncode == 0 else built)


def test_aarch64(tests):
    if not tests.made(*(f"aarch64/{it}" for it in ("libdimacs.a", "libdimacs.so", *["dimacs"] * tests.is_all))):
        return
    folder = f"{tests.build}/aarch64"
    static, shared = [f"{folder}/libdimacs.a"], [f"-L{folder}", f"-Wl,-rpath,{folder}", "-ldimacs"]
    libraries = [("texts", static), ("arrays", shared), ("refused", [*static, *WRAPPED])]
    test_in_c(tests, "aarch64", "aarch64-linux-gnu-gcc", [], libraries, QEMU)
    if tests.is_all:
        compare_commands(tests, "dimacs on aarch64", [*QEMU, f"{folder}/dimacs"])
        test_scripts(tests, f"{folder}/dimacs")


def test_scripts(tests, program):
    """The shown runs, by the program for aarch64. Each run of it begins qemu, which takes 50 ms."""
    by_qemu = f"{tests.room}/dimacs-by-qemu"
    with open(by_qemu, "w", encoding="utf-8") as it:
        it.write(f'#!/bin/sh\nexec {" ".join(QEMU)} {program} "$@"\n')
    os.chmod(by_qemu, 0o755)
    tests.counted("shown_runs.py on aarch64", run(f"{TOP}/tests/shown_runs.py", by_qemu, cwd=TOP))


def test_windows(tests):
    if not tests.made("windows/dimacs.dll"):
        return
    folder = f"{tests.build}/windows"
    shutil.copy(f"{folder}/dimacs.dll", tests.room)
    os.environ |= {"WINEPREFIX": f"{tests.room}/wine", "WINEDEBUG": "-all"}
    linked, objects = [f"{folder}/libdimacs.dll.a"], [f"{folder}/calls.o", f"{folder}/heap.o"]
    libraries = [("texts", linked), ("arrays", linked), ("refused", [*objects, *WRAPPED])]
    test_in_c(tests, "windows", "x86_64-w64-mingw32-gcc", [f"-I{TEST}/windows"], libraries, [WINE])
    if is_proved(tests):  # others aren't packed
        packed = f"{tests.room}/dist"
        tests.ended("the wheel for Windows", run(f"{TOP}/tools/dist.py", "--for", "windows", packed))
        tests.counted("packages.py for Windows", run(f"{TOP}/tests/packages.py", packed))


# ---- all of them

WINE = shutil.which("wine64") or "/usr/lib/wine/wine64"

# Each part: what tests it, and the tools that it needs.
PARTS = {
    "module": (test_module, ["rt", "ar", "cmp"]),
    "wasm": (test_wasm, ["node", "cc", "wasm2wat"]),
    "command": (test_command, ["node", "wasm2wat"]),
    "page": (test_page, ["node", "chromium", "wasm2wat"]),
    "aarch64": (test_aarch64, ["aarch64-linux-gnu-gcc", "qemu-aarch64"]),
}
MORE_PARTS = {
    "windows": (test_windows, ["x86_64-w64-mingw32-gcc", WINE]),
    "firefox": (test_firefox, ["node", "firefox-esr", "wasm2wat"]),
}


def main():
    words = argparse.ArgumentParser(description="Tests what is built for other systems.")
    words.add_argument("--build", default=f"{TOP}/build", help="the folder of what is built for this system")
    words.add_argument("--all", action="store_true", help="with larger sets, Windows and Firefox")
    words.add_argument("parts", nargs="*", choices=[[], *PARTS, *MORE_PARTS])
    asked = words.parse_args()
    parts = PARTS | MORE_PARTS
    chosen = asked.parts or (parts if asked.all else PARTS)
    passed = failed = 0
    for name in chosen:
        test, tools = parts[name]
        lacking = [it for it in tools if not shutil.which(it)]
        if lacking:
            print(f"left out: {name}: no {', '.join(lacking)}")
            continue
        with tempfile.TemporaryDirectory() as room:
            tests = Tests(os.path.abspath(asked.build), asked.all, room)
            test(tests)
        print(f"{name}: {tests.passed} passed, {tests.failed} failed", flush=True)
        passed, failed = passed + tests.passed, failed + tests.failed
    scripts.finish(passed, failed)


if __name__ == "__main__":
    main()
