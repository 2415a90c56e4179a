#!/usr/bin/env python3
"""Tests the library for C, C++, Python and Rust: tests/library.py [--build FOLDER] [--instances N] [LAYER..]

FOLDER is where `make` built the library and the program: build, or build/quick for those that aren't proved. It runs
what stands in lib/test: in C, under sanitizers if they fit and by valgrind, the calls over texts and arrays with room and
without, in eight threads, and with each growth of memory refused in turn; in C++, by `c++`, or `clang++` and its
sanitizers, dimacs.hpp, and over it what LEMON and Boost answer; the crate for Cargo; and in Python, by each of `python3`
and /usr/bin/python3, also arrays of a million items, texts of 100 MB, and networkx' own tests of what the backend of it
answers. It installs the wheel and calls it, and builds and runs what docs/LIBRARY.md shows. Then N random small instances
in arrays are compared with the texts that are printed from them. LAYERs are some of these.

What needs a tool that isn't there is left out, and named; what Debian doesn't have apart. The last line counts what passed
and what failed; tests/scripts.py has how many have to pass.
"""
import argparse
import collections
import functools
import os
import re
import shutil
import subprocess
import tempfile

import scripts
from pages import commands
from scripts import TOP

LIB = os.path.join(TOP, "lib")
TEST = os.path.join(LIB, "test")
CC, CXX = os.environ.get("CC", "cc"), os.environ.get("CXX", "c++")
WARN = ["-O1", "-g", "-Wall", "-Wextra", "-Werror", f"-I{LIB}/include"]
SANITIZERS = ["-fsanitize=address,undefined", "-fno-sanitize-recover=undefined"]
WRAPPED = ["-Wl,--wrap=malloc", "-Wl,--wrap=realloc", "-Wl,--wrap=free"]

# Each test in C: its file, what watches over it, and how it is linked. Sanitizers see the test's own reads and writes, and
# valgrind those of the library too. Threads with small stacks run without them.
C_TESTS = [
    ("texts", "both", []),
    ("arrays", "both", []),
    ("reading", "both", []),
    ("refused", "sanitizers", WRAPPED),
    ("threads", "nothing", ["-pthread"]),
]

# Each test in C++: its file, the standard of the language, and a library's header that it needs. Compilers take gnu++17
# if none is named; in c++17 their integers of 128 bits aren't integers. What LEMON and Boost have in templates takes long
# to compile with -O1, and gets warnings then. What sanitizers report has lines by -g1, and -g takes longer.
CPP_WARN = ["-O0", "-Wall", "-Wextra", "-Wpedantic", "-Werror", f"-I{LIB}/include"]
CPP_TESTS = [
    ("hpp", "c++17", None),
    ("hpp", "gnu++17", None),
    ("hpp", "c++20", None),
    ("lemon", "c++17", ("LEMON", "lemon/core.h")),
    ("lemon", "gnu++17", ("LEMON", "lemon/core.h")),
    ("boost", "c++17", ("Boost", "boost/graph/adjacency_list.hpp")),
    ("boost", "gnu++17", ("Boost", "boost/graph/adjacency_list.hpp")),
]


# Prints where networkx 3.3 or later is, and what describes it.
WHERE_NETWORKX_IS = """import importlib.metadata, networkx
networkx._dispatchable
print(networkx.__path__[0], importlib.metadata.distribution("networkx")._path, sep="\\n")"""

# How the needs end that Debian doesn't have.
NOT_OF_DEBIAN = ("networkx 3.3", "these tests need 3.3")


def by_count(name, ran):
    """What passed and what failed by the last line of a program: `N passed, M failed`."""
    counted = scripts.COUNTED.search(ran.stdout)
    return tuple(map(int, counted.groups())) if counted else (0, 0)


def by_unittest(name, ran):
    """The same by the output of unittest; what it skipped is neither."""
    tests = re.findall(r"^Ran (\d+) tests? in ", ran.stderr, re.M)
    result = " ".join(re.findall(r"^(?:OK|FAILED) .*", ran.stderr, re.M)[-1:])
    failed = sum(map(int, re.findall(r"(?<!expected )(?:failures|errors|unexpected successes)=(\d+)", result)))
    skipped = sum(map(int, re.findall(r"skipped=(\d+)", result)))
    passed = int(tests[-1]) - failed - skipped if tests else 0
    return max(0, passed), failed + abs(skipped - len(skipped_in(ran)))


def skipped_in(ran):
    """Why unittest skipped tests, by their names."""
    return dict(re.findall(r"^(.*) \.\.\. skipped [\"'](.*)[\"']$", ran.stderr, re.M))


def by_cargo(name, ran):
    """The same by the lines of cargo test."""
    counted = re.findall(r"^test result: \w+\. (\d+) passed; (\d+) failed", ran.stdout, re.M)
    return sum(int(it[0]) for it in counted), sum(int(it[1]) for it in counted)


def by_status(name, ran):
    """The same by the status alone."""
    return int(ran.returncode == 0), int(ran.returncode != 0)


class Counts:
    """What passed, what failed, and what was left out, of a layer."""

    def __init__(self):
        self.passed = self.failed = 0
        self.left_out = []

    def add(self, name, ran, read):
        """Counts a run by its output, as `read` reads it. One without a count there has failed."""
        passed, failed = read(name, ran)
        if not failed and (ran.returncode or not passed):
            failed = 1
        self.passed += passed
        self.failed += failed
        if failed:
            output = (ran.stdout + ran.stderr).strip()
            print(f"== {name}: status {ran.returncode}\n{output[-3000:]}", flush=True)

    def leave_out(self, name, need):
        self.left_out.append(f"{name}: no {need}")

    def end(self, layer):
        for it in self.left_out:
            print(f"{'Debian has none' if it.endswith(NOT_OF_DEBIAN) else 'left out'}: {it}")
        print(f"{layer}: {self.passed} passed, {self.failed} failed", flush=True)


def run(*words, **how):
    return subprocess.run(words, capture_output=True, text=True, errors="replace", check=False, **how)


def watchers(counts, place):
    """What watches over tests: flags of the compiler, and words before the program."""
    found = {"nothing": [([], [])], "sanitizers": [(SANITIZERS, [])], "both": [(SANITIZERS, [])]}
    words = ["-x", "c", "-", "-o", os.path.join(place, "watched")]
    if run(CC, *SANITIZERS, *words, input="int main(void) { return 0; }").returncode:
        counts.leave_out("the reads and writes of the tests in C", "sanitizers")
        found = {watched: [([], [])] for watched in found}
    if shutil.which("valgrind"):
        found["both"].append(([], ["valgrind", "-q", "--error-exitcode=9"]))
    else:
        counts.leave_out("the reads and writes of the library", "valgrind")
    return found


def test_c(counts, build, place):
    found = watchers(counts, place)
    for name, watched, more in C_TESTS:
        made = os.path.join(place, name)
        for flags, by in found[watched]:
            built = run(CC, *WARN, *flags, "-o", made, f"{TEST}/{name}.c", f"{build}/libdimacs.a", *more)
            ran = run(*by, made) if built.returncode == 0 else built
            counts.add(" ".join([*by[:1], f"{name}.c"]), ran, by_count)


def cpp_compilers():
    """Each compiler for C++ that is there, once."""
    found = [shutil.which(it) for it in (CXX, "clang++")]
    return list({os.path.realpath(it): it for it in found if it}.values())


def compiles(compiler, flags, text, place):
    """Whether a compiler takes this text with these flags."""
    words = [*flags, "-x", "c++", "-", "-o", os.path.join(place, "compiled")]
    return run(compiler, *words, input=text).returncode == 0


def test_cpp(counts, build, place):
    """The tests in C++: those in gnu++17 by the last compiler, under its sanitizers, and the others by the first."""
    if not cpp_compilers():
        counts.leave_out("the tests in C++", CXX)
    with_sanitizers = [it for it in cpp_compilers() if compiles(it, SANITIZERS, "int main() {}", place)][-1:]
    if not with_sanitizers:
        counts.leave_out("the reads and writes of the tests in C++", "sanitizers")
    for name, standard, needs in CPP_TESTS if cpp_compilers() else []:
        compiler = cpp_compilers()[-1 if standard == "gnu++17" else 0]
        flags = [*CPP_WARN, *(["-g1", *SANITIZERS] if standard == "gnu++17" and compiler in with_sanitizers else [])]
        test_cpp_file(counts, [compiler, *flags, f"-std={standard}"], name, needs, build, place)


def test_cpp_file(counts, words, name, needs, build, place):
    """One of them, if the library is there that it needs."""
    if needs and not compiles(words[0], ["-E"], f"#if !__has_include(<{needs[1]}>)\n#error\n#endif\n", place):
        counts.leave_out(f"{name}.cpp by {words[0]}", needs[0])
        return
    made = os.path.join(place, f"{name}_cpp")
    built = run(*words, "-o", made, f"{TEST}/{name}.cpp", f"{build}/libdimacs.a")
    counts.add(f"{name}.cpp by {words[0]}, {words[-1]}", run(made) if built.returncode == 0 else built, by_count)


def cargo_environment(build, place):
    """How cargo finds the library, and a folder that it writes to."""
    return {"DIMACS_LIB_DIR": build, "CARGO_TARGET_DIR": os.path.join(place, "cargo")}


def test_cargo(counts, build, place):
    """The crate for Cargo, without the network: its tests, those in its documentation too, its form, and clippy."""
    if not shutil.which("cargo"):
        counts.leave_out("the crate for Cargo", "cargo")
        return
    environment = {**os.environ, **cargo_environment(build, place)}
    manifest = ["--manifest-path", f"{LIB}/rust/Cargo.toml"]
    ran = run("cargo", "test", "--offline", "--locked", *manifest, env=environment)
    counts.add("cargo test", ran, by_cargo)
    for tool, words in (("fmt", ["--check"]), ("clippy", ["--offline", "--all-targets", "--", "-D", "warnings"])):
        if run("cargo", tool, "--version").returncode:
            counts.leave_out(f"cargo {tool}", f"cargo {tool}")
        else:
            counts.add(f"cargo {tool}", run("cargo", tool, *manifest, *words, env=environment), by_status)


def pythons():
    found = [shutil.which(it) for it in (os.environ.get("PYTHON", "python3"), "/usr/bin/python3")]
    return list(dict.fromkeys(it for it in found if it))


def package(build):
    """How Python finds the package where it stands, its library, and the instances of the scripts here."""
    found = {"PYTHONPATH": f"{LIB}/python:{TOP}/tests", "DIMACS_LIBRARY": f"{build}/libdimacs.so"}
    return {**os.environ, **found, "PYTHONDONTWRITEBYTECODE": "1"}


def installed(counts, build, place):
    """The folder to which pip installs the package without the network. With it on the path networkx finds the backend."""
    target = os.path.join(place, "installed")
    python = next((it for it in pythons() if run(it, "-c", "import hatchling, pip").returncode == 0), None)
    if not python:
        counts.leave_out("the wheel", "Python with pip and hatchling")
        return target
    words = ["--no-build-isolation", "--no-index", "--no-deps", "--quiet", "--disable-pip-version-check", "--target", target]
    counts.add("the wheel", run(python, "-m", "pip", "install", *words, f"{LIB}/python", env=package(build)), by_status)
    return target


def test_python(counts, build, place):
    """The tests in Python. One is left out if no Python has what it needs."""
    environment, skipped = package(build), []
    environment["PYTHONPATH"] += f":{installed(counts, build, place)}"
    for python in pythons():
        ran = run(python, "-m", "unittest", "discover", "-v", "-s", TEST, cwd=TEST, env=environment)
        counts.add(f"unittest by {python}", ran, by_unittest)
        skipped.append(skipped_in(ran))
    by_none = [skipped[-1][it] for it in skipped[-1] if all(it in of_another for of_another in skipped)]
    counts.left_out += [f"{count} tests in Python: {why}" for why, count in collections.Counter(by_none).items()]
    test_networkx(counts, environment, place)


def linked_networkx(place):
    """A folder with links to the first networkx, 3.3 or later, that a Python has, and to what describes it."""
    folder = os.path.join(place, "linked")
    os.mkdir(folder)
    found = (run(python, "-c", WHERE_NETWORKX_IS) for python in pythons())
    for it in next((ran.stdout.splitlines() for ran in found if ran.returncode == 0), []):
        os.symlink(it, os.path.join(folder, os.path.basename(it)))
    return folder


def test_networkx(counts, environment, place):
    """networkx' own tests, with the backend in place, by each Python that has what they need; if none has, by each that has it
    with the networkx of another."""
    linked = {**environment, "PYTHONPATH": f"{linked_networkx(place)}:{environment['PYTHONPATH']}"}
    for how in environment, linked:
        lacking = []
        for python in pythons():
            ran = run(python, f"{TEST}/networkx_tests.py", cwd=place, env=how)
            lacks = re.fullmatch(r"left out: no (.*)\n", ran.stdout)
            if lacks:
                lacking.append(lacks[1])
            else:
                counts.add(f"networkx' own tests by {python}", ran, by_count)
        if len(lacking) < len(pythons()):
            return
    counts.leave_out("networkx' own tests", lacking[-1])


def test_agreement(counts, build, place, instances):
    words = [pythons()[0], f"{TEST}/agree.py", "--instances", str(instances)]
    counts.add("agree.py", run(*words, env=package(build)), by_count)


def test_wheel(counts, build, place):
    """Installs the package, and calls the library that is inside of it."""
    target = installed(counts, build, place)
    if counts.left_out:
        return
    call = "import dimacs; print(dimacs.show('cut', 'p cut 4 1\\nu 1\\n'), dimacs.__file__)"
    call += "\nimport importlib.metadata, importlib.util; assert importlib.util.find_spec('dimacs.backend')"
    call += "\nprint(*sorted(it.value for it in importlib.metadata.distribution('dimacs').entry_points))"
    environment = {name: it for name, it in os.environ.items() if name != "DIMACS_LIBRARY"} | {"PYTHONPATH": target}
    ran = run(pythons()[0], "-c", call, cwd=place, env=environment)
    wanted = f"i cut 4 1\n {target}/dimacs/__init__.py\ndimacs.__main__:main dimacs.backend dimacs.backend.info:get_info\n"
    ran.returncode = ran.returncode or int(ran.stdout != wanted)
    counts.add("the library of the wheel", ran, by_status)


def lacking_for(program, lacks):
    """The tool that isn't there and that a program is, or would have been made by."""
    if program.startswith("./"):
        return lacks.get(program)
    return None if shutil.which(program) else program


def test_page(counts, build, place):
    """The commands of docs/LIBRARY.md, in a folder that has lib and examples, and as build the one that is tested."""
    for name, at in (("lib", LIB), ("examples", f"{TOP}/examples"), ("build", build)):
        os.symlink(at, os.path.join(place, name))
    shown, environment = list(commands(f"{TOP}/docs/LIBRARY.md")), package(build) | cargo_environment(build, place)
    if not shown:
        counts.add("docs/LIBRARY.md", subprocess.CompletedProcess([], 1, "it shows no command", ""), by_status)
    lacks = {}  # by the programs that commands make
    for command, lines in shown:
        made = [f"./{it}" for it in re.findall(r" -o (\S+)", command)]
        for it in made:  # what a command before it made isn't taken for it
            if os.path.exists(os.path.join(place, it)):
                os.remove(os.path.join(place, it))
        program = next(word for word in command.split() if "=" not in word)
        lacking = lacking_for(program, lacks)
        lacks.update(dict.fromkeys(made, lacking))
        if lacking:
            counts.leave_out(f"$ {command}", lacking)
            continue
        ran, module = run_shown(command, place, environment)
        if module:
            counts.leave_out(f"$ {command}", module)
            continue
        is_as_shown = ran.stdout == lines and ran.returncode == wanted_status(lines)
        output = f"{ran.stdout}{ran.stderr}"
        counts.add(f"$ {command}", subprocess.CompletedProcess([], 1 - is_as_shown, output, ""), by_status)


def run_shown(command, place, environment):
    """Runs a command by the first Python that has its modules, and answers the module that the last one lacks."""
    for python in pythons():
        path = f"{os.path.dirname(python)}:{environment['PATH']}"
        ran = run("sh", "-c", command, cwd=place, env={**environment, "PATH": path})
        module = re.search(r"No module named '(\w+)'", ran.stderr)
        if not module:
            return ran, None
    return ran, module[1]


def wanted_status(lines):
    """The status of a command that shows these lines. The programs over arrays go on after a refusal."""
    return int(lines.startswith("x ") and "\nv " not in lines)


# What tests each layer, but for that of the arrays.
LAYERS = {
    "C": test_c,
    "C++": test_cpp,
    "Rust": test_cargo,
    "Python": test_python,
    "wheel": test_wheel,
    "page": test_page,
}


def main():
    words = argparse.ArgumentParser(description="Tests the library for C, C++, Python and Rust.")
    words.add_argument("--build", default=f"{TOP}/build", help="the folder of the library and the program")
    words.add_argument("--instances", type=int, default=8_000, help="how many are compared in arrays and as texts")
    words.add_argument("layers", nargs="*", metavar="LAYER", help=f"{', '.join(LAYERS)} or arrays; all, if none is named")
    asked = words.parse_args()
    layers = {**LAYERS, "arrays": functools.partial(test_agreement, instances=asked.instances)}
    if not set(asked.layers) <= set(layers):
        words.error(f"a LAYER is one of {', '.join(layers)}")
    passed = failed = 0
    for layer in asked.layers or layers:
        with tempfile.TemporaryDirectory() as place:
            counts = Counts()
            layers[layer](counts, os.path.abspath(asked.build), place)
        counts.end(layer)
        passed, failed = passed + counts.passed, failed + counts.failed
    scripts.finish(passed, failed)


if __name__ == "__main__":
    main()
