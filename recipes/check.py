#!/usr/bin/env python3
"""Runs the recipes whose packages are there on the examples and on generated instances: recipes/check.py [BINARY]

Fails if a verdict isn't the expected one, or if a recipe doesn't say that a text has a fault, that there are too many
arguments, or that dimacs isn't there. What dimacs refuses, tests/referee.py tests.

BINARY is the built `dimacs`; without it the variable DIMACS, or else crates/dimacs/out/dimacs. The recipes in Python
and C++ need the library too, in the folder BUILD.

Environment:
  PYTHON   the Python that has the packages; python3
  CXX      the C++ compiler; g++
  BUILD    the folder where make built the library; build
  ONLY     run only the recipes whose names match this pattern, as 'lemon|glpsol'

The last lines name what was left out, and count the answers that were accepted, the runs that ended with a message, and
what failed.
"""
import os
import pathlib
import random
import re
import shutil
import subprocess
import sys
import tempfile

HERE = os.path.dirname(os.path.abspath(__file__))
TOP = os.path.dirname(HERE)
sys.path.insert(0, f"{TOP}/bench")
sys.dont_write_bytecode = True

from families import least, most
from families.instance import Instance

PYTHON = os.environ.get("PYTHON", "python3")
CXX = os.environ.get("CXX", "g++")
BUILD = os.path.abspath(os.environ.get("BUILD", f"{TOP}/build"))
LIBRARY = f"{BUILD}/libdimacs.so"

# Each recipe, the run that judges it, and what it needs. lemon_scaling is lemon_min with its other solver.
RECIPES = """
networkx_max.py     judge-max      module networkx
scipy_max.py        judge-max      module scipy
igraph_max.py       judge-max      module igraph
ortools_max.py      judge-max      module ortools
lemon_max.cpp       judge-max      header lemon/preflow.h
boost_max.cpp       judge-max      header boost/graph/push_relabel_max_flow.hpp
glpsol_max.sh       judge-max      program glpsol
networkx_min.py     judge-min      module networkx
scipy_min.py        judge-min      module scipy
ortools_min.py      judge-min      module ortools
lemon_min.cpp       judge-min      header lemon/network_simplex.h
lemon_scaling.cpp   judge-min      header lemon/cost_scaling.h
glpsol_min.sh       judge-min      program glpsol
networkx_paths.py   certify-paths  module networkx
scipy_paths.py      certify-paths  module scipy
igraph_paths.py     certify-paths  module igraph
lemon_paths.cpp     certify-paths  header lemon/dijkstra.h
"""

# The instances of each run, and the verdict, with its lines joined by '; '. Where none stands, all recipes are to come
# to the same one.
INSTANCES = """
judge-max     | pipes.max                      | v max 12
judge-max     | trucks.max                     | v max 23
judge-max     | apart.max                      | v max 0
judge-max     | random.max, layers.max, doubled.max, wide.max
judge-min     | freight.min                    | v min 55
judge-min     | canning.min                    | v min 153675
judge-min     | random.min, shipping.min, doubled.min, wide.min
judge-min     | shortage.min, detroit.min      | v infeasible
judge-min     | short.min, back.min, surplus.min, deficit.min | v infeasible
certify-paths | road.gr road.query, romania.gr romania.query | v sp distances 2
certify-paths | town.gr town.p2p, town.gr town.ss, hamlet.gr hamlet.p2p, hamlet.gr hamlet.ss
"""

# What a recipe doesn't promise, by its own words: numbers beyond 32 bits, or beyond what floating point numbers hold.
BEYOND = [("scipy_max.py", "wide.max"), ("scipy_min.py", "wide.min"), ("glpsol_min.sh", "wide.min")]

# What the recipes write, by the last word of the run; a text with an arc from node 0; and texts without a fault.
WRITTEN = {"max": ["solution", "cut"], "min": ["solution", "pot"], "paths": ["distances"]}
FAULTY = {"max": ["zero.max"], "min": ["zero.min"], "paths": ["zero.gr", "road.query"]}
RIGHT = {"max": ["pipes.max"], "min": ["freight.min"], "paths": ["road.gr", "road.query"]}


# ---- generated instances, the same ones each time


def arcs(name, nodes, count, most_cap, costs, repeated):
    """Random arcs; loops and arcs to and fro come about. If `repeated`, so do several arcs between two nodes."""
    rng, it = random.Random(name), Instance(nodes)
    for _ in range(count):
        low, cap = sorted(rng.choice((0, most_cap, rng.randint(0, most_cap))) for _ in range(2))
        it.add(rng.randint(1, nodes), rng.randint(1, nodes), cap, rng.randint(*costs), rng.choice((0, 0, low)))
    return rng, it if repeated else it.without_parallel()


def network(name, nodes, count, most_cap, repeated=False):
    """Maximum flow from the last node to the first, along random arcs."""
    _, it = arcs(name, nodes, count, most_cap, (0, 0), repeated)
    it.move(nodes, 1, 1)
    return it


def freight(name, nodes, count, most_cap, costs, repeated=False):
    """Least cost along random arcs, with supplies that some flow within the bounds meets."""
    rng, it = arcs(name, nodes, count, most_cap, costs, repeated)
    for tail, head, low, cap, _ in it.arcs:
        it.move(tail, head, rng.randint(low, cap))
    return it


def unmet(name, nodes, count, more, less):
    """No feasible flow: of one within the bounds, node 1 gets so many units more, the last node so many less."""
    it = freight(name, nodes, count, 50, (0, 9))
    it.supplies[1] += more
    it.supplies[nodes] -= less
    return it


def town(name, nodes, count, most_weight):
    """Random arcs with weights from 0 on; some nodes can't be reached."""
    _, it = arcs(name, nodes, count, 0, (0, most_weight), repeated=True)
    return it


def queries(name, nodes):
    """For pairs, and for all distances from some nodes."""
    rng = random.Random(name)
    asked = [(rng.randint(1, nodes), rng.randint(1, nodes)) for _ in range(6)]
    yield f"{name}.p2p", ["p aux sp p2p 6", *(f"q {start} {end}" for start, end in asked)]
    yield f"{name}.ss", ["p aux sp ss 6", *(f"s {start}" for start, _ in asked)]


GENERATED = {
    "random.max": network("random.max", 60, 300, 100),
    "layers.max": most.layers(30, 20, 99),
    "apart.max": network("apart.max", 40, 20, 9),
    "doubled.max": network("doubled.max", 12, 200, 50, repeated=True),
    "wide.max": network("wide.max", 50, 400, 2**45),
    "random.min": freight("random.min", 50, 400, 90, (-30, 99)),
    "shipping.min": least.transport(20, 30, 500),
    "doubled.min": freight("doubled.min", 10, 200, 50, (-9, 40), repeated=True),
    "wide.min": freight("wide.min", 30, 200, 2**40, (0, 2**40)),
    "short.min": unmet("short.min", 20, 80, 10000, 10000),
    "back.min": unmet("back.min", 30, 60, -900, -900),
    "surplus.min": unmet("surplus.min", 20, 80, 7, 0),
    "deficit.min": unmet("deficit.min", 20, 80, 0, 7),
    "town.gr": town("town", 400, 600, 900),
    "hamlet.gr": town("hamlet", 16, 30, 3),
}
LINES = {
    **dict(queries("town", 400)),
    **dict(queries("hamlet", 16)),
    "zero.max": ["p max 2 1", "n 1 s", "n 2 t", "a 0 2 5"],
    "zero.min": ["p min 2 1", "a 0 2 0 5 1"],
    "zero.gr": ["p sp 2 1", "a 0 2 5"],
}


# ---- recipes


def is_there(kind, name):
    """Whether a module, header or program is there."""
    if kind == "program":
        return shutil.which(name)
    header = [CXX, "-std=c++17", "-E", "-include", name, "-x", "c++", "/dev/null"]
    words = [PYTHON, "-c", f"import {name}"] if kind == "module" else header
    return subprocess.run(words, capture_output=True, check=False).returncode == 0


class Check:
    """Runs of the recipes in a folder, and what came of them."""

    def __init__(self, binary, folder):
        self.folder, self.accepted, self.ended, self.failed, self.verdicts = folder, 0, 0, 0, {}
        self.environment = os.environ | {"DIMACS": binary, "DIMACS_LIBRARY": LIBRARY, "PYTHONPATH": f"{TOP}/lib/python"}
        for name, instance in GENERATED.items():
            instance.write(f"{folder}/{name}")
        for name, lines in LINES.items():
            with open(f"{folder}/{name}", "w", encoding="ascii") as text:
                text.writelines(f"{line}\n" for line in lines)

    def fail(self, what):
        print("FAILED", what)
        self.failed += 1

    def build(self, recipe):
        """Builds a recipe, if it is in C++."""
        if not recipe.endswith(".cpp"):
            return True
        with open(f"{HERE}/{recipe.replace('scaling', 'min')}", encoding="utf-8") as file:
            source = file.read()
        if recipe == "lemon_scaling.cpp":
            source = source.replace("NetworkSimplex<", "CostScaling<")
        out = ["-o", f"{self.folder}/{recipe[:-4]}", "-x", "c++", "-", "-x", "none", f"{BUILD}/libdimacs.a"]
        words = [CXX, "-O2", "-std=c++17", f"-I{TOP}/lib/include", f"-I{HERE}", *out]
        return subprocess.run(words, input=source, text=True, check=False).returncode == 0

    def solve(self, recipe, texts, **environment):
        """Runs a recipe on texts, which are examples, generated or written."""
        name, end = recipe.split(".")
        file = f"{HERE}/{recipe}"
        words = {"py": [PYTHON, "-B", file], "sh": ["sh", file], "cpp": [f"{self.folder}/{name}"]}
        examples = f"{TOP}/examples/"
        files = [examples + it if os.path.exists(examples + it) else f"{self.folder}/{it}" for it in texts]
        environment = {**self.environment, **environment}
        return subprocess.run([*words[end], *files], env=environment, capture_output=True, text=True, check=False)

    def ends(self, recipe, texts, status, line, **environment):
        """Tests that a run ends with a status, and prints a line like this first."""
        ran = self.solve(recipe, texts, **environment)
        first = (ran.stdout + ran.stderr).partition("\n")[0]
        if ran.returncode == status and re.fullmatch(line, first):
            self.ended += 1
        else:
            self.fail(f"{recipe} {texts}: wanted status {status}, '{line}', got status {ran.returncode}, '{first}'")

    def messages(self, recipe, run, written):
        """Tests what it says of a fault, of an argument too many, and if dimacs isn't there."""
        kind, nowhere = run.partition("-")[2], f"{self.folder}/bin/dimacs"
        self.ends(recipe, FAULTY[kind] + written, 1, "x instance [0-9]+ 2 NumberRange")
        usage = recipe.split(".")[0].replace("scaling", "min")
        self.ends(recipe, FAULTY[kind] + written + ["more"], 2, f".*{usage}(.py|.sh)? [A-Z ]+")
        self.ends(recipe, RIGHT[kind] + written, 3, f"can't run {nowhere}.*", DIMACS=nowhere)

    def answers(self, recipe, run, written):
        """Tests its verdicts."""
        rows = [[it.strip() for it in row.split("|")] for row in INSTANCES.strip().splitlines()]
        for texts, verdict in [(it, verdict) for of, them, *verdict in rows if of == run for it in them.split(", ")]:
            if (recipe, texts) in BEYOND:
                continue
            ran = self.solve(recipe, texts.split() + written)
            found = "; ".join(ran.stdout.splitlines()) + f" (status {ran.returncode})" * (ran.returncode != 0)
            known = self.verdicts.get((run, texts), found if ran.returncode == 0 else "a verdict")
            wanted = verdict[0] if verdict else known
            claim = pathlib.Path(self.folder, written[0])
            says_none = claim.exists() and claim.read_text(encoding="ascii") == "s infeasible\n"
            if found == wanted and says_none == (found == "v infeasible"):
                self.accepted += 1
                self.verdicts[run, texts] = found
            else:
                self.fail(f"{recipe} on {texts}: wanted '{wanted}', got '{found}' ({says_none=}) {ran.stderr[-200:]}")


def main():
    binary = (sys.argv[1:] or [os.environ.get("DIMACS", f"{TOP}/crates/dimacs/out/dimacs")])[0]
    left_out = []
    with tempfile.TemporaryDirectory() as folder:
        check = Check(os.path.abspath(binary), folder)
        for recipe, run, kind, need in map(str.split, RECIPES.strip().splitlines()):
            if not re.search(os.environ.get("ONLY", ""), recipe):
                continue
            if not is_there(kind, need):
                left_out.append(f"  {recipe}: no {kind} {need}")
            elif not recipe.endswith(".sh") and not os.path.exists(LIBRARY):
                left_out.append(f"  {recipe}: no library")
            elif not check.build(recipe):
                check.fail(f"{recipe}: it isn't built")
            else:
                print(recipe, flush=True)
                written = [f"{recipe}.{end}" for end in WRITTEN[run.partition("-")[2]]]
                check.messages(recipe, run, written)
                check.answers(recipe, run, written)
    if left_out:
        print("left out:", *left_out, sep="\n")
    print(f"{check.accepted} answers accepted, {check.ended} runs ended with a message, {check.failed} failed")
    return int(check.failed > 0 or not check.accepted)


if __name__ == "__main__":
    sys.exit(main())
