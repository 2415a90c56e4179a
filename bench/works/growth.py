"""what dimacs takes as texts grow to 1 GB, of a road network of 58 million arcs, and to start

All distances are from one source. `npx` is measured if LIBRARY has npm/dimacs.tgz, which is installed here.
"""

import os
import subprocess

from measure import PYTHON, head, measure_in_turn, row, wants
from texts import declared, flow_texts, road_texts
from works.baseline import TEXTS

SIZES, ROUNDS, PROGRAMS = "1,20,200,1300", 3, []

MOST_ARCS = 25_000_000  # of a maximum flow instance that takes 1 GB with its claim and its certificate


def work(binary, name, megabytes):
    """The words of a command, and how many arcs it has."""
    size = TEXTS[megabytes]
    if name.endswith("-max"):
        files = flow_texts(f"max-{megabytes}", "max", size.max or MOST_ARCS, "max")
    else:
        files = road_texts(f"road-from-one-{megabytes}", binary, size.junctions, size.degree, 1)
    others = {"certify-max": files[:2], "solve-paths": [*files[:2], os.devnull]}
    return [binary, name, *others.get(name, files)], declared(files[0])[1]


def starts(asked):
    """Yields the name of each start, and the words of its command."""
    os.environ.update(PYTHONPATH=asked.package, DIMACS_LIBRARY=f"{asked.library}/libdimacs.so")
    yield "dimacs --version", [asked.binary, "--version"]
    yield "import dimacs", [PYTHON, "-c", "import dimacs"]
    packed = f"{asked.library}/npm/dimacs.tgz"
    if os.path.exists(packed):
        subprocess.run(["npm", "install", "--silent", "--prefix", ".", packed], check=True)
        yield "npx dimacs --version", ["npx", "dimacs", "--version"]


def taken(name, words, rounds):
    """What the runs of a command took, if they had answers."""
    its = measure_in_turn({name: words}, rounds)[name]
    if any(it.status for it in its.runs):
        raise SystemExit(f"{name}: status {its.runs[0].status}")
    return its


def measure(asked):
    head("Growth", "ns an arc", *(f"{it} MB" for it in asked.sizes), "s", "GB")
    for name in filter(wants, ["judge-max", "certify-max", "solve-paths", "judge-paths"]):
        works = [work(asked.binary, name, it) for it in asked.sizes]
        found = [(taken(name, words, asked.rounds), arcs) for words, arcs in works]
        last, _ = found[-1]
        each = (f"{it.cpu() * 1e9 / arcs:.1f}" for it, arcs in found)
        row(name, *each, f"{last.cpu():.2f}", f"{last.peak_bytes() / 1e9:.2f}")
    head("Start", "Command", "ms")
    for name, words in starts(asked):
        if wants(name):
            row(name, f"{1000 * taken(name, words, asked.rounds).cpu():.1f}")
