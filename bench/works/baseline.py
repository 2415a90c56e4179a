"""what dimacs takes to read and to judge, next to plain Rust that does the same

Prints a table. Before a work is measured, what dimacs prints is compared with what the baseline prints; a difference is put
in the table, and the status is then 1.
"""

import os
import subprocess
from collections import namedtuple

from measure import head, measure_in_turn, row, spread, wants
from texts import declared, flow_texts, road_texts

SIZES, ROUNDS, PROGRAMS = "1,20,200", 5, ["baseline"]

# How large the texts of a size in MB are: 0 arcs where there is none. 1300 has as many nodes as the ninth challenge's
# graph of the USA, and about as many arcs.
Size = namedtuple("Size", "junctions degree sources max min")
TEXTS = {
    1: Size(20_000, 2.44, 8, 60_000, 37_000),
    20: Size(380_000, 2.44, 4, 1_050_000, 650_000),
    200: Size(3_750_000, 2.44, 2, 9_600_000, 6_000_000),
    1300: Size(23_947_347, 2.4361, 1, 0, 0),
}


class Work:
    """Words of the command, and the files that follow them; and what the baseline does, where it is something else."""

    def __init__(self, words, files, note="", other=None):
        self.words, self.files, self.name = words, files, " ".join(words) + note
        self.other = other or words + files
        _, self.arcs = declared(files[0])
        self.megabytes = sum(map(os.path.getsize, files)) / 1e6


def road_works(binary, size, megabytes):
    files = road_texts(f"road-{megabytes}", binary, size.junctions, size.degree, size.sources)
    yield Work(["show", "gr"], files[:1])
    yield Work(["convert", "gr"], files[:1])
    yield Work(["judge-paths"], files, f", {size.sources} block{'s' if size.sources > 1 else ''}")


def works(binary, megabytes):
    size = TEXTS[megabytes]
    yield from road_works(binary, size, megabytes)
    for kind in ("max", "min"):
        if getattr(size, kind):
            files = flow_texts(f"{kind}-{megabytes}", kind, getattr(size, kind), kind)
            yield Work(["show", kind], files[:1])
            yield Work(["convert", kind], files[:1])
            yield Work([f"judge-{kind}"], files)
    if megabytes == 20:
        files = flow_texts(f"mixed-{megabytes}", "max", size.max, "mixed")
        yield Work(["judge-max"], files, ", in no order")
        yield Work(["certify-max"], files[:2], ", in no order", ["judge-max", *files])
        files = flow_texts(f"parallel-{megabytes}", "min", size.min, "parallel")
        yield Work(["judge-min"], files, ", one arc twice")


def answer(command):
    """Exit status, and what is printed."""
    ran = subprocess.run(command, stdout=subprocess.PIPE, stderr=subprocess.DEVNULL, check=False)
    return ran.returncode, ran.stdout


def cells(work, baseline, dimacs):
    """The row of a work."""
    return [
        work.name,
        f"{work.megabytes:.{int(work.megabytes < 100)}f}",
        f"{baseline.cpu() * 1e9 / work.arcs:.1f}",
        f"{dimacs.cpu() * 1e9 / work.arcs:.1f}",
        *spread(dimacs.ratio(baseline)),
        f"{dimacs.peak_bytes() / work.arcs:.1f}",
    ]


def measure_work(asked, work):
    """Prints the row of a work; whether dimacs prints what the baseline prints."""
    commands = {"baseline": ["./baseline", *work.other], "dimacs": [asked.binary, *work.words, *work.files]}
    got = answer(commands["dimacs"])
    if got != answer(commands["baseline"]):
        row(work.name, f"PRINTS SOMETHING ELSE, with status {got[0]}", *[""] * 5)
        return False
    row(*cells(work, **measure_in_turn(commands, asked.rounds)))
    return True


def measure(asked):
    columns = "Work; MB; Baseline, ns an arc; dimacs, ns an arc; CPU ratio; Its middle half; Peak, bytes an arc"
    head("Reading and judging", *columns.split("; "))
    found = (work for megabytes in asked.sizes for work in works(asked.binary, megabytes) if wants(work.name))
    return int(not all([measure_work(asked, work) for work in found]))
