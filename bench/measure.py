"""Runs programs in turn, and prints what they took in tables.

The programs take turns, in an order that changes from round to round, and more often than asked for while runs are
short. A time is the median of the rounds. A ratio is the median of the rounds' own ratios, each of two runs beside each
other: on a machine that others use too, the best times of two programs may lie in different minutes.
"""

import os
import re
import statistics
import subprocess
import sys
import time
from collections import namedtuple

HERE = os.path.dirname(os.path.abspath(__file__))
PYTHON = os.environ.get("PYTHON", sys.executable)

NO_LIMIT = 0
OVER_LIMIT = 128 + 24  # the status of a run that was ended at its limit
NO_SUCH_PROGRAM = 127

# Rounds are added, up to so many times as many, while all of them together took no longer than so many seconds each.
MORE_ROUNDS = 5
SHORT_ROUND = 2

# What a run took, its status, and what it printed where that was asked for.
Taken = namedtuple("Taken", "cpu peak_bytes status printed", defaults=(0, 0, None))


class Rounds:
    """What the runs of a program took, in the order of the rounds."""

    def __init__(self, *runs):
        self.runs = list(runs)

    def cpu(self):
        return statistics.median(run.cpu for run in self.runs)

    def peak_bytes(self):
        return max(run.peak_bytes for run in self.runs)

    def ratio(self, other):
        """The median of the rounds' ratios, and where the middle half of them begins and ends."""
        ratios = sorted(run.cpu / max(beside.cpu, 1e-4) for run, beside in zip(self.runs, other.runs))
        quarter = len(ratios) // 4
        return statistics.median(ratios), ratios[quarter], ratios[-1 - quarter]


def wants(name):
    return re.search(os.environ.get("ONLY", ""), name)


def measure(command, limit=NO_LIMIT, stdout=subprocess.DEVNULL):
    """Runs a command, for so many seconds of processor time at most."""
    core = os.environ.get("CORE")
    words = ["./runner", "taken", str(limit), *(["taskset", "-c", core] if core else []), *command]
    run = subprocess.run(words, stdout=stdout, stderr=subprocess.DEVNULL, text=True, check=False)
    with open("taken") as line:
        cpu, kilobytes = line.read().split()
    return Taken(float(cpu), int(kilobytes) * 1024, run.returncode, run.stdout)


def measure_in_turn(commands, rounds, run=measure):
    """What the runs of each command took, as `run` measures one."""
    taken = {name: Rounds() for name in commands}
    begun = time.monotonic()
    for turn in range(MORE_ROUNDS * rounds):
        if turn >= rounds and time.monotonic() - begun > SHORT_ROUND * rounds:
            break
        for name in list(commands)[:: -1 if turn % 2 else 1]:
            taken[name].runs.append(run(commands[name]))
    return taken


def row(*cells):
    print("| " + " | ".join(map(str, cells)) + " |", flush=True)


def head(title, *columns):
    """What stands above the rows of a table."""
    print(f"\n### {title}\n")
    row(*columns)
    print("|---" * len(columns) + "|", flush=True)


def spread(ratio):
    """A ratio and its middle half, as two cells."""
    middle, low, high = ratio
    return f"{middle:.2f}", f"{low:.2f} to {high:.2f}"
