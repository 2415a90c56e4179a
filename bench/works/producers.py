"""what makes claims and what certifies them takes, next to other programs that solve the same instances

All programs have to come to the same value, or to the same number and sum of distances. A program that takes long is
run once on an instance; one that takes over a minute is ended, and isn't run on it again while that is kept.
certify-paths, which certifies distances over arrays, needs the library.
"""

import os
import statistics
import subprocess
import sys

from measure import HERE, NO_SUCH_PROGRAM, OVER_LIMIT, PYTHON, Rounds, head, measure_in_turn, row, wants
from measure import measure as run
from texts import FAMILIES, claimed, declared, instance, labelled, queries, sources

SIZES, ROUNDS, PROGRAMS = "1,20", 3, ["lemon", "boost", "igraph", "certify_paths"]

# in seconds of processor time: what a run may take, and what it may take to be run again
MOST, LONG = 60, 15

# the name of a peer, its command, and what it calls the kinds that it solves
ALL = {"max": "max", "min": "min", "gr": "gr"}
PEERS = [
    ("LEMON", ["./lemon", "solve"], ALL),
    ("LEMON's scaling", ["./lemon", "solve"], {"min": "scaling"}),
    ("Boost", ["./boost", "solve"], ALL),
    ("igraph", ["./igraph", "solve"], {"max": "max", "gr": "gr"}),
    ("SciPy", [PYTHON, f"{HERE}/peers/with_scipy.py"], ALL),
    ("networkx", [PYTHON, f"{HERE}/peers/with_networkx.py", "solve"], ALL),
]

TITLES = {"max": "Maximum flow", "min": "Least cost", "gr": "Distances"}
OURS = {kind: [f"solve-{word}", f"certify-{word}"] for kind, word in (("max", "max"), ("min", "min"), ("gr", "paths"))}


def instances(kind, megabytes):
    """The wanted instances of a kind and size by their names."""
    for family in FAMILIES[kind]:
        if wants(f"{kind}, {family}"):
            yield family, instance(kind, family, megabytes)


def commands(binary, kind, megabytes, file):
    """The commands of all programs for an instance, by their names; those of dimacs come first."""
    starts = []
    solving, certifying = OURS[kind]
    if kind == "gr":
        query = queries(file, megabytes)
        starts = sources(query)
        found = {solving: [binary, solving, file, query, "labels"]}
        found[certifying] = ["./certify_paths", file, labelled(binary, file, megabytes)]
    else:
        found = {solving: [binary, solving, file, "solution", "certificate"]}
        claim = claimed(binary, file)
        if os.path.getsize(claim):  # else no flow is feasible
            found[certifying] = [binary, certifying, file, claim]
    found.update({name: [*words, called[kind], file, *starts] for name, words, called in PEERS if kind in called})
    return found


def distances(labels):
    """What the peers print of the distances in a text of labels: how many there are, and their sum."""
    with open(labels) as text:
        found = [int(line.split()[2]) if line[0] == "d" else 0 for line in text if line[0] in "td"]
    return f"v sp {len(found)} {sum(found)}\n"


def first_runs(kind, file, commands):
    """What the first runs took, of the programs that end well, and the names of those that don't end in time. The first
    have to come to the same answer."""
    runs = {name: run(command, MOST, subprocess.PIPE) for name, command in commands.items()}
    ended = {name: it for name, it in runs.items() if it.status == 0}
    late = [name for name, it in runs.items() if it.status == OVER_LIMIT]
    for name, it in runs.items():
        if it.status not in (0, OVER_LIMIT, NO_SUCH_PROGRAM):
            print(f"{name} fails on {file}, with status {it.status}", file=sys.stderr)
    solving = OURS[kind][0]
    if solving not in ended and solving not in late:
        sys.exit(f"no answer to {file}")
    outputs = {name: it.printed for name, it in ended.items()}
    if kind == "gr" and solving in ended:
        outputs[solving] = distances("labels")
    if len(set(outputs.values())) > 1:
        sys.exit(f"different answers to {file}: {outputs}")
    return ended, late


def measure_instance(kind, file, commands, rounds):
    """What each program took. Has no runs of one that doesn't end in time, which is noted beside the instance, and
    nothing of one that fails."""
    notes = f"{os.path.dirname(file)}/late"
    noted = open(notes).read().splitlines() if os.path.exists(notes) else []
    ended, late = first_runs(kind, file, {name: words for name, words in commands.items() if name not in noted})
    with open(notes, "a") as it:
        it.writelines(f"{name}\n" for name in late if name not in OURS[kind])
    taken = measure_in_turn({name: commands[name] for name, it in ended.items() if it.cpu < LONG}, rounds)
    taken = {name: taken.get(name) or Rounds(it) for name, it in ended.items()}
    return {**taken, **{name: Rounds() for name in noted + late}}


def digits(number):
    return f"{number:.0f}" if number >= 100 else f"{number:.1f}" if number >= 10 else f"{number:.2f}"


def cell(taken, name, solving):
    """The seconds that a program took; bold where a peer was faster than dimacs."""
    if name not in taken:
        return ""
    if not taken[name].runs:
        return f"> {MOST}"
    seconds = f"{taken[name].cpu():.3f}" if taken[name].cpu() < 1 else digits(taken[name].cpu())
    is_ours = name.startswith(("solve", "certify"))
    is_faster = not is_ours and taken[solving].runs and taken[name].ratio(taken[solving])[0] < 1
    return f"**{seconds}**" if is_faster else seconds


def fastest(taken):
    """What the fastest peer took; no runs if none ends in time."""
    peers = [taken[name] for name, _, _ in PEERS if name in taken and taken[name].runs]
    return min(peers, key=Rounds.cpu, default=Rounds())


def measure_kind(asked, kind, megabytes):
    """Prints a table."""
    wanted = list(instances(kind, megabytes))
    if not wanted:
        return
    ours = OURS[kind]
    peers = [name for name, _, called in PEERS if kind in called]
    head(f"{TITLES[kind]}, {megabytes} MB", "Family", "Arcs", *ours, *peers, "Bytes an arc")
    ratios = {name: [] for name in ours}
    for family, file in wanted:
        taken = measure_instance(kind, file, commands(asked.binary, kind, megabytes, file), asked.rounds)
        (_, arcs), solved, peer = declared(file), taken[ours[0]], fastest(taken)
        memory = f"{solved.peak_bytes() / arcs:.0f}" if solved.runs else ""
        row(family, f"{arcs:,}", *(cell(taken, name, ours[0]) for name in ours + peers), memory)
        for name in ours:
            if peer.runs and name in taken and taken[name].runs:
                ratios[name].append(peer.ratio(taken[name])[0])
    for name, of_name in ratios.items():
        if of_name:
            mean = statistics.geometric_mean(of_name)
            print(f"\nThe fastest peer takes {mean:.2f} times as long as {name}, in the geometric mean.")


def measure(asked):
    for megabytes in asked.sizes:
        for kind in TITLES:
            measure_kind(asked, kind, megabytes)
