#!/usr/bin/env python3
"""Compares the calls over arrays with the same as texts: agree.py [--instances N]

Random small instances with claims, right and wrong ones, with small numbers or some near the ends of types, as
tests/spoiled_texts.py makes them, go through the calls over arrays, in any form, and, written, through those over texts.
Each has to get the same line. What a certifier hands out has to be accepted as a text. A run that gives up keeps its
contract: one that solves may do so only where a cost on some of the arcs is out of range. The last line counts what
agreed, and what didn't.

Not compared, since arrays and texts differ there by design:
  - wrong lengths, and numbers past the limits of instances, which are misuse of arrays and faults of texts;
  - a claimed value, which a text has and arrays haven't: the right one is written;
  - where NotMaximum and NotLeast are needed, which is at the text's VALUE, and of arrays `solution 0 0`;
  - potentials past 64 bits, which a text can hold: then certify_min_arrays and solve_min_arrays give up, and the text
    has to get a yes;
  - predecessors that are no nodes, or don't lead back to the source: no text has them, so what writes labels has to
    refuse them by the line of the judge;
  - a distance of 2^63 - 1 or more, which a text can hold: then solve_paths_arrays gives up.
"""

import argparse
import collections
import contextlib
import functools
import random
import sys

import dimacs
import spoiled_texts
from instances import cost, nets, text
from shared import cut_text, form, solution_text

MOST_VALUE = 10**30  # the greatest VALUE of a solution


# ---- instances with claims, and their texts


def values_of(kind, chance):
    """An instance, a claim and a certificate, read from their texts. Other texts are drawn if one has a fault, or a number
    that arrays don't hold."""
    while True:
        texts = spoiled_texts.MAKERS[kind](chance)
        for _ in range(chance.choice([0, 1, 2, 3])):
            spoiled_texts.near(chance, None, chance.choice(texts))
        found = []
        with contextlib.suppress(dimacs.Refused):
            for name, lines in zip(spoiled_texts.JUDGES[kind][1], texts):
                found.append(dimacs.read(name, spoiled_texts.plain(None, lines), *found[: name == "solution"]))
            instance, *claim, certificate = found
            certificates = [certificate]
            if kind == "paths":
                certificates = [it for it in certificate.values() if it.radius is None]
            if certificates and len(certificates[0]) == instance.nodes:
                return instance, claim, chance.choice(certificates)


class Case:
    """An instance of a kind with a claim: the fields of both, and of a certificate, with arrays as lists."""

    def __init__(self, kind, chance):
        self.kind, self.chance = kind, chance
        self.value, claim, certificate = values_of(kind, chance)
        self.instance, self.shown = self.listed(self.value), self.listed(certificate)
        self.ends = list(zip(self.value.tails.tolist(), self.value.heads.tolist()))
        self.flows = self.others() or claim[0].flows.tolist() if kind in ("max", "min") else None
        if kind == "paths" and chance.random() < 0.3:  # puts a node after another one, or after none
            self.shown[-1][chance.randrange(self.value.nodes)] = chance.randrange(self.value.nodes + 2)

    def listed(self, value):
        return [it.tolist() if hasattr(it, "tolist") else it for it in value]

    def others(self):
        """Now and then other flows, which are feasible."""
        if self.kind == "max" or self.chance.random() < 0.7:
            return [0] * len(self.ends) if self.chance.random() < 0.3 else None
        try:
            return dimacs.certify_infeasible_arrays(*self.instance) and None
        except dimacs.Feasible as no:
            return list(map(int, no.flow))

    def formed(self, *more):
        """The arguments of a call, with each array in any form."""
        return [form(self.chance, it) if isinstance(it, list) else it for it in (*self.instance, *more)]

    def texts(self, flows=None):
        """The texts of the instance and of flows with their value. Past the range CostRange comes before the value."""
        flows = list(map(int, self.flows if flows is None else flows))
        sent = nets(self.value.nodes, self.ends, flows)[self.value.source] if self.kind == "max" else cost(self.arcs(), flows)
        value = max(-MOST_VALUE, min(sent, MOST_VALUE))
        return dimacs.write(self.value), solution_text(value, self.ends, flows)

    def arcs(self):
        return list(zip(*self.instance[1:6]))

    def certificate(self, numbers):
        """The text of a cut or a set, or of potentials."""
        return dimacs.write(dimacs.Potentials(numbers)) if self.kind == "min" else cut_text(numbers)


def judged_labels(it, distances, predecessors):
    """The line that labels get as a text, or by which they aren't written."""
    source = it.shown[0]
    try:
        labels = dimacs.write(dimacs.Labels(source, distances, predecessors))
    except dimacs.Refused as no:
        return no.printed
    return line_of_texts("judge-paths", dimacs.write(it.value), text("p aux sp ss 1", f"s {source}"), labels)


# ---- lines

# What follows the v, if it isn't the kind of an answer. A certifier of paths doesn't return how many sources it read.
LINES = {"sp": "sp ss", "paths": "sp distances 1"}


def line_of(call, *words):
    """The line of a call, by what it returned or raised."""
    try:
        it = call(*words)
        kind = it.kind if isinstance(it, dimacs.Verdict) else it._kind
        value = "" if it.value is None else f" {it.value}"
        return f"v {LINES.get(kind, kind)}{value}"
    except dimacs.Infeasible:
        return "v infeasible"
    except dimacs.Refused as it:
        return it.printed
    except dimacs.GaveUp:
        return "g limit"


def line_of_texts(command, *texts):
    """The same of a call over texts."""
    return line_of(getattr(dimacs, command.replace("-", "_")), *texts)


# ---- comparisons: each yields a name, the line of the arrays, and that of the texts


def judged(kind, chance):
    it = Case(kind, chance)
    claims, call = [it.flows] * (it.flows is not None) + it.shown, getattr(dimacs, f"judge_{kind}_arrays")
    line = line_of(call, *it.formed(*claims))
    if kind == "paths":
        yield "judge paths", line, judged_labels(it, *it.shown[1:])
    else:
        texts = it.texts() if it.flows is not None else [dimacs.write(it.value)]
        yield f"judge {kind}", line, line_of_texts(f"judge-{kind}", *texts, it.certificate(*it.shown))


def certified(kind, chance):
    """A flow: the line of its certifier, and what it handed out as a text."""
    it, command, name = Case(kind, chance), f"certify-{kind}", f"certify {kind}"
    lines = it.texts()
    other = line_of_texts(command, *lines)
    try:
        value, shown = getattr(dimacs, f"certify_{kind}_arrays")(*it.formed(it.flows))
        yield name, f"v {kind} {value}", other
        yield f"{name}, its certificate", other, line_of_texts(f"judge-{kind}", *lines, it.certificate(shown))
    except dimacs.NotOptimal as no:
        yield name, f"x solution 1 2 {no.reason}", other
        better = it.texts(no.better)
        values = [int(solution.split()[1]) for _, solution in (lines, better)]
        is_better = values[0] < values[1] if no.reason == "NotMaximum" else values[1] < values[0]
        again = line_of_texts(command, *better)
        is_feasible = again.startswith("v ") or again.endswith((no.reason, "CostRange"))
        yield f"{name}, what is better", "better" if is_better and is_feasible else again, "better"
    except dimacs.Refused as no:
        yield name, no.printed, other
    except dimacs.GaveUp:
        yield f"{name}, past 64 bits", other.split()[0], "v"


def certified_infeasible(chance):
    it = Case(chance.choice(["infeasible", "min"]), chance)
    instance = dimacs.write(it.value)
    other = line_of_texts("certify-infeasible", instance)
    try:
        inside = dimacs.certify_infeasible_arrays(*it.formed()).inside
        yield "certify infeasible", "v infeasible", other
        yield "certify infeasible, its set", other, line_of_texts("judge-infeasible", instance, cut_text(inside))
    except dimacs.Feasible as no:
        yield "certify infeasible", "x instance 0 0 Feasible", other
        again = line_of_texts("certify-min", *it.texts(no.flow))
        is_feasible = again.startswith("v ") or again.endswith(("NotLeast", "CostRange"))
        yield "certify infeasible, a flow", "feasible" if is_feasible else again, "feasible"


def certified_paths(chance):
    it = Case("paths", chance)
    source, distances, _ = it.shown
    other = line_of_texts("certify-paths", dimacs.write(it.value), dimacs.write(dimacs.Distances(source, distances)))
    try:
        before = dimacs.certify_paths_arrays(*it.formed(source, distances)).predecessors
        yield "certify paths", "v sp distances 1", other
        yield "certify paths, its predecessors", "v sp ss 1", judged_labels(it, distances, before)
    except dimacs.Refused as no:
        yield "certify paths", no.printed, other


def solved(kind, of, chance):
    """An instance: the line of its solver, that of the texts, and what it handed out as a text."""
    it, name = Case(of, chance), f"solve {kind}"
    instance = dimacs.write(it.value)
    other = line_of_texts(f"solve-{kind}", instance)
    try:
        value, flows, shown = getattr(dimacs, f"solve_{kind}_arrays")(*it.formed())
        yield name, f"v {kind} {value}", other
        certificate = dimacs.write(dimacs.Potentials(shown)) if kind == "min" else cut_text(shown)
        yield f"{name}, what was made", other, line_of_texts(f"judge-{kind}", *it.texts(flows), certificate)
    except dimacs.Infeasible as no:
        yield name, "v infeasible", other
        yield f"{name}, its set", other, line_of_texts("judge-infeasible", instance, cut_text(no.inside))
    except dimacs.GaveUp:
        if other == "g limit":
            most = sum(abs(cost) * cap for *_, cap, cost in it.arcs()) if kind == "min" else 0
            yield f"{name}, out of range", most > MOST_VALUE, True
        else:
            yield f"{name}, past 64 bits", "v", other.split()[0]


def solved_paths(chance):
    it = Case("paths", chance)
    source, *arcs = it.shown[0], *zip(*it.instance[1:])
    try:
        _, distances, before = dimacs.solve_paths_arrays(*it.formed(source))
        _, *labels = spoiled_texts.block_rows(chance, arcs, source, None)
        wanted = {source: 0} | {int(node): int(number) for _, node, number, _ in labels}
        found = {node: int(number) for node, number in enumerate(distances, 1) if number != dimacs.UNREACHED}
        yield "solve paths", "right" if found == wanted else found, "right"
        yield "solve paths, what was made", "v sp ss 1", judged_labels(it, distances, before)
    except dimacs.Refused as no:
        negative = [number for number, (*_, weight) in enumerate(arcs, 1) if weight < 0]
        yield "solve paths", no.printed, f"x arc {negative[0]} NegativeWeight"
    except dimacs.GaveUp:
        yield "solve paths, past 64 bits", sum(weight for *_, weight in arcs) >= dimacs.UNREACHED, True


COMPARED = [
    *(functools.partial(judged, kind) for kind in ("max", "min", "infeasible", "paths")),
    *(certified_infeasible, certified_paths, solved_paths),
    *(functools.partial(certified, kind) for kind in ("max", "min")),
    *(functools.partial(solved, *it) for it in (("max", "max"), ("min", "min"), ("min", "infeasible"))),
]


def main():
    words = argparse.ArgumentParser(description="Compares the calls over arrays with the same as texts.")
    words.add_argument("--instances", type=int, default=8_000)
    words.add_argument("--seed", type=int, default=11)
    asked = words.parse_args()
    chance = random.Random(asked.seed)
    seen, different = collections.Counter(), 0
    for k in range(asked.instances):
        for name, line, other in COMPARED[k % len(COMPARED)](chance):
            answer = str(other).split()
            seen[name, answer[0] if answer[0] != "x" else answer[-1]] += 1
            if line != other:
                different += 1
                print(f"{name}: the arrays get {line!r}, the texts {other!r} (instance {k})")
    for (name, answer), count in sorted(seen.items()):
        print(f"{count:7} {name}: {answer}")
    print(f"{sum(seen.values()) - different} passed, {different} failed")
    return 1 if different else 0


if __name__ == "__main__":
    sys.exit(main())
