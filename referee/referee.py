#!/usr/bin/env python3
"""Judges a claim by a certificate. Prints what `dimacs judge-max`, `-min`, `-infeasible` and `-paths` print.

    referee.py max INSTANCE SOLUTION CUT            referee.py infeasible INSTANCE CUT
    referee.py min INSTANCE SOLUTION POTENTIALS     referee.py paths GRAPH QUERY LABELS
    It needs a certificate. Without one, certify-max and so on of `make referee`'s build/referee/judge make it.
    What a refusal means: docs/JUDGING.md

It is a transcript of docs/TEXTS.md and docs/JUDGING.md, in their words and order: read it beside them. It was written
from these two pages alone, by someone who hadn't seen the code of `dimacs`. It is not proved.

Its limits of size: it keeps the texts in memory, in half a kilobyte a line (10,000,000 lines take 5 GB), and it takes
two passes over all arcs for each block of labels. Otherwise the limits are those of TEXTS.md.
"""

import os
import re
import sys
from collections import defaultdict, namedtuple
from types import SimpleNamespace

# TEXTS.md: Limits
LIMITS = {
    "NODES": (0, 2**27),
    "ARCS K B": (0, 2**28),
    "ID TAIL HEAD FROM TO SOURCE PRED": (1, 2**27),
    "LOW CAP COST FLOW SUPPLY WEIGHT": (-(2**63), 2**63 - 1),
    "VALUE DIST": (-(10**30), 10**30),
    "RADIUS": (0, 10**30),
}
RANGE = {name: limits for names, limits in LIMITS.items() for name in names.split()}

# TEXTS.md: The nine kinds. Of the eight that a judge reads, TEXT and the forms. Of s|t, a line has one word.
KINDS = {
    "max": ("instance", ["p max NODES ARCS", "n ID s|t", "a TAIL HEAD CAP"]),
    "min": ("instance", ["p min NODES ARCS", "n ID SUPPLY", "a TAIL HEAD LOW CAP COST"]),
    "gr": ("instance", ["p sp NODES ARCS", "a TAIL HEAD WEIGHT"]),
    "query": ("query", ["p aux sp ss|p2p K", "s ID", "q FROM TO"]),
    "solution": ("solution", ["s VALUE", "f TAIL HEAD FLOW"]),
    "cut": ("certificate", ["p cut NODES K", "u ID"]),
    "pot": ("certificate", ["p pot NODES K", "y ID VALUE"]),
    "dist": ("certificate", ["p dist NODES B", "t SOURCE K", "t SOURCE K RADIUS", "d ID DIST PRED"]),
}
FORMS = {}  # by kind, letter and number of fields: the class of the records; the range, or the words, of each field
for kind, letter, *names in [(kind, *form.split()) for kind in KINDS for form in KINDS[kind][1]]:
    record = namedtuple("Record", ["LINE", "LETTER"] + [name.replace("|", "_or_") for name in names])
    FORMS[kind, letter, len(names) + 1] = record, [RANGE.get(name) or set(name.split("|")) for name in names]

# TEXTS.md: Lines, fields and comments, and Numbers
fields_of = re.compile("[^ \t\r]+").findall
is_number = re.compile("[+-]?[0-9]+").fullmatch


class Refused(Exception):
    """A refusal, as it is printed."""


def fails_if(condition, *refusal):
    if condition:
        raise Refused("x " + " ".join(map(str, refusal)))


def record_of(kind, line, fields):
    """TEXTS.md: Conditions of the shape of a line. Returns a record; its attributes are named as the form's fields."""
    text, letter = KINDS[kind][0], fields[0]
    fails_if((kind, letter) not in ROWS, text, line, 1, "UnknownLine")
    fails_if((kind, letter, len(fields)) not in FORMS, text, line, 0, "FieldCount")
    record, columns = FORMS[kind, letter, len(fields)]
    values = [line, letter]
    for place, (field, column) in enumerate(zip(fields[1:], columns), 2):
        if isinstance(column, set):
            fails_if(field not in column, text, line, place, "BadWord")
            values.append(field)
            continue
        fails_if(not is_number(field), text, line, place, "BadNumber")
        digits = field.lstrip("+-").lstrip("0")[:40] or "0"  # 40 digits are out of every range, as are more
        values.append(-int(digits) if field[0] == "-" else int(digits))
        fails_if(not column[0] <= values[-1] <= column[1], text, line, place, "NumberRange")
    return record(*values)


# TEXTS.md: Conditions of a record, after the earlier ones. A row has the name, the letters (or KIND:LETTER), the
# condition and the field. The record is r. The earlier ones are t: by letter, such as t.a; the fields of the problem
# line, such as t.NODES; t.nodes, the nodes of `n`, `u` and `y` lines; t.blocks by source, and t.block, the last.
CONDITIONS = [
    ("ProblemMissing", "n a query:s q u y t d", lambda t, r: not t.p, 0),
    ("ProblemTwice", "p", lambda t, r: t.p, 0),
    ("RecordOrder", "n", lambda t, r: t.a, 0),
    ("RecordOrder", "query:s", lambda t, r: t.ss_or_p2p == "p2p", 0),
    ("RecordOrder", "q", lambda t, r: t.ss_or_p2p == "ss", 0),
    ("RecordOrder", "d", lambda t, r: not t.t, 0),
    ("NodeRange", "n u y d", lambda t, r: r.ID > t.NODES, 2),
    ("NodeRange", "t", lambda t, r: r.SOURCE > t.NODES, 2),
    ("NodeRange", "a", lambda t, r: r.TAIL > t.NODES, 2),
    ("NodeRange", "a", lambda t, r: r.HEAD > t.NODES, 3),
    ("NodeRange", "d", lambda t, r: r.PRED > t.NODES, 4),
    ("NodeTwice", "n u y", lambda t, r: r.ID in t.nodes, 2),
    ("NodeTwice", "t", lambda t, r: r.SOURCE in t.blocks, 2),
    ("NodeTwice", "d", lambda t, r: r.ID in t.block.label, 2),
    ("EndTwice", "max:n", lambda t, r: r.s_or_t in [n.s_or_t for n in t.n], 3),
    ("EndMissing", "max:a", lambda t, r: len(t.n) < 2, 0),
    ("BoundOrder", "max:a", lambda t, r: r.CAP < 0, 4),
    ("BoundOrder", "min:a", lambda t, r: r.LOW < 0, 4),
    ("BoundOrder", "min:a", lambda t, r: r.CAP < r.LOW, 5),
    ("TooMany", "a", lambda t, r: len(t.a) >= t.ARCS, 0),
    ("TooMany", "query:s q u y", lambda t, r: len(getattr(t, r.LETTER)) >= t.K, 0),
    ("TooMany", "t", lambda t, r: len(t.t) >= t.B, 0),
    ("TooMany", "d", lambda t, r: len(t.block.d) >= t.block.K, 0),
    ("TooFew", "t", lambda t, r: t.t and len(t.block.d) < t.block.K, 0),
    ("SolutionTwice", "solution:s", lambda t, r: t.s, 0),
    ("PredUnknown", "d", lambda t, r: r.PRED not in t.block.label, 0),
    ("PastRadius", "d", lambda t, r: t.block.RADIUS is not None and r.DIST > t.block.RADIUS, 3),
]
ROWS = {
    (kind, letter): [row for row in CONDITIONS if {letter, f"{kind}:{letter}"} & set(row[1].split())]
    for kind, letter, _ in FORMS
}

# TEXTS.md: Conditions at the end of a text. A row has the name, the kinds and the condition.
CONDITIONS_AT_END = [
    ("ProblemMissing", "max min gr query cut pot dist", lambda t: not t.p),
    ("EndMissing", "max", lambda t: len(t.n) < 2),
    ("TooFew", "max min gr", lambda t: len(t.a) < t.ARCS),
    ("TooFew", "query", lambda t: len(t.s) + len(t.q) < t.K),
    ("TooFew", "cut pot", lambda t: len(t.nodes) < t.K),
    ("TooFew", "dist", lambda t: len(t.t) < t.B or t.t and len(t.block.d) < t.block.K),
    ("SolutionMissing", "solution", lambda t: not t.s),
]


def read(kind, text):
    """The records of a text, as t above."""
    t = SimpleNamespace(nodes=set(), blocks={}, **{letter: [] for of, letter in ROWS if of == kind})
    name, line, lines = KINDS[kind][0], 0, text.split("\n")
    for line, content in enumerate(lines if lines[-1] else lines[:-1], 1):
        fails_if(line > 10**12, name, line, 0, "LineLimit")
        fails_if(len(content) > 2**20, name, line, 0, "LineTooLong")
        fields = fields_of(content)
        if not fields or fields[0][0] == "c":
            continue
        r = record_of(kind, line, fields)
        for reason, _, condition, field in ROWS[kind, r.LETTER]:
            fails_if(condition(t, r), name, line, field, reason)
        getattr(t, r.LETTER).append(r)
        if r.LETTER == "p":
            vars(t).update(r._asdict())
        elif r.LETTER in "nuy":
            t.nodes.add(r.ID)
        elif r.LETTER == "t":
            t.block = SimpleNamespace(K=r.K, RADIUS=getattr(r, "RADIUS", None), d=[], label={r.SOURCE: 0})
            t.blocks[r.SOURCE] = t.block
        elif r.LETTER == "d":
            t.block.d.append(r)
            t.block.label[r.ID] = r.DIST
    for reason, kinds, condition in CONDITIONS_AT_END:
        fails_if(kind in kinds.split() and condition(t), name, line + 1, 0, reason)
    return t


# JUDGING.md: Words, and The tests
def flows(instance, solution):
    """Steps 1 and 2 of `judge-max` and `judge-min`: x(a) by the number of the arc, and net(v) by node."""
    without = defaultdict(list)  # the arcs without an `f` line, by tail and head, the first of them last
    for k, a in reversed(list(enumerate(instance.a, 1))):
        without[a.TAIL, a.HEAD].append(k)
    x, net = [0] * (len(instance.a) + 1), defaultdict(int)
    for f in solution.f:  # 1: each `f` line
        fails_if((f.TAIL, f.HEAD) not in without, "solution", f.LINE, 0, "UnknownArc")
        fails_if(not without[f.TAIL, f.HEAD], "solution", f.LINE, 0, "ArcTwice")
        x[without[f.TAIL, f.HEAD].pop()] = f.FLOW
    for k, a in enumerate(instance.a, 1):  # 2: each arc. The LOW of Max is 0.
        fails_if(x[k] < getattr(a, "LOW", 0), "arc", k, "BelowLow")
        fails_if(x[k] > a.CAP, "arc", k, "AboveCap")
        net[a.TAIL] += x[k]
        net[a.HEAD] -= x[k]
    return x, net


def judge_max(instance, solution, cut):
    source, sink = [n.ID for word in "st" for n in instance.n if n.s_or_t == word]
    x, net = flows(instance, solution)  # 1 and 2
    for v in sorted(net):  # 3: each node but the source and the sink
        fails_if(v not in (source, sink) and net[v] != 0, "node", v, "Balance")
    s, inside = solution.s[0], cut.nodes
    fails_if(net[source] != s.VALUE, "solution", s.LINE, 2, "ValueDiffers")  # 4
    fails_if(cut.NODES != instance.NODES, "certificate", 0, 0, "NodesDiffer")  # 5
    fails_if(source not in inside, "node", source, "SourceOutside")  # 6
    fails_if(sink in inside, "node", sink, "SinkInside")  # 7
    for k, a in enumerate(instance.a, 1):  # 8: each arc
        fails_if(a.TAIL in inside and a.HEAD not in inside and x[k] != a.CAP, "arc", k, "NotSaturated")
        fails_if(a.HEAD in inside and a.TAIL not in inside and x[k] != 0, "arc", k, "BackFlow")
    return f"v max {s.VALUE}\n"


def judge_min(instance, solution, potentials):
    x, net = flows(instance, solution)  # 1 and 2
    supply = defaultdict(int, {n.ID: n.SUPPLY for n in instance.n})
    for v in sorted({*net, *supply}):  # 3: each node
        fails_if(net[v] != supply[v], "node", v, "Balance")
    s, cost = solution.s[0], 0
    for k, a in enumerate(instance.a, 1):  # 4: each arc
        cost += a.COST * x[k]
        fails_if(not -(10**30) <= cost <= 10**30, "arc", k, "CostRange")
    fails_if(cost != s.VALUE, "solution", s.LINE, 2, "ValueDiffers")  # 5
    fails_if(potentials.NODES != instance.NODES, "certificate", 0, 0, "NodesDiffer")  # 6
    y = defaultdict(int, {line.ID: line.VALUE for line in potentials.y})
    for k, a in enumerate(instance.a, 1):  # 7: each arc
        reduced = a.COST - y[a.TAIL] + y[a.HEAD]
        fails_if(reduced > 0 and x[k] != a.LOW or reduced < 0 and x[k] != a.CAP, "arc", k, "NotTight")
    return f"v min {s.VALUE}\n"


def judge_infeasible(instance, cut):
    fails_if(cut.NODES != instance.NODES, "certificate", 0, 0, "NodesDiffer")  # 1
    leaving = [a for a in instance.a if a.TAIL in cut.nodes and a.HEAD not in cut.nodes]
    entering = [a for a in instance.a if a.HEAD in cut.nodes and a.TAIL not in cut.nodes]
    P = sum(n.SUPPLY for n in instance.n if n.ID in cut.nodes)
    H = sum(a.CAP for a in leaving) - sum(a.LOW for a in entering)
    L = sum(a.LOW for a in leaving) - sum(a.CAP for a in entering)
    fails_if(L <= P <= H, "certificate", 0, 0, "NotViolated")  # 2
    return "v infeasible\n"


def judge_paths(graph, query, labels):
    fails_if(labels.NODES != graph.NODES, "certificate", 0, 0, "NodesDiffer")  # 1
    for q in query.s + query.q:  # 2: each query
        for v in [q.ID] if q.LETTER == "s" else [q.FROM, q.TO]:
            fails_if(v > graph.NODES, "node", v, "QueryNode")
    for q in query.s + query.q:  # 3: each query
        source = q.ID if q.LETTER == "s" else q.FROM
        fails_if(source not in labels.blocks, "node", source, "BlockMissing")
        fails_if(q.LETTER == "s" and labels.blocks[source].RADIUS is not None, "node", source, "BlockMissing")
    arcs = {(a.TAIL, a.HEAD, a.WEIGHT) for a in graph.a}
    for block in labels.blocks.values():  # 4: each block, asked for or not
        radius, label = block.RADIUS, block.label
        for k, a in enumerate(graph.a, 1):  # 4.1: each arc, if the block has a RADIUS
            fails_if(radius is not None and a.WEIGHT < 0, "arc", k, "NegativeWeight")
        for d in block.d:  # 4.2: each `d` line
            fails_if((d.PRED, d.ID, d.DIST - label[d.PRED]) not in arcs, "node", d.ID, "NoTightArc")
        for k, a in enumerate(graph.a, 1):  # 4.3: each arc with a labelled tail
            if a.TAIL in label:
                walk = label[a.TAIL] + a.WEIGHT
                fails_if(a.HEAD not in label and (radius is None or walk <= radius), "arc", k, "Escapes")
                fails_if(a.HEAD in label and label[a.HEAD] > walk, "arc", k, "NotShortest")
    answers = [answer(q, labels.blocks[q.FROM]) for q in query.q]
    return f"v sp ss {query.K}\n" if query.ss_or_p2p == "ss" else "".join(answers)


def answer(q, block):
    beyond = "unreachable" if block.RADIUS is None else f"more {block.RADIUS}"
    return f"v {q.FROM} {q.TO} {block.label.get(q.TO, beyond)}\n"


# JUDGING.md: Commands, How a judge goes, and Exit statuses
JUDGES = {
    "max": (judge_max, ["max", "solution", "cut"]),
    "min": (judge_min, ["min", "solution", "pot"]),
    "infeasible": (judge_infeasible, ["min", "cut"]),
    "paths": (judge_paths, ["gr", "query", "dist"]),
}


def judge(command, texts):
    """The status, and what is printed. A text is a str with a character for each byte; each is taken after the last."""
    tests, kinds = JUDGES[command]
    try:
        return 0, tests(*[read(kind, text) for kind, text in zip(kinds, texts)])
    except Refused as refusal:
        return 1, f"{refusal}\n"


def complain(status, *lines):
    """The status, whether the message can be written or not."""
    try:
        os.write(2, "".join(f"{line}\n" for line in lines).encode())
    except OSError:
        pass
    return status


def main(command="", *files):
    not_utf8 = re.search("[\udc80-\udcff]", "".join(files))
    if command not in JUDGES or len(files) != len(JUDGES[command][1]) or not_utf8:
        return complain(2, "referee: usage", __doc__.split("\n\n")[1])
    at = [""]  # the file, and what can't be done with it, if it fails

    def opened(name):
        at[0] = f"{name}: cannot be opened"
        return os.open(name, os.O_RDONLY)

    def content(name, file):
        at[0] = f"{name}: cannot be read"
        return b"".join(iter(lambda: os.read(file, 2**20), b"")).decode("latin-1")

    try:
        status, output = judge(command, map(content, files, [opened(name) for name in files]))
        at[0] = "standard output: cannot be written"
        with open(1, "w", closefd=False) as out:
            out.write(output)
        return status
    except OSError as error:
        return complain(3, "referee: device fault", f"referee: {at[0]}: {error.strerror} (os error {error.errno})")
    except MemoryError:
        return complain(4, "referee: out of memory")


if __name__ == "__main__":
    sys.exit(main(*sys.argv[1:]))
