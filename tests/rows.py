#!/usr/bin/env python3
"""Runs the rows of tests/rows: tests/rows.py [BINARY]

Each file there is a table, and its first lines say what the cells of a row are. Cells stand between ` | `; in a cell `;`
ends a line of a text, and `\\r`, `\\t` and `\\x0b` stand for bytes. The answers were worked out by hand.

Each row is a run of the program over its texts, made three times: read and written in pieces of 1 and 7 bytes, and as
the program does it. A canonical text is converted again. Where any right certificate will do, the judge has to accept
it with the same verdict, and a better solution is certified in turn. The texts of three judges, cut off at each byte,
are judged alike in pieces of 1 byte and whole. Where a text is refused, no byte after the fault is read. Commands have to
open, create and close their files in the order of their rows.

BINARY is the built program; crates/dimacs/out/dimacs by default. refusals.c, which cuts reads and writes and counts them,
is compiled with cc.
"""
import os
import re
import subprocess
import sys
import tempfile

import scripts
from instances import BINARY, MEMORY, Folder, refusing_library

HERE = os.path.dirname(os.path.abspath(__file__))

# What a refusal calls the text of each kind.
TEXTS = {"max": "instance", "min": "instance", "gr": "instance", "query": "query", "solution": "solution"}
TEXTS |= {"cut": "certificate", "pot": "certificate", "dist": "certificate", "distances": "distances"}

# The most bytes that a read or a write moves; None for no such limit.
SIZES = [1, 7, None]

# A flow's instance with so many nodes takes a second, and is read only as the program does.
MOST_NODES = " 134217728 1"

# The most steps from one better solution to the next.
MOST_STEPS = 100

# The rows whose texts are cut off, by their judges.
CUT_OFF = [
    ("max", "a tight cut"),
    ("min", "slack potentials"),
    ("paths", "nodes of a cycle of weight 0 that support each other"),
]

# Text, and how many bytes of it are read one by one before it is refused; the last read finds the end.
LAST_READS = [
    ("x\np sp 1 0\n", 2),
    ("p sp 1 1\ne 1 1 0\na 1 1 0\n", 17),
    ("p sp 1 0\na 1 1 0\n\n", 17),
    ("p sp 1 1\n", 10),
    ("p sp 1 1", 10),
]

# Graphs with bytes past 127 and with many bytes: the text, and what is printed.
BYTES = [
    (b"p sp 2 1\na 1\xa02 5\n", "x instance 2 0 FieldCount\n"),
    (b"p sp 2 1\nc\xff\x00\xfe \x80\na 1 2 5\n", "p sp 2 1\na 1 2 5\n"),
    (b"p sp 2 1\na 1 2 " + b"0" * 1_000 + b"7\n", "p sp 2 1\na 1 2 7\n"),
]

# The longest line, and longer ones; a comment is as good as any.
LONGEST = b"c" * 1_048_576
LONG_LINES = [
    (LONGEST + b"\nz", "x instance 2 1 UnknownLine\n"),
    (LONGEST + b"\n", "x instance 2 0 ProblemMissing\n"),
    (LONGEST, "x instance 2 0 ProblemMissing\n"),
    (LONGEST + b"c\nz", "x instance 1 0 LineTooLong\n"),
    (LONGEST + b"c", "x instance 1 0 LineTooLong\n"),
    (LONGEST + b"\r\n", "x instance 1 0 LineTooLong\n"),
    (b"c\n\n" + LONGEST + b"c", "x instance 3 0 LineTooLong\n"),
    (b" " * 1_048_576, "x instance 2 0 ProblemMissing\n"),
    (b" " * 1_048_577, "x instance 1 0 LineTooLong\n"),
]
LONG_SIZES = [7, 65_535, None]

# The cell of a text that may be any right one.
ANY = "any"


def unescaped(cell):
    """The text of a cell, a character for each byte."""
    return re.sub(r"\\(x..|.)", lambda it: it[0].encode().decode("unicode_escape"), cell)


def rows(table):
    """The rows of a table, each a list of texts."""
    with open(f"{HERE}/rows/{table}", encoding="ascii") as it:
        for line in it.read().splitlines():
            if not line.startswith("# "):
                yield [unescaped(cell).replace(";", "\n") for cell in re.split(r" \|(?: |$)", line)]


def odd_words():
    """The words of odd command lines, as bytes; none at first."""
    return [[], *([it.encode("latin-1") for it in words] for words in rows("words"))]


class Runs(Folder):
    """Runs of the program over files of one folder."""

    encoding = ("latin-1",)

    def __init__(self, binary, library, folder):
        super().__init__(folder)
        self.binary, self.library = binary, library
        self.counts = scripts.Counts()

    def read(self, name):
        return super().read(name) if os.path.exists(self.path(name)) else ""

    def run(self, words, size=None, **variables):
        env = {"LD_PRELOAD": self.library, **variables, **({"AT_MOST": str(size)} if size else {})}
        ran = subprocess.run([self.binary, *words.split(" ")], capture_output=True, env=env, cwd=self.folder, check=False)
        return ran.returncode, ran.stdout.decode("latin-1"), ran.stderr.decode()

    def answers(self, words, texts, made, size=None):
        """Gives texts to a run, and returns its status, what it prints, and what it makes. It makes anew what was there."""
        for name, text in texts.items():
            self.write(name, text)
        for name in made:
            self.write(name, "")
        status, printed, complaint = self.run(words, size)
        return status, printed + complaint, *map(self.read, made)

    def case(self, name, faults):
        """Counts a case, which fails if it has a fault."""
        self.counts.faultless(f"{name}: {it}" for it in faults)


def is_right(made, wanted):
    """Whether this text was to be made."""
    return made == wanted or wanted == ANY and made != ""


def status_of(output):
    """The exit status of a run that prints this."""
    return {"x": 1, "g": 5}.get(output[:1], 0)


def sizes_for(instance):
    """The sizes of pieces in which an instance is read."""
    return [None] if instance.split("\n")[0].endswith(MOST_NODES) else SIZES


def unlike(runs, words, texts, wanted, made=(), sizes=SIZES):
    """Yields how a run differs from what is wanted, in pieces of each size: in what it prints, and in what it makes."""
    for size in sizes:
        ran = runs.answers(words, texts, made, size)
        if ran != (status_of(wanted[0]), *wanted):
            yield f"by {size} bytes {ran}, and not {wanted}"


# ---- texts


def converted(runs, kind, text, asked, wanted):
    """Yields what is wrong with a row of a text."""
    if asked == "refused":
        yield from unlike(runs, f"convert {kind} T", {"T": text}, [f"x {TEXTS[kind]} {wanted}\n"])
    elif asked == "shown":
        yield from unlike(runs, f"show {kind} T", {"T": text}, [wanted])
    else:
        yield from unlike(runs, f"convert {kind} T", {"T": text}, [wanted])
        yield from unlike(runs, f"convert {kind} T", {"T": wanted}, [wanted])


def read_no_more(runs, text, wanted):
    """Yields what is wrong if a text isn't refused after so many reads."""
    runs.write("T", text)
    status, *_ = runs.run("convert gr T", 1, COUNTS=runs.path("counts"))
    reads = int(runs.read("counts").split()[1])
    if (status, reads) != (1, wanted):
        yield f"status {status} after {reads} reads, and not {wanted}"


def texts(runs):
    for kind in TEXTS:
        for name, *row in rows(kind):
            runs.case(f"{kind}, {name}", converted(runs, kind, *row))
    for text, reads in LAST_READS:
        runs.case(f"reads of {text!r}", read_no_more(runs, text, reads))
    for number, (text, printed) in enumerate(BYTES + LONG_LINES):
        sizes = SIZES if len(text) < len(LONGEST) else LONG_SIZES
        runs.case(f"bytes {number}", unlike(runs, "convert gr T", {"T": text}, [printed], sizes=sizes))
    endless = runs.run("convert gr /dev/zero")
    runs.case("a line without an end", [endless] * (endless != (1, "x instance 1 0 LineTooLong\n", "")))


# ---- judges


def judged(runs, command, instance, claim, certificate, size=None):
    """What a judge answers to these texts."""
    return runs.answers(f"judge-{command} I S C", {"I": instance, "S": claim, "C": certificate}, (), size)


def cut_off(runs, command, given):
    """Yields where texts that are cut off aren't judged alike whole and byte by byte."""
    for at, text in enumerate(given):
        for end in range(len(text)):
            shorter = [*given[:at], text[:end], *given[at + 1 :]]
            whole, by_byte = judged(runs, command, *shorter), judged(runs, command, *shorter, 1)
            if whole != by_byte:
                yield f"text {at + 1} up to byte {end}: whole {whole}, by bytes {by_byte}"


def judges(runs):
    for words in ("judge-max I S C", "judge-min I S C", "judge-paths I S C", "judge-infeasible I C"):
        command, *names = words.split()
        for name, *given, output in rows(command):
            runs.case(f"{command}, {name}", unlike(runs, words, dict(zip(names, given)), [output]))
    for command, cut_row in CUT_OFF:
        given = next(texts for name, *texts, _ in rows(f"judge-{command}") if name == cut_row)
        runs.case(f"judge-{command}, cut off", cut_off(runs, command, given))


# ---- certifiers


def better_leads_to(runs, command, instance, solution, verdict):
    """Yields what is wrong if better solutions, claimed in turn, don't end in this verdict."""
    refusal = f"x solution 1 2 {'NotMaximum' if command == 'max' else 'NotLeast'}\n"
    for _ in range(MOST_STEPS):
        status, printed, made = runs.answers(f"certify-{command} I S W", {"I": instance, "S": solution}, ["W"])
        if status == 0:
            if printed != verdict or judged(runs, command, instance, solution, made) != (0, verdict):
                yield f"{solution!r} with {made!r} prints {printed!r}"
            return
        if printed != refusal:
            yield f"{solution!r} prints {printed!r}"
            return
        solution = made
    yield "steps without end"


def made_right(runs, words, texts, wanted, output, judge, sizes=SIZES):
    """Yields what is wrong with a run that makes the texts of these names, in pieces of each size: with what it prints,
    and with what it makes, which is the same each time, and which a judge has to accept after a yes."""
    first = None
    for size in sizes:
        status, printed, *made = runs.answers(words, texts, list(wanted), size)
        first = first or made
        is_made = made == first and all(map(is_right, made, wanted.values()))
        if (status, printed) != (status_of(output), output) or not is_made:
            yield f"by {size} bytes prints {printed!r} and writes {made!r}"
        elif status == 0 and runs.run(judge) != (0, output, ""):
            yield f"{made!r} isn't accepted"


def certified_flow(runs, command, instance, solution, certificate, output, verdict=""):
    """Yields what is wrong with a row of a certified flow."""
    words, given = f"{command} I S W", {"I": instance, "S": solution}
    sizes = sizes_for(instance)
    yield from made_right(runs, f"certify-{words}", given, {"W": certificate}, output, f"judge-{words}", sizes)
    if verdict:
        yield from better_leads_to(runs, command, instance, runs.read("W"), verdict)


def certified_set(runs, instance, certificate, output):
    """Yields what is wrong with a row of an infeasible instance."""
    words, given = "infeasible I W", {"I": instance}
    sizes = sizes_for(instance)
    yield from made_right(runs, f"certify-{words}", given, {"W": certificate}, output, f"judge-{words}", sizes)
    if output.startswith("x ") and runs.read("W"):
        _, answer, _ = runs.run("certify-min I W B")
        if not re.fullmatch(r"v min .*\n|x solution 1 2 NotLeast\n", answer):
            yield f"{runs.read('W')!r} isn't feasible: {answer!r}"


def certifiers(runs):
    for command in ("max", "min"):
        for name, *row in rows(f"certify-{command}"):
            runs.case(f"certify-{command}, {name}", certified_flow(runs, command, *row))
    for name, *row in rows("certify-infeasible"):
        runs.case(f"certify-infeasible, {name}", certified_set(runs, *row))
    for name, graph, distances, labels, output in rows("certify-paths"):
        given = {"G": graph, "D": distances}
        runs.case(f"certify-paths, {name}", unlike(runs, "certify-paths G D W", given, [output, labels], ["W"]))


# ---- solvers


def solved(runs, command, limit, instance, solution, certificate, output):
    """Yields what is wrong with a row of a solver of flows."""
    judge = "judge-infeasible I C" if output == "v infeasible\n" else f"judge-{command} I S C"
    wanted = {"S": solution, "C": certificate}
    yield from made_right(runs, f"solve-{command} I S C --limit {limit}", {"I": instance}, wanted, output, judge)


def solved_paths(runs, graph, queries, labels, output):
    """Yields what is wrong with a row of the solver of distances."""
    words, given = "paths I S C", {"I": graph, "S": queries}
    yield from made_right(runs, f"solve-{words}", given, {"C": labels}, output, f"judge-{words}")


def solvers(runs):
    for command in ("max", "min"):
        for name, *row in rows(f"solve-{command}"):
            runs.case(f"solve-{command}, {name}", solved(runs, command, *row))
        for name, instance, solution, dealt, output in rows(f"spread-{command}"):
            given = {"I": instance, "S": solution}
            runs.case(f"spread-{command}, {name}", unlike(runs, f"spread-{command} I S W", given, [output, dealt], ["W"]))
    for name, *row in rows("solve-paths"):
        runs.case(f"solve-paths, {name}", solved_paths(runs, *row))


# ---- commands


def events(runs, log):
    """What was done with files by the log of refusals.c, in the words of a row."""
    created = set()
    for line in log.splitlines():
        done, name = re.fullmatch(r"((?:not )?\w+) (.*)", line).groups()
        if "/" in name:
            continue
        if done == "created":
            created.add(name)
        signs = {"opened": "<", "created": ">", "not opened": "! <", "not created": "! >"}
        signs["closed"] = "=" if name in created else "-"
        yield f"{signs[done]} {name}\n"
        if signs[done] == "=" and not os.path.islink(runs.path(name)):
            yield runs.read(name)


def ended(runs, words, done, output, complaint, status):
    """Yields what is wrong with a row of a command."""
    for name, text in rows("files"):
        runs.write(name, text)
    for name in ("a", "b"):
        if os.path.exists(runs.path(name)):
            os.remove(runs.path(name))
    *ran, complained = runs.run(words, EVENTS=runs.path("events"))
    if ran != [int(status), output]:
        yield f"{ran}, and not {[int(status), output]}"
    if complaint and f"dimacs: {complaint.replace(' ', ': ', 1)}: " not in complained:
        yield f"complains {complained!r}"
    found = "".join(events(runs, runs.read("events")))
    if found != done:
        yield f"does {found!r}, and not {done!r}"


def commands(runs):
    for name in ("broken", "denied"):
        os.mkdir(runs.path(name))
    os.symlink("/dev/full", runs.path("full"))
    for words, *row in rows("commands"):
        runs.case(words, ended(runs, words, *row))


def main():
    binary = os.path.abspath([*sys.argv, BINARY][1])
    with tempfile.TemporaryDirectory() as built, tempfile.TemporaryDirectory(dir=MEMORY) as folder:
        runs = Runs(binary, refusing_library(built), folder)
        for part in (texts, judges, certifiers, solvers, commands):
            part(runs)
    runs.counts.end()


if __name__ == "__main__":
    main()
