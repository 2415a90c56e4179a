#!/usr/bin/env python3
"""Compares the program with both referees: tests/referee.py [BINARY] [COUNT] [SEED]

The program, referee/referee.py and the judge in Coq (`make referee`) judge COUNT cases (10,000 if it isn't given), whose
texts spoiled_texts.py makes at random, and have to print the same, with the same status. Listed is how often each answer
of a judge was met, and each fault of a text by KIND, letter, field and reason; what wasn't met has failed, but
LineLimit, which takes 10^12 lines, unless there are fewer cases. A fifth as many claims are certified without a certificate, by the program and by the
judge in Coq (certified.py); its search made wrong, this gives no wrong answer. Then all run with files and outputs that
fail, and with wrong arguments. At last the referees alone judge the rows of tests/rows, and dimacs-batch takes the judge
in Coq as its program.

BINARY is the built program; crates/dimacs/out/dimacs by default. Without Coq its judge is left out.
"""
import collections
import concurrent.futures
import csv
import itertools
import os
import subprocess
import sys
import tempfile

import certified
import scripts
from certified import Texts, run
from instances import BINARY, MEMORY, refusing_library
from rows import TEXTS, Runs, certifiers, rows
from second_proof import built_judge
from spoiled_texts import JUDGES, KINDS, judged_texts
import kernel  # the folder of which spoiled_texts.py adds to the path
import referee

WORKERS = 4

# So many cases meet all that is to be met.
ENOUGH = 10_000

# The judges in turn. Labels have the most places where they can fail.
COMMANDS = ["max", "min", "infeasible", "paths", "paths"]

FLOW_REFUSALS = ["x solution UnknownArc", "x solution ArcTwice", "x arc BelowLow", "x arc AboveCap", "x node Balance"]
FLOW_REFUSALS += ["x solution ValueDiffers", "x certificate NodesDiffer"]

# The answers of each judge, beside the faults of its texts.
ANSWERS = {
    "max": ["v max", *FLOW_REFUSALS, "x node SourceOutside", "x node SinkInside", "x arc NotSaturated", "x arc BackFlow"],
    "min": ["v min", *FLOW_REFUSALS, "x arc CostRange", "x arc NotTight"],
    "infeasible": ["v infeasible", "x certificate NodesDiffer", "x certificate NotViolated"],
    "paths": ["nothing", "v sp ss", "v DIST", "v unreachable", "v more", "x certificate NodesDiffer", "x node QueryNode"]
    + ["x node BlockMissing", "x arc NegativeWeight", "x node NoTightArc", "x arc Escapes", "x arc NotShortest"],
}


def verdict(command, line):
    """What a line of a verdict is listed as."""
    words = line.split()
    if command != "paths":
        return " ".join(words[:2])
    if words[1] == "sp":
        return "v sp ss"
    return f"v {words[3]}" if words[3] in ("unreachable", "more") else "v DIST"


def fault(command, texts, text, line, field, reason):
    """What a fault is listed as."""
    kinds = JUDGES[command][1]
    at = [KINDS[kind][0] for kind in kinds].index(text)
    lines = texts[at].split("\n")
    if reason in ("LineTooLong", "UnknownLine"):
        letter = "any"
    elif line > len(lines) or line == len(lines) and not lines[-1]:
        letter = "end"
    else:
        letter = referee.fields_of(lines[line - 1])[0]
    return f"{kinds[at]} {letter} {field} {reason}"


def met(command, texts, output):
    """What is met by an output."""
    words = output.split()
    if words[:1] != ["x"]:
        return {f"judge-{command}: {verdict(command, line)}" for line in output.splitlines()} or {"judge-paths: nothing"}
    refusal = f"x {words[1]} {words[-1]}"
    if refusal in ANSWERS[command]:
        return {f"judge-{command}: {refusal}"}
    _, text, line, field, reason = words
    return {fault(command, texts, text, int(line), field, reason)}


def to_be_met():
    """All answers, and each condition of a text's fault at each of its places."""
    listed = [f"judge-{command}: {answer}" for command, answers in ANSWERS.items() for answer in answers]
    for kind in KINDS:
        listed += [f"{kind} any 0 LineTooLong", f"{kind} any 1 UnknownLine"]
    for (kind, letter, _), (_, columns) in referee.FORMS.items():
        listed.append(f"{kind} {letter} 0 FieldCount")
        for place, column in enumerate(columns, 2):
            reasons = ["BadWord"] if isinstance(column, set) else ["BadNumber", "NumberRange"]
            listed += [f"{kind} {letter} {place} {reason}" for reason in reasons]
    for (kind, letter), conditions in referee.ROWS.items():
        listed += [f"{kind} {letter} {field} {reason}" for reason, _, _, field in conditions]
    for reason, kinds, _ in referee.CONDITIONS_AT_END:
        listed += [f"{kind} end 0 {reason}" for kind in kinds.split()]
    return list(dict.fromkeys(listed))


def write(folder, texts):
    for name, text in texts.items():
        Texts(folder).write(name, text)


def answer(words, folder):
    ran = subprocess.run(words, stdout=subprocess.PIPE, stderr=subprocess.STDOUT, cwd=folder, check=False)
    return ran.returncode, ran.stdout.decode("latin-1")


def compared(binary, judge, cases):
    """What some cases meet, how often; and those in which the answers differ."""
    found, differing = collections.Counter(), []
    with tempfile.TemporaryDirectory(dir=MEMORY) as folder:
        for command, seed in cases:
            texts = judged_texts(command, seed)
            names = "ISC"[: len(texts)]
            write(folder, dict(zip(names, texts)))
            plain, proved = referee.judge(command, texts), answer([binary, f"judge-{command}", *names], folder)
            second = answer([judge, command, *names], folder) if judge else plain
            found.update(met(command, texts, plain[1]))
            if not proved == plain == second:
                answers = f"the program {proved}, the referee {plain}, the judge in Coq {second}"
                differing.append(f"judge-{command}, {seed}: {answers}, {texts}"[:2000])
    return found, differing


def by_workers(compare, commands, binary, judge, count, seed):
    """What so many cases of these commands meet, how often, and those in which the answers differ."""
    cases = [(commands[number % len(commands)], f"{seed}:{number}") for number in range(count)]
    found, differing = collections.Counter(), []
    with concurrent.futures.ProcessPoolExecutor(WORKERS) as pool:
        for counts, more in pool.map(compare, *map(itertools.repeat, (binary, judge)), [cases[k::50] for k in range(50)]):
            found += counts
            differing += more
    return found, differing


def compare_all(binary, judge, count, seed):
    """What is met by all cases, which is listed, and how it fails."""
    found, failures = by_workers(compared, COMMANDS, binary, judge, count, seed)
    listed = to_be_met()
    for it in listed:
        print(f"{found[it]:6} {it}")
    failures += [f"never met: {it}" for it in listed if not found[it] and count >= ENOUGH]
    failures += [f"not listed: {it}" for it in found if it not in listed]
    return count + len(listed), failures


def certify_all(binary, judge, count, seed):
    """How many claims are certified, and which of them otherwise by the judge in Coq; the same for wrong searches."""
    found, failures = by_workers(certified.compared, certified.COMMANDS, binary, judge, count, seed)
    failures += [f"certify-{it}: never met" for it in certified.ANSWERS if not found[it] and count >= ENOUGH // 5]
    parts = [(count, failures), certified.wrong_searches(binary, 24)]
    parts += [it(judge, FILES) for it in (certified.refused_calls, certified.files_on_devices, certified.limited_runs)]
    return sum(tests for tests, _ in parts), [failure for _, some in parts for failure in some]


# ---- the commands

FILES = {
    "max": "p max 2 1\nn 1 s\nn 2 t\na 1 2 1\n",
    "flow": "s 1\nf 1 2 1\n",
    "zero": "s 0\n",
    "gr": "p sp 1 0\n",
    "wide": "p sp 20000 0\n",
    "many": "p aux sp p2p 20000\n" + "".join(f"q 1 {v}\n" for v in range(1, 20_001)),
    "apart": "p dist 20000 1\nt 1 0\n",
    "dist": "p dist 1 1\nt 1 0\n",
    "cut": "p cut 2 1\nu 1\n",
    "near": "p distances 1 1\nt 1 0\n",
    "min": "p min 1 0\nn 1 1\n",
    "set": "p cut 1 1\nu 1\n",
    "faulty": "p max 2 1\nn 1\n",
    "long": "c\n" * 1000,
}

# The arguments, after `judge-` for the program. A folder can be opened, but not read.
RUNS = [
    *["max max flow cut", "infeasible min set", "max faulty flow cut", "max max faulty cut", "max max flow max"],
    *["", "max", "max max flow", "max max flow cut cut", "infeasible min set set", "other max flow cut"],
    *["max max flow cut\udcff", "max \udcff flow cut", "--help", "max max flow --help"],
    *["max absent flow cut", "max max absent cut", "max faulty flow absent", "max absent absent absent"],
    *["max folder flow cut", "max max folder cut", "max faulty folder cut", "max max faulty folder"],
    *["max absent1 absent2 cut", "max loop flow cut", "max flow/in flow cut", f"max {'a' * 300} flow cut", "paths wide many apart"],
    # Bytes just outside of UTF-8, and just inside.
    *[f"max {name} flow cut" for name in ["\udce0\udc9f\udcbf", "\udced\udca0\udc80", "\udcf0\udc8f\udcbf\udcbf", "\udcc1\udcbf"]],
    *[f"max {name} flow cut" for name in ["\udcf4\udc90\udc80\udc80", "\u0800", "\ud7ff", "\U00010000", "\U0010ffff"]],
]

# Those of certifiers, which the referee in Python doesn't have.
CERTIFIED_RUNS = [
    *["max max flow", "max max flow made", "max max zero", "max max zero made", "infeasible min made"],
    *["paths gr near made", "max max flow made more", "max max", "infeasible", "infeasible min made more"],
    *["max max flow \udcff", "max max flow folder", "max max zero absent/made", "max faulty flow made"],
    *["max max absent made", "max max flow /dev/full", "max max flow long", "max max zero long", "infeasible min long"],
    # What is written is read, or its name looks like an option.
    *["max max flow ./max", "max max flow linked", "infeasible min min", "paths gr near near", "max max flow --made"],
]

# How the shell closes devices, or fills them; `|` is a pipe that nobody reads.
CLOSED = [("max absent flow cut", "2>&-"), ("max absent flow cut", "2>/dev/full"), ("max max flow cut", ">&-"), ("max", "2>&-")]
CLOSED += [("max max flow cut", "<&- >&-"), ("max max flow cut", "<&- 2>&-"), ("max max flow max", ">&- 2>&-")]
CLOSED += [("max max flow cut", ">/dev/full"), ("max max flow max", ">/dev/full"), ("max max flow cut", "|")]


def ended(words, how, folder):
    """How a command ends whose devices are closed so, and what all files hold then, but for long ones."""
    write(folder, FILES)
    if how == "|":
        unread, pipe = os.pipe()
        os.close(unread)
        answer = run(words, folder, pipe)
        os.close(pipe)
    else:
        answer = run([*["sh", "-c", f'"$@" {how}', "sh"], *words] if how else words, folder)
    answer = *answer[:2], [it for it in answer[2] if not it.startswith("Coq checks")]
    made = Texts(folder).taken("made")
    return answer, made, {name: Texts(folder).read(name) for name in FILES if name != "many"}


def compare_commands(binary, second):
    """How many runs there are, and those in which the answers differ."""
    failures, runs = [], [("judge", words, "") for words in RUNS] + [("judge", *it) for it in CLOSED]
    if second:
        runs += [("certify", words, "") for words in CERTIFIED_RUNS]
        runs += [("certify", "max max flow made", how) for _, how in CLOSED]
    with tempfile.TemporaryDirectory(dir=MEMORY) as folder:
        os.mkdir(os.path.join(folder, "folder"))
        os.symlink("loop", os.path.join(folder, "loop"))
        os.symlink("flow", os.path.join(folder, "linked"))
        for kind, words, how in runs:
            proved = ended([binary, *(f"{kind}-{words}" if words else "").split()], how, folder)
            others = [[sys.executable, referee.__file__, *words.split()]] if kind == "judge" else []
            programs = [[second], *([[sys.executable, kernel.__file__]] if how else [])] if second else []
            others += [[*it, *(words if kind == "judge" else f"certify-{words}").split()] for it in programs]
            answers = [ended(it, how, folder) for it in others]
            for program, it in zip(others, answers):
                if it != proved:
                    failures.append(f"{kind}-{words!a} {how}: the program {proved[:2]}, {program[-2:]} {it[:2]}"[:2000])
    return len(runs), failures


# ---- the rows of tests/rows


def judged_rows(second):
    """Each row of a judge: its name, what a referee answers, and what it has to."""
    for command in JUDGES:
        for name, *texts, output in rows(f"judge-{command}"):
            wanted = (int(output.startswith("x ")), output)
            yield f"{command}, {name}", referee.judge(command, texts), wanted
            if second:
                yield f"{command}, {name}, in Coq", second(command, texts), wanted


# A text without a fault of each kind that comes before another.
BEFORE = {"solution": ["p max 2 0\nn 1 s\nn 2 t\n"], "pot": ["p min 0 0\n", "s 0\n"], "cut": ["p min 0 0\n"]}
BEFORE |= {"query": ["p sp 0 0\n"], "distances": ["p sp 0 0\n"], "dist": ["p sp 0 0\n", "p aux sp ss 0\n"]}


def plain_refusal(kind, text):
    """The fault that the referee in Python finds in a text of a kind, or nothing."""
    try:
        referee.read(kind, text)
    except referee.Refused as refused:
        return str(refused)
    return ""


def refusal_of(second, kind, text):
    """The fault that the judge in Coq finds in a text of a kind, or nothing."""
    before, command, count = BEFORE.get(kind, []), "certify-paths", 2
    if kind in KINDS:
        command = "infeasible" if kind == "cut" else next(it for it in JUDGES if kind in JUDGES[it][1])
        count = len(JUDGES[command][1])
    printed = second(command, [*before, text, *[""] * (count - len(before) - 1)])[1]
    words = printed.split()
    is_fault = len(words) == 5 and words[1] == TEXTS[kind] and words[2] != "0"
    return printed.strip("\n") if is_fault and words[4] not in ("ValueDiffers", "UnknownArc", "ArcTwice") else ""


def read_rows(second):
    """Each row of a text: its name, the refusal of a referee or nothing, and what it has to be."""
    for kind, text_name in TEXTS.items():
        for name, text, asked, wanted in rows(kind):
            is_refused = asked == "refused" or wanted.startswith("x ")
            wanted = f"x {text_name} {wanted}" if asked == "refused" else wanted
            wanted = wanted.strip("\n") if is_refused else ""
            if kind in KINDS:
                yield f"{kind}, {name}", plain_refusal(kind, text), wanted
            if second:
                yield f"{kind}, {name}, in Coq", refusal_of(second, kind, text), wanted


def certifier_tables(judge):
    """How many rows of the certifiers there are, and how many fail."""
    if not judge:
        return 0, []
    with tempfile.TemporaryDirectory() as built, tempfile.TemporaryDirectory(dir=MEMORY) as folder:
        runs = Runs(judge, refusing_library(built), folder)
        certifiers(runs)
    return runs.counts.passed + runs.counts.failed, ["a row of a certifier, in Coq"] * runs.counts.failed


def compare_batches(binary, judge):
    """How many rows dimacs-batch makes of the examples, and those in which the judge in Coq as its program differs."""
    tables = []
    with tempfile.TemporaryDirectory() as folder:
        for number, program in enumerate([binary, judge] if judge else []):
            table = f"{folder}/{number}.csv"
            words = ["tools/dimacs-batch", "--program", program, "examples", "-o", table]
            subprocess.run(words, cwd=scripts.TOP, stderr=subprocess.DEVNULL, check=False)
            with open(table, encoding="utf-8", newline="") as it:
                tables.append([tuple(row[name] for name in ("command", "verdict", "class")) for row in csv.DictReader(it)])
    differing = [f"dimacs-batch: {rows[0]}, and by judge {rows[1:]}" for rows in zip(*tables) if len(set(rows)) > 1]
    return len(tables and tables[0]), differing


def judge_tables(judge):
    """How many rows there are, and those in which a referee is wrong."""
    with tempfile.TemporaryDirectory(dir=MEMORY) as folder:

        def second(command, texts):
            names = "ISC"[: len(texts)]
            write(folder, dict(zip(names, texts)))
            return answer([judge, command, *names], folder)

        found = [it for part in (judged_rows, read_rows) for it in part(second if judge else None)]
    return len(found), [f"{name}: {plain}, and not {wanted}" for name, plain, wanted in found if plain != wanted]


def main():
    binary, count, seed = [*sys.argv[1:], *[BINARY, str(ENOUGH), "1"][len(sys.argv) - 1 :]]
    binary = os.path.abspath(binary)
    second = built_judge()
    parts = [compare_all(binary, second, int(count), seed), compare_commands(binary, second), judge_tables(second)]
    parts += [certifier_tables(second), compare_batches(binary, second)]
    parts += [certify_all(binary, second, int(count) // 5, seed)] if second else []
    failures = [failure for _, some in parts for failure in some]
    for failure in failures:
        print(f"FAILED: {failure}")
    scripts.finish(sum(tests for tests, _ in parts) - len(failures), len(failures))


if __name__ == "__main__":
    main()
