"""Solvers that are run: in turn, within limits, and what each run took, which is kept beside its answer."""
import json
import os
import re
import shlex
import shutil
import signal
import stat
import sys
import time
from contextlib import suppress
from typing import NamedTuple

from dimacs_batch import ANY_NAMES, fail
from dimacs_batch.answers import DISTANCES, LABELS, SOLUTIONS, Task, instances_in, path_in, walk
from dimacs_batch.box import box_of, boxed
from dimacs_batch.files import head_of, install, mark_of, plain, queries_of, split, temporary, text_of, unpack
from dimacs_batch.options import HERE
from dimacs_batch.runs import LONGEST, name_of

RUNNER = [sys.executable, "-I", "-S", os.path.join(HERE, "runner.py")]
LATEST = 20  # seconds that a runner has beyond the limit by the clock to end all
NUMBER = r"[0-9]{1,15}(\.[0-9]{1,15})?(e[+-][0-9]{1,2})?"  # of what a run takes, and of a limit

# The columns of a run. Those that are known before it decide whether it has to be made anew.
KNOWN = ["round", "run", "run_version", "run_box", "run_limits", "run_sha256"]
RUN = [*KNOWN, "end", "run_cpu", "run_seconds", "run_memory", "run_date", "run_host"]

# What is kept: the columns, the hash of the answer and of the one that it replaces, and the last line printed.
KEPT = [*RUN, "answer_sha256", "replaced", "said"]

# Why a run that was ended has no answer.
LIMITS = {
    "seconds": "ended after {0} s of the processor", "clock": "ended after {1} s by the clock",
    "memory": "ended beyond {2} MB",
}


def machine():
    """This machine: its name, processors, memory and system."""
    with open("/proc/cpuinfo", **ANY_NAMES) as it:
        found = re.search("^model name[ \t]*: (.*)$", it.read(), re.MULTILINE)
    its, memory = os.uname(), os.sysconf("SC_PHYS_PAGES") * os.sysconf("SC_PAGE_SIZE") / (1 << 30)
    model = found[1] if found else its.machine
    return f"{its.nodename}: {os.cpu_count()} x {model}, {memory:.0f} GB, {its.sysname} {its.release}"


class Run(NamedTuple):
    """What is run: the words to be filled in, the queries that they name, the round, the limits, and what keeps it."""

    words: list
    query: str
    round: int
    limits: list
    place: str


def races(options, keep):
    """Yields the tasks of a race: all solvers on each instance, forwards and backwards in turn, round by round."""
    folder, limits = options.places[0], [options.solver_seconds, options.solver_clock, options.solver_memory]
    out, inside, seen = options.answers or path_in(folder, "answers"), os.path.join(folder, "instances"), {}
    folders = walk(inside if os.path.isdir(inside) else folder, but=[out, keep])
    instances = [one for it in folders for one in instances_in(*it)]
    for turn in range(options.rounds):
        for it, query in ((it, one) for it in instances for one in queries_of(it.files[0]) or [""]):
            (file,), others = it.files, queries_of(it.files[0])[1:]
            for name, kind, words in options.solvers[:: -1 if turn % 2 else 1]:
                asks = re.findall("{(query|labels)}", " ".join(words)) if it.kind == "gr" else []
                if kind not in ("", it.kind) or query in others and not asks:
                    continue
                stem = path_in(out, os.path.join(name, *it.folders, it.name))
                stem += (split(query)[1] if others and asks else "") + (f".{turn + 1}" if turn else "")
                if seen.setdefault(stem, file) != file:
                    fail(f"{file}, {seen[stem]}: their answers have one name: rename one")
                ending = LABELS if "labels" in asks else DISTANCES if it.kind == "gr" else SOLUTIONS[0]
                run = Run(words, query, turn + 1, [f"{one:g}" for one in limits], f"{stem}.run")
                lacks = "it has no queries" if "labels" in asks and not query else ""
                beside = [query] if query and ("labels" in asks or others and asks) else []
                yield Task(file, [*beside, stem + ending], name, it.kind, [], lacks, run)


def kept(place):
    """What is kept of a run; nothing if none is."""
    if not os.path.lexists(place):
        return {}
    with open(place, **ANY_NAMES) as it, suppress(ValueError, TypeError, KeyError, RecursionError):
        found = json.load(it)
        numbers = (re.fullmatch(NUMBER, found[it]) for it in ("run_cpu", "run_seconds", "run_memory"))
        if all(isinstance(found[it], str) for it in KEPT) and all(numbers):
            return found
    raise OSError(0, "isn't what is kept of a run", place)


def now():
    return time.strftime("%Y-%m-%dT%H:%M:%SZ", time.gmtime())


def filled(task, **others):
    """The words of a run, with names filled in."""
    names = {"instance": task.instance, "query": task.run.query, **others}
    return [re.sub(r"\{(\w+)\}", lambda it: names.get(it[1], it[0]), word) for word in task.run.words]


def shown(line):
    """A line without what moves and colors a terminal."""
    line = re.sub(r"\x1b\[[0-9;?]*[A-Za-z]", "", line)
    return "".join(it if it.isprintable() else " " for it in line).strip()


def hash_at(place):
    """The hash of a file; of one that isn't there, none."""
    return text_of(place).sha256 if os.path.lexists(place) else ""


def has_bytes(file):
    """Whether a solver wrote something there: no link, and no pipe."""
    return os.path.lexists(file) and stat.S_ISREG(os.lstat(file).st_mode) and os.path.getsize(file) > 0


def why_none(run, found):
    """Why a run has no answer; nothing if it has one."""
    if found["answer_sha256"]:
        return ""
    if found["end"] in LIMITS:
        return LIMITS[found["end"]].format(*run.limits)
    return f"no answer of the solver: {found['end']}" + (f": {found['said']}" if found["said"] else "")


class Race:
    """Runs solvers that haven't been run yet on the same files within the same limits, if it may."""

    def __init__(self, runs, options, tasks):
        instances = {task.instance for task in tasks if task.run}
        self.marks = {one: mark_of(one) for it in instances for one in (it, *queries_of(it))}  # of what is solved
        self.runs, self.may_run, self.box, self.stood = runs, True, box_of(options), 0
        self.versions = {name: self.version(name, options) for name in options.versions}

    def version(self, name, options):
        """The first line that a solver prints of itself."""
        words, limits = options.versions[name], ["60", "60", str(options.solver_memory)]
        with temporary() as room:
            self.run(words, room, limits, os.devnull, os.path.join(room, "said"))
            lines = head_of(os.path.join(room, "said")).decode("utf-8", "replace").strip()
        return shown(lines.partition("\n")[0][:LONGEST]) or fail(f"--solver-version {name}: {words[0]} printed nothing")

    def known(self, task):
        """What decides whether a run stands: its words, version, box, limits, hashes of its program and other files."""
        run, words = task.run, filled(task)
        files = [shutil.which(words[0]) or "", *words[1:], task.instance, *task.answers[:-1]]
        hashes = " ".join(text_of(it).sha256 for it in dict.fromkeys(filter(os.path.isfile, files)))
        its = [shlex.join(run.words), self.versions.get(task.solver, ""), self.box, " ".join(run.limits), hashes]
        return dict(zip(KNOWN, [str(run.round), *its]))

    def take(self, task, known):
        """What is kept of the run of a task, after it."""
        place, answer = task.run.place, task.answers[-1]
        before, found, there = hash_at(place), kept(place), hash_at(answer)
        is_whole = found and found["answer_sha256"] == there
        if is_whole and not (self.may_run and any(found[it] != known[it] for it in KNOWN)):
            self.stood += 1
            return found
        if not self.may_run:
            raise OSError(0, "isn't there with its answer", place)
        if there and there not in (found.get("answer_sha256"), found.get("replaced")):
            raise OSError(0, "is there, is no run's, and isn't replaced", answer)
        return self.made(task, known, before, there)

    def made(self, task, known, before, there):
        """Runs a solver. What it took replaces what was kept before, then its answer the one that is there."""
        place, answer = task.run.place, task.answers[-1]
        text_of(task.instance)  # of one that can't be read the row says so
        os.makedirs(os.path.dirname(answer), exist_ok=True)
        with temporary() as folder:
            room, new = os.path.join(folder, "room"), os.path.join(folder, "new")
            solution, certificate = (os.path.join(room, it) for it in ("solution", "certificate"))
            os.mkdir(room)
            took = self.solve(task, folder, room, solution, certificate)
            for it in (task.instance, *queries_of(task.instance)):
                if mark_of(it) != self.marks.get(it):  # it isn't what the others solve
                    fail(f"{it}: was changed since the race began, at last while {task.solver} ran")
            # No solution beside a certificate claims that no flow is feasible, as `dimacs solve-min` writes it.
            if task.kind == "min" and took["status"] == 0 and has_bytes(certificate) and not has_bytes(solution):
                solution = os.path.join(folder, "claim")
                with open(solution, "x", encoding="ascii") as it:
                    it.write("s infeasible\n")
            if took["end"] == "ended" and took["status"]:
                number = took["status"] - 128 if took["status"] > 128 else -took["status"]  # as shells and boxes say it
                took["end"] = name_of(number) if 0 < number <= signal.SIGRTMAX else f"status {took['status']}"
            has_answer = took["end"].startswith(("ended", "status")) and has_bytes(solution)
            made = {
                **known, "end": took["end"], "run_cpu": f"{took['cpu']:.3f}", "run_seconds": f"{took['seconds']:.3f}",
                "run_memory": str(took["memory"]), "run_date": now(), "run_host": machine(), "replaced": there,
                "answer_sha256": hash_at(solution) if has_answer else "", "said": shown(took["said"]),
            }
            with open(new, "x", **ANY_NAMES) as it:
                it.write(json.dumps(made, indent=0) + "\n")
            install(new, place, before)
            if has_answer:
                install(solution, answer, there)
            elif there:
                os.unlink(answer)
        return made

    def solve(self, task, folder, room, solution, certificate):
        """What a run took. A compressed instance is unpacked first."""
        instance, asked = task.instance, " ".join(task.run.words)
        if plain(instance) != instance:
            instance = os.path.join(folder, f"instance{split(instance)[1]}")
            unpack(task.instance, instance)
        source = os.devnull if "{instance}" in asked else instance
        output = "" if re.search("{(solution|labels)}", asked) else solution
        words = filled(task, solution=solution, labels=solution, certificate=certificate, instance=instance)
        return self.run(words, room, task.run.limits, source, output, [instance, task.run.query])

    def run(self, words, room, limits, source, output, files=()):
        """What a solver took, which may write to its room alone if it is in a box."""
        how = [*RUNNER, str(os.getpid()), *limits, source, output, *boxed(words, room, self.box, files)]
        said = self.runs.run_solver(how, float(limits[1]) + LATEST).strip()
        if not said:
            raise OSError(0, "was ended from outside", words[0])
        return json.loads(said.rpartition(b"\n")[2])  # whatever stands before the runner's line
