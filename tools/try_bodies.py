#!/usr/bin/env python3
"""Has wrong bodies refused: tools/try_bodies.py [--apply] [--tenth SEED] [--over-ci] [CRATE..]

They are mistakes made on purpose, and a contract has to refuse each. Without a crate's name those of all are tried. With
--tenth it is a tenth of them, which SEED picks by whole checks, without those that take a proof of the whole crate.

One check of a copy of a crate tries many. Most are tried on a twin: the function stays as it is, and after it, under
another name, comes one with its contract, its proof files and the wrong body. A method of a trait can have no twin, nor
can several functions: they are edited in place, each function once in a check. The check asks for these alone, and takes
the other functions of a proved library by their contracts. What calls a function that is edited in place is tried again
without that. In each check a twin without an edit has to be proved; if it isn't, the twins of other functions are tried
by another check. What lies outside of functions is tried by a check of the whole crate, as is what such checks don't
report.

A wrong body is refused if the proof of the function fails. It fails this script if it is proved, and where it is bad: it
can't be applied or compiled, or the proof fails only since a proof file names what the edit took away.

The checks go over what rt lib proves and builds first, of the crate and of those below it; with --over-ci over what rt
ci left. What they print is kept in crates/CRATE/out/wrong-bodies.

With --apply nothing is tried, and what shows nothing is refused: its old text doesn't stand once in the file, or it
doesn't parse, or changes no code.
"""
import argparse
import collections
import concurrent.futures
import functools
import glob
import hashlib
import json
import os
import re
import shutil
import subprocess
import sys
import tempfile

import edits as bodies
import kit as kits
from functions import functions_in, owner_of
from texts import TOP, read, write

# The checks that run at once, and the edits in one of them.
JOBS = os.cpu_count()
EDITS = 24

REFUSED, PROVED, BAD, LEFT = "refused", "proved", "bad", "left"

NO_PROOF = re.compile(r"^fn (\S+): no proof: expected answers in", re.M)
PROOF_ERROR = re.compile(r"^(?:note: )?(?:\./)?(proofs/\S+?):\d+:\d+: error(.*(?:\n  .*)*)", re.M)
CODE_ERROR = re.compile(r"^(?:\./)?(src/\S+?):(\d+):\d+: error(.*)", re.M)
LOST = re.compile(r"has\s+no field|is not in scope|has\s+no `|was not admitted")

# What a check reports of what is proved, or is but for functions that are taken by their contracts, and how these are.
AS_PROVED = ("proved", "no holes", "depends on a hole")
HOLE = """use Rattle.{module}.Statement.{{statement}}

pub {name}_spec : {{M : Type 1}} → statement M
{name}_spec = ?
"""

# What a check printed, with its status, and the processor minutes that it took, by its crate.
Report = collections.namedtuple("Report", "status text minutes")


class Place(collections.namedtuple("Place", "file function")):
    """A function in a file of a crate."""

    def is_of_trait(self):
        return bool(re.search(r"\bfor\b|\btrait\b", re.sub(r"for<", "", self.function.block)))

    def path(self, name):
        """The function under this name, as a check names it: of a method, whose type may be of another module, the end."""
        parts = self.file[len("src/") : -len(".rt")].split("/")
        owner = owner_of(self.function.block) if self.function.block else ""
        return [owner, name] if owner else [*([] if parts == ["lib"] else parts), name]


class Edit:
    """A wrong body: what it makes of a file, and the functions that it changes, if it changes nothing else."""

    def __init__(self, body):
        self.crate, self.name, self.file = body.crate, body.name, body.file
        self.functions, self.result, self.why = [], None, None
        try:
            self.text = body.applied()
            self.find_functions()
        except bodies.Fault as fault:
            self.settle(BAD, str(fault))

    def settle(self, result, why=""):
        self.result, self.why = result, why

    def log(self):
        """A new file for the output of a check."""
        return f"{TOP}/crates/{self.crate}/out/wrong-bodies/{self.name}.{os.urandom(2).hex()}.txt"

    def lines(self):
        """The lines of its file as it makes them: as many as there are, since each of its texts is one line."""
        return self.text.split("\n")

    def find_functions(self):
        found, was = set(), read(f"{TOP}/crates/{self.crate}/{self.file}").split("\n")
        every = list(functions_in(was))
        for number, line in enumerate(self.lines()):
            if line != was[number]:
                around = [Place(self.file, it) for it in every if it.first <= number <= it.last]
                found.add(around[-1] if around else None)
        if None not in found:
            self.functions = sorted(found)

    def may_have_twin(self):
        """Whether it changes one function alone, of no trait."""
        return len(self.functions) == 1 and not self.functions[0].is_of_trait()


class Unedited:
    """What stands for an edit that changes nothing: if it isn't proved, the check shows nothing."""

    def __init__(self, edit):
        self.crate, self.functions = edit.crate, edit.functions

    def lines(self):
        return read(f"{TOP}/crates/{self.crate}/{self.functions[0].file}").split("\n")


class Trial:
    """A copy of a crate with some edits in it: the paths of what each changed there, and where it stands."""

    def __init__(self, crate, room):
        self.crate, self.room = crate, room
        self.folder = f"{TOP}/crates/{crate}"
        self.keys = keys_of(crate)
        self.paths, self.lines, self.control = {}, {}, None
        for part in ("src", "specs", "proofs"):
            if os.path.isdir(f"{self.folder}/{part}"):
                shutil.copytree(f"{self.folder}/{part}", f"{room}/{part}")

    def put_whole(self, edit):
        write(f"{self.room}/{edit.file}", edit.text)

    def path(self, place, name):
        """The path of a function, under this name, as a check prints it; the end of it, if that isn't known."""
        end = place.path(place.function.name)
        found = [it for it in self.keys if it[-len(end) :] == end]
        return [*(found[0] if len(found) == 1 else end)[:-1], name]

    def put_holes(self, edits):
        """Takes all functions by their contracts that aren't edited in place, as rt ci has proved them."""
        in_place = {place for edit in edits if not edit.may_have_twin() for place in edit.functions}
        for place in set(places_in(self.folder)) - in_place:
            path = self.path(place, place.function.name)
            if path in self.keys:
                shutil.rmtree(f"{self.room}/proofs/{'/'.join(path)}", ignore_errors=True)
                text = HOLE.format(module=".".join([self.crate, "proofs", *path]), name=path[-1])
                write(f"{self.room}/proofs/{'/'.join(path)}/Proof.antt", text)
                self.put_stub(place)

    def put_stub(self, place):
        """Empties a function's body, in as many lines: a check reads the code of what it takes by its contract, too."""
        own, file = place.function, f"{self.room}/{place.file}"
        lines = read(file).split("\n")
        if own.last - own.first > 1 and "const fn" not in lines[own.head]:
            lines[own.first + 1 : own.last] = ["unreachable!()", *[""] * (own.last - own.first - 2)]
            write(file, "\n".join(lines))

    def put_in_place(self, edit):
        for file, own in edit.functions:
            lines, edited = read(f"{self.room}/{file}").split("\n"), edit.lines()
            lines[own.first : own.last] = edited[own.first : own.last]
            write(f"{self.room}/{file}", "\n".join(lines))
        self.paths[edit] = [self.path(it, it.function.name) for it in edit.functions]

    def put_twins(self, edits):
        """Puts a twin of each edited function right after it, and one more of the first, without its edit."""
        if edits:
            self.control = Unedited(edits[0])
            edits = [*edits, self.control]
        for number, edit in enumerate(edits):
            (place,) = edit.functions
            name = f"{place.function.name}_edit_{number}"
            self.paths[edit] = [self.path(place, name)]
            self.copy_proofs(place, name)
        for file in {it.functions[0].file for it in edits}:
            here, lines = [it for it in edits if it.functions[0].file == file], []
            for number, line in enumerate(read(f"{self.room}/{file}").split("\n")):
                lines.append(line)
                for edit in (it for it in here if it.functions[0].function.last == number):
                    first = len(lines) + 1
                    lines += twin_of(edit, self.paths[edit][0][-1])
                    self.lines[edit] = file, range(first, len(lines) + 1)
            write(f"{self.room}/{file}", "\n".join(lines))

    def copy_proofs(self, place, name):
        """Gives a twin the proof files of its function."""
        end, proofs = "/".join(place.path(place.function.name)), f"{self.folder}/proofs"
        for folder in glob.glob(f"{proofs}/**/{end}", recursive=True):
            own = os.path.relpath(folder, proofs)
            twin = f"{os.path.dirname(own)}/{name}"
            # a module of the function's, imported by itself or with others of its folder
            was, now = (it.replace("/", ".") for it in (own, twin))
            module = re.compile(rf"(?<=\.proofs\.){re.escape(was)}(?=\.)|(?<=[{{ ]){re.escape(was)}(?=\.\w+\.\{{)")
            for file in glob.glob(f"{folder}/**/*.antt", recursive=True):
                write(f"{self.room}/proofs/{twin}/{os.path.relpath(file, folder)}", module.sub(now, read(file)))

    def edits_at(self, file, line):
        """The edits that an error there may be of: a twin, or what is edited in place in that file."""
        twins = [it for it, (its_file, lines) in self.lines.items() if its_file == file and line in lines]
        others = [it for it in self.paths if it not in self.lines]
        found = twins or [it for it in others if file in {place.file for place in it.functions}]
        return [it for it in found if it is not self.control]

    def calls_edited(self, edit, report):
        """Whether a check reports that one of its functions calls what another edit changed in place, or its impl."""
        others = [path for it, paths in self.paths.items() if it not in self.lines and it is not edit for path in paths]
        names = ["::".join(part) for path in others for part in (path, path[:-1])]
        return any(f"::{name}`" in verdict_at(path, report) for path in self.paths[edit] for name in names)

    def check(self, log):
        """Checks what is edited in the copy, or all of it."""
        words = [*check_words(self.crate), "--jobs", "1", *(["--allow-holes"] if self.paths and self.keys else [])]
        for path in (it for paths in self.paths.values() for it in paths):
            words += ["--only", "::".join(path)]
        write(log, "")
        with open(log, "w", encoding="utf-8") as out:
            started = subprocess.Popen(words, cwd=self.room, stdin=subprocess.DEVNULL, stdout=out, stderr=out)
            _, status, used = os.wait4(started.pid, 0)
        started.returncode = os.waitstatus_to_exitcode(status)
        minutes = collections.Counter({self.crate: (used.ru_utime + used.ru_stime) / 60})
        return Report(started.returncode, read(log), minutes)


def twin_of(edit, name):
    """The lines of the edited function under another name, with the attributes above it."""
    own, lines = edit.functions[0].function, edit.lines()
    above = own.head
    while lines[above - 1].strip().startswith("#["):
        above -= 1
    head = lines[own.head].replace(f"fn {own.name}", f"fn {name}", 1)
    return ["", *lines[above : own.head], head, *lines[own.head + 1 : own.last + 1]]


def is_static(crate):
    return bool(re.search(rf"^{crate} staticlib", read(f"{TOP}/crates.txt"), re.M))


def build(crate):
    """Proves a crate, and builds it and the libraries below it, where they aren't built."""
    is_library = os.path.exists(f"{TOP}/crates/{crate}/src/lib.rt") and not is_static(crate)
    subprocess.run(["rt", "lib" if is_library else "check"], cwd=f"{TOP}/crates/{crate}", check=True)


def check_words(crate, over=TOP):
    """The command that checks a crate in the current folder, over the libraries of a checkout."""
    root = "src/main.rt" if os.path.exists(f"{TOP}/crates/{crate}/src/main.rt") else "src/lib.rt"
    words = [*kits.rattle_words(kits.folder("bin/rattle"), "check", crate, f"{over}/crates"), root]
    return words + (["--crate-type", "staticlib"] if is_static(crate) else [])


def keys_of(crate):
    """The paths of the functions of a library that was proved, as lists; none if it wasn't."""
    file = f"{TOP}/crates/{crate}/out/rlib/{crate}.rlib/toolchain/mir.json"
    listed = json.loads(read(file)) if os.path.exists(file) else []
    return [key.split("::")[1:] for key, *_ in listed if "+" not in key]


def places_in(folder):
    for path in glob.glob(f"{folder}/src/**/*.rt", recursive=True):
        for it in functions_in(read(path).split("\n")):
            yield Place(os.path.relpath(path, folder), it)


def within(path):
    """The path of a function, and where its closures stand: after `fn`, as in `module::fn::function`, `module::fn::Type::f`."""
    return [path, [*path[:-1], "fn", path[-1]], [*path[:-2], "fn", *path[-2:]]]


def verdict_at(path, report):
    """What a check reports of the function at a path."""
    found = re.findall(rf"^fn \S*::{re.escape('::'.join(path))}: (.*)", report.text, re.M)
    return found[0] if len(found) == 1 else ""


def closure_verdicts(path, report):
    """What a check reports of the closures in a function."""
    ends = "|".join(re.escape("::".join(it)) for it in within(path)[1:])
    return re.findall(rf"^fn \S*::(?:{ends})::\S+: (.*)", report.text, re.M)


def judge(edit, paths, report):
    """Settles an edit by what a check reports of the functions that it changed, at the paths that these have there."""
    verdicts = [verdict_at(it, report) for it in paths]
    inside = [verdict for it in paths for verdict in closure_verdicts(it, report)]
    parts = [f"/{'/'.join(part)}/" for it in paths for part in within(it)]
    errors = [why for file, why in PROOF_ERROR.findall(report.text) if any(it in file for it in parts)]
    without = [it for it in [*verdicts, *inside] if it.startswith("no proof: expected answers in")]
    if without:
        edit.settle(REFUSED, without[0])
    elif any(it.startswith("not proved") for it in [*verdicts, *inside]):
        judge_errors(edit, errors)
    elif all(it.startswith(AS_PROVED) for it in verdicts):
        edit.settle(PROVED)


def judge_errors(edit, errors):
    """Settles an edit by the errors in proof files."""
    failed = [it for it in errors if not LOST.search(it)]
    if failed:
        edit.settle(REFUSED, failed[0])
    elif errors:
        edit.settle(BAD, f"a proof file names what it took away{errors[0]}")


def try_together(edits):
    """Tries edits of functions by one check, and answers the minutes by crate. It may leave some unsettled."""
    crate = edits[0].crate
    with tempfile.TemporaryDirectory() as room:
        trial = Trial(crate, room)
        trial.put_holes(edits)
        for edit in (it for it in edits if not it.may_have_twin()):
            trial.put_in_place(edit)
        trial.put_twins([it for it in edits if it.may_have_twin()])
        report = trial.check(edits[0].log())
    for file, line, why in CODE_ERROR.findall(report.text):
        for edit in trial.edits_at(file, int(line)):
            edit.settle(BAD, f"error{why}")
    rest = [it for it in edits if it.result is None]
    if 0 < len(rest) < len(edits):
        return report.minutes + try_together(rest)
    # If the check reports of none, one of them keeps the crate from being read: it is found by halves.
    is_read = any(verdict_at(it, report) for paths in trial.paths.values() for it in paths)
    half = len(rest) // 2
    again = settle(rest, trial, report) if is_read or not half else [rest[:half], rest[half:]]
    return sum(map(try_together, again), report.minutes)


def settle(edits, trial, report):
    """Settles the edits that a check shows something of, and answers the groups in which others are tried again."""
    twins = [it for it in edits if it in trial.lines]
    calling = [it for it in edits if trial.calls_edited(it, report)]
    again = [it for it in twins if it in calling]
    is_shown = not trial.control or verdict_at(trial.paths[trial.control][0], report).startswith(AS_PROVED)
    if not is_shown:
        calls = trial.calls_edited(trial.control, report)
        again = [it for it in twins if calls or it.functions != trial.control.functions]
    for edit in edits:
        if edit not in calling and (is_shown or edit not in twins):
            judge(edit, trial.paths[edit], report)
    return ([again] if again else []) + [[it] for it in calling if it not in twins]


def try_alone(edit):
    """Tries one edit by a check of the crate with it, and answers the minutes by crate."""
    with tempfile.TemporaryDirectory() as room:
        trial = Trial(edit.crate, room)
        trial.put_whole(edit)
        report = trial.check(edit.log())
    without = NO_PROOF.findall(report.text)
    edit.settle(None)
    if report.status == 0:
        edit.settle(PROVED)
    elif without:
        edit.settle(REFUSED, f"no proof of {without[0]}")
    else:
        judge_errors(edit, [why for _, why in PROOF_ERROR.findall(report.text)])
    if edit.result is None:
        edit.settle(BAD, report.text[-300:])
    return report.minutes


def groups_of(edits):
    """The edits of a crate that are tried by one check each: those that have no twin change different functions."""
    twins = [it for it in edits if it.may_have_twin()]
    others = [it for it in edits if it.functions and not it.may_have_twin()]
    while twins or others:
        changed, group = set(), []
        for edit in others[:]:
            if changed.isdisjoint(edit.functions) and len(group) < EDITS:
                changed |= set(edit.functions)
                group.append(edit)
                others.remove(edit)
        room = EDITS - len(group)
        group, twins = group + twins[:room], twins[room:]
        yield group


def run(trials):
    """Runs trials, some of them at once, and answers their minutes by crate."""
    with concurrent.futures.ThreadPoolExecutor(JOBS) as pool:
        return sum(pool.map(lambda it: it(), trials), collections.Counter())


def try_all(edits, is_tenth):
    """Tries edits, and answers the minutes by crate. A tenth's that take a check of the whole crate are left."""
    crates = dict.fromkeys(it.crate for it in edits)
    left = {crate: [it for it in edits if it.crate == crate and not it.result] for crate in crates}
    minutes = run(functools.partial(try_together, it) for crate in crates for it in groups_of(left[crate]))
    rest = [it for it in edits if not it.result]
    if not is_tenth:
        return minutes + run(functools.partial(try_alone, it) for it in rest)
    for it in rest:
        it.settle(LEFT, "it takes a check of the whole crate")
    return minutes


def print_results(edits, minutes):
    """Prints what became of the edits, and answers how many aren't refused though they were tried."""
    for it in edits:
        if it.result != REFUSED:
            print(f"{it.crate}: {it.name}: {it.result.upper()}{': ' + it.why if it.why else ''}")
    print(f"{'crate':20} edits  refused  proved  bad  minutes")
    for crate in dict.fromkeys(it.crate for it in edits):
        count = collections.Counter(it.result for it in edits if it.crate == crate)
        counts = f"{count.total():5}  {count[REFUSED]:7}  {count[PROVED]:6}  {count[BAD]:3}"
        print(f"{crate:20} {counts}  {minutes[crate]:7.1f}")
    count = collections.Counter(it.result for it in edits)
    failed = count[PROVED] + count[BAD]
    print(f"{count[REFUSED]} passed, {failed} failed")
    return failed


def apply(crates):
    """Applies the edits of these crates, and answers how many show nothing."""
    edits = [it for crate in crates for it in bodies.edits_of(crate)]
    faults = list(bodies.showing_nothing(kits.folder(), edits))
    for it, fault in faults:
        print(f"{it.crate}: {it.name}: {fault}")
    print(f"edits: {len(edits)}, showing nothing: {len(faults)}")
    return len(faults) + (not edits)


def tenth_of(edits, seed):
    """A tenth of the edits, and what is bad: the groups that come first in an order that the seed gives."""
    crates = dict.fromkeys(it.crate for it in edits)
    groups = [group for crate in crates for group in groups_of([it for it in edits if it.crate == crate])]
    groups.sort(key=lambda it: hashlib.sha256(f"{seed} {it[0].crate} {it[0].name}".encode()).digest())
    found = [it for it in edits if it.result]
    for group in groups:
        found += group if len(found) < len(edits) / 10 else []
    return found


def attempt(crates, seed, is_over_ci):
    """Tries the edits of these crates, and answers how many aren't refused."""
    edits = [Edit(it) for crate in crates for it in bodies.edits_of(crate)]
    if seed:
        print(f"--tenth {seed} tries these again")
        edits = tenth_of(edits, seed)
    for crate in [] if is_over_ci else dict.fromkeys(it.crate for it in edits):
        build(crate)
    return print_results(edits, try_all(edits, bool(seed)))


def main():
    words = argparse.ArgumentParser(description="Has wrong bodies refused.")
    words.add_argument("--apply", action="store_true", help="only apply them")
    words.add_argument("--tenth", metavar="SEED", help="try a tenth of them")
    words.add_argument("--over-ci", action="store_true", help="over the libraries that rt ci left")
    words.add_argument("crates", nargs="*", metavar="CRATE")
    asked = words.parse_args()
    crates = asked.crates or [it for it in kits.crates() if bodies.edits_of(it)]
    failed = apply(crates) if asked.apply else attempt(crates, asked.tenth, asked.over_ci)
    return 1 if failed else 0


if __name__ == "__main__":
    sys.exit(main())
