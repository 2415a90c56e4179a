#!/usr/bin/env python3
"""Refuses each growth, read, write and opening of a file in turn: tests/refusals.py [BINARY]

Each run of tests/rows/commands of which no file fails, and each below, is made again with its Nth growth of memory
refused, N counting up until a run meets no refusal; the same with the Nth read, write and opening; and of the first run
of each command, and of each kind of text, with the Nth read and write of one byte. Each run has to give its own answer,
or the status and the complaint of its error, with the file, the call and the system's own reason: then nothing was
written if a growth, a read or an opening failed, and a beginning of what was to be written if a write did. A call that
signals interrupt, a hundred times in a row, is made again. Each run has to meet the calls that it can't do without: it
opens each of its files, reads each byte, writes each byte, and takes memory for its words and files. Before each run
the files that it writes hold an old text, longer than the new one.

Runs are made too with the standard devices closed: what is meant for these never lands in a file. Then texts are read
that declare the greatest counts, which has to take as many growths, and of as many bytes, as the least ones do. Tiny
texts with the greatest counts and IDs are judged and solved in little memory.

BINARY is the built program, crates/dimacs/out/dimacs by default. refusals.c, which refuses the calls, is compiled with
cc; and again so that it doesn't see one of the calls: then the runs have to fail.
"""
import collections
import errno
import os
import re
import subprocess
import sys
import tempfile

import malicious
import scripts
from instances import BINARY, MEMORY, Folder, refusing_library
from rows import rows

# The names that some files have in place of those in the words of runs. Blanks at their ends belong to them.
NAMES = {"road": " odd ", "a": "made.claim ", "b": " made.shown"}

# Those that a run may write, in the order in which it does; what it prints comes after them.
MADE = ["a", "b"]

# What these hold before a run.
OLD = "old\n" * 1000

# Runs that ask for nothing, and one that finds no file: the words, the status, and what they print.
UNASKED = [("convert gr absent", 3, ""), ("convert foo road", 2, ""), ("foo road", 2, "")]

# Runs that write one file twice, which a line on the standard error reports; no write is refused, since the later text
# stands over the earlier.
TWICE = [
    ("solve-max pipe a a", 0, "v max 3\n"),
    ("solve-min unmet a a", 0, "v infeasible\n"),
    ("solve-max pipe a a --limit 0", 5, "g limit\n"),
]

# Runs over a long path, whose tables grow in mid-course: only growths are refused.
GROWING = [
    ("show gr long.gr", 0, "i sp 11701 39\n"),
    ("judge-max long.max long.flow long.cut", 0, "v max 1\n"),
    ("judge-min long.min long.least long.pot", 0, "v min 39\n"),
    ("judge-infeasible long.unmet long.cut", 0, "v infeasible\n"),
    ("judge-paths long.gr long.query long.dist", 0, "v sp ss 2\n"),
    ("certify-max long.max long.flow a", 0, "v max 1\n"),
    ("certify-min long.min long.least a", 0, "v min 39\n"),
    ("certify-infeasible long.unmet a", 0, "v infeasible\n"),
    ("certify-infeasible long.min a", 1, "x instance 0 0 Feasible\n"),
    ("certify-paths long.gr long.near a", 0, "v sp distances 2\n"),
    ("spread-max long.max long.flow a", 0, ""),
    ("spread-min long.min long.least a", 0, ""),
    ("solve-max long.max a b", 0, "v max 1\n"),
    ("solve-min long.min a b", 0, "v min 39\n"),
    ("solve-min long.unmet a b", 0, "v infeasible\n"),
    ("solve-paths long.gr long.query a", 0, "v sp ss 2\n"),
]

# Runs that create their file once its text is made.
LATE = ("certify-", "spread-")

# Runs over closed devices: the words, how the shell closes them, the status, and the system's error of the standard output,
# if there is one.
CLOSED = [
    ("solve-max pipe a b", "<&-", 0, None),
    ("solve-max pipe a b", ">&-", 3, errno.EBADF),
    ("solve-max pipe a b", "2>&-", 0, None),
    ("solve-max pipe a b", "<&- >&-", 3, errno.EBADF),
    ("solve-max pipe a b", "<&- >&- 2>&-", 3, errno.EBADF),
    ("certify-max pipe zero a", "<&- >&-", 3, errno.EBADF),
    ("convert gr road", "<&- >&-", 3, errno.EBADF),
]

# What is complained of arguments that ask for nothing, as a pattern. After the first line it is left out for
# want of memory.
USAGE = {
    "convert foo road": r"dimacs: usage\nno kind foo\nPrints the canonical form\n\nUsage: dimacs convert KIND FILE\n.*",
    "foo road": r"dimacs: usage\nno command foo\nUsage: dimacs COMMAND FILE\.\.\.\n\n`dimacs help` lists the commands\n",
}
NO_TEXT = "dimacs: usage\n"

# The calls of each kind that a run made, the most memory that it held at once, in kB, and the bytes of its growths.
Counts = collections.namedtuple("Counts", "growth read write opening peak bytes")

# A call that was refused: what it would have done, and the name of its file.
Call = collections.namedtuple("Call", "done name")
Ran = collections.namedtuple("Ran", "status complaint outputs counts refused")

# What is refused: its name, the call that is counted, its variables, and the status of the error; none if the call
# is made again.
Kind = collections.namedtuple("Kind", "name call variables status")

KINDS = [
    Kind("growth", "growth", {}, 4),
    Kind("opening", "opening", {}, 3),
    Kind("read", "read", {}, 3),
    Kind("write", "write", {}, 3),
    Kind("read of a byte", "read", {"AT_MOST": "1"}, 3),
    Kind("write of a byte", "write", {"AT_MOST": "1"}, 3),
    Kind("interrupted read", "read", {"INTERRUPT": "100"}, None),
    Kind("interrupted write", "write", {"INTERRUPT": "100"}, None),
]

# The system's error of a refused call.
ERRORS = {"opened": errno.EACCES, "created": errno.EACCES, "read": errno.EIO, "written": errno.ENOSPC}

# The most openings of other files than those that a run names: of what stands for the standard devices.
OTHER_OPENINGS = 3

# How many growths a text takes at least, whatever it declares.
TEXT_GROWTHS = 5

# The calls that this script has to miss if refusals.c doesn't see them, and the run that shows it.
UNSEEN = ["malloc", "open", "read", "write"]
SHOWING = ("solve-max pipe a b --limit 10", 0, "v max 3\n")

# Texts without an end, by the greatest counts that they may declare and by the least.
DECLARED = [
    ("gr", "p sp 134217728 268435456\n", "p sp 1 1\n"),
    ("max", "p max 134217728 268435456\nn 1 s\nn 2 t\n", "p max 2 1\nn 1 s\nn 2 t\n"),
    ("min", "p min 134217728 268435456\n", "p min 1 1\n"),
    ("query", "p aux sp ss 268435456\n", "p aux sp ss 1\n"),
    ("query", "p aux sp p2p 268435456\n", "p aux sp p2p 1\n"),
    ("cut", "p cut 134217728 268435456\n", "p cut 1 1\n"),
    ("pot", "p pot 134217728 268435456\n", "p pot 1 1\n"),
    ("dist", "p dist 134217728 268435456\nt 1 268435456\n", "p dist 1 1\nt 1 1\n"),
    ("distances", "p distances 134217728 268435456\nt 1 268435456\n", "p distances 1 1\nt 1 1\n"),
]

# Tiny texts that declare the greatest number of nodes: the words of a run, its texts, and what it prints. A line ends at `;`,
# and MOST is that number.
MOST = "134217728"
FAR = """
judge-max I S C | p max MOST 1;n 1 s;n MOST t;a 1 MOST 5 | s 5;f 1 MOST 5 | p cut MOST 1;u 1 | v max 5
judge-max I S C | p max MOST 1;n MOST s;n 1 t;a MOST 1 5 | s 5;f MOST 1 5 | p cut MOST 1;u MOST | v max 5
judge-min I S C | p min MOST 1;n 1 3;n MOST -3;a 1 MOST 0 5 2 | s 6;f 1 MOST 3 | p pot MOST 1;y MOST -2 | v min 6
judge-infeasible I C | p min MOST 1;n MOST 1;a 1 MOST 0 5 2 | | p cut MOST 1;u MOST | v infeasible
judge-paths I S C | p sp MOST 1;a 1 MOST 5 | p aux sp p2p 2;q 1 MOST;q MOST 1 | p dist MOST 2;t 1 1;d MOST 5 1;t MOST 0 | v 1 MOST 5;v MOST 1 unreachable
judge-paths I S C | p sp MOST 0 | p aux sp ss 1;s MOST | p dist MOST 1;t MOST 0 | v sp ss 1
certify-max I S a | p max MOST 2;n 1 s;n MOST t;a 1 MOST 5;a MOST MOST 1 | s 5;f 1 MOST 5 | | v max 5
certify-min I S a | p min MOST 1;n 1 3;n MOST -3;a 1 MOST 0 5 2 | s 6;f 1 MOST 3 | | v min 6
certify-infeasible I a | p min MOST 1;n MOST 1;a 1 MOST 0 5 2 | | | v infeasible
certify-paths I S a | p sp MOST 1;a 1 MOST 5 | p distances MOST 2;t 1 1;d MOST 5;t MOST 0 | | v sp distances 2
solve-max I a b | p max MOST 2;n 1 s;n MOST t;a 1 MOST 5;a MOST MOST 1 | | | v max 5
solve-min I a b | p min MOST 1;n 1 3;n MOST -3;a 1 MOST 0 5 2 | | | v min 6
solve-min I a b | p min MOST 1;n MOST 1;a 1 MOST 0 5 2 | | | v infeasible
solve-paths I S a | p sp MOST 1;a MOST 1 5 | p aux sp p2p 1;q MOST 1 | | v MOST 1 5
"""

# The most memory that these may hold at once, in kB.
FAR_PEAK = 64 * 1024


def long_texts():
    """The texts of a path of 40 nodes that are 300 apart. Its arcs fall, and its entries rise."""
    ids = list(range(1, 12_000, 300))
    last = ids[-1]
    distances = malicious.distances([ids, [last]], last, malicious.falling)
    made = dict(zip(("max", "flow", "cut"), malicious.max_path(ids, last, malicious.falling(malicious.path(ids)))))
    made |= zip(("min", "least", "pot"), malicious.min_path(ids, last, malicious.falling))
    made |= {"gr": distances[0], "dist": distances[2], "near": malicious.claimed(distances)[1]}
    made["query"] = f"p aux sp ss 2\ns 1\ns {last}\n"
    made["unmet"] = made["min"].replace(f"n 1 1\nn {last} -1\n", f"n 1 2\nn {last} -2\n")
    return {f"long.{name}": it for name, it in made.items()}


class Runs(Folder):
    """Runs of the program over files in one folder, under the library that refuses calls."""

    def __init__(self, binary, library, folder):
        super().__init__(folder)
        self.binary, self.library, self.runs = binary, library, 0

    def path(self, name):
        return super().path(NAMES.get(name, name))

    def made(self, name):
        """What a run wrote to a file; None if it left the old text."""
        text = self.read(name)
        return None if text == OLD else text

    def run(self, words, variables=None, closed=""):
        """Runs the program with these variables, or under no library, with these devices closed."""
        self.runs += 1
        for name in MADE:
            self.write(name, OLD)
        env = os.environ if closed else {"LD_PRELOAD": self.library, "COUNTS": self.path("counts"), **(variables or {})}
        by_shell = ["sh", "-c", f'exec "$0" "$@" {closed}'] if closed else []
        words = [*by_shell, self.binary, *(NAMES.get(word, word) for word in words.split())]
        ran = subprocess.run(words, capture_output=True, env=env, cwd=self.folder, check=False)
        outputs = [*map(self.made, MADE), ran.stdout.decode("ascii")]
        # A file that is written twice is known by its number too if it is there already.
        complaint = re.sub(r"SOLUTION and \w+ are the same file: (.*)", r"\1: written twice", ran.stderr.decode())
        return Ran(ran.returncode, complaint, outputs, *((None, None) if closed else self.counted()))

    def counted(self):
        """What the library counted in a run, and the call that it refused, if it did; nothing of a run that was aborted."""
        if not os.path.exists(self.path("counts")):
            return None, None
        line, _, refused = self.read("counts").partition("\n")
        os.remove(self.path("counts"))
        done, _, name = refused.removesuffix("\n").partition(" ")
        return Counts(*map(int, line.split())), Call(done, name) if done else None


def files_of(words):
    command, *named = words.split(" --limit ")[0].split()
    return named[1:] if command in ("convert", "show") else named


def reason(error):
    """The system's reason, as the complaint has it."""
    return f"{os.strerror(error)} (os error {error})"


def complaint_of(call, error=None):
    """The standard error of a run of which this call failed."""
    if call.done == "grown":
        return "dimacs: out of memory\n"
    why = reason(error or ERRORS[call.done])
    return f"dimacs: device fault\ndimacs: {call.name}: cannot be {call.done}: {why}\n"


def twice(words):
    """What the standard error has at its end if two of the files of a run that solves have one name."""
    names = names_of(words)[1:] if words.startswith("solve-") else []
    return "".join(f"dimacs: {name}: written twice\n" for name in {it for it in names if names.count(it) > 1})


def is_whole_complaint(ran, words):
    """Whether the standard error of a run of which no call was refused is what its status asks for."""
    if ran.status == 2:
        return bool(re.fullmatch(USAGE[words], ran.complaint, re.DOTALL))
    if ran.status == 3:
        return ran.complaint == complaint_of(Call("opened", files_of(words)[0]), errno.ENOENT)
    return ran.complaint == twice(words)


def is_same(ran, whole):
    """Whether a run is like the whole one. A usage text may be left out for want of memory."""
    is_short = ran.status == 2 and ran.refused == Call("grown", "") and ran.complaint == NO_TEXT
    return ran[:3] == whole[:3] or is_short and ran.outputs == whole.outputs


def is_beginning(outputs, whole):
    """Whether the outputs are whole, up to one that is begun and others in which nothing was written."""
    begun = False
    for output, wanted in zip(outputs, whole):
        output, wanted = output or "", wanted or ""
        if output and begun or not wanted.startswith(output):
            return False
        begun = begun or output != wanted
    return True


def faults_of(ran, words, status, printed):
    """Yields what is wrong with a run of which no call was refused."""
    if (ran.status, ran.outputs[-1]) != (status, printed):
        yield f"dimacs {words}: status {ran.status}, prints {ran.outputs[-1]!r}"
    if not is_whole_complaint(ran, words):
        yield f"dimacs {words}: complains {ran.complaint!r}"


def may_pass_over(kind, words, call):
    """Whether the run may go on without this call: a growth, or the opening of what isn't one of its files."""
    return kind.call == "growth" or kind.call == "opening" and call.name not in names_of(words)


def what_runs(words):
    """The command of a run, the kind of text that it converts, and whether it names a file for a certificate."""
    command, *named = words.split()
    return command, named[0] if command == "convert" else "", not set(MADE).isdisjoint(named)


def names_of(words):
    return [NAMES.get(word, word) for word in files_of(words)]


def fault_of(kind, words, ran, whole):
    """What is wrong with a run of which a call was refused, given the whole run."""
    is_made_again = ran.refused is None or kind.status is None
    if is_same(ran, whole) and (is_made_again or may_pass_over(kind, words, ran.refused)):
        return None
    if is_made_again or ran.status != kind.status:
        return f"status {ran.status}, complains {ran.complaint!r}"
    wanted = [complaint_of(ran.refused) + twice(words)]
    if kind.call == "growth" and ran.counts.opening <= OTHER_OPENINGS:  # its words may not be known yet
        wanted.append(complaint_of(ran.refused))
    if ran.complaint not in wanted:
        return f"complains {ran.complaint!r}"
    if words.startswith(LATE) and kind.call != "write" and ran.outputs[0] is not None:
        return f"creates {MADE[0]}"
    allowed = whole.outputs if kind.call == "write" else [""] * len(ran.outputs)
    if not is_beginning(ran.outputs, allowed):
        return f"writes {ran.outputs!r}"
    return None


def refuse_each(runs, words, whole, kind):
    """Refuses each call of this kind in turn. Yields what is wrong, and answers the calls that were met, and how many of
    them changed nothing."""
    met, unchanged = collections.Counter(), 0
    for n in range(1, 1_000_000):
        ran = runs.run(words, {**kind.variables, f"REFUSE_{kind.call.upper()}": str(n)})
        fault = fault_of(kind, words, ran, whole)
        if fault:
            yield f"dimacs {words}: {kind.name} {n} refused: {fault}"
        if ran.refused is None:
            break
        met[ran.refused] += 1
        unchanged += is_same(ran, whole)
    return met, unchanged


def refuse_copies(runs):
    """Yields what is wrong with a run that gets no memory for a copy of a long name, which not each build makes."""
    name = f"{'./' * 200}long.gr"
    ran = runs.run(f"show gr {name}", {"REFUSE_SIZE": str(len(name) + 1)})
    if ran.status not in (0, 4):
        yield f"a copy of a long name refused: status {ran.status}"


def wanted_calls(runs, kind, words, whole):
    """How often a run has to meet the calls of a kind, by their files."""
    if whole.status == 2:
        return {}
    files = {name: NAMES.get(name, name) for name in files_of(words)}
    read = {files[name]: runs.read(name) for name in files if name not in MADE and name != "absent"}
    written = [*(files.get(name, name) for name in MADE), "standard output"]
    if kind.call == "opening":
        created = [name for name, text in zip(MADE, whole.outputs) if text is not None]
        opened = [name for name in files if name not in MADE or name in created]
        return {Call("created" if name in created else "opened", files[name]): 1 for name in opened}
    if kind.call == "read":
        return {Call("read", file): len(text) if "AT_MOST" in kind.variables else 1 for file, text in read.items()}
    texts = {file: text for file, text in zip(written, whole.outputs) if text}
    return {Call("written", file): len(text) if "AT_MOST" in kind.variables else 1 for file, text in texts.items()}


def unmet(runs, kind, words, whole, met, unchanged):
    """Yields what a run of this kind should have met and didn't, and what it met that it has no use for."""
    begin = f"dimacs {words}: of {kind.name}"
    if kind.call == "growth":
        least = len(words.split()) + 1 + (len(files_of(words)) if whole.status != 2 else 0)
        if met.total() - unchanged < least:
            yield f"{begin} {met.total()} are met, {unchanged} change nothing, and at least {least} have to be reported"
        return
    wanted = wanted_calls(runs, kind, words, whole)
    for call, least in wanted.items():
        if met[call] < least:
            yield f"{begin} {met[call]} are met of {call.name!r}, and {least} have to be at least"
    others = {call: count for call, count in met.items() if call not in wanted}
    if sum(others.values()) > (OTHER_OPENINGS if kind.call == "opening" else 0):
        yield f"{begin} these are met: {others}"


def refuse_all(runs, words, status, printed, kinds):
    """Makes a run, and refuses its calls. Yields what is wrong."""
    whole = runs.run(words)
    faults = list(faults_of(whole, words, status, printed))
    yield from faults
    if faults:
        return
    counts = []
    for kind in kinds:
        met, unchanged = yield from refuse_each(runs, words, whole, kind)
        yield from unmet(runs, kind, words, whole, met, unchanged)
        counts.append(f"{kind.name} {met.total()}" + (f" ({unchanged} without a change)" if unchanged else ""))
    print(f"{words}: {', '.join(counts)}", flush=True)


def run_closed(runs, words, closed, status, error):
    """Makes a run with devices closed, which has to write to its files what it always does. Yields what is wrong."""
    whole, ran = runs.run(words), runs.run(words, closed=closed)
    printed = "" if error else whole.outputs[-1]
    if (ran.status, ran.outputs) != (status, [*whole.outputs[:-1], printed]):
        yield f"dimacs {words} {closed}: status {ran.status}, writes {ran.outputs!r}"
    complaint = complaint_of(Call("written", "standard output"), error) if error and "2>&-" not in closed else ""
    if ran.complaint != complaint:
        yield f"dimacs {words} {closed}: complains {ran.complaint!r}"


def miss(runs, call):
    """Refuses calls by a library that doesn't see this one. Yields a fault if no run fails by that."""
    blind = Runs(runs.binary, refusing_library(os.path.dirname(runs.library), call), runs.folder)
    if not list(refuse_all(blind, *SHOWING, KINDS)):
        yield f"nothing is missed if {call} is never refused"
    runs.runs += blind.runs


def declare(runs, kind, greatest, least):
    """Reads texts that declare the greatest counts and the least. Yields what is wrong."""
    runs.write("much", greatest)
    runs.write("less", least)
    ran = runs.run(f"convert {kind} much")
    wanted = runs.run(f"convert {kind} less")
    if ran.status != 1 or ran.outputs != wanted.outputs:
        yield f"{greatest!r} prints {ran.outputs[-1]!r}, and {least!r} {wanted.outputs[-1]!r}"
    took, allowed = ((it.counts.growth, it.counts.bytes) for it in (ran, wanted))
    if took != allowed or took[0] < TEXT_GROWTHS:
        yield f"{greatest!r} takes {took} growths and bytes, and {least!r} {allowed}"
    print(f"{greatest.splitlines()[0]}: {took[0]} growths of {took[1]} bytes")


def judge_far(runs, words, texts, printed):
    """Judges or solves tiny texts with the greatest IDs. Yields what is wrong."""
    for name, text in zip("ISC", texts):
        runs.write(name, text)
    ran = runs.run(words)
    if (ran.status, ran.outputs[-1]) != (0, printed):
        yield f"dimacs {words} of {texts[0]!r}: status {ran.status}, prints {ran.outputs[-1]!r}"
    if not 0 < ran.counts.peak <= FAR_PEAK:
        yield f"dimacs {words} of {texts[0]!r}: holds {ran.counts.peak} kB"
    print(f"{words} with nodes up to 134217728: {ran.counts.peak} kB")


def runs_of_rows():
    """The runs of tests/rows/commands that read all of their files, and write others: the words, the status and what is
    printed."""
    for words, _, printed, complaint, status in rows("commands"):
        is_read = not complaint and status != "2" and not printed.endswith("UnknownLine\n")
        if is_read and len(set(words.split())) == len(words.split()):
            yield words, int(status), printed


def main():
    binary = os.path.abspath(sys.argv[1] if len(sys.argv) > 1 else BINARY)
    cases = scripts.Counts()
    with tempfile.TemporaryDirectory() as built, tempfile.TemporaryDirectory(dir=MEMORY) as folder:
        runs = Runs(binary, refusing_library(built), folder)
        for name, text in [*rows("files"), *long_texts().items()]:
            runs.write(name, text)
        every = [*runs_of_rows(), *UNASKED]
        by_byte = {what_runs(words): words for words, *_ in every[::-1]}.values()
        for run in every:
            cases.faultless(refuse_all(runs, *run, [it for it in KINDS if "AT_MOST" not in it.variables or run[0] in by_byte]))
        for table, kinds in (TWICE, KINDS[:3]), (GROWING, KINDS[:1]):
            for run in table:
                cases.faultless(refuse_all(runs, *run, kinds))
        cases.faultless(refuse_copies(runs))
        for closed in CLOSED:
            cases.faultless(run_closed(runs, *closed))
        for call in UNSEEN:
            cases.faultless(miss(runs, call))
        for texts in DECLARED:
            cases.faultless(declare(runs, *texts))
        for row in FAR.strip().splitlines():
            cells = [cell.strip().replace("MOST", MOST).replace(";", "\n") for cell in row.split("|")]
            words, *texts = [cells[0], *(f"{it}\n" for it in cells[1:])]
            cases.faultless(judge_far(runs, words, texts[:-1], texts[-1]))
    print(f"{runs.runs} runs")
    cases.end()


if __name__ == "__main__":
    main()
