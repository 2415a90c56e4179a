"""Claims without a certificate, which the program and the judge in Coq have to answer alike, also if its search is wrong, or
if the system refuses a call. tests/referee.py runs this.

The claims are those of spoiled_texts.py, or feasible ones that aren't the best. The referee in Python judges what is
written: it accepts the certificate after a yes, and after a no all that a better claim says of itself.
"""
import collections
import errno
import os
import random
import re
import shutil
import subprocess
import tempfile

import scripts
from instances import MEMORY, Folder, refusing_library
from spoiled_texts import judged_texts
import referee  # the folder of which spoiled_texts.py adds to the path

COMMANDS = ["max", "min", "infeasible", "paths"]

# The answers, beside the refusals that a judge has too.
ANSWERS = ["max: v", "max: NotMaximum", "min: v", "min: NotLeast", "min: CostRange", "infeasible: v", "infeasible: Feasible"]
ANSWERS += ["paths: v", "paths: NodesDiffer", "paths: NoTightArc", "paths: Escapes", "paths: NotShortest"]

# How the searches of wrong_search.ml are wrong, and what the judge answers then if it notices.
WRONG = ["a node less", "off by one", "another flow", "another value", "no flow", "another source", "nothing", "an exception"]
GONE = 4, "", ["out of memory"]
NOTICED = {it: (5, "g search\n", []) for it in WRONG} | {"no memory": GONE, "no stack": GONE}

# A certificate that no claim passes, but of no nodes: its own tests come after those of the claim.
UNFIT = {"max": "p cut 0 0\n", "min": "p pot 0 0\n"}


class Texts(Folder):
    """Texts with a character for each byte."""

    encoding = ("latin-1",)

    def taken(self, name):
        """A text, which is no longer there then; none if it isn't."""
        if not os.path.exists(self.path(name)):
            return None
        text = self.read(name)
        os.remove(self.path(name))
        return text


def run(words, folder, output=subprocess.PIPE, **how):
    """The status, the output, and the messages without the program's name and the usage text."""
    ran = subprocess.run(words, stdout=output, stderr=subprocess.PIPE, cwd=folder, text=True, check=False, **how)
    messages = [line.partition(": ")[2] for line in ran.stderr.splitlines()]
    return ran.returncode, ran.stdout, messages[:1] if ran.returncode == 2 else messages


def certified(program, command, texts, folder, **how):
    """What a program prints of a claim, and the text that it writes."""
    names = "IS"[: len(texts)]
    for name, text in zip(names, texts):
        Texts(folder).write(name, text)
    return run([program, f"certify-{command}", *names, "made"], folder, **how), Texts(folder).taken("made")


def improved(program, command, texts, steps, folder):
    """A claim after some better ones."""
    for _ in range(steps):
        (status, *_), made = certified(program, command, texts, folder)
        if status != 1 or made is None:
            break
        texts = [texts[0], made]
    return texts


def distances(text, rng):
    """Labels without their predecessors, and one of them perhaps off by 1."""
    lines = [line.split() if line[:1] in "ptd" else [line] for line in text.split("\n")]
    lines = [words[:3] if words[:1] in (["t"], ["d"]) and len(words) == 4 else words for words in lines]
    lines = [["p", "distances", *words[2:]] if words[:2] == ["p", "dist"] else words for words in lines]
    given = [words for words in lines if words[:1] == ["d"] and re.fullmatch(r"-?\d{1,30}", words[-1])]
    if given and rng.random() < 0.3:
        words = rng.choice(given)
        words[-1] = str(int(words[-1]) + rng.choice([-1, 1]))
    return "\n".join(" ".join(words) for words in lines)


def claim(program, command, seed, folder):
    rng = random.Random(seed)
    of = "min" if command == "infeasible" and rng.random() < 0.3 else command
    texts = judged_texts(of, seed)
    if command == "infeasible":
        return texts[:1]
    if command == "paths":
        return [texts[0], distances(texts[-1], rng)]
    zero = "s 0\n" if command == "max" else certified(program, "infeasible", texts[:1], folder)[1]
    if rng.random() < 0.6 and zero is not None:
        return improved(program, command, [texts[0], zero], rng.randint(0, 2), folder)
    return texts[:2]


def canonical(program, command, answer, made, folder):
    """Whether the program would write this text, which was written with an answer, in the same form."""
    kind = {"min": "pot", "paths": "dist"}.get(command, "cut") if answer[0] == 0 else "solution"
    Texts(folder).write("written", made)
    return run([program, "convert", kind, "written"], folder)[:2] == (0, made)


def unproved(command, texts, answer, made):
    """What is wrong with a text that was written with an answer, if anything."""
    if answer[0] == 0:
        judged = [texts[0], "p aux sp p2p 0\n", made] if command == "paths" else [*texts, made]
        accepted = referee.judge(command, judged)
        return accepted[0] != 0 and f"the certificate {made!r} is answered by {accepted}"
    of = "max" if command == "max" else "min"
    accepted = referee.judge(of, [texts[0], made, UNFIT[of]])
    if accepted[0] and accepted[1] != "x certificate 0 0 NodesDiffer\n":
        return f"the better claim {made!r} is answered by {accepted}"
    values = [referee.read("solution", text).s[0].VALUE for text in [*texts[1:], made]]
    if command != "infeasible" and (values[0] >= values[1] if of == "max" else values[0] <= values[1]):
        return f"{made!r} isn't better"
    return None


def compared(program, judge, cases):
    """How often each answer is met in some cases, and in which of them the answers differ."""
    found, differing = collections.Counter(), []
    with tempfile.TemporaryDirectory(dir=MEMORY) as folder:
        for command, seed in cases:
            texts = claim(program, command, seed, folder)
            proved, second = (certified(it, command, texts, folder) for it in (program, judge))
            words = proved[0][1].split()
            found[f"{command}: {words[0] if words[:1] == ['v'] else words[-1]}"] += 1
            fault = proved[0] != second[0] and f"the program {proved[0]}, the judge in Coq {second[0]}"
            fault = fault or (proved[1] is None) != (second[1] is None) and f"they write {proved[1]!r} and {second[1]!r}"
            fault = fault or second[1] is not None and unproved(command, texts, *second)
            fault = fault or second[1] is not None and not canonical(program, command, *second, folder) and f"{second[1]!r}"
            if fault:
                differing.append(f"certify-{command}, {seed}: {fault}, {texts}"[:2000])
    return found, differing


def wrong_judge(folder):
    """The judge in Coq with the searches of wrong_search.ml."""
    built = f"{scripts.TOP}/build/referee"
    for name in ("judge.ml", "judge.mli", "main.ml", "memory.c"):
        shutil.copy(f"{built}/{name}", folder)
    shutil.copy(f"{built}/search.ml", f"{folder}/right.ml")
    shutil.copy(f"{scripts.TOP}/tests/wrong_search.ml", f"{folder}/search.ml")
    files = ["judge.mli", "judge.ml", "right.ml", "search.ml", "memory.c", "main.ml"]
    words = ["ocamlfind", "ocamlopt", "-package", "zarith,unix", "-linkpkg", "-w", "-a", *files, "-o", "wrong"]
    subprocess.run(words, cwd=folder, check=True)
    return f"{folder}/wrong"


def wrong_searches(program, count):
    """How many runs with wrong searches there were, and which of them gave a wrong answer."""
    failures, noticed = [], collections.Counter()
    with tempfile.TemporaryDirectory(dir=MEMORY) as folder:
        judge = wrong_judge(folder)
        for number in range(count):
            command = COMMANDS[number % 4]
            texts = claim(program, command, f"wrong:{number}", folder)
            right = certified(program, command, texts, folder)[0]
            for wrong, given in NOTICED.items():
                answer, made = certified(judge, command, texts, folder, env=os.environ | {"WRONG": wrong})
                gave_up = answer == given
                noticed[wrong] += gave_up
                if not gave_up and answer != right or made is not None and (gave_up or unproved(command, texts, answer, made)):
                    failures.append(f"{wrong}: certify-{command}, {number}: {answer}, {made!r} and not {right}, {texts}"[:2000])
    failures += [f"{wrong}: never noticed" for wrong in NOTICED if not noticed[wrong]]
    return count * len(NOTICED), failures


# ---- refused calls: what is refused, its error, and runs with what they print and make

REFUSED = {"OPENING": errno.EACCES, "READ": errno.EIO, "WRITE": errno.ENOSPC}
RUNS = ["max max flow cut", "infeasible min set", "certify-max max flow made", "certify-max max zero made"]


def refused_calls(judge, texts):
    """How many runs there were with each opening, read and write of one byte refused, and what was wrong with which."""
    runs, failures = 0, []
    with tempfile.TemporaryDirectory(dir=MEMORY) as folder:
        for name, text in texts.items():
            Texts(folder).write(name, text)
        how = {"LD_PRELOAD": refusing_library(folder), "AT_MOST": "1", "COUNTS": f"{folder}/counts"}

        def refused(words, **more):
            answer = run([judge, *words.split()], folder, env=os.environ | how | more)
            return answer, Texts(folder).taken("made") or "", Texts(folder).taken("counts").splitlines()[1:]

        for words in RUNS:
            right = refused(words)
            interrupted = [refused(words, INTERRUPT="100", **{f"REFUSE_{kind}": "1"})[:2] for kind in ("READ", "WRITE")]
            if interrupted != [right[:2]] * 2:
                failures.append(f"{words}, interrupted: {interrupted}, and not {right[:2]}")
            for kind, error in REFUSED.items():
                number, (answer, made, call) = 1, refused(words, **{f"REFUSE_{kind}": "1"})
                while call:
                    done, _, name = call[0].partition(" ")
                    message = f"{name}: cannot be {done}: {os.strerror(error)} (os error {error})"
                    is_beginning = (right[1] + right[0][1]).startswith(made + answer[1])
                    if answer[0] != 3 or answer[2] != ["device fault", message] or not is_beginning:
                        failures.append(f"{words}, {kind} {number}: {answer}, {made!r}, and not {message}")
                    runs, number = runs + 1, number + 1
                    answer, made, call = refused(words, **{f"REFUSE_{kind}": str(number)})
                if number <= words.count(" ") or (answer, made) != right[:2]:
                    failures.append(f"{words}, {kind} {number}: {answer}, and not {right}")
    return runs, failures


# Has each file a device of its own, with the number 1 there.
DEVICES = """
#include <fcntl.h>
#include <sys/stat.h>
int stat(const char *name, struct stat *it)
{
    int status = fstatat(AT_FDCWD, name, it, 0);
    it->st_dev = it->st_ino, it->st_ino = 1;
    return status;
}
int stat64(const char *, struct stat64 *) __attribute__((alias("stat")));
"""


def files_on_devices(judge, texts):
    """How many runs there were with each file on another device, and what was wrong: only what is read isn't written."""
    with tempfile.TemporaryDirectory(dir=MEMORY) as folder:
        for name, text in (texts | {"made": "", "devices.c": f"#define _GNU_SOURCE{DEVICES}"}).items():
            Texts(folder).write(name, text)
        subprocess.run(["cc", "-w", "-shared", "-fPIC", "devices.c", "-o", "devices.so"], cwd=folder, check=True)
        how = os.environ | {"LD_PRELOAD": f"{folder}/devices.so"}
        answers = [run([judge, "certify-max", "max", "flow", it], folder, env=how)[:2] for it in ("made", "./max")]
    return 2, [f"files on other devices: {answers}"] if answers != [(0, "v max 1\n"), (2, "")] else []


# ---- limited runs: what is printed, and the limits: kB of memory, too few and enough, or seconds

PATH = 100_001
ARCS = [f"a {v} {v + 1} 0 {PATH} 1\n" for v in range(1, PATH)]
SPREAD = f"p min {PATH} {PATH - 1}\nn 1 {PATH - 1}\n" + "".join([*(f"n {v} -1\n" for v in range(2, PATH + 1)), *ARCS])
GATHERED = f"p min {PATH} {PATH - 1}\nn {PATH} {1 - PATH}\n" + "".join([*(f"n {v} 1\n" for v in range(1, PATH)), *reversed(ARCS)])
# A path, each node of which lowers a hub more than the one before, in an order in which the hub's label could fall as often.
HUB = 40_000
FALLING = f"p min {2 * HUB - 1} {3 * HUB - 4}\n" + "".join(f"a {v} {v + 1} 0 1 -1\n" for v in range(HUB - 2, 0, -1))
FALLING += "".join(f"a {v} {HUB} 0 1 {-v}\na {HUB} {HUB + v} 0 1 -1\n" for v in range(1, HUB))
# The same where but the first arc of the path lowers nothing at first.
SINKING = f"p min {2 * HUB + 1} {3 * HUB - 1}\n" + "".join(f"a {v} {v + 1} 0 1 {-3 * HUB if v == 1 else 0}\n" for v in range(1, HUB))
SINKING += "".join(f"a {v} {HUB + 1} 0 1 {-v}\na {HUB + 1} {HUB + 1 + v} 0 1 -1\n" for v in range(1, HUB + 1))
# A pipeline that goes both ways, with an exit at each second node.
PIPELINE = f"p min {HUB} {2 * HUB - 2}\nn 1 {HUB // 2}\n" + "".join(f"n {v} -1\n" for v in range(2, HUB + 1, 2))
PIPELINE += "".join(f"a {v} {v + 1} 0 {HUB} 1\na {v + 1} {v} 0 {HUB} 1\n" for v in range(1, HUB))
# Arcs into one node, and a block of distances from each tail.
INTO = "".join(f"a {v} 1 {v}\n" for v in range(2, PATH + 1))
FROM_EACH = f"p distances {PATH} {PATH - 1}\n" + "".join(f"t {v} 1\nd 1 {v}\n" for v in range(2, PATH + 1))


def colliding(bits=14):
    """Node numbers whose hashes by OCaml's Hashtbl have these last bits 0: MurmurHash3 backwards."""
    for it in range(0, 2**32, 2**bits):
        it ^= it >> 16
        it = it * pow(0xC2B2AE35, -1, 2**32) % 2**32
        it ^= it >> 13 ^ it >> 26
        it = it * pow(0x85EBCA6B, -1, 2**32) % 2**32
        it ^= it >> 16
        it = (it - 0xE6546B64) * pow(5, -1, 2**32) % 2**32
        it = (it >> 13 | it << 19) * pow(0x1B873593, -1, 2**32) % 2**32
        it = (it >> 15 | it << 17) * pow(0xCC9E2D51, -1, 2**32) % 2**32
        if it & 1 and 0 < it >> 1 <= 2**27:
            yield it >> 1


def collisions():
    """An instance over such nodes, with many arcs between any two."""
    nodes = list(colliding())
    arcs = [f"a {u} {v} 0\n" for u, v in zip(nodes, nodes[1:])] * 15
    return f"p max {max(nodes)} {len(arcs)}\nn {nodes[0]} s\nn {nodes[-1]} t\n{''.join(arcs)}"


LIMITED = [
    ("paths wide many apart", "v 1 1 0\n" + "".join(f"v 1 {v} unreachable\n" for v in range(2, 20_001)), "-v", range(12_000, 40_000, 1_000)),
    ("certify-max max flow made", "v max 1\n", "-v", range(12_000, 40_000, 1_000)),
    ("certify-infeasible spread made", "x instance 0 0 Feasible\n", "-t", [30]),
    ("certify-infeasible gathered made", "x instance 0 0 Feasible\n", "-t", [30]),
    ("certify-min falling zero made", "v min 0\n", "-t", [30]),
    ("certify-min sinking zero made", "v min 0\n", "-t", [30]),
    ("certify-infeasible pipeline made", "x instance 0 0 Feasible\n", "-t", [30]),
    ("certify-paths into from-each made", f"v sp distances {PATH - 1}\n", "-t", [20]),
    ("certify-max collisions zero made", "v max 0\n", "-t", [10]),
]


def limited_runs(judge, texts):
    """How many runs there were with these limits, and what was wrong with which: where memory is gone, nothing is printed
    or written; a path with a deficit at each node, or a supply, isn't walked once for each, nor are others like it."""
    runs, failures = 0, []
    with tempfile.TemporaryDirectory(dir=MEMORY) as folder:
        large = {"spread": SPREAD, "gathered": GATHERED, "falling": FALLING, "sinking": SINKING, "pipeline": PIPELINE}
        large |= {"into": f"p sp {PATH} {PATH - 1}\n{INTO}", "from-each": FROM_EACH, "collisions": collisions()}
        for name, text in (texts | large).items():
            Texts(folder).write(name, text)
        for words, printed, kind, limits in LIMITED:
            whole = (int(printed[0] == "x"), printed, []), "made" in words
            found = set()
            for limit in limits:
                answer = run(["sh", "-c", f'ulimit {kind} {limit}; exec "$@"', "sh", judge, *words.split()], folder)
                ended = answer, Texts(folder).taken("made") is not None
                runs += 1
                found.add(ended == whole)
                if ended not in (whole, (GONE, False)):
                    failures.append(f"{words}, {kind} {limit}: {ended}"[:2000])
            if len(found) != min(len(limits), 2):
                failures.append(f"{words}, {kind}: never {'too little' if True in found else 'enough'}")
    return runs, failures
