#!/usr/bin/env python3
"""Has Coq's kernel check what the judge answers: kernel.py COMMAND FILES.. [--keep FILE.v]

COMMAND and FILES are those of build/referee/judge, which is run first, and needn't be right. Then a file of Coq is written:
the bytes of the texts, the theorem that this is the answer to them, and what it means. Coq checks it; --keep keeps it.
So neither extraction nor main.ml has to be right: only Coq, with its OCaml and Zarith, the definitions, and that these are
the bytes.

Prints and writes what the judge does, and ends with its status; with 5 also if the answer isn't accepted, and says so.
"""
import contextlib
import hashlib
import os
import re
import shutil
import signal
import subprocess
import sys
import tempfile
import urllib.parse

BUILT = os.path.join(os.path.dirname(os.path.abspath(__file__)), "../build/referee")

# What a search is given, by its command; the texts that each command reads.
SEARCHES = {"max": "(_ : max_instance) (_ : flow)", "min": "(_ : min_instance) (_ : flow)"}
SEARCHES |= {"infeasible": "(_ : min_instance)", "paths": "(_ : network) (_ : labelling)"}
COUNTS = {"max": 3, "min": 3, "infeasible": 2, "paths": 3} | {f"certify-{it}": 2 for it in SEARCHES} | {"certify-infeasible": 1}

# What a yes means. Of the judge's paths, and of a no, the promise says it.
FLOW = "exists i s, read {0}_texts first = inr i /\\ read solution_texts second = inr s\n  /\\ {1} i (claimed_flow i s) /\\ {2} = NUMBER"
MEANT = {
    "max": FLOW.format("max", "maximum", "value i (claimed_flow i s)"),
    "min": FLOW.format("min", "least", "total_cost (claimed_flow i s)"),
    "infeasible": "exists i, read min_texts first = inr i /\\ no_flow i",
}
MEANT |= {f"certify-{command}": meant for command, meant in MEANT.items()}
MEANT["certify-paths"] = """exists g l, read graph_texts first = inr g /\\ read distances_texts second = inr l
  /\\ forall c, In c (blocks l) -> are_distances g (start c) (label_in c)"""

# The first line of a file that is kept: no other file is replaced.
MARK = "(* kernel.py of dimacs has written this file, and Coq has accepted it. *)\n"
HEAD = """(* It is about these files, by their SHA-256:
{files}
   To check it, with the sources of dimacs: make referee; coqc -R build/referee Dimacs {name}
   Coq prints what the theorem `meaning` below says, and on which axioms it rests: none, but for primitive integers
   where a text is long or has odd bytes. To believe it read referee/proof/Flows.v, what it says of an instance, and
   referee/proof/Texts.v, which instance bytes spell. If another gave you this file, have kernel.py make it again
   from your own texts. *)

From Coq Require Import Uint63.
From Dimacs Require Import Kernel.
Open Scope Z_scope.
Open Scope string_scope.

"""

# A text of more bytes, or of others than a page shows, is packed: seven bytes in a number. Coq reads that eight times as fast.
PLAIN, PIECE, LINES = 20_000, 3_500, 200
is_plain = re.compile(rb"[\t\n -~]*").fullmatch

# What a report is made of, each number spelt in one way: only that goes into the file. And what may be assumed.
PART = rb"(?:[A-Za-z]+|0|-?[1-9][0-9]*)"
is_report = re.compile(rb"(?:%b(?: %b)*\n)*" % (PART, PART)).fullmatch
NOTHING_ASSUMED = "Closed under the global context\n"
INTEGERS = {"Axioms:", "lsr : int -> int -> int", "land : int -> int -> int", "int : Set", "PrimInt63.eqb : int -> int -> bool"}


SIGNALS = signal.SIGINT, signal.SIGTERM, signal.SIGHUP


class Failed(Exception):
    """A status, and the message that goes with it."""


def pieces(name, kind, items, join):
    """Definitions of the pieces of a list, and of the whole."""
    for number, it in enumerate(items):
        yield f"Definition {name}{number} : {kind} := {it}.\n"
    yield f"Definition {name} := {join} [{'; '.join(f'{name}{k}' for k in range(len(items)))}].\n\n"


def text_of(name, data):
    """Definitions of a text's bytes."""
    parts = [data[k : k + PIECE] for k in range(0, len(data), PIECE)]
    if len(data) <= PLAIN and is_plain(data):
        return pieces(name, "text", ['"' + it.decode().replace('"', '""') + '"' for it in parts], "plain")
    packed = [[hex(int.from_bytes(it[k : k + 7] + b"\1", "little")) for k in range(0, len(it), 7)] for it in parts]
    return pieces(name, "list int", [f"[{'; '.join(it)}]%uint63" for it in packed], "packed")


def printed(line):
    """A line of a report."""
    return "[" + "; ".join(f'Word "{it}"' if it.isalpha() else f"Decimal ({it})" for it in line.split()) + "]"


def claim(command, texts, status, output, made, found):
    """The theorem, without its head: found is what the search found, and made what the judge wrote of it."""
    names, certified = ["first", "second", "third"][: len(texts)], command.startswith("certify-")
    for name, text in zip(names, texts):
        yield from text_of(name, text)
    lines = [printed(it) for it in output.decode().splitlines()]
    items = [f"[{'; '.join(lines[k : k + LINES])}]" for k in range(0, len(lines), LINES)]
    yield from pieces("said", "list (list printed)", items, "@concat (list printed)")
    function, said, given = "command_" + command.replace("-", "_"), "said", "_ " * (len(texts) + 1)
    if certified:
        yield from text_of("found", found)
        kind = command[len("certify-") :]
        finding = "lines_of found" if kind == "paths" else f"{'Better' if status else 'Shown'} (lines_of found)"
        yield f"Definition search {SEARCHES[kind]} := {finding}.\n\n"
        function, given = f"({function} search)", f"search {given}"
        said = "(said ++ map (fun line => [Word line]) (lines_of found))%list" if made else said
    answer = f"Some ({'false' if status else 'true'}, {said})"
    yield f"Theorem answer : report_of (run_on {function} [{'; '.join([*names, '[]', '[]'][:3])}])\n  = {answer}.\n"
    yield f"Proof. vm_cast_no_check (eq_refl ({answer})). Qed.\n\n"
    name = command.replace("-", "_")
    if status or command not in MEANT:
        yield f"Definition meaning := {'no' if status and not certified else 'promise'}_{name} {given}answer.\n"
    else:
        proof = f"yes_{name} search" if certified else f"yes_judge_{name}"
        meant = MEANT[command].replace("NUMBER", f"({[b'0', *output.split()][-1].decode()})")
        yield f"Theorem meaning : {meant}.\nProof. exact ({proof} answer). Qed.\n"
    yield "Check meaning.\n"


@contextlib.contextmanager
def trying(name, what):
    """Where this fails, a message that names it."""
    try:
        yield
    except OSError as error:
        raise Failed(3, f"device fault\nkernel: {name}: cannot be {what}: {error.strerror} (os error {error.errno})") from error


def content(name):
    with trying(name, "read"), open(name, "rb") as it:
        return it.read()


def write(device, data):
    """Writes all, and keeps nothing that Python would write at its end."""
    while data:
        data = data[os.write(device, data) :]


def complain(message):
    """What can't be said changes no status."""
    with contextlib.suppress(OSError):
        write(2, os.fsencode(f"kernel: {message}\n"))


def answered(name, status, said):
    """Refuses a program that a signal ended, or that had no memory or no room."""
    if status < 0 or re.search("Out of memory|Stack overflow|System error", said):
        raise Failed(4, f"{name} ended without an answer: {signal.strsignal(-status) if status < 0 else said[-500:]}")


def run_judge(word, folder, count, made):
    """The judge's status, what it printed, and what it wrote into a file, of the texts in a folder."""
    words = [f"{BUILT}/judge", word, *"123"[:count], *made]
    ran = subprocess.run(words, cwd=folder, stdin=subprocess.DEVNULL, capture_output=True, check=False)
    answered("the judge", ran.returncode, "")
    wrote = b"".join(content(f"{folder}/{it}") for it in made if os.path.exists(f"{folder}/{it}"))
    if ran.returncode in (3, 4):
        raise Failed(ran.returncode, ran.stderr.decode(errors="replace").strip())
    if not is_report(ran.stdout) or wrote and not wrote.endswith(b"\n"):
        raise Failed(5, f"the judge prints or writes what no report has: {ran.stdout[:200]!a} {wrote[-200:]!a}")
    if ran.returncode not in (0, 1) or ran.stdout == b"g search\n":
        raise Failed(5, f"the judge ends with {ran.returncode}: {ran.stdout[:200]!a}")
    return ran.returncode, ran.stdout, wrote


def accepted(folder, size):
    """What Coq says of Claim.v in a folder. From a second on, it is said how long this takes."""
    words = ["coqc", "-q", "-R", BUILT, "Dimacs", "Claim.v"]
    signal.pthread_sigmask(signal.SIG_BLOCK, SIGNALS)  # else one could come while Coq is begun, and Coq go on
    with subprocess.Popen(words, cwd=folder, stdin=subprocess.DEVNULL, stdout=subprocess.PIPE, stderr=subprocess.STDOUT) as ran:
        seconds, said = 1, None
        try:
            signal.pthread_sigmask(signal.SIG_UNBLOCK, SIGNALS)
            while said is None:
                with contextlib.suppress(subprocess.TimeoutExpired):
                    said, _ = ran.communicate(timeout=10 if seconds > 1 else 1)
                if said is None:
                    complain(f"Coq checks {size:,} bytes: {seconds} s")
                    seconds += 10
        finally:
            ran.kill()
    said = said.decode(errors="replace")
    answered("Coq", ran.returncode, said)
    if ran.returncode:
        raise Failed(5, f"Coq doesn't accept the answer: {said[-1000:]}")
    return said


def assumes_nothing_else(said):
    """Whether Coq printed at its end that a theorem rests on no axiom but primitive integers."""
    _, begun, last = said.rpartition("Axioms:\n")
    return set(last.splitlines()) <= INTEGERS if begun else said.endswith(NOTHING_ASSUMED)


def is_same(one, other):
    """Whether two names are of one file, which needn't be there."""
    is_there = os.path.exists(one) and os.path.exists(other)
    return os.path.samefile(one, other) if is_there else os.path.realpath(one) == os.path.realpath(other)


def parted(words):
    """The command, the files that it reads, and those that get the certificate and the theorem, or None."""
    words, keep = list(words), None
    if "--keep" in words[:-1]:
        at = words.index("--keep")
        keep, words[at : at + 2] = words[at + 1], []
    count = COUNTS.get(words[0]) if words else None
    if not count or "--keep" in words or not count < len(words) <= count + 1 + words[0].startswith("certify-"):
        raise Failed(2, f"usage\n{__doc__.splitlines()[0]}\n{__doc__.split(chr(10) * 2)[1]}")
    if keep and not re.fullmatch(r"[A-Za-z]\w*\.v", os.path.basename(keep), re.ASCII):
        raise Failed(2, f"{keep}: coqc takes names of letters and digits that end with .v")
    is_there = keep and os.path.lexists(keep)
    if is_there and not (os.path.isfile(keep) and content(keep).startswith(MARK.encode())):
        raise Failed(2, f"{keep}: this file is there, and isn't one that --keep wrote")
    names, made = words[1 : count + 1], (words[count + 1 :] or [None])[0]
    for written, others in (made, names), (keep, words[1:]):
        if written and any(is_same(written, it) for it in others):
            raise Failed(2, f"{written}: named twice")
    return words[0], names, made, keep


def checked(command, names, certificate, keep, folder):
    """Has an answer checked, and writes what is asked for; the status, and what the judge printed."""
    lacking = "coqc: on Debian 12, apt-get install coq" if not shutil.which("coqc") else ""
    if lacking or not os.path.exists(f"{BUILT}/Kernel.vo") or not os.path.exists(f"{BUILT}/judge"):
        raise Failed(3, f"there is no {lacking or 'build/referee/judge: make referee builds it'}")
    texts = [content(it) for it in names]
    for number, text in enumerate(texts, 1):
        with open(f"{folder}/{number}", "wb") as it:
            it.write(text)
    certified = command.startswith("certify-")
    status, output, made = run_judge(command, folder, len(texts), ["made"] if certified else [])
    found = made or certified and run_judge(command.replace("certify", "found"), folder, len(texts), ["found"])[2] or b""
    files = [f"     {hashlib.sha256(text).hexdigest()}  {urllib.parse.quote(os.fsencode(it))}" for it, text in zip(names, texts)]
    with open(f"{folder}/Claim.v", "w", encoding="ascii", newline="") as it:
        it.write(MARK + HEAD.format(files="\n".join(files), name=os.path.basename(keep or "Claim.v")))
        it.writelines(claim(command, texts, status, output, made, found))
        it.write("Print Assumptions meaning.\n")
    try:
        said = accepted(folder, sum(map(len, texts)) + len(found))
        if not assumes_nothing_else(said):
            raise Failed(5, f"the theorem rests on axioms: {said[-500:]}")
    except Failed as failed:
        status_, message = failed.args
        raise Failed(status_, f"{message.strip()}\nkernel: the judge ended with {status}, and printed {output[:200]!a}") from failed
    for name, source in ((certificate if made else None, "made"), (keep, "Claim.v")):
        if name:
            with trying(name, "written"), open(name, "wb") as it:
                it.write(content(f"{folder}/{source}"))
    return status, output


def ended(number, _):
    """Ends by a signal, once: what runs is ended, and the folder removed."""
    for it in SIGNALS:
        signal.signal(it, signal.SIG_IGN)
    sys.exit(128 + number)


def main():
    while os.open(os.devnull, os.O_RDONLY) <= 2:
        pass  # No file that is opened later takes the place of a standard device that is closed.
    for it in SIGNALS:
        if signal.getsignal(it) != signal.SIG_IGN:
            signal.signal(it, ended)
    try:
        with tempfile.TemporaryDirectory() as folder:
            status, output = checked(*parted(sys.argv[1:]), folder)
        with trying("standard output", "written"):
            write(1, output)
    except Failed as failed:
        status, message = failed.args
        complain(message)
    except OSError as error:
        status = 3
        complain(f"device fault\nkernel: {error}")
    except MemoryError:
        status = 4
        complain("out of memory")
    sys.exit(status)


if __name__ == "__main__":
    main()
