#!/usr/bin/env python3
"""Tests referee/kernel.py, which has Coq check what the judge answers: tests/coq_kernel.py [BINARY]

It answers the examples as the program does, each command with a yes and a no. A judge that lies, prints what no report has,
or rests on an axiom, ends with 5. Of 60 spoiled texts Coq accepts the program's answers. --keep replaces no other's file.
Without room for files it ends with 3 or 4, and by a signal it leaves nothing. tests/referee.py closes its devices.

BINARY is the built program; crates/dimacs/out/dimacs by default. Without Coq all is left out.
"""
import concurrent.futures
import hashlib
import os
import shutil
import subprocess
import sys
import tempfile
import time

import scripts
from instances import BINARY, MEMORY, Folder
from scripts import TOP
from second_proof import BUILT, built_judge, coqc, link_built
from spoiled_texts import judged_texts
import kernel  # the folder of which spoiled_texts.py adds to the path

EXAMPLES = """
max pipes.max pipes.solution pipes.cut | max pipes.max pipes-careless.solution pipes.cut
min freight.min freight.solution freight.pot | min freight.min freight-dear.solution freight.pot
infeasible shortage.min shortage.cut | infeasible freight.min shortage.cut
paths road.gr road.query road.dist | paths road.gr road.query romania.dist
certify-max pipes.max pipes.solution made | certify-max pipes.max pipes-careless.solution made
certify-min freight.min freight.solution made | certify-min freight.min freight-dear.solution made
certify-infeasible shortage.min made | certify-infeasible freight.min made
certify-paths road.gr road.distances made | certify-paths road.gr road-near.distances made
certify-min far zero made | certify-infeasible far made
"""

# A flow that is better, or feasible, whose cost no text can claim, so it isn't written.
FAR = {"far": "p min 1 1\na 1 1 9 9000000000000000000 -9000000000000000000\n", "zero": "s -81000000000000000000\nf 1 1 9\n"}

# How a judge lies about pipes.solution: its command, what it prints and writes, its status, and what is said of it.
AXIOM = '12)]]. Axiom evil : False. Definition more := [[Word "v'
LIES = [
    ("max", "v max 13\n", "", 0, "doesn't accept"),
    ("max", "x arc 5 NotSaturated\n", "", 1, "doesn't accept"),
    ("certify-max", "v max 12\n", "p cut 5 1\nu 1\n", 0, "doesn't accept"),
    ("certify-max", "v max 12\n", f'p cut 5 1\n". {AXIOM}\n', 0, "doesn't accept"),
    ("certify-max", "v max 12\n", "p cut 5 3\nu 1\nu 2\nu 3", 0, "no report has"),
    ("max", 'v "max 12\n', "", 0, "no report has"),
    ("max", f"v max {AXIOM}\n", "", 0, "no report has"),
    ("max", "v max 12", "", 0, "no report has"),
    ("max", "v max 0012\n", "", 0, "no report has"),
    ("max", "", "", 0, "doesn't accept"),
    ("max", "v max 12\n", "", 7, "ends with 7"),
    ("max", "g search\n", "", 1, "ends with 1"),
    ("certify-max", "g search\n", "", 1, "ends with 1"),
]

# Odd instances, beside the spoiled ones.
PIPE = b"p max 2 1\nn 1 s\nn 2 t\na 1 2 1\n"
ODD = [b"", b"\0", b"\xff" + PIPE, PIPE.replace(b"\n", b"\r\n"), PIPE.replace(b"\n", b"\r"), PIPE[:-1], b'c "*)\n' + PIPE, b'"' + PIPE]
ODD += [PIPE.replace(b" 1\n", b" \xb1\n")]  # a byte that is packed into a number, and is `1` but for a bit


def ran(words, folder, **how):
    """The status, the output and the messages of a run."""
    it = subprocess.run(words, cwd=folder, capture_output=True, text=True, check=False, **how)
    return it.returncode, it.stdout, it.stderr


def checked(words, folder, script=kernel.__file__, **how):
    return ran([sys.executable, script, *words], folder, **how)


def like_the_program(binary, words):
    """Whether an example is answered as by the program, and the same is written."""
    with tempfile.TemporaryDirectory(dir=MEMORY) as folder:
        for name in os.listdir(f"{TOP}/examples"):
            os.symlink(f"{TOP}/examples/{name}", f"{folder}/{name}")
        for name, text in FAR.items():
            Folder(folder).write(name, text)
        prefix = "" if words[0].startswith("certify") else "judge-"
        wanted = ran([binary, prefix + words[0], *words[1:]], folder)[:2]
        is_made = os.path.exists(f"{folder}/made")
        if is_made:
            os.remove(f"{folder}/made")
        answer = checked(words, folder)
        return answer[:2] == wanted and os.path.exists(f"{folder}/made") == is_made, answer


def lying(folder, script):
    """The file of kernel.py where the judge is a shell script."""
    os.makedirs(f"{folder}/build/referee")
    os.mkdir(f"{folder}/referee")
    os.symlink(kernel.__file__, f"{folder}/referee/kernel.py")
    link_built(f"{folder}/build/referee")
    with open(f"{folder}/build/referee/judge", "w", encoding="utf-8") as it:
        it.write(script)
    os.chmod(it.name, 0o755)
    return f"{folder}/referee/kernel.py"


PIPES = [f"{TOP}/examples/pipes.{it}" for it in ("max", "solution", "cut")]


def is_caught(command, printed, made, status, message):
    with tempfile.TemporaryDirectory() as folder:
        Folder(folder).write("printed", printed)
        Folder(folder).write("wrote", made)
        copied = f'cp {folder}/wrote "$4"\n' if made else ""
        script = lying(folder, f"#!/bin/sh\n{copied}cat {folder}/printed\nexit {status}\n")
        answer = checked([command, *PIPES[: kernel.COUNTS[command]]], folder, script)
        return answer[:2] == (5, "") and message in answer[2], answer


def axiom_is_caught():
    with tempfile.TemporaryDirectory() as folder:
        script = lying(folder, f'#!/bin/sh\nexec {BUILT}/judge "$@"\n')
        os.remove(f"{folder}/build/referee/Kernel.vo")
        text = scripts.read("referee/proof/Kernel.v")
        proof = text[text.index("Proof. now intros (line & field") :].partition("Qed.")[0]
        Folder(f"{folder}/build/referee").write("Kernel.v", text.replace(f"{proof}Qed.", "Admitted."))
        said = coqc(f"{folder}/build/referee", "Kernel.v")
        answer = checked(["certify-max", *PIPES[:2]], folder, script)
        return said[1] and answer[:2] == (5, "") and "rests on axioms" in answer[2], (said, answer)


def cases(first):
    """Every fourth of 60 cases, each a command and its texts as bytes, from one on."""
    for number in range(first, 60, 4):
        command, seed = ["max", "min", "infeasible", "paths"][number // 4 % 4], number
        if number < len(ODD):
            yield "max", [ODD[number], b"s 1\nf 1 2 1\n", b"p cut 2 1\nu 1\n"]
            continue
        texts = judged_texts(command, f"kernel:{seed}")
        while sum(map(len, texts)) > kernel.PLAIN:
            seed += 60
            texts = judged_texts(command, f"kernel:{seed}")
        yield command, [it.encode("latin-1") for it in texts]


def are_accepted(binary, first):
    """Whether Coq accepts the program's answers to some cases, in one file, and that they rest on nothing else."""
    with tempfile.TemporaryDirectory(dir=MEMORY) as folder:
        text = kernel.HEAD.format(files="", name="")
        for number, (command, texts) in enumerate(cases(first)):
            for name, data in zip("123", texts):
                with open(f"{folder}/{name}", "wb") as it:
                    it.write(data)
            status, output, _ = ran([binary, f"judge-{command}", *"123"[: len(texts)]], folder)
            body = "".join(kernel.claim(command, texts, status, output.encode(), b"", b""))
            text += f"Module M{number}.\n{body}End M{number}.\n"
        meanings = ", ".join(f"M{k}.meaning" for k in range(number + 1))
        Folder(folder).write("Claims.v", f"{text}Definition all := ({meanings}).\nPrint Assumptions all.\n")
        link_built(folder)
        said, accepted = coqc(folder, "Claims.v")
        return accepted and kernel.assumes_nothing_else(said), said[-2000:]


def keeping():
    """Yields what --keep does, and whether it is right."""
    with tempfile.TemporaryDirectory(dir=MEMORY) as folder:
        files = Folder(folder)
        names = ["an 'odd\" *).max", "b.solution"]
        for name, source in zip(names, PIPES):
            shutil.copy(source, f"{folder}/{name}")
        words, solution = ["certify-max", *names], files.read(names[1])
        answer = checked([*words, "--keep", "Kept.v"], folder)
        with open(f"{folder}/Kept.v", encoding="ascii") as it:
            kept = it.read()
        with open(PIPES[0], "rb") as it:
            is_named = hashlib.sha256(it.read()).hexdigest() in kept
        yield "a theorem is kept", answer[:2] == (0, "v max 12\n") and is_named, answer
        alone = ran(["coqc", "-R", BUILT, "Dimacs", "Kept.v"], folder)
        yield "it is accepted alone", alone[0] == 0 and "maximum i" in alone[1] and alone[1].endswith(kernel.NOTHING_ASSUMED), alone
        yield "it says the value", "value i (claimed_flow i s) = 12\n" in alone[1], alone
        yield "it is replaced", checked([*words, "--keep", "Kept.v"], folder)[0] == 0, ""
        files.write("Mine.v", kept[1:])
        os.symlink("nowhere", f"{folder}/Link.v")
        for name in ("Mine.v", "Link.v", "a b.v", "Kept.txt"):
            answer = checked([*words, "--keep", name], folder)
            yield f"{name} isn't written", answer[:2] == (2, "") and files.read("Mine.v") == kept[1:] and not os.path.exists(f"{folder}/nowhere"), answer
        os.link(f"{folder}/{names[1]}", f"{folder}/linked")
        for more in (["New.v", "--keep", "New.v"], [names[1]], ["linked"]):
            answer = checked([*words, *more], folder)
            yield f"one file by two names: {more[0]}", answer[:2] == (2, "") and files.read(names[1]) == solution, answer
        answer = checked(words, folder, env={"PATH": "/nowhere"})
        yield "no coqc", answer[:2] == (3, "") and "there is no coqc" in answer[2], answer
        for wrong in ("", "max", "max a b c d", "certify-max a", "other a b c", "certify-max a b --keep"):
            answer = checked(wrong.split(), folder)
            yield f"usage of {wrong!r}", answer[:2] == (2, ""), answer
        answer = checked([*words, "/dev/stdout"], folder)
        yield "the certificate into a pipe", answer[:2] == (0, "p cut 5 3\nu 1\nu 2\nu 3\nv max 12\n"), answer
        for blocks, status in (0, 3), (10, 4):
            limited = ["sh", "-c", f'ulimit -f {blocks}; exec "$@"', "sh", sys.executable, kernel.__file__, *words]
            answer = ran(limited, folder)
            yield f"files of {blocks} blocks", answer[:2] == (status, ""), answer
        answer = checked(["certify-max", "absent", names[1]], folder)
        yield "a file that isn't there", answer[:2] == (3, "") and "absent: cannot be read" in answer[2], answer


def goes_on(number):
    """Whether a process that was killed is still there after ten seconds, and no zombie, which nobody may wait for."""
    for _ in range(1000):
        try:
            with open(f"/proc/{number}/stat", encoding="ascii") as it:
                if it.read().rpartition(") ")[2].startswith("Z"):
                    return False
        except OSError:
            return False
        time.sleep(0.01)
    return True


def is_ended_by_a_signal():
    """Whether SIGTERM, sent twice as by timeout, also ends coqc, here a script that waits, and no folder is left."""
    with tempfile.TemporaryDirectory(dir=MEMORY) as folder, tempfile.TemporaryDirectory(dir=MEMORY) as left:
        Folder(folder).write("coqc", f"#!/bin/sh\necho $$ >{folder}/new\nmv {folder}/new {folder}/number\nexec sleep 60\n")
        os.chmod(f"{folder}/coqc", 0o755)
        how = os.environ | {"PATH": f"{folder}:{os.environ['PATH']}", "TMPDIR": left}
        with subprocess.Popen([sys.executable, kernel.__file__, "certify-max", *PIPES[:2]], stderr=subprocess.DEVNULL, env=how) as it:
            while it.poll() is None and not os.path.exists(f"{folder}/number"):
                time.sleep(0.01)
            it.terminate()
            it.terminate()
        is_running = goes_on(Folder(folder).read("number").strip())
        return (it.returncode, is_running, os.listdir(left)) == (143, False, []), (it.returncode, is_running, os.listdir(left))


def main():
    binary = os.path.abspath([*sys.argv, BINARY][1])
    if not built_judge():
        scripts.finish(1, 0)
    counts = scripts.Counts()
    with concurrent.futures.ThreadPoolExecutor(4) as pool:
        jobs = [(it, pool.submit(like_the_program, binary, it.split())) for it in EXAMPLES.strip().replace("\n", " | ").split(" | ")]
        jobs += [(str(it), pool.submit(is_caught, *it)) for it in LIES]
        jobs += [("an axiom", pool.submit(axiom_is_caught)), ("a signal", pool.submit(is_ended_by_a_signal))]
        jobs += [(f"spoiled texts from {it} on", pool.submit(are_accepted, binary, it)) for it in range(4)]
        for name, it in jobs:
            is_right, answer = it.result()
            counts.expect(name, is_right, str(answer))
    for name, is_right, more in keeping():
        counts.expect(name, is_right, str(more))
    counts.end()


if __name__ == "__main__":
    main()
