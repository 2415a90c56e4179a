#!/usr/bin/env python3
"""Tests the judge in Coq, referee/proof: tests/second_proof.py

`make referee` has coqc check all files. Then second_proof.v compares the statement of each promise with the text there,
and no promise may use an axiom. In copies of a file a proof is left out, an axiom is used, a promise is missing or has a
weaker statement, a test is left out: each has to be found. The search may do nothing but search. tests/referee.py compares
what the judge answers.
"""
import argparse
import os
import re
import shutil
import subprocess
import tempfile

import scripts
from scripts import TOP

BUILT = f"{TOP}/build/referee"
NEEDED = ["coqc", "ocamlfind", "flock"]

# The files with promises, each after those that it needs.
FILES = ["Canonical", "Judge", "Certify", "Complete"]

# The modules that the search may use, of values and what it makes itself, and those that it may open or name anew.
PURE = {"Array", "Fun", "List", "Map", "Numbers", "Option", "Queue", "Stdlib", "String", "Z"}
NAMED = {"Judge", "Z", "Integers", "Map"}

UNPROVED, AXIOM, UNSTATED = "the file isn't proved", "a promise uses an axiom", "a statement isn't proved"


def spoiled(theorem, proof, weaker):
    """What is replaced of a theorem, which begins and whose proof begins so, by what, and what is found wrong then."""
    name, theorem = theorem.split()[0], f"Theorem {theorem}"
    using = (proof, f"pose is_well. {proof}")
    return {
        "a proof is left out": (AXIOM, [(theorem, f"Lemma is_well : 0 = 1.\nAdmitted.\n{theorem}"), using]),
        "an axiom is used": (AXIOM, [(theorem, f"Axiom is_well : 0 = 1.\n{theorem}"), using]),
        "a promise is missing": (UNSTATED, [(theorem, theorem.replace(name, f"{name}_or_not"))]),
        "a statement is weaker": (UNSTATED, weaker),
    }


SPOILED = {
    "Judge": spoiled(
        "promise_infeasible a c out",
        "rewrite run_infeasible_is. intros (i & I",
        [("/\\ no_flow i /\\ out", "/\\ (no_flow i \\/ out = out) /\\ out"), ("exists i, k. auto.", "exists i, k. auto 6.")],
    )
    | {"another program is promised": (UNPROVED, [("quick_infeasible i k", "None")])},
    "Certify": spoiled(
        "promise_certify_infeasible search a r",
        "intros [F|(i & I & [(? & ?",
        [("is_feasible i y file /\\ ~ no_flow i)", "is_feasible i y file /\\ True)"), ("intros N. now apply (N 1 y), F.", "easy.")],
    )
    | {"a certificate isn't tested": (UNPROVED, [("(quick_infeasible i) (true", "(fun _ => None) (true")])},
    "Complete": spoiled(
        "every_infeasible_is_shown a i",
        "intros I F. destruct (infeasible_is_decided",
        [("true_max i s ->\n  exists c", "true_max i s -> a = b ->\n  exists c"), ("K T. destruct (max", "K T _. destruct (max")],
    ),
}


def coqc(folder, file):
    """What coqc prints of a file, and whether it is accepted."""
    ran = subprocess.run(["coqc", "-q", "-R", ".", "Dimacs", file], cwd=folder, capture_output=True, text=True, check=False)
    return ran.stdout + ran.stderr, ran.returncode == 0


def stated(upto="Complete"):
    """The text of second_proof.v, up to the part that needs a file, and the theorems that it states."""
    text = scripts.read("tests/second_proof.v")
    parts = re.split(r"^(?=From Dimacs)", text, flags=re.MULTILINE)
    last = next(k for k, part in enumerate(parts) if re.match(rf"From Dimacs .*\b{upto}\b", part))
    text = "".join(parts[: last + 1])
    return text, [name for name in re.findall(r"^Check @?(\w+) :", text, re.MULTILINE) if name != "eq_refl"]


def wrong_in(folder, upto="Complete"):
    """Yields what is wrong with what is proved in a folder. One question for all axioms takes less time than one for each."""
    text, names = stated(upto)
    with open(f"{folder}/second_proof.v", "w", encoding="utf-8") as it:
        it.write(f"{text}Definition stated := ({', '.join(f'@{name}' for name in names)}).\nPrint Assumptions stated.\n")
    output, accepted = coqc(folder, "second_proof.v")
    if not accepted:
        yield f"{UNSTATED}: {output[-1500:]}"
    elif not output.endswith("Closed under the global context\n"):
        yield f"{AXIOM}: {output[-1500:]}"


def unstated():
    """Yields each theorem of the files that isn't stated in second_proof.v."""
    for file in FILES:
        for name in re.findall(r"^Theorem (\w+)", scripts.read(f"referee/proof/{file}.v"), re.MULTILINE):
            if name not in stated()[1]:
                yield f"{name} isn't stated in second_proof.v"


def impure():
    """Yields each word of search.ml by which a search that is linked in could print, end, or change what it was given: a
    module but those that do none of it, or a word of OCaml's own."""
    code = re.sub(r"\(\*.*?\*\)|\"[^\"]*\"", "", scripts.read("referee/proof/search.ml"), flags=re.DOTALL)
    used = re.findall(r"\b[A-Z]\w*(?=\s*\.)", code), re.findall(r"\b(?:open|include|module\s+\w+\s*=)\s*(\w+)", code)
    for word in [*set(used[0]) - PURE, *set(used[1]) - NAMED]:
        yield f"search.ml has {word}"
    for word in re.findall(r"\w*print\w*|prerr\w*|std\w+|open_\w+|\w*exit|\w*unsafe\w*|external|\bset_\w+", code):
        yield f"search.ml has {word}"


def link_built(folder, but=None):
    """Puts what coqc made of the files into a folder, but of this one."""
    for name in os.listdir(BUILT):
        if name.endswith(".vo") and name != f"{but}.vo":
            os.symlink(f"{BUILT}/{name}", f"{folder}/{name}")


def unfound(file, wanted, edits):
    """Yields how an edit of a file fails to be found wrong, for this reason."""
    with tempfile.TemporaryDirectory() as folder:
        link_built(folder, file)
        text = scripts.read(f"referee/proof/{file}.v")
        for old, new in edits:
            if text.count(old) != 1:
                yield f"{old!r} stands {text.count(old)} times"
            text = text.replace(old, new)
        with open(f"{folder}/{file}.v", "w", encoding="utf-8") as it:
            it.write(text)
        found = list(wrong_in(folder, file)) if coqc(folder, f"{file}.v")[1] else [UNPROVED]
        if not any(it.startswith(wanted) for it in found):
            yield f"found is {found or 'nothing'}, and not: {wanted}"


def built_judge():
    """The judge in Coq, built if Coq is there. If its proofs aren't accepted all ends."""
    lacking = [it for it in NEEDED if not shutil.which(it)]
    if lacking:
        print(f"left out: the judge in Coq: there is no {' '.join(lacking)}")
        return None
    ran = subprocess.run(["make", "--no-print-directory", "referee"], cwd=TOP, capture_output=True, text=True, check=False)
    if ran.returncode:
        print(f"{ran.stdout}{ran.stderr}FAILED: the proofs aren't accepted")
        scripts.finish(0, 1)
    return f"{BUILT}/judge"


def main():
    argparse.ArgumentParser(description=__doc__, formatter_class=argparse.RawDescriptionHelpFormatter).parse_args()
    if not built_judge():
        scripts.finish(1, 0)
    with tempfile.TemporaryDirectory() as folder:
        link_built(folder)
        failures = [*wrong_in(folder), *unstated(), *impure()]
    cases = [(file, name, *case) for file, cases in SPOILED.items() for name, case in cases.items()]
    for file, name, *case in cases:
        failures += [f"{file}.v, {name}: {it}" for it in unfound(file, *case)]
    for it in failures:
        print(f"FAILED: {it}")
    tests = len(stated()[1]) + len(cases) + 2
    scripts.finish(max(tests - len(failures), 0), len(failures))


if __name__ == "__main__":
    main()
