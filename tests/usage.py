#!/usr/bin/env python3
"""Asks for help and the version, and gives arguments that ask for nothing or are a slip: tests/usage.py [BINARY]

Help goes to the standard output, with the status 0, and what is wrong with arguments to the standard error, after the
line `dimacs: usage` and before a usage text, with the status 2. BINARY is the built program; crates/dimacs/out/dimacs by
default.
"""
import os
import pathlib
import re
import subprocess
import sys
import tempfile

import scripts
from instances import BINARY

VERSION = r"dimacs \d+\.\d+\.\d+\S* (?:\(by rustc \S+\) )?\((?:not proved|proved by .*)\)\n"
WHOLE = VERSION + r"Reads, .*\n\nUsage: dimacs COMMAND FILE\.\.\.\n\nCommands:\n  convert KIND FILE .*"

# What is asked for: the arguments, and what is printed, as a pattern.
ASKED = [
    ("help", WHOLE),
    ("--help", WHOLE),
    ("-h", WHOLE),
]

NONE = r"Usage: dimacs COMMAND FILE\.\.\.\n\n`dimacs help` lists the commands\n"

# Arguments that ask for nothing: what is wrong with them, and the command whose usage follows, if they name one.
WRONG = [
    (["judgemax"], "no command judgemax: judge-max?", None),
    (["Convert", "gr", "a"], "no command Convert: convert?", None),
    (["help", "judgemax"], "no command judgemax: judge-max?", None),
    (["explain", "judgemax", "a"], "no command judgemax: judge-max?", None),
    (["--halp"], "no command --halp: help?", None),
    (["certify"], "no command certify: certify-max?", None),
    (["judge", "max"], "no command judge: judge-max?", None),
    (["judge", "min", "a", "b", "c"], "no command judge: judge-min?", None),
    (["explain", "judge", "paths", "a"], "no command judge: judge-paths?", None),
    (["version"], "no command version: --version?", None),
    (["-v"], "no command -v: --version?", None),
    (["explain", "version"], "no command version", None),
    (["--"], "no command --", None),
    ([""], "no command ", None),
    (["\x1b\n"], r"no command \x1b\x0a", None),
    (["judge-max", "a", "b"], "judge-max takes 3 files: INSTANCE SOLUTION CUT; 2 were given", "judge-max"),
    (["judge-max", "--helps"], "judge-max takes 3 files: INSTANCE SOLUTION CUT; 1 was given", "judge-max"),
    (["explain", "judge-max", "--help"], "judge-max takes 3 files: INSTANCE SOLUTION CUT; 1 was given", "judge-max"),
    (["judge-infeasible"], "judge-infeasible takes 2 files: INSTANCE CUT; 0 were given", "judge-infeasible"),
    (["explain", "judge-max", "a", "b"], "judge-max takes 3 files: INSTANCE SOLUTION CUT; 2 were given", "judge-max"),
    (["certify-max", "a"], "certify-max takes 2 or 3 files: INSTANCE SOLUTION [CERTIFICATE]; 1 was given", "certify-max"),
    (["certify-min", "a", "b", "c", "--limit", "5"], "certify-min takes 2 or 3 files: INSTANCE SOLUTION [CERTIFICATE]; 5 were given", "certify-min"),
    (["solve-paths", "a", "b", "c", "--limit", "5"], "solve-paths takes 3 files: GRAPH QUERY LABELS; 5 were given", "solve-paths"),
    (["convert", "gr"], "convert takes 2 arguments: KIND FILE; 1 was given", "convert"),
    (["convert", "MAX", "a"], "no kind MAX: max?", "convert"),
    (["show", "soluton", "a"], "no kind soluton: solution?", "show"),
    (["convert", "foo", "a"], "no kind foo", "convert"),
    (["convert", "sp", "a"], "no kind sp: gr?", "convert"),
    (["show", "potentials", "a"], "no kind potentials: pot?", "show"),
    (["solve-max", "--limit", "5", "a", "b", "c"], "--limit N comes last", "solve-max"),
    (["solve-max", "a", "b", "c", "--limit"], "--limit N comes last", "solve-max"),
    (["solve-min", "a", "b", "c", "5", "--limit"], "--limit N comes last", "solve-min"),
    (["solve-max", "a", "b", "c", "--limit", "1000000001"], "N is from 0 to 1000000000", "solve-max"),
    (["solve-min", "a", "b", "c", "--limit", "-1"], "N is from 0 to 1000000000", "solve-min"),
    (["solve-max", "a", "b", "c", "--limit", "many"], "N is from 0 to 1000000000", "solve-max"),
    (["solve-max", "a", "b", "c", "--limit=5"], "write --limit 5", "solve-max"),
    (["solve-max", "--limit=5", "a", "b", "c"], "--limit N comes last", "solve-max"),
    (["solve-max", "a", "b", "--limit", "5"], "solve-max takes 3 files: INSTANCE SOLUTION CUT; 2 were given", "solve-max"),
    (["help", "a", "b"], "help takes 0 or 1 arguments: [COMMAND]; 2 were given", "help"),
    (["--help", "judge-max"], "--help comes alone, or after a command", None),
    (["--version", "judge-max"], "--version comes alone", None),
    (["explain"], "explain takes a command and its files", "explain"),
    (["explain", "--version"], "no command --version", None),
    (["explain", "help"], "explain takes a command that runs, and help doesn't", "explain"),
    ([b"judge-\xff"], "an argument isn't UTF-8", None),
    (["judge-max", "a", "b", b"\xff"], "an argument isn't UTF-8", None),
]

# Runs over an instance i and a solution s, which is linked too, whose target is likely a slip: the words, and what is
# said of it. None does anything but what solves: its files are named, and it goes on.
SLIPPED = {"i": "p max 2 1\nn 1 s\nn 2 t\na 1 2 3\n", "s": "s 3\nf 1 2 3\n"}
SLIPS = [
    ("certify-max i s ./i", "INSTANCE and CERTIFICATE are the same file: ./i"),
    ("certify-max i s linked", "SOLUTION and CERTIFICATE are the same file: linked"),
    ("certify-min i s s", "SOLUTION and CERTIFICATE are the same file: s"),
    ("certify-infeasible i i", "INSTANCE and CERTIFICATE are the same file: i"),
    ("certify-paths i s s", "DISTANCES and LABELS are the same file: s"),
    ("spread-max i s i", "INSTANCE and OUT are the same file: i"),
    ("explain certify-max i s s", "SOLUTION and CERTIFICATE are the same file: s"),
    ("explain solve-max i s i", "INSTANCE and CUT are the same file: i"),
    ("certify-max i s --version", "CERTIFICATE looks like an option: --version; ./--version names a file"),
    ("spread-max i s --help", "OUT looks like an option: --help; ./--help names a file"),
    ("explain solve-max i s --limit", "CUT looks like an option: --limit; ./--limit names a file"),
    ("solve-max i s i", "INSTANCE and CUT are the same file: i"),
    ("solve-paths i s ./s", "QUERY and LABELS are the same file: ./s"),
    ("solve-max i s --limit", "CUT looks like an option: --limit; ./--limit names a file"),
    ("solve-max i s linked", "SOLUTION and CUT are the same file: linked"),
    ("explain solve-max i s ./s", "SOLUTION and CUT are the same file: ./s"),
    ("solve-max i s s", "SOLUTION and CUT are the same file: s"),
    ("solve-max i new new", "new: written twice"),
    ("certify-max i s ./--version", None),
    ("spread-max i s linked", None),
    ("certify-max i s /dev/null", None),
    ("judge-max i s s", None),
]


def lay(folder):
    """Writes the files of the runs that are likely a slip."""
    for name, text in SLIPPED.items():
        pathlib.Path(folder, name).write_text(text, encoding="ascii")
    os.link(f"{folder}/s", f"{folder}/linked")


def usages():
    """The words of each command in the table of usage.rt, by its name."""
    words = re.findall(r'\(\s*"([a-z][^"]*)",\s*"[^"]*",?\s*\)', scripts.read("crates/dimacs_usage/src/usage.rt"))
    return {it.split()[0]: it for it in words}


def usage_of(words):
    """The usage of one command, as a pattern."""
    return rf".+\n\nUsage: dimacs {re.escape(words)}\n.*"


def run(binary, words, folder="."):
    ran = subprocess.run([binary, *words], capture_output=True, check=False, cwd=folder)
    return ran.returncode, ran.stdout.decode(), ran.stderr.decode()


def is_like(text, pattern):
    return bool(re.fullmatch(pattern, text, re.DOTALL))


def is_narrow(text):
    return all(len(line) <= 80 for line in text.split("\n"))


def cases(binary):
    """Yields what was asked, the answer, and whether that is right."""
    commands = usages()
    helped = [(it, usage_of(words)) for name, words in commands.items() for it in (f"help {name}", f"{name} --help", f"{name} -h")]
    for words, pattern in ASKED + helped:
        status, printed, complaint = answer = run(binary, words.split())
        yield words, answer, status == 0 and is_like(printed, pattern) and is_narrow(printed) and not complaint
    for words, line, command in WRONG:
        usage = usage_of(commands[command]) if command else NONE
        status, printed, complaint = answer = run(binary, words)
        wanted = f"dimacs: usage\n{re.escape(line)}\n{usage}"
        yield words, answer, status == 2 and not printed and is_like(complaint, wanted)
    status, printed, complaint = answer = run(binary, [])
    yield "no arguments", answer, status == 2 and not printed and is_like(complaint, f"dimacs: usage\n{WHOLE}")
    complaint = "dimacs: device fault\ndimacs: a\\x1b\\x0a: cannot be opened: No such file or directory (os error 2)\n"
    answer = run(binary, ["show", "max", "a\x1b\n"])
    yield "a name that can't be seen", answer, answer == (3, "", complaint)
    for words in (["help"], ["--version"]):
        with open("/dev/full", "wb") as full:
            ran = subprocess.run([binary, *words], stdout=full, stderr=subprocess.PIPE, check=False)
        right = "dimacs: device fault\ndimacs: standard output: cannot be written: No space left on device (os error 28)\n"
        yield f"{words} to a full device", ran, ran.returncode == 3 and ran.stderr.decode() == right


def slips(binary):
    """Yields what was asked of files that are likely a slip, the answer, and whether that is right."""
    for words, line in SLIPS:
        with tempfile.TemporaryDirectory() as folder:
            lay(folder)
            status, printed, complaint = answer = run(binary, words.split(), folder)
            left = {it.name: it.read_text(encoding="ascii") for it in pathlib.Path(folder).iterdir()}
        if not line:
            is_right = status != 2 and not complaint
        elif words.startswith("solve"):
            is_right = status != 2 and complaint == f"dimacs: {line}\n"
        else:
            is_right = complaint.startswith(f"dimacs: usage\n{line}\n") and (status, printed) == (2, "")
            is_right = is_right and left == {**SLIPPED, "linked": SLIPPED["s"]}
        yield words, answer, is_right


def main():
    binary = os.path.abspath(sys.argv[1] if len(sys.argv) > 1 else BINARY)
    scripts.end_with((f"{words}: {answer}", is_right) for words, answer, is_right in [*cases(binary), *slips(binary)])


if __name__ == "__main__":
    main()
