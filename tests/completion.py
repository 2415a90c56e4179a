#!/usr/bin/env python3
"""Tests the completions of lib/completion in the shells that are there: tests/completion.py [BINARY]

After each command of the usage text, at each of its places, the words, kinds and files that can stand there are
offered, and after the last place nothing. In zsh the functions that it brings for completion are stood in for. BINARY is
the built program; crates/dimacs/out/dimacs by default.
"""
import os
import re
import shutil
import subprocess
import sys
import tempfile

import scripts
from instances import BINARY
from usage import usages

MADE = f"{scripts.TOP}/lib/completion"

BASH = """
source {made}/dimacs.bash
COMP_WORDS=({words} '') COMP_CWORD={count}
_dimacs
printf '%s\\n' "${{COMPREPLY[@]}}"
"""

ZSH = """
_describe() {{ for it in ${{(P)@[-1]}}; do print -r -- ${{it%%:*}}; done }}
_files() {{ print -rl -- ${{~2}} }}
_message() {{ }}
_call_program() {{ shift; "$@" }}
compadd() {{ shift; print -rl -- $@ }}
words=({words} '') CURRENT={count}+1 service=dimacs
source {made}/_dimacs
"""

FISH = """
source {made}/dimacs.fish
complete -C '{words} ' | string replace -r '\\t.*' ''
"""

SHELLS = {
    "bash": (["bash", "-c"], BASH, "dimacs.bash"),
    "zsh": (["zsh", "-f", "-c"], ZSH, "_dimacs"),
    "fish": (["fish", "--no-config", "-c"], FISH, "dimacs.fish"),
}


def usage():
    """The places of each command in the usage text, by its word, and the kinds."""
    commands = {word: re.sub(r"[][]", "", words).split()[1:] for word, words in usages().items()}
    table = re.search(r'^KIND:\n(.*?)"', scripts.read("crates/dimacs_usage/src/usage.rt"), re.MULTILINE | re.DOTALL)[1]
    return commands, re.findall(r"(?:^|  )(\w+)  ", table, re.MULTILINE)


def offered(shell, words, folder):
    """What a shell offers after these words."""
    command, script, _ = SHELLS[shell]
    script = script.format(made=MADE, words=" ".join(words), count=len(words))
    path = f"{folder}/bin:{os.environ['PATH']}"
    how = {"capture_output": True, "text": True, "cwd": f"{folder}/texts", "env": {**os.environ, "PATH": path}}
    ran = subprocess.run([*command, script], check=False, **how)
    return sorted(ran.stdout.split()) + ran.stderr.split()


def checks(shell, folder, commands, kinds):
    """Yields what was looked at in a shell, and whether it is right."""
    command, _, script = SHELLS[shell]
    yield "syntax", not subprocess.run([command[0], "-n", f"{MADE}/{script}"], check=False).returncode
    words = {"COMMAND": sorted(commands), "KIND": sorted(kinds), "--limit": ["--limit"], "N": [], None: []}
    files = {f"a.{kind}" for kind in kinds}
    yield "commands", offered(shell, ["dimacs"], folder) == words["COMMAND"]
    explained = offered(shell, ["dimacs", "explain"], folder)
    yield f"explain: {explained}", explained == sorted(set(commands) - {"explain", "help"})
    for word, places in commands.items():
        typed = ["dimacs", word]
        for place in [*places, None] if word != "explain" else []:
            found = offered(shell, typed, folder)
            is_right = found == words[place] if place in words else found and set(found) <= files
            yield f"{' '.join(typed)}: {found}", is_right
            typed.append({"COMMAND": "show", "KIND": "max", "--limit": "--limit", "N": "5"}.get(place, "a"))
    for typed in ["dimacs", "judge-max"], ["dimacs", "explain", "judge-max"]:
        found = offered(shell, typed, folder)
        yield f"files of the kind: {found}", "a.max" in found if shell == "fish" else found == ["a.max"]


def cases(binary):
    """Yields what was looked at in each shell that is there, and whether it is right."""
    commands, kinds = usage()
    with tempfile.TemporaryDirectory() as folder:
        os.makedirs(f"{folder}/bin")
        os.makedirs(f"{folder}/texts")
        os.symlink(binary, f"{folder}/bin/dimacs")
        for kind in kinds:
            open(f"{folder}/texts/a.{kind}", "w", encoding="ascii").close()
        for shell in SHELLS:
            if shutil.which(shell):
                yield from ((f"{shell}: {what}", right) for what, right in checks(shell, folder, commands, kinds))
            else:
                print(f"left out: {shell}")


if __name__ == "__main__":
    scripts.end_with(cases(os.path.abspath(sys.argv[1] if len(sys.argv) > 1 else BINARY)))
