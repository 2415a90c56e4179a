#!/usr/bin/env python3
"""Tests that the gate refuses what has to fail in it: tests/gate_test.py

It counts outputs of scripts. In a repository of one crate wrong bodies show nothing, and sources change after they were
built; nothing is built for it.
"""
import contextlib
import io
import os
import re
import shutil
import sys
import tempfile

import library
import scripts

# How much has to pass in a script, its status and output, `~` for the end of a line, and what counts as passed and failed.
COUNTED = """
5 | 0   | 5 passed, 0 failed                  | 5 0
5 | 0   | 5 passed, 0 failed (and more)       | 5 0
5 | 1   | 5 passed, 0 failed                  | 5 1
5 | 0   | 4 passed, 0 failed                  | 4 1
1 | 0   | 0 passed, 0 failed                  | 0 1
0 | 0   | a line                              | 1 0
0 | 1   | 5 passed, 0 failed                  | 0 1
5 | 1   | 5 passed, 2 failed                  | 5 2
5 | 0   | 5 passed, 2 failed                  | 5 3
5 | 0   | 5 passed, 0 failed~a line           | 0 1
1 | 127 | 5 passed, 0 failed, but~sh: no tool | 0 1
5 | 0   | left out: a tool~4 passed, 0 failed | 4 0
"""

CODE = "pub fn one() -> u8 {\n    1 // one\n}\n"

# Wrong bodies of this code that show nothing, and why.
BODIES = """
same     | - 1 //~+ 1 //          | it changes no code
comment  | - // one~+ // 2        | it changes no code
broken   | - 1 //~+ 1; ) //       | it doesn't parse
twice    | - one~+ two            | 'one' stands 2 times
absent   | - three~+ two          | 'three' stands 0 times
half     | - 1                    | '- 1' and '' aren't a line
old_form | name: it~old: 1~new: 2 | 'name: it' and 'old: 1' aren't a line
"""


def rows(table):
    return [[cell.strip().replace("~", "\n") for cell in row.split("|")] for row in table.strip().splitlines()]


def counting():
    os.environ.pop("ALL_TOOLS", None)
    for least, status, output, counts in rows(COUNTED):
        ran = scripts.counted("it", int(least), int(status), output)
        yield f"of {output!r}, status {status}: {ran}", counts == f"{ran.passed} {ran.failed}"
    yield "a script that is gone", scripts.run(scripts.Script("", 1, ["tests/gone.py"]), {})[1:3] == (0, 1)
    yield "a first command that fails", scripts.run(scripts.Script("", 1, ["false", "true"]), {})[1:3] == (0, 1)
    for failed, left_out in (1, []), (0, ["it: no tool"]), (1, ["it: no networkx 3.3"]):
        counts = library.Counts()
        counts.passed, counts.left_out = 4, left_out
        with contextlib.redirect_stdout(io.StringIO()) as printed:
            counts.end("a layer")
        ran = scripts.counted("it", 5, 0, f"{printed.getvalue()}4 passed, 0 failed")
        yield f"too few of a layer, left out {left_out}", ran.failed == failed
    asked = " ".join(re.findall(r"gate\.scripts\((.*?)(?:, words|\))", scripts.read(".ci/gate")))
    left = {need for need, *_ in rows(scripts.TABLE)} - {"quick", *re.findall(r"\w+", asked)}
    yield f"scripts that the gate doesn't run: those that need {left}", not left
    os.environ["ALL_TOOLS"] = "yes"
    yield "left out with all tools", scripts.counted("it", 1, 0, "left out: it\n1 passed, 0 failed").failed


def over_one_crate(place):
    sys.path.insert(0, shutil.copytree(f"{scripts.TOP}/tools", f"{place}/tools"))
    import check_over, edits, functions, kit, sources, texts, try_bodies  # noqa: E401

    bodies = "".join(f"## {name}\n{lines}\n" for name, lines, _ in rows(BODIES))
    files = {"crates.txt": "dimacs:\n", "crates/dimacs/src/lib.rt": CODE, "crates/dimacs/specs/One.antt": "pub mod One\n"}
    files |= {"crates/dimacs/wrong-bodies": f"# src/lib.rt\n{bodies}", "HANDLES": "none\n", "VERSION": "1\n"}
    files["README.md"] = scripts.read("README.md")
    for path, text in files.items():
        texts.write(path, text)
    found = {edit.name: why for edit, why in edits.showing_nothing(kit.folder(), edits.edits_of("dimacs"))}
    for name, _, why in rows(BODIES):
        yield f"{name}: {found.get(name)}", found.get(name, "").startswith(why)
    edit = try_bodies.Edit(edits.edits_of("dimacs")[0])
    try_bodies.judge_errors(edit, [": `goal-3` is not in scope", ": the record has no field `goal-4`"])
    yield "a proof that fails by a name alone", edit.result == try_bodies.BAD
    for block, owner in (("impl Table<i128> {", "Table+i128"), ("impl<T> Number<T> for i32 {", "I32Number")):
        yield f"the kit's name of {block}", functions.owner_of(block) == owner

    built, made_of = [f"{place}/HANDLES"], sources.summed(sources.PROVED)
    sources.note(f"{place}/sources", made_of, built)
    yield "a build of these sources", sources.is_current(f"{place}/sources", made_of, built)
    yield "by another kit", not sources.is_current(f"{place}/sources", [made_of[0], "kit another"], built)
    for path in files.keys() - {"README.md", "crates/dimacs/wrong-bodies"}:
        texts.write(path, f"{files[path]} ")
        yield f"of another {path}", not sources.is_current(f"{place}/sources", sources.summed(sources.PROVED), built)
        texts.write(path, files[path])
    yield "another clone without its library", list(check_over.differing(place, ["dimacs"])) == ["dimacs"]
    texts.write(f"{place}/crates/dimacs/out/rlib/dimacs.rlib/format", "")
    yield "another clone with its library", not list(check_over.differing(place, ["dimacs"]))
    with tempfile.TemporaryDirectory() as clone:
        shutil.copytree(f"{place}/crates", f"{clone}/crates")
        yield "a copy of it", not list(check_over.differing(clone, ["dimacs"]))
        texts.write(f"{clone}/crates/dimacs/src/lib.rt", f"{CODE} ")
        yield "a copy of other sources", list(check_over.differing(clone, ["dimacs"])) == ["dimacs"]
    os.remove(f"{place}/crates/dimacs/specs/One.antt")
    yield "without a definition", not sources.is_current(f"{place}/sources", sources.summed(sources.PROVED), built)


if __name__ == "__main__":
    with tempfile.TemporaryDirectory() as room:
        scripts.end_with([*counting(), *over_one_crate(room)])
