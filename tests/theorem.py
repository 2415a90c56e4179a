#!/usr/bin/env python3
"""Tests docs/THEOREM.md: tests/theorem.py

The page has to be what tools/theorem.py writes, with nothing that this finds wrong. And it has to find what is wrong in
spoiled texts of the page. To lay out a definition in fewer lines leaves its words as they are. It needs no program.
"""
import re
import sys

import scripts

sys.path.insert(0, f"{scripts.TOP}/tools")
import theorem  # noqa: E402

# What is replaced in the text of the page, by what, and what has to be found wrong.
SPOILED = [
    (r"\nNoFlow .*", "", "missing: NoFlow"),
    (r"\nNoFlow .*", r"\g<0>\nnet\nNoFlow", "twice: NoFlow"),
    (r"\nNoFlow .*", r"\g<0>\nJudges", "not cited: Judges"),
    (r"\nIsWalk ", r"\nBeyond\g<0>", "Beyond stands before IsWalk, which it uses"),
    (r"-- there is no walk at all\n", "", "Unreachable has no sentence"),
    (r"\npub struct ArcView .*", "", "MaxValue stands before ArcView, which it uses"),
    (r"\npub enum JudgeKind ", "\npub enum SpreadKind ", "missing: JudgeKind"),
    (r"\npub enum JudgeKind ", "\npub enum SpreadKind ", "not cited: SpreadKind"),
    (r"\npub trait Source .*", "", "missing: Source"),
    (r"`Network`", "network", "missing: Network"),
    (r"`AllZip`, `Contains`", "`OneZip`, `Contains`", "missing in the table of the kit: `AllZip`"),
    (r"`AllZip`, `Contains`", "`OneZip`, `Contains`", "not cited of the kit: `OneZip`"),
]


def words_of(text):
    return sorted(text.replace(";", " ").replace("--", " ").split())


def altered():
    """The definitions that have other words when they are laid out."""
    defined, circle, _ = theorem.cited()
    for it in sorted(circle):
        comments, lines = theorem.parts_of(defined.blocks[it])
        if words_of(theorem.bare(defined.blocks[it])) != words_of("\n".join([*comments, *lines])):
            yield f"laid out with other words: {it[1]}"


def cases():
    text = theorem.read(theorem.PAGE)
    page = theorem.Page(text)
    yield f"docs/THEOREM.md: {'; '.join(page.wrong)}", not page.wrong
    yield "docs/THEOREM.md isn't what tools/theorem.py writes", page.text == text
    yield from ((it, False) for it in altered())
    for old, new, expected in SPOILED:
        spoiled = re.sub(old, new, text, count=1)
        yield f"not found: {expected}", spoiled != text and expected in theorem.Page(spoiled).wrong


if __name__ == "__main__":
    scripts.end_with(cases())
