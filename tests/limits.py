#!/usr/bin/env python3
"""Compares the limits that pages and programs name with the definitions: tests/limits.py

Forms.antt has the type of each field of a line, TEXTS.md its name: so each name has a range. The words of explanations,
TEXTS.md and both referees have to give it the same, and Ranges.antt each type. So have the longest line and the most lines.
"""
import re

import scripts

SPECS, RECORDS = "crates/dimacs_lines/specs/Limits.antt", "crates/dimacs_records/specs"
WORDS, PAGE = "crates/dimacs_quote/src/forms.rt", "docs/TEXTS.md"
PYTHON, COQ = "referee/referee.py", "referee/proof/Texts.v"

NAMED = {name: int(value) for name, value in re.findall(r"^(\w+) = (\d+)$", scripts.read(SPECS), re.M)}
NAMED["most_value"] = 10**30  # that of Wide, which Coq names


def number(text):
    """The number that a text writes; none if it writes two, as in `8 (2^4)`."""
    text = text.replace("neg_ℤ", "-").replace("pos ", "").replace("^", "**").replace(",", "")
    twice = re.fullmatch(r"(\d+) \((.*)\)", text)
    values = {eval(it, {}, NAMED) for it in (twice.groups() if twice else [text])}  # pylint: disable=eval-used
    return values.pop() if len(values) == 1 else None


def defined(page, pattern):
    """The ranges that a page of definitions gives to types."""
    found = re.findall(pattern, scripts.read(f"{RECORDS}/{page}.antt"), re.M)
    return {name: (number(low), number(high)) for name, low, high in found}


def forms_of_kinds():
    """Yields the types of each form, and the names of its fields in TEXTS.md."""
    rows = re.findall(r"^\| (\w+) \| `\w+` \| `\w+` \| (.*) \|$", scripts.read(PAGE), re.M)
    kinds = dict(re.findall(r"^forms (\w+) = ((?:.*\n)+?)(?=forms|\Z)", scripts.read(f"{RECORDS}/Forms.antt"), re.M))
    for kind, forms in rows:
        named = [it.split() for it in re.findall(r"`([^`]+)`", forms)]
        for letter, types in re.findall(r'form \(codes "(\w)"\) \((.*?) ∷ \[\]\)', kinds[kind]):
            types = types.split(" ∷ ")
            for fields in (it[1:] for it in named if it[0] == letter and len(it) == len(types) + 1):
                yield f"{kind} {letter}", types, fields


def told():
    """Yields each name that is given a range, where, and the range."""
    arms = re.search(r"fn range_of.*?^}", scripts.read(WORDS), re.M | re.S)[0]
    for names, words in re.findall(r'^ +(.*) => "(.*)",$', arms, re.M):
        for name in re.findall(r"[A-Z]+", names) or ["ID"]:
            yield name, WORDS, tuple(map(number, words.split(" to ")))
    for names, low, high in re.findall(r"^\| ([A-Z, ]+) \| .* \| (\S+) \| (\S+(?: \S+)*) \|$", scripts.read(PAGE), re.M):
        yield from ((name, PAGE, (number(low), number(high))) for name in names.split(", "))
    for names, low, high in re.findall(r'^    "([A-Z ]+)": \((.*), (.*)\),$', scripts.read(PYTHON), re.M):
        yield from ((name, PYTHON, (number(low), number(high))) for name in names.split())


def cases():
    types = defined("Forms", r"^(\w+) = Number \((.*?)\) \((pos .*)\)$")
    for name, limits in defined("Ranges", r"^Is(\w+) n = IsWithin \((.*?)\) \((pos .*)\) n$").items():
        yield f"Ranges.antt: {name} {limits}", types[name] == limits
    ranges = {}
    for form, of_fields, names in forms_of_kinds():
        for it, name in zip(of_fields, names):
            is_right = it in types and ranges.setdefault(name, it) == it if name.isupper() else it not in types
            yield f"{form}: {name} is a {it}", is_right
    found = list(told())
    for name, place, limits in found:
        yield f"{place}: {name} {limits}", types[ranges.get(name, "Id")] == limits
    for place in (PAGE, PYTHON):
        yield f"{place}: all names", {it for it, where, _ in found if where == place} == set(ranges)
    for name, low, high in re.findall(r"^Definition ([A-Z]+) := Number (\(.*?\)|\w+) (\(.*?\)|\w+)\.$", scripts.read(COQ), re.M):
        yield f"{COQ}: {name}", types[name.capitalize()] == (number(low), number(high))
    in_coq = scripts.read(COQ) + scripts.read("referee/proof/Tests.v")
    for name, value in re.findall(r"^Definition (most_\w+|longest_\w+) : Z := (.*)\.$", in_coq, re.M):
        yield f"{COQ}: {name}", NAMED[name] == number(value)
    for name, pattern in ("longest_line", r"len\(content\) > (\S+),"), ("most_lines", r"line > (\S+),"):
        yield f"{PYTHON}: {name}", NAMED[name] == number(re.search(pattern, scripts.read(PYTHON))[1])
    for name, pattern in ("longest_line", r"(\d[\d,]+) bytes"), ("most_lines", r"(?:text at most|number is above) (\d[\d,]+)"):
        stated = re.findall(pattern, scripts.read(PAGE))
        yield f"{PAGE}: {name}", stated and {NAMED[name]} == set(map(number, stated))


if __name__ == "__main__":
    scripts.end_with(cases())
