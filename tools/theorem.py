#!/usr/bin/env python3
"""Rewrites what docs/THEOREM.md has of the sources: tools/theorem.py

The blocks of code of the page have definitions, and types, traits and functions of Rust. Each is laid out anew as the
sources have it, a function without its body: to add one, write its name on a line of its own. The comment of a definition
is the page's if the sources have none. Where several items of Rust have a name, a line `<!-- of FILE -->` before the block
picks one. In the table of the kit the modules are written anew, and so are the lists after these lines:

    <!-- files judge -->             the files of what it cites
    <!-- adds command|library -->    the files and names of what these wider contracts cite beside that

tools/believed.py finds what the contract cites. The script ends with 1 if something cited is missing on the page, or a
trait that a bound names, if something there isn't cited, stands twice or before what it uses, or if a definition has
neither a comment nor its name in the text above it. tests/theorem.py tests that the page is what it would write.
"""
import functools
import itertools
import operator
import os
import re
import sys
import textwrap

import believed
from texts import TOP as ROOT, read, write

PAGE = f"{ROOT}/docs/THEOREM.md"
CIRCLE = "judge"

# The columns of a line.
WIDTH = 120

# The definitions whose fields or equations stand on a line each, and the one that has a line for each reason, cut short.
SPREAD = ("IsWalk", "Least", "Maximum")
OF_REASONS = "name_of"

# A block of code of the page, the rows of the table of the kit, and a list.
BLOCK = re.compile(r"(?:<!-- of (\S+) -->\n)?```\w+\n(.*?)\n```\n", re.S)
KIT_TABLE = re.compile(r"(?<=\| Name \| Meaning \| Module \|\n\|---\|---\|---\|\n)(?:\|.*\n)+")
LIST = re.compile(r"(<!-- (files|adds) (\w+) -->\n\n)(?:(?:- |  ).*\n)*")
# What a line of a block begins.
HEAD = re.compile(r"(?:(pub \w+) |record |data )?(\w+)")

# A kit's module, or that of a type of Rust.
KIT = re.compile(r"Rattle\.(std|core)\.specs\.")
DECLARED = re.compile(r"\.specs\.declared\..*?([A-Z]\w*)")


class Page:
    """The page as it is made, and what is wrong with it."""

    def __init__(self, text):
        self.defined, self.circle, self.outer = cited()
        self.by_name = {name: (module, name) for module, name in self.circle}
        names = [name for _, name in self.circle]
        self.wrong = [f"two of this name: {it}" for it in sorted(set(names)) if names.count(it) > 1]
        self.shown, self.types, self.bounds = set(), set(), []
        self.text = LIST.sub(self.listed, KIT_TABLE.sub(self.kit_table, BLOCK.sub(self.block, text)))
        self.end()

    # ---- what is written anew

    def block(self, match):
        file, text = match.groups()
        items = [
            self.item(kind, name, file) if kind else self.definition(name, comments, match.string[: match.start()])
            for kind, name, comments in items_in(text)
        ]
        return match[0].replace(text, spaced(items))

    def item(self, kind, name, file):
        if kind == "pub fn":
            self.bounds += [(name, it) for it in bounds_of(name, item_of(kind, name, r"\)", file))]
            return textwrap.dedent(item_of(kind, name, r"(?=^ *\{$)", file)).rstrip()
        self.types.add(name)
        item = item_of(kind, name, r"^\}", file)
        return item if kind == "pub trait" else shortened(item)

    def definition(self, name, comments, above):
        if name in self.shown:
            self.wrong.append(f"twice: {name}")
        self.shown.add(name)
        if name not in self.by_name:
            self.wrong.append(f"not cited: {name}")
            return name
        self.check_order(name)
        block = self.defined.blocks[self.by_name[name]]
        if name == OF_REASONS:
            return self.of_reasons(*block)
        if not block[0].startswith("--"):
            block = [*comments, *block]
            if not comments and f"`{name}" not in above:
                self.wrong.append(f"{name} has no sentence")
        return bare(block, name in SPREAD)

    def of_reasons(self, first, *rows):
        own = re.compile(rf'{OF_REASONS} (\w+) = codes "\1"')
        self.wrong += [f"{OF_REASONS}: not the reason's own name: {it}" for it in rows if not own.fullmatch(it)]
        return bare([first, *rows[:2], f"-- and so on, {len(rows)} lines"])

    def kit_table(self, match):
        cited = {}
        for module, name in sorted(self.named() - set(self.circle)):
            if KIT.match(module):
                cited.setdefault(as_code(name), f"`{KIT.sub('', module)}`")
        rows, shown = [], set()
        for row in match[0].splitlines():
            names, meaning, _ = re.split(r"(?<!\\) \| ", row)
            alike = re.findall("`[^`]+`", names)
            shown.update(alike)
            rows.append(f"{names} | {meaning} | {', '.join(dict.fromkeys(cited.get(it, '') for it in alike))} |\n")
        self.wrong += [f"missing in the table of the kit: {it}" for it in sorted(cited.keys() - shown)]
        self.wrong += [f"not cited of the kit: {it}" for it in sorted(shown - cited.keys())]
        return "".join(rows)

    def listed(self, match):
        head, kind, circle = match.groups()
        items = self.files(circle) if kind == "files" else self.adds(circle)
        return head + "".join(f"{filled(f'- {it}')}\n" for it in items)

    def adds(self, circle):
        for module in believed.modules_in_order(self.defined, self.outer[circle]):
            names = [it for it in self.defined.blocks if it[0] == module and it in self.outer[circle]]
            if names:
                lines = believed.lines_of(self.defined, names)
                listed = ", ".join(f"`{name}`" for _, name in names)
                path = os.path.relpath(self.defined.files[names[0]], f"{ROOT}/docs")
                yield f"[{module_of(names[0])}]({path}), {lines} line{'s' * (lines > 1)}: {listed}"

    def files(self, circle):
        listed = {}
        for crate, name in sorted({tuple(module_of(it).split(": ")) for it in self.outer[circle]}):
            listed.setdefault(crate, []).append(f"`{name}`")
        return [f"[{it}](../crates/{it}/specs): {', '.join(names)}" for it, names in listed.items()]

    # ---- what is tested

    def named(self):
        """All that the contract and the definitions of the circle name."""
        by_definitions = (self.defined.rests_on[it] for it in self.circle)
        return set().union(believed.named_by(*believed.CIRCLES[CIRCLE]), *by_definitions)

    def check_order(self, name):
        it = self.by_name[name]
        for below in sorted(self.defined.rests_on[it] & set(self.circle)):
            if below[1] not in self.shown:
                self.wrong.append(f"{name} stands before {below[1]}, which it uses")
        for module, below in sorted(self.defined.rests_on[it]):
            type_of = DECLARED.search(module)
            if type_of and type_of[1] not in self.types:
                self.wrong.append(f"{name} stands before {type_of[1]}, which it uses")

    def end(self):
        types = {it[1] for it in map(DECLARED.search, (module for module, _ in self.named())) if it}
        # A trait that only another function's bound names is as good as shown by its name in the text.
        of_judge = {it for function, it in self.bounds if function == believed.CIRCLES[CIRCLE][1]}
        named = {it for _, it in self.bounds if it not in of_judge and f"`{it}`" in self.text}
        traits = {it for _, it in self.bounds}
        wanted = types | traits - named | self.by_name.keys()
        self.wrong += [f"missing: {it}" for it in sorted(wanted - self.types - self.shown)]
        self.wrong += [f"not cited: {it}" for it in sorted(self.types - types - traits)]


def items_in(text):
    """What a block has: of a definition (None, its name, its comments), of an item of Rust (its first words, its name, _)."""
    found, comments = [(None, None, None)], []
    for line in text.split("\n"):
        head = HEAD.match(line)
        if line.startswith("-- "):
            comments.append(line)
        elif head and head[2] != found[-1][1]:
            beside = line.partition("  -- ")[2]
            found.append((head[1], head[2], [*comments, *([f"-- {beside}"] if beside else [])]))
        if not line.startswith("-- "):
            comments = []
    return found[1:]


@functools.cache
def item_of(head, name, end, file):
    """An item of the code, from its head to its end."""
    files = [f"{ROOT}/crates/{file}"] if file else believed.sources()
    found = filter(None, (re.search(rf"^ *{head} {name}\b.*?{end}", code(it), re.M | re.S) for it in files))
    items = [it[0] for it in found]
    return items[0] if len(items) == 1 else sys.exit(f"{len(items)} items of the code are {head} {name}")


@functools.cache
def code(path):
    return read(path)


def bounds_of(name, head):
    """The traits that the bounds of a function name, and those that these ask for in turn."""
    bounds = re.search(rf"fn {name}<(.*)>\(", head, re.S)
    return sorted(believed.traits_of(bounds[1], believed.traits())) if bounds else []


def module_of(it):
    return it[0].removeprefix("Rattle.").replace(".specs.", ": ")


def parts_of(block):
    """The comments and the lines of a definition, without the words that each has."""
    comments = list(itertools.takewhile(lambda it: it.startswith("--"), block))
    return comments, fused([re.sub(r"^( *)(?:abbrev )?pub ", r"\1", it) for it in block[len(comments) :]])


def bare(block, is_spread=False):
    """A definition in few lines, with its comment beside the first if it fits."""
    comments, lines = parts_of(block)
    head, *more = lines if is_spread else joined(lines)
    beside = f"{head}  -- {' '.join(it.removeprefix('-- ') for it in comments)}"
    told = [beside] if comments and len(beside) <= WIDTH else [*comments, head]
    return "\n".join([*told, *more])


def spaced(blocks):
    """Definitions one after another: with a line around each of three lines or more."""
    text, before = "", 0
    for block in blocks:
        size = sum(not it.startswith("--") for it in block.split("\n"))
        text += ("" if not before else "\n\n" if max(size, before) > 2 else "\n") + block
        before = size
    return text


def joined(lines):
    """The lines of a definition, with its fields, its equations, or the items of a list side by side if they fit."""
    # a line that begins with an operator carries on the one before it
    head, *inner = lines = side_by_side(lines, " ", re.compile(" +[∷⊎×→] ").match)
    if not inner:
        return lines
    if re.match(r"(record|data) .* where$", head):
        whole = f"{head} {'; '.join(it.strip() for it in inner)}"
        is_flat = all(re.match(r" {2}\S", it) for it in inner)
        fields = re.split(r"\n(?= {2}\S)", "\n".join(inner))
        return [whole] if is_flat and len(whole) <= WIDTH else [head, *side_by_side(fields, "; ", bool)]
    name = head.split()[0]
    equations = "; ".join(inner)
    return [head, equations] if len(equations) <= WIDTH and all(it.startswith(f"{name} ") for it in inner) else lines


def side_by_side(items, joint, may_join):
    """The lines of items. One that may join the one before it does, if it fits; one of several lines keeps them."""
    told = []
    for item in items:
        beside = f"{told[-1]}{joint}{item.strip()}" if told else ""
        if beside and may_join(item) and "\n" not in beside and len(beside) <= WIDTH:
            told[-1] = beside
        else:
            told.append(item)
    return "\n".join(told).split("\n")


def fused(lines):
    """The lines of a definition, with its type and its equation in one, if it has one for all arguments."""
    head = re.match(r"(\w+) : (.*)$", lines[0])
    equation = re.match(r"(\w+)((?: \w+)*) =(.*)", lines[1]) if head and len(lines) > 1 else None
    if not equation or any(not it.startswith((" ", "}")) for it in lines[2:]):
        return lines
    types, names = re.split(r" → (?![^()]*\))", head[2]), equation[2].split()
    given = [it for it in types if it.startswith("{")]
    taken, left = types[len(given) :][: len(names)], types[len(given) + len(names) :]
    if not left or any(it.count("(") != it.count(")") for it in types):
        return lines
    typed = zip((re.sub(r"^\(([^()]*)\)$", r"\1", it) for it in taken), names)
    groups = itertools.groupby(typed, operator.itemgetter(0))
    told = [*given, *(f"({' '.join(name for _, name in alike)} : {its_type})" for its_type, alike in groups)]
    start = f"{' '.join([head[1], *told])} : {' → '.join(left)} ="
    if len(start + equation[3]) <= WIDTH:
        return [start + equation[3], *lines[2:]]
    return [start, *([f"   {equation[3]}"] if equation[3] else []), *lines[2:]]


def filled(item):
    return textwrap.fill(item, WIDTH, subsequent_indent="  ", break_long_words=False, break_on_hyphens=False)


def as_code(name):
    return f"`{name.replace('◌', ' ').strip()}`".replace("|", "\\|")


def shortened(item):
    """A type of Rust, each variant or field on a line with its comment; if none has one, side by side."""
    item = re.sub(r"^ *#\[.*\n", "", item, flags=re.M)
    item = re.sub(r"\{\n((?: {8}.*\n)+) {4}\}", lambda it: "{ " + " ".join(it[1].split()).rstrip(",") + " }", item)
    item = re.sub(r"^ */// (.*)\n( *)(.*)$", r"\2\3  // \1", item, flags=re.M)
    head, *inner, end = item.split("\n")
    whole = f"{head} {' '.join(it.strip() for it in inner).rstrip(',')} {end}"
    return whole if "//" not in item and len(whole) <= WIDTH else item


@functools.cache
def cited():
    """The definitions, those that the judge's contract cites, and those that wider ones cite beside them."""
    defined = believed.all_definitions()
    circles = {name: believed.reached_from(defined, believed.named_by(*it)) for name, it in believed.CIRCLES.items()}
    outer = {name: it - circles[CIRCLE] for name, it in circles.items()} | {CIRCLE: circles[CIRCLE]}
    outer["library"] = believed.reached_from(defined, believed.named_by_all()) - set().union(*circles.values())
    return defined, circles[CIRCLE], outer


def main():
    page = Page(read(PAGE))
    write(PAGE, page.text)
    print("\n".join(page.wrong), end="\n" if page.wrong else "")
    return 1 if page.wrong else 0


if __name__ == "__main__":
    sys.exit(main())
