#!/usr/bin/env python3
"""Counts the lines of definitions that one has to believe of the judge, of the command and of the whole library.

What one has to believe of the judge is what the clauses of `run_judge` rest on, of the command what those of
`run_command` do, of the library what those of all that is public do. To the clauses of a function belong the laws of the
traits that it is generic over, as a source's, since they define what its sources do.

A definition counts if a clause of a public function or trait, or what a public type stands for, names it, or if
another that counts does. Public is what the lib.rt of a crate exports, with the types that signatures of it name. The
invariant of a type isn't: callers don't see it. Blank lines and lines of imports don't count.

The other definitions describe inner states: nobody has to believe them, and they should stand in specs/inside. If one
of them stands elsewhere, or one that counts stands there, the script names it and ends with 1. It reads the texts by
their words alone, so it is no proof.
"""

import functools
import glob
import os
import re
import sys

from texts import TOP as ROOT, read

# the limits all stand in one file
KEPT = ["Limits.antt"]
# a member of an import's braces, which may have braces of its own, two levels deep
MEMBER = re.compile(r"(?:[^{},]|\{(?:[^{}]|\{[^{}]*\})*\})+")
WORD = re.compile(r"[^\s(){}\[\],.;:]+")
STARTS = re.compile(r"(?:  )?(?:(?:abbrev|unfoldable|opaque|inductive|data|record|def) pub|pub (?:record|data|abbrev|inductive)|record|data) (\S+)")

# the beginning of an item of a file of code
ITEM = re.compile(r"^(?=(?:pub|impl|trait|fn|struct|enum|type|const|static|mod|use|ghost|extern)\b)", re.M)
# the name that an item declares; calls for C have none here, since lib.rt needn't export them
DECLARED = re.compile(r"(?:pub(?:\([^)]*\))? )?(?:const )?(?:fn|struct|enum|trait|type) (\w+)")
# the type of an impl
OF_TYPE = re.compile(r"impl(?:<[^{]*?>)? (?:[^{]* for )?(?:&'\w+ )?(\w+)")
# what users see of an impl or a struct
SEEN = re.compile(
    r"^ *pub (?:const )?fn .*?(?=^ *(?:requires|ensures|{)|[{;]$)|^ +(?:pub \w+:|type )[^\n]*", re.M | re.S
)
INVARIANT = re.compile(r"^ *ghost invariant = .*?};$", re.M | re.S)


def imported(path, before=""):
    """What `A.{B.{c as d}, e}` names: (A.B, c, d) and (A, e, None)."""
    module, braces, names = path.partition(".{")
    if not braces:
        name, _, alias = module.partition(" as ")
        yield before, name, alias or None
        return
    for it in map(str.strip, MEMBER.findall(names[:-1])):
        yield from imported(it, f"{before}.{module}" if before else module)


def imports(text):
    """What each name of a file stands for: (module, name) for a name, (module, None) for a module."""
    named = {}
    for path, alias in re.findall(r"^ *(?:ghost )?use ([\w.+«»]+(?:\.\{.*\})?)(?: as (\w+))?;?$", text, re.M):
        if path.endswith("}"):
            named.update({renamed or name: (module, name) for module, name, renamed in imported(path)})
        else:
            named[alias or path.rpartition(".")[2]] = (path, None)
    return named


def words(text):
    return set(WORD.findall(re.sub(r"-- .*|//.*", "", text)))


def parts(name):
    return [it for it in name.split("◌") if it]


def named_in(text, named, own):
    """The definitions that a text names, of those that its file imports or has."""
    its_words = words(text)
    found = set()
    for name, (module, inner) in named.items():
        if inner is None:
            for member in re.findall(rf"(?<![\w.]){re.escape(name)}\.([^\s(){{}}\[\],.;:]+)", text):
                found.add((module, member))
        elif all(it in its_words for it in parts(name)):
            found.add((module, inner))
    for module, name in own:
        if all(it in its_words for it in parts(name)):
            found.add((module, name))
    return found


class Definitions:
    def __init__(self):
        self.blocks = {}
        self.rests_on = {}
        self.files = {}

    def read(self, path, module):
        text = read(path)
        named = imports(text)
        lines = text.split("\n")
        blocks, name, held = {}, None, []
        for line in lines:
            start = STARTS.match(line)
            if start:
                name = start[1].rstrip(":")
                blocks[name] = [it for it in held if it.startswith("--")]
                held = []
            if not line.strip() or re.match(r"(pub )?(use|mod) ", line):
                if not line.strip():
                    held = []
                continue
            if not start and not line.startswith((" ", "}")) and (name is None or not line.split(" ")[0] == name):
                held.append(line)
                continue
            if name:
                blocks[name].append(line)
        own = [(module, it) for it in blocks]
        for it, block in blocks.items():
            self.blocks[module, it] = block
            self.files[module, it] = path
            self.rests_on[module, it] = named_in("\n".join(block), named, own) - {(module, it)}
        # a constructor or a field stands for its type
        for it, block in blocks.items():
            for inner in re.findall(r"^  (?:pub )?(\S+) :", "\n".join(block), re.M):
                if (module, inner) not in self.blocks:
                    self.rests_on.setdefault((module, inner), set()).add((module, it))


def exported(crate):
    """The names that the lib.rt of a crate exports; a program has none."""
    path = f"{crate}/src/lib.rt"
    text = read(path) if os.path.exists(path) else ""
    return set(re.findall(r"\w+", " ".join(re.findall(r"^pub use ([^;]*);", text, re.M))))


def items_of(crate):
    for path in code_of(crate):
        yield from ITEM.split(re.sub(r"//.*", "", read(path)))


def signatures(item):
    """What users see of an item; of a function without its clauses."""
    return item if re.match(r"pub (type|enum|trait) ", item) else "\n".join(SEEN.findall(item))


@functools.cache
def hidden_in(crate):
    """The functions, types and traits of a crate that nobody outside sees: lib.rt doesn't export them, and no signature
    of what is seen names them."""
    declared, shown, seen, wanted = set(), {}, set(), exported(crate)
    for item in items_of(crate):
        own = DECLARED.match(item)
        declared |= {own[1]} if own else set()
        named = own or OF_TYPE.match(item)
        if named:
            shown[named[1]] = shown.get(named[1], "") + signatures(item)
    while wanted:
        seen |= wanted
        wanted = {it for name in wanted for it in re.findall(r"[A-Z]\w*", shown.get(name, ""))} & declared - seen
    return declared - seen


def public_clauses(path):
    """The imports of a file of code, and the clauses of each public function in it and of what its types stand for. The
    head of the trait or impl that a public function stands in names nothing hidden."""
    text = read(path)
    found, name, is_public, inside, open_braces, open_ghost = {}, "", False, False, 0, 0
    hidden = hidden_in(path.partition("/src/")[0])
    block = ""
    for line in INVARIANT.sub("", text).split("\n"):
        if re.match(r"(?:pub(?:\([^)]*\))? )?(?:trait|impl)\b", line):
            block = line
        elif line == "}":
            block = ""
        is_in_trait = bool(re.match(r"pub trait|impl.* for ", block)) and hidden.isdisjoint(re.findall(r"\w+", block))
        start = re.match(r' *(pub )?(?:pub\([^)]*\) )?(?:const |extern "C" )?fn (\w+)', line)
        if start:
            name, inside = start[2], True
            is_public = is_in_trait or bool(start[1]) and hidden.isdisjoint(re.findall(r"\w+", block or name))
        is_clause = re.match(r" *(ghost|requires|ensures)\b", line) or open_braces > 0
        if inside and is_public and is_clause:
            found.setdefault(name, []).append(line)
        open_braces = open_braces + line.count("{") - line.count("}") if is_clause else 0
        if re.match(r" *\{$", line) or line.rstrip().endswith(";") or re.search(r"\) *(-> .*)?\{$", line):
            inside = False
        if is_in_trait and (re.match(r" *ghost (?!use)", line) or open_ghost > 0):
            found.setdefault("", []).append(line)
            open_ghost += line.count("{") - line.count("}")
    return imports(text), found


def crates():
    """The folders of the crates, without those of tests, whose definitions nobody has to believe."""
    return sorted(it for it in glob.glob(f"{ROOT}/crates/*") if not it.endswith("_tests"))


def code_of(crate):
    return sorted(glob.glob(f"{crate}/src/**/*.rt", recursive=True))


def sources():
    return [path for crate in crates() for path in code_of(crate)]


def all_definitions():
    defined = Definitions()
    for folder in (f"{it}/specs" for it in crates()):
        crate = os.path.basename(os.path.dirname(folder))
        for path in sorted(glob.glob(f"{folder}/**/*.antt", recursive=True)):
            module = os.path.relpath(path, folder)[: -len(".antt")].replace("/", ".")
            if module != "Lib":
                defined.read(path, f"Rattle.{crate}.specs.{module}")
    return defined


def named_by_all():
    """The definitions that all public clauses name."""
    found = set()
    for path in sources():
        named, clauses = public_clauses(path)
        for lines in clauses.values():
            found |= named_in("\n".join(lines), named, [])
    return found


def traits():
    found = {}
    for path in sources():
        text = read(path)
        for name, block in re.findall(r"^pub trait (\w+)(.*?^})", text, re.M | re.S):
            found[name] = block, imports(text)
    return found


def traits_of(bounds, known):
    """The traits that stand in bounds, and those that they ask for in turn."""
    wanted, done = words(bounds) & known.keys(), set()
    while wanted:
        trait = wanted.pop()
        done.add(trait)
        block, _ = known[trait]
        asked = re.findall(r"^ *type \w+: (.*);", block, re.M) + [block.partition("{")[0]]
        wanted |= (words(" ".join(asked).replace("+", " ")) & known.keys()) - done
    return done


def named_by_laws(bounds, known):
    """The definitions that the laws of the traits name that stand in bounds, and of those that they ask for in turn."""
    return {it for trait in traits_of(bounds, known) for it in named_in(*known[trait], [])}


def named_by(path, name):
    """The definitions that the clauses of this public function name, and the laws of the traits that it is generic over."""
    path = f"{ROOT}/crates/{path}"
    named, clauses = public_clauses(path)
    bounds = re.search(rf"fn {name}<(.*?)>\(", read(path), re.S)
    return named_in("\n".join(clauses[name]), named, []) | named_by_laws(bounds[1] if bounds else "", traits())


def reached_from(defined, roots):
    reached, wanted = set(), set(roots)
    while wanted:
        it = wanted.pop()
        if it not in reached:
            reached.add(it)
            wanted |= defined.rests_on.get(it, set())
    return {it for it in reached if it in defined.blocks}


def modules_in_order(defined, circle):
    """The modules of these definitions, each after those that it cites."""
    order, begun = [], set()

    def visit(module):
        if module in begun:
            return
        begun.add(module)
        for below in sorted({below for it in circle if it[0] == module for below, _ in defined.rests_on.get(it, ())}):
            visit(below)
        order.append(module)

    for module in sorted({module for module, _ in circle}):
        visit(module)
    return order


def lines_of(defined, definitions):
    return sum(len(defined.blocks[it]) for it in definitions)


# What must be believed of a run: the definitions that the clauses of these functions rest on.
CIRCLES = {
    "judge": ("dimacs_runs/src/judge.rt", "run_judge"),
    "command": ("dimacs_runs/src/command.rt", "run_command"),
}


def main():
    defined = all_definitions()
    circles = {name: reached_from(defined, named_by(*where)) for name, where in CIRCLES.items()}
    reached = reached_from(defined, named_by_all())
    counts, misplaced = {}, []
    for it, block in defined.blocks.items():
        crate, path = it[0].split(".")[1], defined.files[it]
        is_inside = "/specs/inside/" in path
        counts.setdefault(crate, [0, 0])[it not in reached] += len(block)
        if is_inside == (it in reached) and os.path.basename(path) not in KEPT:
            misplaced.append(f"{os.path.relpath(path, ROOT)}: {it[1]} {'counts' if is_inside else 'does not count'}")
    for crate, (believed, other) in sorted(counts.items()):
        print(f"{crate}: {believed} lines of definitions to believe, {other} others")
    for name, circle in circles.items():
        print(f"the {name}: {lines_of(defined, circle)} lines of definitions to believe")
    print(f"the library: {sum(it[0] for it in counts.values())} lines of definitions to believe, {sum(it[1] for it in counts.values())} others")
    print("\n".join(sorted(misplaced)), end="\n" if misplaced else "")
    return 1 if misplaced else 0


if __name__ == "__main__":
    sys.exit(main())
