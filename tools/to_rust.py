#!/usr/bin/env python3
"""Writes the sources as plain Rust, for cargo: tools/to_rust.py OUT

Rattle is Rust with contracts. GHOSTS and DROPPED are what rustc can't read, and go; REWRITTEN is what std has otherwise
here; all else stays as it is, each line with its number. Each crate stands on `kit` then (tools/rust/kit), in place of
the kit's libraries. Rules see a source as one line of tokens with a blank after each, in which the brackets of a pair bear
one number. Where a rule leaves a form that isn't known to mean the same in Rust, this ends with its place.

Nothing is proved by it: that what stays means to rustc what it means to the kit's compiler is trusted. Tokens don't show
types, so a call that both have under one name passes, as a sort that leaves the order of equal keys open.
"""
import glob
import itertools
import os
import re
import sys

import kit as kits
from texts import TOP, read

# What cargo gets beside the sources: the crate in place of the kit's libraries, a script that names the compiler, and a test.
STAND_IN = f"{TOP}/tools/rust"

# Crates that cargo doesn't build, and the crate that says by what it is built.
NOT_BUILT = {"dimacs_tests", "example_judge"}
NAMES_COMPILER = "dimacs_jobs"

# The program, the library for C and the crate in place of the kit's libraries: what cargo calls them, and makes of them.
# The package `dimacs` is that of lib/rust.
PROGRAM, LIBRARY, KIT = "dimacs", "dimacs_c", "dimacs_kit"
PACKAGES = {PROGRAM: "dimacs_cli"}
TARGETS = {
    PROGRAM: '\n[[bin]]\nname = "dimacs"\npath = "src/main.rs"\ntest = false\n',
    LIBRARY: '\n[lib]\nname = "dimacs"\ncrate-type = ["staticlib", "cdylib"]\n',
    KIT: '\n[lib]\nname = "kit"\n',
}

TOKEN = re.compile(
    r"""(?P<between>(?:\s+|//[^\n]*)+)"""
    r"""|[bc]?r(?P<h>\#*)"(?s:.*?)"(?P=h)|[bc]?"(?s:\\.|[^"\\])*"|b?'(?:\\(?:u\{\w+\}|x..|.)|[^'\\\n])'"""
    r"""|'\w+|::|\w+(?:\.\d+)?|(?s:.)""",
    re.VERBOSE,
)
OPENING = {")": "(", "]": "[", "}": "{"}

# A blank of a rule stands for the blanks and comments after a token: a character that numbers them. The first is a blank.
FIRST = 0xF0000
GAP = "[\U000f0000-\U000ffffd]"

# What the kit's compiler doesn't see either: it makes the same program of sources without it (tests/to_rust.py).
IN_BRACES = r"\{(\d+) .*?\}\1 "
GHOSTS = [
    rf"(?:requires|ensures) (?:\* )?(?:\w+ )?{IN_BRACES}",
    r"(?:pub )?ghost use [^;]*; ",
    r"(?:pub )?ghost \w+ (?:: \{(\d+) .*?\}\1 )?(?:= \{(\d+) .*?\}\2 )?(?:[;,] |(?=\}))",
    r"# (?:! )?\[(\d+) (?:tactic|cycle) .*?\]\1 ",
    r"impl (?:< [^{]*?)?Model for [^{]*\{(\d+) \}\1 ",
]

DROPPED = [
    # Rust lets each value go, and has no other drop. One that takes a value apart does no more.
    r"impl (?:< [^{]*?)?Drop for [^{]*\{(\d+) fn drop \((\d+) self \)\2 \{(\d+) let \w+ \{(\d+) (?:\w+ : _ ,? ?)*\}\4 = self ; \}\3 \}\1 ",
    r"# \[(\d+) derive \((\d+) Drop (?:, )?\)\2 \]\1 ",
    r"\+ Drop (?=[>,{;])",
    r": Drop (?=[>,{])",
    # The texts of errors, which nothing prints.
    r"# \[(\d+) error .*?\]\1 ",
    r"use thiserror :: Error ; ",
    # A method that no impl has in other words, and the device of a formatter.
    r"final (?=fn )",
    r"< W : fmt :: Write > ",
]


def derived(it):
    """What is derived in Rust too."""
    return ruled(r", (?:Drop|Error) (?=[,)])", "", it.group())


def trait(it):
    """Each type has a size in Rattle. In Rust a trait has to say so."""
    bound = "+ " if it[3] and "Drop" not in it[3] else ""
    return f"trait {it[1]}{it[2] or ''}: Sized {bound}"


def c_struct(it):
    """A slice in a struct for C is its address and length, which may be null and 0."""
    return ruled(r"& ('\w+) \[(\d+) (\w+ )\]\2 ", r"kit::ffi::Lent<\1, \3> ", it.group())


def c_function(it):
    """In a function for C a slice comes as its address and length, and the allocator is the one that there is."""
    inside = []

    def parameter(it):
        if it[1]:
            inside.append(f"let {it[1]} = kit::alloc::Global; ")
            return it.group()[-1]
        name, much, way = it[2], "_mut" if it[3] else "", "mut" if it[3] else "const"
        inside.append(f"let {name} = unsafe {{ kit::ffi::lent{much}({name}, {name}_length) }}; ")
        return f"{name}: *{way} {it[5]}, {name}_length: usize "

    head = ruled(r"(\w+) : Global , |(\w+) : & (mut )?\[(\d+) ([^\[\]]*)\]\4 ", parameter, it.group())
    return f"unsafe {head[:-1]} {''.join(inside)}{head[-1]}"


REWRITTEN = [
    (r"# \[(\d+) derive \((\d+) .*?\)\2 \]\1 ", derived),
    (r"(?<!:: )\bstd (?=::)", "kit "),
    (r"(?<!:: )\b(clap|itoa|memchr|strsim) (?=::)", r"kit::\1 "),
    (r"\b(format|vec|println|eprintln|eprint) (?=! )", r"kit::\1 "),
    (r"(?<=\. )(to_vec|collect|repeat|to_ascii_lowercase) (?=\(\d+ (?:alloc|rt) )", r"\1_by "),
    (r"\bFormatter < W > ", "Formatter<'_> "),
    (r"\btrait (\w+ )(< [^{:]*> )?(: (?!Drop )|: Drop )?", trait),
    (r"\bfn main (?=\(\d+ rt : HostRuntime \))", "kit::main!(started); fn started "),
    (r"\[(\d+) repr \((\d+) C \)\2 \]\1 .*?\{(\d+) .*?\}\3 ", c_struct),
    (r"\bextern \"C\" fn \w+ (?:< '\w+ > )?\((\d+) .*?\)\1 [^{]*\{\d+ ", c_function),
    (r"\bPROVED : bool = true ", "PROVED: bool = false "),
    (r'"([^"]*)\x20\(not\x20proved\)" ', r'concat!("\1 (by ", env!("COMPILER"), ") (not proved)") '),
]

# What no rule may leave: words of contracts, and attributes, traits to derive and macros that aren't known to mean in Rust
# what they mean in Rattle. Outside of strings only contracts have letters beyond ASCII.
UNKNOWN = [
    rf"(?<={GAP})(?:ghost|requires|ensures|final|thiserror|Drop) ",
    r"# (?:! )?\[\d+ (?!(?:cfg|cold|derive|inline|macro_export|repr|unsafe) )",
    r"\bderive \(\d+ (?!(?:(?:Clone|Copy|Debug|Default|Eq|Hash|Ord|PartialEq|PartialOrd) (?:, )?)*\))",
    r"(?<!::)\b(?!(?:concat|env|if|in|macro_rules|match|matches|return|say|unreachable|while|write) )\w+ ! [(\[{]",
    r"/ \*",
    # What means something else in Rust, or may: sizes and addresses, a range without an end, names that rules change, and a
    # struct for C with a reference that isn't a slice of numbers.
    r"\b(?:size_of|align_of|as_slices) ",
    r"(?:(?<=in )|(?<![\w>\])?] ))\((\d+) [^()]*\. \. \)\1 \. \w+ ",
    r"\bmacro_rules ! (?:format|vec|println|eprintln|eprint) ",
    r"\bfn (?:to_vec|collect|repeat|to_ascii_lowercase) (?:< [^(]*)?\(\d+ (?:& )?(?:'\w+ )?(?:mut )?self ",
    r"\[\d+ repr \(\d+ C \)\d+ \]\d+ [^{]*\{(\d+) (?:(?!\}\1 ).)*?& ",
    rf"(?<={GAP})\w*[\u0080-\uffff]",
]


def ruled(rule, by, line):
    """The line after a rule."""
    written = by.replace(" ", chr(FIRST)) if isinstance(by, str) else lambda it: by(it).replace(" ", chr(FIRST))
    return re.sub(rule.replace(" ", GAP), written, line)


class Source:
    """A source as one line of tokens, and what stood between them."""

    def __init__(self, text, name):
        self.name, self.gaps = name, [" ", ""]
        self.line, opened, count = chr(FIRST + 1), [], 0
        if re.search(GAP, text):
            self.stop(0, "a character that numbers blanks here")
        for it in TOKEN.finditer(text):
            token = it.group()
            if it["between"]:
                self.gaps[-1] = token
                continue
            if token in "([{":
                opened.append((token, count))
                token, count = f"{token}{count}", count + 1
            elif token in OPENING:
                if not opened or opened[-1][0] != OPENING[token]:
                    self.stop(len(self.line), f"{token} closes nothing")
                token += str(opened.pop()[1])
            self.gaps.append("")
            self.line += token + chr(FIRST + len(self.gaps) - 1)

    def between(self, line):
        """What stood in these places, one after the other."""
        return [self.gaps[ord(it) - FIRST] for it in re.findall(GAP, line)]

    def stop(self, at, why):
        """Ends with the place of what can't be translated."""
        number = 1 + "".join(self.between(self.line[:at])).count("\n")
        sys.exit(f"to_rust.py: {self.name}:{number}: {why}")

    def drop(self, rule):
        self.line = re.sub(f"{GAP}(?:{rule.replace(' ', GAP)})+", self.left_of, self.line)

    def left_of(self, it):
        """Of what goes the ends of lines stay, the blanks before what follows, and comments before an attribute or at the
        head of a file."""
        before, *inside = self.between(it.group())
        is_kept = ord(it.group()[0]) == FIRST + 1 or it.group()[1] == "#"
        ends = (before.rstrip(" ") if is_kept else "\n" * before.count("\n")) + "\n" * "".join(inside).count("\n")
        self.gaps.append(ends + re.search(r"[^\n]*\Z", inside[-1])[0] or " ")
        return chr(FIRST + len(self.gaps) - 1)

    def rewrite(self, rule, by):
        self.line = ruled(rule, by, self.line)

    def refuse(self, rule):
        """Ends if this is left."""
        found = re.search(rule.replace(" ", GAP), self.line)
        if found:
            form = re.sub(r"(?<=[(\[{)\]}])\d+", "", re.sub(GAP, " ", found.group()))
            self.stop(found.start(), f"`{form.strip()}` isn't known here")

    def text(self):
        line = re.sub(rf"(?<={GAP})([(){{}}\[\]])\d+(?={GAP})", r"\1", self.line)
        return re.sub(GAP, lambda it: self.gaps[ord(it.group()) - FIRST], line)


def without_ghosts(text, name):
    """A source as the kit's compiler sees it."""
    source = Source(text, name)
    for rule in GHOSTS:
        source.drop(rule)
    return source.text()


def translated(text, name):
    """The Rust of a source, which says that what is built of it isn't proved."""
    source = Source(text, name)
    for rule in GHOSTS + DROPPED:
        source.drop(rule)
    for rule, by in REWRITTEN:
        source.rewrite(rule, by)
    for rule in UNKNOWN:
        source.refuse(rule)
    # The head of a file, its `//!` lines and attributes, comes before all items.
    rust = source.text()
    head = re.match(r"(?:[ \t]*(?://[^\n]*|#!\[[^\n]*)?\n)*", rust).end()
    return f"{rust[:head]}use kit::prelude::*; {rust[head:]}"


# What stands atop a program: where C starts it, `kit::main` writes its `main`.
NO_MAIN = '#![cfg_attr(any(all(target_os = "linux", target_env = "gnu"), target_vendor = "apple"), no_main)]\n'

# Indices and sums are tested in each build, and a program that fails a test ends.
WORKSPACE = """[workspace]
resolver = "2"
members = [{members}]
default-members = ["dimacs"]

[profile.release]
lto = "fat"
codegen-units = 1
panic = "abort"
overflow-checks = true

[profile.dev]
opt-level = 1
panic = "abort"
"""

# What only contracts use is imported all the same.
MANIFEST = """[package]
name = "{name}"
version = "{version}"
edition = "2024"
rust-version = "1.88"
description = "{about}"
{licence}{target}
[lints.rust]
unused_imports = "allow"
unused_parens = "allow"

[dependencies]
{below}"""

# How others name the crate in place of the kit's libraries.
USED_AS_KIT = 'kit = {{ package = "dimacs_kit", path = "../dimacs_kit", version = "={}" }}\n'


# The files that were written, or stayed.
PUT = set()


def put(name, text):
    """Writes a file, but leaves one that is so already: cargo goes by times."""
    PUT.add(name)
    os.makedirs(os.path.dirname(name), exist_ok=True)
    if not os.path.isfile(name) or read(name) != text:
        with open(name, "w", encoding="utf-8") as it:
            it.write(text)


def about(root):
    """The first sentence of a crate's documentation."""
    lines = itertools.takewhile(lambda it: it.startswith("//!"), read(root).splitlines())
    text = " ".join(it.removeprefix("//!").strip() for it in lines)
    return re.match(r".*?\.(?= |$)", text)[0].translate({ord("`"): "'", ord('"'): "'"})


def put_manifest(out, name, root, below):
    """Writes what cargo has to know of a crate over these."""
    version, licence = read("VERSION").strip(), read("LICENCE-STATUS").split("\n")[0]
    lines = "".join(f'{it} = {{ path = "../{it}", version = "={version}" }}\n' for it in below)
    words = {"name": PACKAGES.get(name, name), "version": version, "about": about(root), "target": TARGETS.get(name, "")}
    words["below"] = lines if name == KIT else USED_AS_KIT.format(version) + lines
    words["licence"] = "" if licence == "NONE" else f'license = "{licence}"\n'
    put(f"{out}/{name}/Cargo.toml", MANIFEST.format(**words))


def put_crate(out, name, below):
    """Writes a crate over those below it."""
    sources = sorted(glob.glob(f"{TOP}/crates/{name}/src/**/*.rt", recursive=True))
    root = next(it for it in sources if os.path.relpath(it, f"{TOP}/crates/{name}/src") in ("lib.rt", "main.rt"))
    put_manifest(out, name, root, below)
    for it in sources:
        rust = translated(read(it), os.path.relpath(it, TOP))
        inner = os.path.relpath(it, f"{TOP}/crates").removesuffix(".rt")
        put(f"{out}/{inner}.rs", NO_MAIN + rust if os.path.basename(it) == "main.rt" else rust)


def main():
    out = os.path.abspath(sys.argv[1])
    listed = {name: named for name, named in kits.crates().items() if name not in NOT_BUILT}
    for name, named in listed.items():
        put_crate(out, name, [it for it in named if it in listed])
    put_manifest(out, KIT, f"{STAND_IN}/kit/lib.rs", [])
    for it in glob.glob(f"{STAND_IN}/kit/*.rs"):
        put(f"{out}/{KIT}/src/{os.path.basename(it)}", read(it))
    put(f"{out}/{NAMES_COMPILER}/build.rs", read(f"{STAND_IN}/build.rs"))
    put(f"{out}/{PROGRAM}/tests/rows.rs", read(f"{STAND_IN}/rows.rs"))
    for it in glob.glob(f"{TOP}/tests/rows/*"):
        put(f"{out}/{PROGRAM}/tests/rows/{os.path.basename(it)}", read(it))
    for it in glob.glob(f"{out}/dimacs*/**/*.rs", recursive=True):
        if os.path.normpath(it) not in map(os.path.normpath, PUT):  # of a source that went
            os.remove(it)
    put(f"{out}/Cargo.toml", WORKSPACE.format(members=", ".join(f'"{it}"' for it in [KIT, *listed])))


if __name__ == "__main__":
    main()
