#!/usr/bin/env python3
"""Gives a WebAssembly module with a memory of 64-bit addresses one of 32-bit addresses: lower_addresses.py IN OUT

Every engine runs a memory of 32-bit addresses, and few one of 64. Pointers stay 64-bit numbers: an address is cut to 32
bits just before an instruction uses it, by i32.wrap_i64. A memory has at most 2^32 bytes then, so no address inside of
it loses anything, and no type of a function and no layout changes.

wabt prints the module with an instruction on each line, and makes a module again of the lines that are written here.
Each part of a module and each instruction that isn't known here is refused, with the status 1.
"""
import re
import subprocess
import sys

WRAP = "i32.wrap_i64"

# What stays as it is: parts of a module, and instructions without an address.
PARTS = ("(type ", "(global ", "(export ")
PLAIN = re.compile(
    r"unreachable|nop|block|loop|if|else|end|br|br_if|br_table|return|call|drop|select"
    r"|(?:local|global)\.(?:get|set|tee)|(?:[if]\d\d|[if]\d+x\d+|v128)\.(?!load|store|atomic)\w+"
)

# A part by which a memory or its data have 64-bit addresses, and what stands in its place.
WIDE = {
    "(memory ": (r"(\(memory \(;0;\)) i64( \d+(?: \d+)?\))", r"\1\2"),
    "(data ": (r"(\(data \(;\d+;\)) \(i64\.const (\d+\) )", r"\1 (i32.const \2"),
}

# Instructions whose address is on top of the stack, and those whose address lies under a value of a type.
LOAD = re.compile(r"[if]\d\d\.load\w*|v128\.load(?!\w*_lane)\w*")
STORE = re.compile(r"([if]\d\d|v128)\.(?:store|load\d+_lane)\w*")

# Instructions that only put one value on the stack: an address is cut before these, without a local for the value.
PUSH = re.compile(r"local\.get|[if]\d\d\.const")


def under(local):
    """Cuts the address under a value, which a local of this name keeps meanwhile."""
    return [f"local.set {local}", WRAP, f"local.get {local}"]


# What comes before and after the other instructions of memories. A memory.grow that failed stays -1.
OTHERS = {
    "memory.size": ([], ["i64.extend_i32_s"]),
    "memory.grow": ([WRAP], ["i64.extend_i32_s"]),
    "memory.fill": (["local.set $count", *under("$i32"), "local.get $count", WRAP], []),
    "memory.copy": (["local.set $count", *under("$i64"), WRAP, "local.get $count", WRAP], []),
}
LOCALS = {"$count": "i64"} | {f"${kind}": kind for kind in ("i32", "i64", "f32", "f64", "v128")}


class Refused(Exception):
    """Why nothing is made of a module."""


def lowered_code(lines):
    """The lines of a function's instructions."""
    made, before = [], ""
    for line in lines:
        op = re.match(r"[\w.]+", line)[0]
        stores = STORE.fullmatch(op)
        if stores and PUSH.fullmatch(before):
            made.insert(-1, WRAP)
        elif stores:
            made += under(f"${stores[1]}")
        elif LOAD.fullmatch(op):
            made.append(WRAP)
        elif op in OTHERS:
            made += OTHERS[op][0]
            line = line.replace(op, "\n".join([op, *OTHERS[op][1]]))
        elif not PLAIN.fullmatch(op):
            raise Refused(f"the instruction {op} isn't known here")
        made.append(line)
        before = op
    return made


def lowered_function(lines):
    """The lines of a function, with the locals that its instructions need now."""
    code = [it.strip() for it in lines[1:]]
    head = [lines[0], *(code.pop(0) for _ in code[:1] if code[0].startswith("(local "))]
    made = lowered_code(code)
    used = [f"(local {name} {kind})" for name, kind in LOCALS.items() if f"local.set {name}" in made]
    return "\n".join([*head, *used, *made])


def lowered_part(part):
    word = re.match(r"\(\w+ ", part)[0]
    if word == "(func ":
        return lowered_function(part.split("\n"))
    if word in WIDE and re.match(WIDE[word][0], part):
        return re.sub(*WIDE[word], part, count=1)
    if word not in PARTS:
        raise Refused(f"the part {part.split(chr(10))[0]} isn't known here")
    return part


def lowered(text):
    """The text of a module, which has a part on a line, and a function's instructions on the lines after it."""
    head, *parts = re.split(r"\n  (?=\()", text)
    return "\n".join([head, *map(lowered_part, parts)])


def wabt(*words, text=None):
    """What a tool of wabt prints."""
    try:
        ran = subprocess.run(words, input=text, capture_output=True, text=True, check=False)
    except FileNotFoundError:
        raise Refused(f"there is no {words[0]}, which is of Debian's wabt") from None
    if ran.returncode:
        raise Refused(ran.stderr.strip())
    return ran.stdout


def main():
    source, target = sys.argv[1:]
    try:
        made = lowered(wabt("wasm2wat", "--enable-memory64", source))
        wabt("wat2wasm", "-", "-o", target, text=made)
    except Refused as why:
        print(f"lower_addresses.py: {source}: {why}", file=sys.stderr)
        return 1
    return 0


if __name__ == "__main__":
    sys.exit(main())
