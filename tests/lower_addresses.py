#!/usr/bin/env python3
"""Tests the step that gives WebAssembly modules 32-bit addresses: tests/lower_addresses.py

Each instruction that has an address is used by functions of a module, in a memory of 64-bit addresses. wabt runs that,
and what tools/targets/lower_addresses.py makes of it: each call has to give the same, or both have to trap. And modules
with what that step doesn't know have to be refused.

Without wabt all is left out. The last line counts what passed and what failed.
"""
import os
import shutil
import subprocess
import tempfile

import scripts
from scripts import TOP

STEP = f"{TOP}/tools/targets/lower_addresses.py"

# The instructions that load, by the type that they give, and those that store, by the type that they take; from the
# table of instructions in the specification of WebAssembly.
LOADS = {
    "i32": "load load8_s load8_u load16_s load16_u",
    "i64": "load load8_s load8_u load16_s load16_u load32_s load32_u",
    "f32": "load",
    "f64": "load",
    "v128": """load load8x8_s load8x8_u load16x4_s load16x4_u load32x2_s load32x2_u
        load8_splat load16_splat load32_splat load64_splat load32_zero load64_zero""",
}
STORES = {"i32": "store store8 store16", "i64": "store store8 store16 store32"}
STORES |= dict.fromkeys(("f32", "f64", "v128"), "store")
LANES = [f"{verb}{bits}_lane" for verb in ("load", "store") for bits in (8, 16, 32, 64)]

# How a value of each type comes onto the stack: by one instruction that only puts it there, and by several.
CONSTANT = {
    "i32": "i32.const 0x58b1171",
    "i64": "i64.const 0x8396c58b1171",
    "f32": "f32.const 0x1.0604p+9",
    "f64": "f64.const 0x1.706050403p+99",
    "v128": "v128.const i8x16 1 2 3 4 5 6 7 8 9 10 11 12 13 14 15 16",
}
LAST = {"i32": "i32.const 1 i32.add", "i64": "i64.const 1 i64.add"}
LAST |= {"f32": "f32.neg", "f64": "f64.neg", "v128": "v128.not"}
WAYS = {"constant": CONSTANT, "computed value": {kind: f"{CONSTANT[kind]} {LAST[kind]}" for kind in CONSTANT}}

# What is read and written: within the memory of one page, its last bytes, what lies beyond it, and where 32 bits end.
ADDRESSES = [0, 7, 100, 65530, 65536, 2**32 - 9]

FILLED = "".join(f"\\{(37 * it + it // 7) % 256:02x}" for it in range(256))
PAGE = '(memory (export "memory") i64 1 4)'


def functions():
    """Yields the name, the result and the instructions of functions, some for each instruction that has an address."""
    for address in ADDRESSES:
        at, shown = f"i64.const {address}", f"i64.const {min(address, 65520)} v128.load"
        for kind, loads in LOADS.items():
            for it in loads.split():
                yield f"{kind}.{it} at {address}", kind, f"{at} {kind}.{it} offset=5 align=1"
        for way, values in WAYS.items():
            its = f"{at} {values['v128']}"
            for kind, stores in STORES.items():
                for it in stores.split():
                    code = f"{at} {values[kind]} {kind}.{it} offset=5 align=1 {shown}"
                    yield f"{kind}.{it} of a {way} at {address}", "v128", code
            for it in LANES:
                code = f"{its} v128.{it} offset=5 align=1 1 {shown if it.startswith('store') else ''}"
                yield f"v128.{it} with a {way} at {address}", "v128", code
            code = f"{at} {values['i32']} i64.const 9 memory.fill {shown}"
            yield f"memory.fill by a {way} at {address}", "v128", code
        for way, three in (("constant", "i64.const 3"), ("computed address", "i64.const 2 i64.const 1 i64.add")):
            yield f"memory.copy from a {way} to {address}", "v128", f"{at} {three} i64.const 9 memory.copy {shown}"
    yield "memory.size", "i64", "memory.size"
    yield "memory.grow", "i64", "i64.const 1 memory.grow"
    yield "memory.grow that fails", "i64", "i64.const 0x20000 memory.grow"
    yield "a branch", "i32", "block i64.const 1 i32.wrap_i64 br_table 0 0 0 end i64.const 7 i32.load"


def module(room, functions, parts):
    """A file of a module."""
    made = " ".join(f'(func (export "{name}") (result {kind}) {code})' for name, kind, code in functions)
    with open(f"{room}/made.wat", "w", encoding="ascii") as it:
        it.write(f"(module {parts} {made})")
    words = ["wat2wasm", "--enable-all", "--no-check", f"{room}/made.wat", "-o", f"{room}/made.wasm"]
    subprocess.run(words, check=True)
    return f"{room}/made.wasm"


def lowered(room, file):
    """What the step makes of a module: the run, and the file."""
    ran = subprocess.run([STEP, file, f"{room}/lowered.wasm"], capture_output=True, text=True, check=False)
    return ran, f"{room}/lowered.wasm"


def results(file):
    """What calls of all functions of a module give, a line for each."""
    words = ["wasm-interp", "--enable-memory64", "--run-all-exports", file]
    return subprocess.run(words, capture_output=True, text=True, check=True).stdout.splitlines()


def test_same(counts, room):
    """Each instruction, before and after its address is cut."""
    wide = module(room, functions(), f'{PAGE} (data (i64.const 0) "{FILLED}")')
    ran, made = lowered(room, wide)
    counts.expect("lowering all instructions", ran.returncode == 0, ran.stderr)
    wanted = results(wide)
    for before, after in zip(wanted, results(made) if ran.returncode == 0 else wanted, strict=True):
        counts.expect(f"{before} and then {after}", before == after)
    trapped = sum("error: out of bounds" in it for it in wanted)
    counts.expect(f"{trapped} of {len(wanted)} calls trap", 0 < trapped < len(wanted))


# What isn't known: a name, the instructions, what stands for the memory and its data, and what the message says.
SMALL = "i64.const 0 i32.load"
REFUSED = [
    ("an import", SMALL, f'(import "a" "b" (func)) {PAGE}', "the part (import "),
    ("a table", SMALL, f"(table 1 funcref) {PAGE}", "the part (table "),
    ("a start", SMALL, f"(func $begin) (start $begin) {PAGE}", "the part (start "),
    ("a memory of 32-bit addresses", "i32.const 0 i32.load", "(memory 1 4)", "the part (memory "),
    ("a shared memory", SMALL, "(memory i64 1 4 shared)", "threads"),
    ("two memories", SMALL, f"{PAGE} (memory i64 1 4)", "only one memory"),
    ("too large a memory", SMALL, "(memory i64 65537 65537)", "must be <= (65536)"),
    ("a passive segment", SMALL, f'{PAGE} (data "a")', "the part (data "),
    ("data at a negative address", SMALL, f'{PAGE} (data (i64.const -1) "a")', "the part (data "),
    ("data beyond 2^32", SMALL, f'{PAGE} (data (i64.const 0x100000000) "a")', "4294967296"),
    ("a tail call", "i64.const 0 return_call 0", PAGE, "opcode: 0x12"),
    ("a reference", "ref.null func ref.is_null", PAGE, "the instruction ref.null "),
    ("memory.init", "i64.const 0 i32.const 0 i32.const 0 memory.init 0 i32.const 0", f'{PAGE} (data "a")', "the "),
    ("an atomic instruction", "atomic.fence", PAGE, "opcode: 0xfe"),
    ("a relaxed vector", f"{CONSTANT['v128']} {CONSTANT['v128']} i8x16.relaxed_swizzle", PAGE, "opcode: 0xfd"),
]


def test_refused(counts, room):
    """What isn't known is refused, and nothing is written."""
    for name, code, parts, said in REFUSED:
        ran, made = lowered(room, module(room, [("f", "i32", code)], parts))
        is_told = said in ran.stderr and "Traceback" not in ran.stderr
        is_refused = ran.returncode == 1 and is_told and not os.path.exists(made)
        counts.expect(f"{name}: status {ran.returncode}, {ran.stderr.strip()}", is_refused)


def main():
    counts = scripts.Counts()
    with tempfile.TemporaryDirectory() as room:
        if not shutil.which("wasm-interp"):
            print("left out: modules with 64-bit addresses: no wabt")
            scripts.finish(1, 0)
        test_refused(counts, room)
        test_same(counts, room)
    counts.end()


if __name__ == "__main__":
    main()
