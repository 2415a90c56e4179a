#!/usr/bin/env python3
"""Compiles a kept LLVM module for another system: tools/targets/compile.py SYSTEM MODULE.bc OUT.o

MODULE is what was compiled for x86-64 Linux: build/dimacs_c.bc, or in build/quick that of the program too. What it says
of x86-64 is dropped (layout, triple, processor, probes of the stack), and the kit's clang compiles it for SYSTEM by the
flags by which it compiles what is proved. That a module means the same on another system isn't proved.
"""
import os
import re
import subprocess
import sys
import tempfile

TOP = os.path.dirname(os.path.dirname(os.path.dirname(os.path.abspath(__file__))))
sys.path.insert(0, f"{TOP}/tools")
import kit as kits  # noqa: E402  (the folder isn't a package of this one)

# Each system: its triple, the processor that is enough, and flags.
SYSTEMS = {
    "wasm": ("wasm64-unknown-unknown", "lime1", ["-msimd128", "-O2"]),  # 2 % less for the page than -O3, and as quick
    "aarch64": ("aarch64-unknown-linux-gnu", "generic", ["-fPIC"]),
    "windows": ("x86_64-w64-windows-gnu", "x86-64-v2", []),
}
FEATURES = {"wasm": "+simd128"}

FLAGS = ["-O3", "-Xclang", "-fmerge-functions", "-ffunction-sections", "-fdata-sections", "--no-default-config"]
FLAGS += ["-mllvm", "-no-trap-after-noreturn", "-mllvm", "-trap-unreachable", "-mllvm", "-disable-machine-licm"]
FLAGS += ["-mllvm", "-disable-postra-machine-licm", "-mllvm", "-sink-common-insts=false", "-Wno-override-module"]

OF_X86 = ("target datalayout", "target triple")
PROBES = re.compile(r' "(?:probe-stack|stack-probe-size)"="[^"]*"')
PROCESSOR = re.compile(r' "target-cpu"="[^"]*"')


def retargeted(lines, processor, features):
    """Yields the lines of a module without what they say of x86-64."""
    words = f' "target-cpu"="{processor}"' + (f' "target-features"="{features}"' if features else "")
    for line in lines:
        if line.startswith("attributes #"):
            line = PROCESSOR.sub(words, PROBES.sub("", line))
        if not line.startswith(OF_X86):
            yield line


def compile_for(system, module, out):
    triple, processor, flags = SYSTEMS[system]
    clang = f"{kits.folder('toolchain/bin/clang')}/toolchain/bin/clang"
    with tempfile.TemporaryDirectory() as room:
        printed, kept = f"{room}/printed.ll", f"{room}/kept.ll"
        words = ["-S", "-emit-llvm", "-x", "ir", module, "-Xclang", "-disable-llvm-passes", "-o", printed]
        subprocess.run([clang, *words], check=True)
        with open(printed, encoding="utf-8") as it, open(kept, "w", encoding="utf-8") as to:
            to.writelines(retargeted(it, processor, FEATURES.get(system)))
        subprocess.run([clang, f"--target={triple}", *FLAGS, *flags, "-c", "-x", "ir", kept, "-o", out], check=True)


if __name__ == "__main__":
    compile_for(*sys.argv[1:])
