#!/usr/bin/env python3
"""Tests what stands on the build by cargo: tests/rust_layers.py [BUILD]

Where no library is named, the crate in lib/rust and the package for Python find build/rust, here by a copy of the
repository in which nothing else is built; that it says it isn't proved. A program in Rust depends on that crate by its
path. The crates can be packed, and their sources for who has cargo alone. Without Rust, or with an old one, a build ends
with one line. The libraries that cargo makes itself, for systems without GNU's objcopy, are called from C, and the dynamic
one from Rust. BUILD is build/rust if none is given, and has to be of these sources.
"""
import glob
import os
import re
import shutil
import sys
import tempfile

import scripts
from installed import Commands, put
from scripts import TOP

sys.path.insert(0, f"{TOP}/tools")
import rust_build  # noqa: E402  (the folder isn't a package of this one)

# Of what is copied nothing is built, or known to git.
NOT_COPIED = shutil.ignore_patterns(".git", "build", "dist", "out", "target", "__pycache__")

PROGRAM = """fn main() {
    println!("{} {}", dimacs::version_text().unwrap(), dimacs::proved());
}
"""
MANIFEST = """[package]
name = "called"
version = "0.0.0"
edition = "2021"
[dependencies]
dimacs = {{ path = "{}" }}
"""
CALL = "import dimacs; print(dimacs.__version__, dimacs.proved, dimacs.show('cut', 'p cut 4 1\\nu 1\\n'))"

# An old Rust, none, and one that is ill: a program in its place, and what a build says.
LACKING = [
    ('echo "cargo 1.87.0 (abc)"', "cargo 1.87.0 (abc) is too old: get Rust 1.88 or later"),
    (None, "cargo isn't there: get Rust 1.88 or later"),
    ("exit 1", "cargo --version fails: get Rust 1.88 or later"),
]


class Layers(Commands):
    """A copy of the repository, which finds the build, and commands by which nothing else is found."""

    def __init__(self, build, place):
        super().__init__()
        self.place, self.build, self.copy = place, build, f"{place}/copy"
        shutil.copytree(TOP, self.copy, ignore=NOT_COPIED)
        os.mkdir(f"{self.copy}/build")
        os.symlink(build, f"{self.copy}/build/rust")
        mine = {"PKG_CONFIG_LIBDIR": place, "CARGO_TARGET_DIR": f"{place}/target", "PYTHONDONTWRITEBYTECODE": "1"}
        others = ("DIMACS_LIB_DIR", "DIMACS_LIBRARY", "PKG_CONFIG_PATH", "PYTHONPATH", "RUSTFLAGS")
        self.environment = {name: it for name, it in os.environ.items() if name not in others} | mine

    def test_rust(self):
        manifest = f"{self.place}/called/Cargo.toml"
        put(manifest, MANIFEST.format(f"{self.copy}/lib/rust"))
        put(f"{self.place}/called/src/main.rs", PROGRAM)
        printed = self.run("cargo", "run", "--offline", "-q", "--manifest-path", manifest)
        self.expect("a program in Rust", re.search(r"\(by rustc \S+\) \(not proved\) false\n", printed))
        printed = self.run("cargo", "test", "--offline", "--manifest-path", f"{self.copy}/lib/rust/Cargo.toml")
        self.expect("the crate's tests", re.search(r"(?s)\A(?!.*; [1-9]\d* failed).* passed; 0 failed", printed))

    def test_python(self):
        lacks = "import sys, importlib.util as it; sys.exit(not all(map(it.find_spec, ('pip', 'hatchling'))))"
        python = next((it for it in ("python3", "/usr/bin/python3") if "" == self.run(it, "-c", lacks) and self.succeeded), None)
        if not python:
            print("left out: the package for Python: no pip with hatchling")
            return
        words = ["--no-build-isolation", "--no-index", "--no-deps", "--target", f"{self.place}/installed"]
        self.run(python, "-m", "pip", "install", *words, f"{self.copy}/lib/python")
        wanted = scripts.read("VERSION").strip().replace("-dev", ".dev0")
        printed = self.run(python, "-c", CALL, env=self.environment | {"PYTHONPATH": f"{self.place}/installed"})
        self.expect("the package for Python", printed.startswith(f"{wanted}+unproved False i cut 4 1\n"))

    def test_packing(self):
        words = ["--workspace", "--offline", "--allow-dirty", "--no-verify"]
        printed = self.run("cargo", "package", *words, cwd=f"{self.build}/crates")
        names = re.findall(r"Packaging (\w+) ", printed)
        folders = glob.glob(f"{self.build}/crates/*/Cargo.toml")
        self.expect("each crate is packed", len(set(names)) == len(folders) > 15 and "dimacs" not in names)

    def test_sources(self):
        """What is packed for who has cargo alone is what was built here, and passes its own test."""
        ran = self.run(f"{TOP}/tools/dist.py", "--for", "rust", f"{self.place}/sources")
        (packed,) = glob.glob(f"{self.place}/sources/*.tar.gz") or [ran]
        self.run("tar", "-xzf", packed, "-C", f"{self.place}/sources", "--strip-components=1")
        differ = self.run("diff", "-r", "-x", "target", "-x", "Cargo.lock", f"{self.build}/crates", f"{self.place}/sources")
        wanted = [f"Only in {self.place}/sources: {it}" for it in ("README.md", "SHA256SUMS", os.path.basename(packed))]
        self.expect("the sources as plain Rust", sorted(differ.splitlines()) == sorted(wanted))
        printed = self.run("cargo", "test", "--release", "--offline", cwd=f"{self.build}/crates", env=None)  # as they were built
        self.expect("the rows by cargo test", "test result: ok. 2 passed; 0 failed" in printed)

    def test_lacking(self):
        for program, wanted in LACKING:
            cargo = f"{self.place}/tools/cargo" if program else f"{self.place}/gone/cargo"
            if program:
                put(cargo, f"#!/bin/sh\n{program}\n")
                os.chmod(cargo, 0o755)
            environment = self.environment | {"CARGO": cargo}
            printed = self.run(sys.executable, f"{self.copy}/tools/rust_build.py", f"{self.place}/none", env=environment)
            is_so = printed.replace(os.path.dirname(cargo) + "/", "").startswith(f"rust_build.py: {wanted}")
            self.expect(wanted, is_so and printed.count("\n") == 1)

    def test_plain_libraries(self):
        made = f"{self.place}/plain"
        rust_build.put_libraries(f"{self.build}/crates/target/release", made)
        for library in "libdimacs.so", "libdimacs.a":
            words = ["-I", f"{TOP}/lib/include", f"{TOP}/examples/library/certify.c", f"{made}/{library}", "-o", "certify"]
            self.run("cc", *words, f"-Wl,-rpath,{made}")
            pipes = [f"{TOP}/examples/pipes.{it}" for it in ("max", "solution")]
            self.expect(library, self.run("./certify", *pipes).startswith("v max 12\np cut 5 3\n"))

    def test_without_objcopy(self):
        """A program in Rust finds the dynamic library as cargo makes it, which isn't built again here."""
        os.remove(f"{self.copy}/build/rust")
        os.mkdir(f"{self.copy}/build/rust")
        os.symlink(f"{self.build}/crates", f"{self.copy}/build/rust/crates")
        os.mkdir(f"{self.place}/few")
        for it in "cargo", "rustc", "cc", "ld", "python3":
            os.symlink(shutil.which(it), f"{self.place}/few/{it}")
        few = self.environment | {"PATH": f"{self.place}/few", "CARGO_TARGET_DIR": f"{self.place}/other"}
        printed = self.run("cargo", "run", "--offline", "--manifest-path", f"{self.place}/called/Cargo.toml", env=few)
        self.expect("a program in Rust without objcopy", re.search(r"\(not proved\) false\n", printed))


def main():
    build = os.path.abspath(sys.argv[1] if len(sys.argv) > 1 else f"{TOP}/build/rust")
    with tempfile.TemporaryDirectory() as place:
        its = Layers(build, place)
        its.test_lacking()
        its.test_plain_libraries()
        its.test_packing()
        its.test_sources()
        its.test_rust()
        its.test_python()
        its.test_without_objcopy()
    its.end()


if __name__ == "__main__":
    main()
