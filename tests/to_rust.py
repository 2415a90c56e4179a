#!/usr/bin/env python3
"""Tests the rules by which the sources become plain Rust: tests/to_rust.py [--by-kit]

Each rule has a row, and each line of the sources stays the line of its number. A form that isn't known is refused with its
place. With --by-kit, the kit makes one module of the program, and one without what GHOSTS of tools/to_rust.py drops: they
have to be the same, byte by byte, so nothing but ghosts is dropped by these. It takes two minutes of processor time.
"""
import filecmp
import glob
import os
import re
import shutil
import subprocess
import sys
import tempfile

import scripts

sys.path.insert(0, f"{scripts.TOP}/tools")
import to_rust  # noqa: E402  (the folder isn't a package of this one)

# What a row shows, its source and its Rust; `~` ends a line, and blanks in a row count once.
ROWS = """
clauses            | fn f(a: u8) -> u8~ requires * { a < 9 }~ ensures kept { result ≡ a }~{ a } | fn f(a: u8) -> u8~~~{ a }
clauses in one     | ensures { f { 1 } } ensures { g }~{ 2 }      | ~{ 2 }
a ghost import     | ghost use Rattle.core.{◌≡◌, ◌+◌};~use a::b; | ~use a::b;
ghost members      | impl A for B {~ ghost view = { λ x. x };~ ghost kind : { Set };~ fn f() {}~} | impl A for B {~~~ fn f() {}~}
ghost fields       | struct A { a: u8, ghost shown : { N } }      | struct A { a: u8, }
a tactic           | #![tactic(auto)]~#[tactic(auto, using(a))]~fn f() {} | ~~fn f() {}
a comment stays    | // why~#[cycle(a)]~fn f() {} // one~         | // why~~fn f() {} // one~
a model            | impl<T> Model for Vec<T> {~ ghost view = { a };~}~fn f() {} | ~~~fn f() {}
no model           | impl Model for A {~ fn f() {}~}              | impl Model for A {~ fn f() {}~}
a drop             | impl<T> Drop for A<T> {~ fn drop(self) { let A { a: _, b: _ } = self; }~} b | ~~ b
a derived drop     | #[derive(Drop)] struct A;                    | struct A;
more derived       | #[derive(Clone, Drop, Copy)] #[derive(Debug, Error)] | #[derive(Clone, Copy)] #[derive(Debug)]
not derived        | [(1, Error)]                                 | [(1, Error)]
the bound Drop     | fn f<T: Drop, S: A + Drop>() where T: Drop {} | fn f<T, S: A>() where T {}
an error           | use thiserror::Error;~#[error("no {0}")]~Gone(u8) | ~~Gone(u8)
a final method     | final fn f() {}                              | fn f() {}
a formatter        | fn fmt<W: fmt::Write>(f: &mut Formatter<W>)  | fn fmt(f: &mut Formatter<'_>)
the kit's std      | use std::io; ::std::a; a::std::b; memchr::memchr(1) | use kit ::io; ::std::a; a::std::b; kit::memchr ::memchr(1)
macros             | vec![in alloc; 0; 9]; write!(a, "vec!")      | kit::vec ![in alloc; 0; 9]; write!(a, "vec!")
an allocator       | a.to_vec(alloc); a.collect(rt.alloc()); a.collect(); a.repeat(alloc, 2) | a.to_vec_by (alloc); a.collect_by (rt.alloc()); a.collect(); a.repeat_by (alloc, 2)
traits             | trait A {} trait B: C {} trait D<T>: Drop {} | trait A : Sized {} trait B : Sized + C {} trait D <T>: Sized {}
a main function    | fn main(rt: HostRuntime) -> ExitCode {}      | kit::main!(started); fn started (rt: HostRuntime) -> ExitCode {}
what is proved     | pub const PROVED: bool = true; const PROVED: u8 = 1; | pub const PROVED: bool = false ; const PROVED: u8 = 1;
the version        | "1.0 (not proved)"                           | concat!("1.0 (by ", env!("COMPILER"), ") (not proved)")
a struct for C     | #[repr(C)]~struct A<'a> { n: u8, a: &'a [u8] } struct B<'a> { a: &'a [u8] } | #[repr(C)]~struct A<'a> { n: u8, a: kit::ffi::Lent<'a, u8 > } struct B<'a> { a: &'a [u8] }
another lifetime   | #[repr(C)] struct A<'b> { a: &'b [i64] }     | #[repr(C)] struct A<'b> { a: kit::ffi::Lent<'b, i64 > }
a function for C   | extern "C" fn f(alloc: Global, a: &[u8], b: &mut [i64], c: u8) {~ 1 } | unsafe extern "C" fn f(a: *const u8 , a_length: usize , b: *mut i64 , b_length: usize , c: u8) { let alloc = kit::alloc::Global; let a = unsafe { kit::ffi::lent(a, a_length) }; let b = unsafe { kit::ffi::lent_mut(b, b_length) }; ~ 1 }
strings, lifetimes | f("ghost { // }", b'\\'', '"', r#"a"b"#, &'a 1.0) | f("ghost { // }", b'\\'', '"', r#"a"b"#, &'a 1.0)
"""

# A source that is refused, and how it is.
REFUSED = """
fn f() {~ ghost loop a;~}          | 2: `ghost` isn't known here
fn f() {}~~requires a              | 3: `requires` isn't known here
fn f(a: ℕ) {}                      | 1: `ℕ` isn't known here
#[inline] fn f() {}~#[trusted] a   | 2: `# [` isn't known here
#[derive(Clone, Model)] a          | 1: `derive (` isn't known here
impl Drop for A { fn drop(self) { a(); } } | 1: `Drop` isn't known here
~a!(b)                             | 2: `a ! (` isn't known here
a /* b */                          | 1: `/ *` isn't known here
{~ ( ]                             | 2: ] closes nothing
f("\U000f0001")                    | 1: a character that numbers blanks here
~size_of::<u8>()                   | 2: `size_of` isn't known here
align_of::<u8>()                   | 1: `align_of` isn't known here
(a, b.as_slices())                 | 1: `as_slices` isn't known here
for a in (250u8..).rev() {}        | 1: `( 250u8 . . ) . rev` isn't known here
(0..).zip(a)                       | 1: `( 0 . . ) . zip` isn't known here
macro_rules! vec { () => {} }      | 1: `macro_rules ! vec` isn't known here
fn collect(self, alloc: A) {}      | 1: `fn collect ( self` isn't known here
fn repeat<T>(&'a mut self) {}      | 1: `fn repeat < T > ( & 'a mut self` isn't known here
#[repr(C)] struct A { a: &'a mut [u8] } | 1: `[ repr ( C ) ] struct A { a : &` isn't known here
"""


def cells(table):
    return [[cell.strip().replace("~", "\n") for cell in line.split(" | ")] for line in table.strip("\n").split("\n")]


def refusal(source):
    """How a source is refused."""
    try:
        to_rust.translated(source, "it")
    except SystemExit as why:
        return str(why)
    return "it isn't refused"


def sources(folder):
    """The sources of the crates in a folder that are built."""
    found = glob.glob(f"{folder}/crates/*/src/**/*.rt", recursive=True)
    return [it for it in found if os.path.relpath(it, f"{folder}/crates").split("/")[0] not in to_rust.NOT_BUILT]


def words(text):
    """The words and marks of each line."""
    return [re.findall(r"\w+|\S", line) for line in text.split("\n")]


def by_rules():
    for name, source, wanted in cells(ROWS):
        rust = to_rust.translated(source, name).replace("use kit::prelude::*; ", "")
        yield f"{name}: {rust!r}", words(rust) == words(wanted)
    for source, wanted in cells(REFUSED):
        yield f"{source!r}: {refusal(source)}", refusal(source) == f"to_rust.py: it:{wanted}"
    for path in sources(scripts.TOP):
        text = to_rust.read(path)
        yield f"{path}: another number of lines", to_rust.translated(text, path).count("\n") == text.count("\n")


def by_kit(room):
    """Whether the kit compiles the same module without ghosts."""
    shutil.copytree(scripts.TOP, room, ignore=shutil.ignore_patterns(".git", "build", "out", "__pycache__"))
    for path in sources(room):
        to_rust.put(path, to_rust.without_ghosts(to_rust.read(path), path))
    modules = [f"{room}/with-ghosts.ll", f"{room}/without.ll"]
    for folder, made in zip((scripts.TOP, room), modules):
        subprocess.run([f"{folder}/tools/quick_build.py", "module", made], check=True)
    yield "another module", filecmp.cmp(*modules, shallow=False)


def main():
    if sys.argv[1:] != ["--by-kit"]:
        scripts.end_with(by_rules())
    with tempfile.TemporaryDirectory() as room:
        scripts.end_with(by_kit(f"{room}/repository"))


if __name__ == "__main__":
    main()
