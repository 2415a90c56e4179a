#!/usr/bin/env python3
"""Tests make install and make uninstall: tests/install.py [BUILD]

BUILD is the folder of what is installed: build if none is given, build/quick or build/rust. It is copied, so that it has
other times, and installed without the kit on the path, in folders that a distribution names and by a user whose files
nobody else may read. What was installed is moved elsewhere, and used there: the program, dimacs-batch, dimacs-draw, and the library in C,
by pkg-config and by CMake. At last it is removed again.

What needs a tool that isn't there is left out, and named. The last line counts what passed and what failed.
"""
import os
import re
import shutil
import stat
import subprocess
import sys
import tempfile

from installed import Installed, put
from scripts import TOP

COPIED = ["dimacs", "dimacs_c.a", "dimacs.o", "libdimacs.a", "libdimacs.so.0", "linked"]

# The folders of a distribution, as GNU and as this Makefile names them.
FOLDERS = ["prefix=/usr", "libdir=/usr/lib/x86_64-linux-gnu", "DOCDIR=/usr/share/doc/libdimacs-doc"]
FOLDERS += ["ZSHDIR=/usr/share/zsh/vendor"]

# What has to be there, by the files' modes.
INSTALLED = {
    0o755: """
        bin/dimacs bin/dimacs-batch bin/dimacs-draw share/doc/libdimacs-doc/referee/referee.py share/doc/libdimacs-doc/recipes/scipy_max.py""",
    0o644: """
        include/dimacs.h include/dimacs.hpp include/dimacs/boost.hpp include/dimacs/lemon.hpp
        lib/x86_64-linux-gnu/libdimacs.a lib/x86_64-linux-gnu/libdimacs.so lib/x86_64-linux-gnu/libdimacs.so.0
        lib/x86_64-linux-gnu/pkgconfig/dimacs.pc lib/x86_64-linux-gnu/cmake/dimacs/dimacsConfig.cmake
        share/man/man1/dimacs.1 share/man/man1/dimacs-batch.1 share/man/man1/dimacs-draw.1 share/man/man5/dimacs.5
        share/zsh/vendor/_dimacs share/fish/vendor_completions.d/dimacs-batch.fish
        share/fish/vendor_completions.d/dimacs-draw.fish share/bash-completion/completions/dimacs-draw
        share/bash-completion/completions/dimacs share/bash-completion/completions/dimacs-batch
        share/dimacs/rust/Cargo.toml share/dimacs/rust/src/lib.rs
        share/doc/libdimacs-doc/README.md share/doc/libdimacs-doc/docs/PROMISES.md
        share/doc/libdimacs-doc/examples/pipes.max""",
}


class Install(Installed):
    """A copy of the repository and of a build, folders to install in, and what came of it."""

    def __init__(self, build, place):
        super().__init__(place, f"{place}/moved/elsewhere")
        self.root, self.build = f"{place}/root", os.path.relpath(build, TOP)
        self.suffix = "" if self.build == "build" else "+unproved"
        self.make = ["make", "-C", f"{place}/copy", f"FROM={self.build}"]


def copy(its):
    """Links all of the repository but what is built, which is copied: the sources of the copy are its newest files."""
    subprocess.run(["make", "-s", "-C", TOP, f"{its.build}/dimacs", f"{its.build}/linked"], check=True)
    made = f"{its.place}/copy"
    os.makedirs(f"{made}/{its.build}")
    for it in os.listdir(TOP):
        if it not in ("build", "dist"):
            os.symlink(f"{TOP}/{it}", f"{made}/{it}")
    notes = [it for it in os.listdir(f"{TOP}/{its.build}") if it.endswith("sources") or it.endswith(".words")]
    modules = [it for it in os.listdir(f"{TOP}/{its.build}") if it.endswith(".bc")]
    for at, it in enumerate(sorted([*COPIED, *notes], reverse=True)):
        shutil.copy(f"{TOP}/{its.build}/{it}", f"{made}/{its.build}/{it}")
        os.utime(f"{made}/{its.build}/{it}", (at, at))
    for it in modules:
        os.symlink(f"{TOP}/{its.build}/{it}", f"{made}/{its.build}/{it}")


def names_below(folder):
    found = (os.path.join(at, it) for at, _, names in os.walk(folder) for it in names)
    return sorted(os.path.relpath(it, folder) for it in found)


def test_install(its):
    """What has to be there is, of the right mode, and nothing was linked again for it."""
    asked = [*its.make, "install", f"DESTDIR={its.root}", *FOLDERS]
    put(f"{its.root}/usr/bin/other", "")
    its.run(*asked, umask=0o077)
    its.expect("make install", its.succeeded)
    its.expect("a copied build isn't built again", not re.search("-shared|quick_build|Compiling", its.message))
    for mode, names in INSTALLED.items():
        for it in names.split():
            path = f"{its.root}/usr/{it}"
            is_so = os.path.exists(path) and stat.S_IMODE(os.stat(path).st_mode) == mode
            its.expect(f"{it} with mode {mode:o}", is_so)
    folders = [at for at, _, _ in os.walk(f"{its.root}/usr/share")]
    its.expect("all may read the folders", all(stat.S_IMODE(os.stat(it).st_mode) == 0o755 for it in folders))
    its.expect("nothing lies beside usr", os.listdir(its.root) == ["usr"])
    with open(f"{its.root}/usr/share/man/man1/dimacs.1", encoding="utf-8") as page:
        says_proved = "every function is proved" in " ".join(page.read().split())
    its.expect("the man page says that all is proved exactly if it is", says_proved == (not its.suffix))


def test_moved(its):
    """What was installed does its work in another place."""
    shutil.copytree(f"{its.root}/usr", its.usr, symlinks=True)
    its.test_program(f"{its.usr}/bin/dimacs")
    its.test_tools()
    its.test_by_pkg_config()
    its.test_by_cmake()


def test_uninstall(its):
    """What was installed is gone, and what wasn't is there."""
    asked = [*its.make, "uninstall", f"DESTDIR={its.root}", *FOLDERS]
    kept = f"{its.root}/usr/share/doc/libdimacs-doc/of-a-user"
    put(kept, "")
    put(f"{its.root}/usr/share/dimacs/dimacs_batch/__pycache__/main.pyc", "")
    its.run(*asked)
    its.expect("make uninstall", its.succeeded)
    left = names_below(its.root)
    its.message = "\n".join(left)
    its.expect("no more and no less", left == ["usr/bin/other", os.path.relpath(kept, its.root)])
    its.expect("no folder of ours", not os.path.exists(f"{its.root}/usr/include/dimacs"))
    its.expect("a second time is refused", "nothing is installed here" in its.run(*asked) and not its.succeeded)


def test_flags(its):
    """The flags of a packager reach the link of the shared library, which is hardened without any."""
    library = f"{its.place}/copy/{its.build}/libdimacs.so.0"
    if not its.has("flags", "cc", "readelf"):
        return
    os.remove(library)
    os.utime(f"{os.path.dirname(library)}/dimacs.o")
    flags = ["CFLAGS=-O2 -fPIC", "LDFLAGS=-Wl,--build-id=0xda7ada7a"]
    its.run(*its.make, f"{its.build}/libdimacs.so.0", *flags)
    its.expect("a library that is linked by flags", os.path.exists(library))
    its.run("readelf", "-dlnW", library)
    its.expect("it has what the flags ask for", "Build ID: da7ada7a" in its.message)
    its.expect("its symbols are bound as it is loaded", "BIND_NOW" in its.message and "GNU_RELRO" in its.message)


def main():
    build = os.path.abspath(sys.argv[1] if len(sys.argv) > 1 else f"{TOP}/build")
    with tempfile.TemporaryDirectory() as place:
        its = Install(build, place)
        copy(its)
        test_install(its)
        test_moved(its)
        test_uninstall(its)
        test_flags(its)
    its.end()


if __name__ == "__main__":
    main()
