"""What the tests of make install and of the packages ask of what is installed: verdicts, and programs in C over it."""
import os
import re
import shutil
import subprocess

import scripts

MAX = "p max 3 3\nn 1 s\nn 3 t\na 1 2 4\na 2 3 2\na 1 3 1\n"
FLOW = "s 3\nf 1 2 2\nf 1 3 1\nf 2 3 2\n"

IN_C = """#include <dimacs.h>
#include <stdio.h>
#include <string.h>

int main(void) {
    const char *text = "p cut 4 1\\nu 1\\n";
    uint8_t line[256];
    size_t needed;
    uint32_t status = dimacs_show(DIMACS_TEXT_CUT, (const uint8_t *)text, strlen(text), line, sizeof line, &needed);
    printf("%.*s%s %s\\n", (int)needed, (char *)line, DIMACS_VERSION, dimacs_version() == DIMACS_VERSION_NUMBER ? "both" : "one");
    return (int)status;
}
"""

BY_CMAKE = """cmake_minimum_required(VERSION 3.13)
project(shown C)
find_package(dimacs {series} REQUIRED)
foreach(which dimacs static)
  add_executable(by_${{which}} shown.c)
  target_link_libraries(by_${{which}} dimacs::${{which}})
endforeach()
"""


def put(path, content):
    os.makedirs(os.path.dirname(path), exist_ok=True)
    with open(path, "wb") as it:
        it.write(content.encode() if isinstance(content, str) else content)


class Commands(scripts.Counts):
    """Commands that are run in a folder `place`, where nothing is set but an `environment`."""

    def run(self, *words, **how):
        """Runs a command, and returns what it prints."""
        how = {"cwd": self.place, "env": self.environment} | how
        ran = subprocess.run(words, capture_output=True, text=True, check=False, **how)
        self.succeeded = ran.returncode == 0
        self.message = f"$ {' '.join(words)}: status {ran.returncode}\n{ran.stdout}{ran.stderr}"
        return ran.stdout + ran.stderr

    def expect(self, name, is_so):
        """Counts a case; of one that failed it prints what was run last."""
        super().expect(name, is_so, f"\n{self.message}")


class Installed(Commands):
    """What is installed below a folder `usr` for a system, and commands that find it there and nowhere else."""

    def __init__(self, place, usr, triplet="x86_64-linux-gnu"):
        super().__init__()
        self.place, self.usr, self.message = place, usr, ""
        self.version = scripts.read("VERSION").strip()
        self.by, self.compiler, self.suffix = [], "cc", ""
        libraries = f"{usr}/lib/{triplet}"
        self.environment = {"HOME": place, "LANG": "C.UTF-8", "PATH": f"{usr}/bin:/usr/bin:/bin"}
        self.environment |= {"PKG_CONFIG_PATH": f"{libraries}/pkgconfig", "CMAKE_PREFIX_PATH": usr}
        self.environment |= {"CMAKE_LIBRARY_ARCHITECTURE": triplet, "LD_LIBRARY_PATH": libraries}
        texts = {"one.max": MAX, "one.solution": FLOW, "list": "one.max one.solution\n", "shown.c": IN_C}
        for name, text in texts.items():
            put(f"{place}/{name}", text)

    def has(self, name, *tools):
        """Whether these tools are there. What needs them is left out else."""
        lacking = [it for it in tools if not shutil.which(it, path=self.environment["PATH"])]
        if lacking:
            print(f"left out: {name}: no {', '.join(lacking)}", flush=True)
        return not lacking

    def test_program(self, program):
        self.expect("a verdict", self.run(*self.by, program, "certify-max", "one.max", "one.solution") == "v max 3\n")

    def test_tools(self):
        """A row, and a picture, with the verdict on one answer."""
        self.expect("dimacs-batch", ",v max 3,3," in self.run(f"{self.usr}/bin/dimacs-batch", "list"))
        drawn = self.run(f"{self.usr}/bin/dimacs-draw", "one.max", "one.solution")
        self.expect("dimacs-draw", drawn.startswith("<svg ") and "certify-max: v max 3" in drawn)

    def test_by_pkg_config(self):
        if not self.has("C by pkg-config", self.compiler, "pkg-config"):
            return
        self.run("sh", "-c", f"{self.compiler} -o shown shown.c $(pkg-config --cflags --libs dimacs)")
        self.expect_shown("C by pkg-config", "./shown")
        named = self.run("pkg-config", "--modversion", "dimacs")
        self.expect("the version of dimacs.pc", named == f"{self.version}{self.suffix}\n")

    def test_by_cmake(self):
        """The same by find_package, with the shared library and with the other one."""
        if not self.has("C by CMake", "cc", "cmake"):
            return
        put(f"{self.place}/CMakeLists.txt", BY_CMAKE.format(series=re.match(r"\d+\.\d+", self.version)[0]))
        self.run("sh", "-c", "cmake -S . -B made && cmake --build made")
        self.expect("CMake", self.succeeded)
        for made in ("by_dimacs", "by_static") if self.succeeded else ():
            self.expect_shown(f"C by CMake, {made}", f"made/{made}")

    def expect_shown(self, name, program):
        """Counts a program in C, of which a file that isn't there is none."""
        is_there = os.path.exists(f"{self.place}/{program}")
        self.expect(name, is_there and self.run(*self.by, program) == f"i cut 4 1\n{self.version} both\n")
