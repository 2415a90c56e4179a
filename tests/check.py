#!/usr/bin/env python3
"""Runs all tests side by side, unproved: tests/check.py [BUILD]

BUILD is the folder of the program and the library that are tested; build/quick if none is given. The test crate runs
by `rt try --test`, which compiles it unproved, with tests of indices, sums and addresses of its own. A test that
doesn't end there in a minute, as those of the greatest number of nodes, runs without these, in its crate built as the
program is. The scripts of tests/scripts.py run over BUILD, but those that need what is proved. For build/rust, which is
made without the kit, what needs the kit is left out. The last line counts what passed and what failed in all of them.
"""
import os
import re
import sys

import scripts

# The last line of a test crate, and how rt try names a test that doesn't end in its time.
COUNTED = re.compile(r"^test result: \w+\. (\d+) passed; (\d+) failed;", re.MULTILINE)
SLOW = re.compile(r"^test (\S+) \.\.\. FAILED\n *checked: no-answer: the program did not end within the time limit$", re.MULTILINE)


def tests_of(words, **how):
    """Runs the tests of a crate; what passed and failed, and what was printed."""
    status, output = scripts.ended(words, **how)
    found = COUNTED.findall(output)
    passed, failed = map(int, found[-1]) if found else (0, 1)
    return passed, max(failed, int(status != 0)), output


def run_crate(name, build):
    """Runs the tests of a crate, and those again that are too slow under the tests of rt try."""
    passed, failed, output = tests_of(["rt", "try", "--test"], cwd=f"{scripts.TOP}/crates/{name}")
    slow = SLOW.findall(output)
    if slow:
        kit = scripts.ended(["tools/kit.py"])[1].strip()
        output += scripts.ended(["tools/quick_build.py", name, f"{build}/{name}"])[1]
    for it in slow:
        words = [f"{kit}/bin/rattle-test", "--seconds", "300", "--filter", it, f"{build}/{name}"]
        again, lost, printed = tests_of(words)
        passed, failed, output = passed + again, failed - 1 + lost, output + printed
    return scripts.Ran(name, passed, failed, output.splitlines() if failed else [])


def main():
    build = os.path.abspath(sys.argv[1] if len(sys.argv) > 1 else f"{scripts.TOP}/build/quick")
    with open(f"{scripts.TOP}/crates.txt", encoding="utf-8") as it:
        crates = re.findall(r"^(\w+_tests)\b.*:", it.read(), re.MULTILINE)
    by_cargo = os.path.basename(build) == "rust"
    jobs = [(run_crate, it, build) for it in crates if not by_cargo]
    words, needs = {"build": build, "program": f"{build}/dimacs"}, ["cargo"] if by_cargo else ["kit", "quick"]
    jobs += [(scripts.run, it, words) for it in scripts.listed("nothing", *needs, "program", "build")]
    print(f"{len(jobs)} tests run side by side, in about ten minutes; each prints a line as it ends", flush=True)
    scripts.finish(*scripts.run_all(jobs))


if __name__ == "__main__":
    main()
