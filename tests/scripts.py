"""The scripts of the gate and of `make check`, and how they are run: side by side, as many as there are processors.

A script ends with the line 'N passed, M failed'. It has failed if it has no such line, if fewer passed than the table
wants, though nothing was left out, if its status isn't that of its line, or, where ALL_TOOLS is set, if it leaves anything
out. One of which the table wants 0 counts nothing: its status decides.
"""
import collections
import concurrent.futures
import os
import re
import subprocess
import sys

TOP = os.path.dirname(os.path.dirname(os.path.abspath(__file__)))

# What runs side by side: what it needs, how much has to pass in it, and its commands, one after the other. First comes
# what needs nothing that is built, but perhaps the kit, then what needs the program alone, and of the rest what takes
# longest. What needs `proved` runs in the gate alone, what needs `quick` in `make check` alone. What needs `rust` runs
# over what cargo builds, and needs a debug build too.
TABLE = """
nothing | 51     | tests/second_proof.py
nothing | 420    | tests/lower_addresses.py
kit     | 34     | tests/gate_test.py
kit     | 0      | tools/try_bodies.py --apply
nothing | 0      | tools/group_imports.py --check
nothing | 0      | tools/believed.py
nothing | 0      | tools/crate_tables.py --check
nothing | 25     | tests/module_circles.py
nothing | 370    | tests/to_rust.py
kit     | 1      | tests/to_rust.py --by-kit
nothing | 380    | tests/promises.py
nothing | 400    | tests/links.py
nothing | 14     | tests/theorem.py
nothing | 140    | tests/limits.py
nothing | 110    | tests/man_pages.py
program | 13360  | tests/referee.py {program}
program | 50     | tests/coq_kernel.py {program}
program | 4      | tests/plain_recipes.py {program}
program | 290    | tests/batch.py {program}
program | 150    | tests/large_runs.py {program}
program | 40     | tests/malicious.py {program} 50000
program | 94     | tests/refusals.py {program}
program | 650    | tests/draw.py {program}
program | 830    | tests/rows.py {program}
program | 1050   | tests/explain.py {program} 80
program | 50     | tests/usage.py {program}
program | 60     | tests/completion.py {program}
program | 50     | tests/shown_runs.py {program}
proved  | 6280   | tests/targets.py --build {build}
quick   | 31500  | tests/targets.py --build {build} wasm command page
proved  | 60     | tools/dist.py ; tests/packages.py dist
build   | 120    | tests/library.py --build {build} Python wheel
build   | 1040   | tests/library.py --build {build} C++
build   | 2100   | tests/library.py --build {build} C
build   | 46     | tests/library.py --build {build} Rust page
build   | 5000   | tests/library.py --build {build} --instances 5000 arrays
build   | 43     | tests/install.py {build}
build   | 28     | tests/abi.py {build}
build   | 13     | tests/version.py {build}
build   | 2      | tests/stacks.py {build}
cargo   | 12     | tests/rust_layers.py {build}
rust    | 4000   | tests/referee.py {build}/debug/dimacs 2000
rust    | 830    | tests/rows.py {build}/debug/dimacs
rust    | 830    | tests/rows.py {program}
rust    | 94     | tests/refusals.py {program}
rust    | 1050   | tests/explain.py {program} 80
rust    | 50     | tests/usage.py {program}
rust    | 2140   | tests/library.py --build {build} C Rust
rust    | 2      | tests/stacks.py {build}
rust    | 13     | tests/version.py {build}
"""

COUNTED = re.compile(r"^(\d+) passed, (\d+) failed\b[^\n]*\n?\Z", re.MULTILINE)

Script = collections.namedtuple("Script", "needs least commands")
Ran = collections.namedtuple("Ran", "name passed failed said")


def read(name):
    with open(f"{TOP}/{name}", encoding="utf-8") as it:
        return it.read()


def listed(*needs):
    """The scripts that need one of these."""
    rows = [[cell.strip() for cell in line.split("|")] for line in TABLE.strip().splitlines()]
    return [Script(need, int(least), commands.split(" ; ")) for need, least, commands in rows if need in needs]


def ended(words, **how):
    """Runs a command; its status and what it printed."""
    how = {"cwd": TOP, "stdin": subprocess.DEVNULL, "stdout": subprocess.PIPE, "stderr": subprocess.STDOUT} | how
    try:
        ran = subprocess.run(words, text=True, errors="replace", check=False, **how)
    except OSError as why:
        return 127, f"{words[0]}: {why.strerror}\n"
    return ran.returncode, ran.stdout


def counted(name, least, status, output):
    """What a script that ended so passed and failed, and what is to be printed of it."""
    line = COUNTED.search(output)
    passed, failed = map(int, line.groups()) if line else (0, 0)
    left_out = re.findall(r"^left out: .*", output, re.MULTILINE)
    faults = []
    if not least:
        passed, failed = int(status == 0), int(status != 0)
    elif not line:
        faults.append(f"ended without counting what passed, with status {status}")
    elif passed == 0 or passed < least and not left_out:
        faults.append(f"passed {passed}, and at least {least} have to")
    if status == 0 and failed or status != 0 and not failed and line:
        faults.append(f"ended with status {status}")
    if left_out and os.environ.get("ALL_TOOLS"):
        faults.append("left something out, and all tools have to be there")
    failed += len(faults)
    said = output.splitlines() if failed else left_out
    return Ran(name, passed, failed, [*said, *(f"FAILED: {name} {it}" for it in faults)])


def command_of(line, words):
    """A command with its words filled in."""
    return [it.format(**words) for it in line.split()]


def run(script, words):
    """Runs the commands of a script, up to one that fails. The last one counts."""
    name = re.sub(r"\S*/|\.\w+$", "", script.commands[-1].split()[0])
    *before, last = [command_of(it, words) for it in script.commands]
    printed = ""
    for command in before:
        status, output = ended(command)
        printed += output
        if status:
            return counted(name, script.least, status, printed)
    status, output = ended(last)
    return counted(name, script.least, status, printed + output)


def run_all(jobs):
    """Runs these calls side by side, prints a line for each as it ends, and what failed; what passed and failed in all.
    After a minute in which none ended it prints how many are left."""
    passed = failed = 0
    with concurrent.futures.ThreadPoolExecutor(os.cpu_count()) as pool:
        left = {pool.submit(*it) for it in jobs}
        while left:
            done, left = concurrent.futures.wait(left, 60, concurrent.futures.FIRST_COMPLETED)
            for it in done:
                ran = it.result()
                passed, failed = passed + ran.passed, failed + ran.failed
                print(f"== {ran.name}: {ran.passed} passed, {ran.failed} failed", *ran.said, sep="\n", flush=True)
            if not done:
                print(f"{len(left)} of {len(jobs)} are left", flush=True)
    return passed, failed


class Counts:
    """What passed and what failed of a script."""

    def __init__(self):
        self.passed = self.failed = 0

    def expect(self, name, is_so, more=""):
        """Counts a case, and names one that failed."""
        self.passed += bool(is_so)
        self.failed += not is_so
        if not is_so:
            print(f"FAILED: {name} {more}".rstrip(), flush=True)

    def faultless(self, faults):
        """Counts a case, which fails if it has a fault, and prints these."""
        found = list(faults)
        self.expect("\n".join(found), not found)

    def end(self):
        finish(self.passed, self.failed)


def end_with(cases):
    """Counts these cases, each a name and whether it is right, and ends."""
    counts = Counts()
    for it in cases:
        counts.expect(*it)
    counts.end()


def finish(passed, failed):
    """Prints the counts, and ends with their status."""
    print(f"{passed} passed, {failed} failed")
    sys.exit(1 if failed or not passed else 0)
