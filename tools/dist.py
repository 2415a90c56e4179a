#!/usr/bin/env python3
"""Makes the packages: tools/dist.py [--for SYSTEM] [OUT]

SYSTEM is x86_64, else aarch64, windows or rust. Of what `make` proved and built for it, in build/ or build/SYSTEM/, it
makes in OUT, or in dist/ or dist/SYSTEM/, a tarball with all that `make install` installs, packages for Debian (where
debhelper is; tools/debian.py), by hatchling a wheel for Python, and SHA256SUMS; for Windows the wheel and the sums alone.
Beside those for x86_64 lies what runs everywhere: the package for npm, the page, and the sources as plain Rust, unproved,
of which cargo makes the program of `make rust`. For rust it makes these sources alone, by Python, tar and gzip.
What is of other sources, or doesn't have the mark of what is proved, it refuses, with the status 2. The same files give
the same packages: they are of the time that SOURCE_DATE_EPOCH has in seconds, or of the last date in CHANGELOG.md.
MAINTAINER is the contact that packages for Debian name.
"""
import argparse
import calendar
import collections
import hashlib
import os
import re
import shutil
import subprocess
import sys
import tempfile
import time

import debian
import proved_build
import sources
from texts import TOP, read, write

# What is packed for each system: its folder in build/ and in dist/, and what make builds there.
System = collections.namedtuple("System", "folder built")
LINUX = ["dimacs", "libdimacs.a", "libdimacs.so.0"]
SYSTEMS = {
    "x86_64": System("", LINUX),
    "aarch64": System("/aarch64", LINUX),
    "windows": System("/windows", ["dimacs.dll"]),
    "rust": System("/rust", []),
}

# What make builds for every system that has node or a browser, and how it is called beside a version.
EVERYWHERE = {"build/npm/dimacs.tgz": "dimacs-{}-npm.tgz", "build/page/dimacs.html": "dimacs-{}.html"}

# What a file that is proved says of itself, and one for Windows whose code is.
PROVED, PROVED_CODE = b"rattle logic=", b" (proved by "

# What packages are of: the version, the time, the machine, and the oldest C library of Linux that they run with.
Release = collections.namedtuple("Release", "version epoch machine glibc")


def content(path):
    with open(path, "rb") as it:
        return it.read()


def refuse(why):
    print(why, file=sys.stderr)
    sys.exit(2)


def test_proved(name):
    """Refuses what isn't built of what stands here, or isn't proved. What is for another system is built first."""
    if not sources.is_current("build/sources", sources.summed(sources.PROVED), [f"build/{it}" for it in proved_build.BUILT]):
        refuse("build isn't of these sources: make proves and builds them")
    files = [f"build{SYSTEMS[name].folder}/{it}" for it in SYSTEMS[name].built]
    if name != "x86_64" and subprocess.run(["make", "-s", "UNPROVED=", *files], check=False).returncode:
        refuse(f"make can't build {' '.join(files)}")
    mark = PROVED_CODE if name == "windows" else PROVED
    for it in files:
        if mark not in content(it):
            refuse(f"{it} isn't proved, and packages are made of what is proved alone")


def release_of(build, name):
    dates = re.findall(r"^## .*(\d{4}-\d\d-\d\d)$", read("CHANGELOG.md"), re.MULTILINE)
    last = calendar.timegm(time.strptime(max(dates), "%Y-%m-%d"))
    dynamic = [content(f"{build}/{it}") for it in SYSTEMS[name].built if it in ("dimacs", "libdimacs.so.0")]
    glibc = max((int(it) for file in dynamic for it in re.findall(rb"\0GLIBC_2\.(\d+)", file)), default=None)
    epoch = int(os.environ.get("SOURCE_DATE_EPOCH") or last)
    return Release(read("VERSION").strip(), epoch, name, glibc)


def install(build, into, *folders):
    words = ["make", "--no-print-directory", "-C", TOP, "install", f"DESTDIR={into}", "UNPROVED=", f"FROM={build}"]
    subprocess.run([*words, *folders], check=True, stdout=subprocess.DEVNULL)


def pack(room, name, out, release):
    """Packs a folder of this name in an order, of one time, and without the names and the umask of who made it."""
    plain = ["--format=gnu", "--sort=name", f"--mtime=@{release.epoch}", "--owner=root:0", "--group=root:0"]
    plain += ["--mode=u=rwX,go=rX"]
    words = ["tar", "-C", room, *plain, "-I", "gzip -9n", "-cf", f"{out}/{name}.tar.gz", name]
    subprocess.run(words, check=True)


def make_tarball(build, room, out, release):
    """Packs what is installed."""
    name = f"dimacs-{release.version}-{release.machine}-linux"
    install(build, room, f"prefix=/{name}")
    os.remove(f"{room}/{name}/share/dimacs/files")  # of make uninstall, which has nothing to do with a tarball
    pack(room, name, out, release)


def make_rust(room, out, release):
    """Packs the sources as plain Rust."""
    name = f"dimacs-{release.version}-rust"
    subprocess.run(["tools/to_rust.py", f"{room}/{name}"], cwd=TOP, check=True)
    shutil.copy(f"{TOP}/tools/rust/README.md", f"{room}/{name}")
    pack(room, name, out, release)


def copy_everywhere(out, release):
    """Copies what runs everywhere."""
    if not shutil.which("wasm2wat"):
        print("left out: the package for npm and the page: no wabt")
        return
    subprocess.run(["make", "-s", "UNPROVED=", *EVERYWHERE], cwd=TOP, check=True)
    for made, name in EVERYWHERE.items():
        shutil.copy(f"{TOP}/{made}", f"{out}/{name.format(release.version)}")


def files_of(folder):
    return sorted(it.name for it in os.scandir(folder) if it.is_file())


def sums_of(out):
    return [(it, hashlib.sha256(content(f"{out}/{it}")).hexdigest()) for it in files_of(out)]


def make_wheel(build, release, out):
    """Has hatchling make the wheel; its name."""
    library = f"{TOP}/{build}/{SYSTEMS[release.machine].built[-1]}"
    given = {"DIMACS_LIBRARY": library, "SOURCE_DATE_EPOCH": str(release.epoch)}
    words = ["hatchling", "build", "-t", "wheel", "-d", out]
    subprocess.run(words, cwd=f"{TOP}/lib/python", env={**os.environ, **given}, check=True, stdout=subprocess.DEVNULL)
    (wheel,) = (f"{out}/{it}" for it in files_of(out) if it.endswith(".whl"))
    os.chmod(wheel, 0o644)  # hatchling leaves it to its owner alone
    return wheel


def make_for_linux(build, release, room, out):
    """Makes the packages that are for Linux alone, and the wheel."""
    make_tarball(build, f"{room}/tarball", out, release)
    wheel = make_wheel(build, release, out)
    if shutil.which("dh_python3"):
        debian.make(build, f"{room}/source", wheel, release, out)
    else:
        print("left out: the packages for Debian: no debhelper and dh-python")


def make(build, name, out):
    """Makes all packages of what was built for a system, in a folder."""
    os.umask(0o022)
    release = release_of(build, name)
    os.makedirs(out, exist_ok=True)
    for it in files_of(out):
        os.remove(f"{out}/{it}")
    with tempfile.TemporaryDirectory() as room:
        if name in ("x86_64", "aarch64"):
            make_for_linux(build, release, f"{room}/linux", out)
        if name == "windows":
            make_wheel(build, release, out)
        if name in ("x86_64", "rust"):
            make_rust(f"{room}/rust", out, release)
        if name == "x86_64":
            copy_everywhere(out, release)
    sums = sums_of(out)
    write(f"{out}/SHA256SUMS", "".join(f"{value}  {name}\n" for name, value in sums))
    for it, _ in sums:
        print(f"{os.path.relpath(out, TOP)}/{it}: {os.path.getsize(f'{out}/{it}') // 1024} KB")


def main():
    words = argparse.ArgumentParser(description="Makes the packages.")
    words.add_argument("--for", dest="system", choices=SYSTEMS, default="x86_64", help="the system; x86_64 is Linux too")
    words.add_argument("out", nargs="?", type=os.path.abspath, help="the folder of the packages")
    asked = words.parse_args()
    folder = SYSTEMS[asked.system].folder
    os.chdir(TOP)
    if asked.system != "rust":
        if not shutil.which("hatchling"):
            refuse("hatchling makes the wheel, and isn't there")
        test_proved(asked.system)
    make(f"build{folder}", asked.system, asked.out or f"{TOP}/dist{folder}")


if __name__ == "__main__":
    main()
