#!/usr/bin/env python3
"""Tests the packages without the kit on the path: tests/packages.py DIST [--root]

DIST is a folder that `make dist` makes. With --root they are installed in an empty Debian, made for it, which takes some
minutes: over version 0.1.0 by `dpkg -i`, and by pip in a new environment beside numpy; lintian reads them before, and at
last they are removed, installed again and purged. Without it, or if debootstrap isn't there or root doesn't run this, they
are made again in other locales, zones and folders and compared, and unpacked into an empty folder. Then the program is
asked for a verdict, and so is the library: by a program in C that is built by pkg-config, by one that is built by CMake,
and from Python. The man pages are shown and completions loaded. Of those for another machine the program, and that by
pkg-config, are run under qemu, and the library of the wheel with the latter; those for Windows are read alone.

What needs a tool that isn't there is left out, and named. The last line counts what passed and what failed.
"""
import argparse
import glob
import hashlib
import io
import os
import platform
import re
import shutil
import subprocess
import sys
import tarfile
import tempfile
import zipfile

from installed import Installed, put
from scripts import TOP

# What the empty Debian has beside its base.
TOOLS = "python3,python3-venv,python3-numpy,gcc,libc6-dev,cmake,make,pkg-config,man-db,bash-completion"

# The packages for Debian, in an order in which dpkg can install them. libdimacs-dev takes over files of the old dimacs, and
# waits for the new one.
DEBIAN = ["dimacs", "libdimacs0", "libdimacs-dev", "python3-dimacs"]

# What machines are called: by Debian, and in an ELF file.
MACHINES = {"x86_64": ("amd64", 62), "aarch64": ("arm64", 183)}

# How many files of each package are compiled, and which those are of a wheel, whose name ends in this.
COMPILED = {"dimacs-*-linux.tar.gz": 3, "dimacs_*.deb": 1, "libdimacs0_*.deb": 1, "libdimacs-dev_*.deb": 1}
COMPILED |= {"python3-dimacs_*.deb": 0, "*.whl": 1}
WHEELS = {
    "x86_64": ("dimacs/libdimacs.so", r"-py3-none-manylinux_2_\d+_x86_64"),
    "aarch64": ("dimacs/libdimacs.so", r"-py3-none-manylinux_2_\d+_aarch64"),
    "windows": ("dimacs/dimacs.dll", r"\+translated-py3-none-win_amd64"),
}

# How the packages are made again: the locale, the umask, the time zone, and whether in a copy of the repository.
AGAIN = """
tr_TR.UTF-8 | 077 | Asia/Tokyo       | copy
de_DE.UTF-8 | 002 | America/St_Johns | here
"""

# The package of version 0.1.0: one with all files, of which these are some.
OLD = {"usr/bin/dimacs": "", "usr/include/dimacs.h": "", "usr/lib/libdimacs.so.0.1.0": ""}
OLD["DEBIAN/control"] = """Package: dimacs
Version: 0.1.0
Architecture: amd64
Maintainer: nobody <nobody@example.invalid>
Description: stand-in
"""

# What readelf prints of a file that can lie anywhere, whose tables are written before it runs alone, and whose stack isn't
# executed.
HARDENED = {
    "position": r"Type: +DYN",
    "relocations": r"\n +GNU_RELRO ",
    "binding": r"\(FLAGS\) +BIND_NOW",
    "stack": r"\n +GNU_STACK +(0x\w+ +){5}RW +",
}

# A verdict of arrays, which are lists, or those of numpy.
IN_PYTHON = """
import dimacs
{imports}
tails, heads, caps, flows = [{array}(it) for it in ([1, 2, 1], [2, 3, 3], [4, 2, 1], [2, 2, 1])]
print(dimacs.__version__, dimacs.certify_max_arrays(3, 1, 3, tails, heads, caps, flows).value)
"""


class Packages(Installed):
    """What is tested, and where it was unpacked: below /usr if `is_root` installs it."""

    def __init__(self, dist, place, is_root):
        self.dist = dist
        self.system = self.only("dimacs-*-linux.tar.gz", r"-(\w+)-linux\.tar\.gz$") or "windows"
        self.triplet = f"{self.system}-linux-gnu"
        super().__init__(place, "/usr" if is_root else f"{place}/root/usr", self.triplet)
        if is_root:
            self.environment = {"HOME": place, "LANG": "C.UTF-8", "PATH": "/usr/sbin:/usr/bin:/sbin:/bin"}
        else:
            self.environment["MANPATH"] = f"{self.usr}/share/man"
            self.environment["PYTHONPATH"] = f"{self.usr}/lib/python3/dist-packages"
        self.is_foreign = self.system != platform.machine()
        if self.is_foreign:
            self.by, self.compiler = [f"qemu-{self.system}", "-L", f"/usr/{self.triplet}"], f"{self.triplet}-gcc"

    def only(self, pattern, part="(.*)"):
        """The one package whose name has this pattern, or a part of its name."""
        found = glob.glob(f"{self.dist}/{pattern}")
        self.message = f"{pattern}: {found}"
        return re.search(part, found[0])[1] if len(found) == 1 else None

    def has_debian(self):
        """Whether there are packages for Debian, or they could be made."""
        return bool(glob.glob(f"{self.dist}/*.deb")) or self.has("the packages for Debian", "dh_python3")

    def names(self):
        return sorted(it.name for it in os.scandir(self.dist) if it.is_file())


def test_sums(its):
    """Each package is in SHA256SUMS with its sum."""
    with open(f"{its.dist}/SHA256SUMS", encoding="ascii") as it:
        sums = dict(reversed(line.split()) for line in it)
    for name in its.names():
        if name != "SHA256SUMS":
            with open(f"{its.dist}/{name}", "rb") as it:
                its.message = f"{name} has another sum than {sums.get(name)}"
                its.expect(name, sums.get(name) == hashlib.sha256(it.read()).hexdigest())


def test_everywhere(its):
    """Beside the packages for x86-64 lies what runs everywhere."""
    for ending, tool in ("-npm.tgz", "wasm2wat"), (".html", "wasm2wat"), ("-rust.tar.gz", "tar"):
        name = f"dimacs-{its.version}{ending}"
        its.message = f"{name} isn't among {its.names()}"
        its.expect(name, name in its.names() or not its.has(name, tool))


def files_in(package):
    """Yields the names and the contents of a package's files."""
    if package.endswith(".whl"):
        with zipfile.ZipFile(package) as it:
            yield from ((name, it.read(name)) for name in it.namelist())
        return
    with open(package, "rb") as it:
        packed = it.read()
    if package.endswith(".deb"):
        packed = subprocess.run(["dpkg-deb", "--fsys-tarfile", package], stdout=subprocess.PIPE, check=True).stdout
    with tarfile.open(fileobj=io.BytesIO(packed)) as it:
        yield from ((entry.name, it.extractfile(entry).read()) for entry in it if entry.isfile())


def machine_of(content):
    """The machine for which a file is compiled, or the first one of an archive, or None."""
    if content.startswith(b"MZ"):
        at = int.from_bytes(content[60:64], "little")
        return "windows" if content[at : at + 6] == b"PE\0\0\x64\x86" else "?"
    at = content.find(b"\x7fELF") if content.startswith((b"\x7fELF", b"!<arch>\n")) else -1
    number = int.from_bytes(content[at + 18 : at + 20], "little")
    return next((name for name, (_, it) in MACHINES.items() if it == number), "?") if at >= 0 else None


def test_contents(its):
    """Each package that is there says which machine it is for, and what is compiled in it is for that."""
    for pattern, count in COMPILED.items():
        package = its.only(pattern)
        if its.system == "windows" and pattern != "*.whl" or pattern.endswith(".deb") and not its.has_debian():
            continue
        found = {name: machine_of(content) for name, content in files_in(package)} if package else {}
        found = {name: it for name, it in found.items() if it}
        its.message = f"{pattern} has {found}"
        its.expect(f"the machine of {pattern}", list(found.values()) == [its.system] * count)
        if pattern.endswith(".deb"):
            said = its.run("dpkg-deb", "-f", package, "Architecture")
            its.expect(f"the architecture of {pattern}", said == f"{MACHINES[its.system][0]}\n")
    test_tag(its)


def test_tag(its):
    """The wheel's name and its own file say the same of it, and the library is where the loader looks."""
    files = dict(files_in(its.only("*.whl")))
    library, pattern = WHEELS[its.system]
    name = its.only("*.whl", r"([^/]*)\.whl$")
    tag = "-".join(name.split("-")[2:])
    its.message = f"{name}: {sorted(files)}"
    its.expect("the wheel's name", name.startswith("dimacs-") and re.search(f"{pattern}$", name) is not None)
    its.expect("the wheel's library", library in files)
    described = next(content.decode() for name, content in files.items() if name.endswith("/WHEEL"))
    its.expect("the wheel's tag", f"\nTag: {tag}\n" in described)


def make_locale(its, name):
    """Makes a locale that the system may not have; whether it could."""
    if not its.has(f"the locale {name}", "localedef"):
        return False
    os.makedirs(f"{its.place}/locales", exist_ok=True)
    its.run("localedef", "-i", name.partition(".")[0], "-f", "UTF-8", f"{its.place}/locales/{name}")
    if not its.succeeded:
        print(f"left out: the locale {name}: no package locales")
    return its.succeeded


def copy_of_2001(path, target):
    """Copies a file. If all are of one time, make builds none again."""
    shutil.copy(path, target)
    os.utime(target, (10**9, 10**9))


def copy_sources(its):
    """Copies the sources and what is built: all is of another time, and nobody but its owner may read it."""
    made = f"{its.place}/copy"
    ignored = shutil.ignore_patterns(".git", "__pycache__", "out", "quick")
    shutil.copytree(TOP, made, symlinks=True, ignore=ignored, copy_function=copy_of_2001)
    shutil.rmtree(f"{made}/dist", ignore_errors=True)
    its.run("chmod", "-R", "go-rwx", made)
    return made


def test_again(its):
    """Made again, by others' settings and elsewhere, the packages are the same to the byte."""
    for row in AGAIN.strip().splitlines():
        locale, umask, zone, where = [it.strip() for it in row.split("|")]
        if not make_locale(its, locale):
            continue
        top, again = copy_sources(its) if where == "copy" else TOP, f"{its.place}/again-{where}"
        os.mkdir(f"{its.place}/temporary-{where}")
        settings = {"LC_ALL": locale, "LOCPATH": f"{its.place}/locales", "TZ": zone}
        settings["TMPDIR"] = f"{its.place}/temporary-{where}"
        how = {"env": {**os.environ, **settings}, "umask": int(umask, 8), "capture_output": True, "text": True}
        ran = subprocess.run([f"{top}/tools/dist.py", "--for", its.system, again], cwd="/", check=False, **how)
        its.message = ran.stdout + ran.stderr
        its.expect(f"making them again: {row}", ran.returncode == 0)
        for name in its.names():
            with open(f"{its.dist}/{name}", "rb") as it:
                first = it.read()
            its.message = f"{name} differs, or wasn't made: {row}"
            is_there = os.path.exists(f"{again}/{name}")
            its.expect(f"{name} made again", is_there and first == open(f"{again}/{name}", "rb").read())


def test_debian(its, is_root):
    """Installs or unpacks the packages for Debian."""
    found = [its.only(f"{it}_*.deb") for it in DEBIAN]
    its.expect("the packages for Debian", all(found) or not its.has_debian())
    if not all(found) or not its.has("the packages for Debian", "dpkg"):
        return
    if is_root:
        test_upgrade(its, found)
        return
    for package in found:
        its.run("dpkg-deb", "-x", package, f"{its.place}/root")
    its.expect("unpacking the packages", os.path.exists(f"{its.usr}/bin/dimacs"))
    loaded = f"{its.usr}/lib/python3/dist-packages/dimacs/libdimacs.so"
    its.expect("the package for Python has a link to the library", os.path.islink(loaded) and os.path.exists(loaded))


def test_upgrade(its, packages):
    """Installs the packages over that of version 0.1.0, and once more over themselves."""
    for name, text in OLD.items():
        put(f"{its.place}/old/{name}", text)
    its.run("sh", "-c", "dpkg-deb -b old old.deb && dpkg -i old.deb")
    its.expect("installing version 0.1.0", os.path.exists("/usr/lib/libdimacs.so.0.1.0"))
    for how in ("installing over 0.1.0", "installing again"):
        its.run("dpkg", "-i", *packages)
        its.expect(how, its.succeeded)
    its.expect("the old library is gone", not os.path.exists("/usr/lib/libdimacs.so.0.1.0"))
    its.expect("the new one is found", "libdimacs.so.0" in its.run("ldconfig", "-p"))


def files_of_system():
    """All files and folders of the system but those that dpkg, man and ldconfig keep for themselves."""
    kept = ["/proc", "/sys", "/dev", "/run", "/tmp", "/packages", "/var/cache", "/var/log"]
    kept += ["/var/lib/dpkg/alternatives", "/var/lib/dpkg/info/format", "/etc/ld.so.cache"]
    found = set()
    for at, folders, names in os.walk("/"):
        folders[:] = [it for it in folders if os.path.join(at, it) not in kept]
        found |= {os.path.join(at, it) for it in [*folders, *names] if os.path.join(at, it) not in kept}
    return found


def test_removal(its, before):
    """What was installed is gone after it was removed, is there again if it is installed again, and gone once purged."""
    packages = [its.only(f"{it}_*.deb") for it in DEBIAN]
    for how in ("--remove", "--purge"):
        its.run("dpkg", how, *reversed(DEBIAN))
        its.expect(f"dpkg {how}", its.succeeded)
        changed = files_of_system() ^ before
        its.message = "\n".join(sorted(changed))
        its.expect(f"dpkg {how} leaves all as it was", not changed)
        if how == "--remove":
            its.run("dpkg", "-i", *packages)
            its.expect("installing what was removed", its.succeeded)
            test_program(its, "/usr/bin/dimacs")
            test_package_for_python(its)
    its.run("dpkg-query", "-W", "*dimacs*")
    its.expect("dpkg knows none of them", not its.succeeded)


def test_package_for_python(its):
    """A verdict by the package for Python, as Debian's Python finds it."""
    answer = f"{its.version.replace('-dev', '.dev0')} 3\n"
    said = its.run("python3", "-B", "-c", IN_PYTHON.format(imports="", array="list"))
    its.expect("the package for Python", said == answer)


def test_program(its, program):
    its.test_program(program)
    its.expect("the version of the program", f"dimacs {its.version} (proved by " in its.run(*its.by, program))


def test_hardening(its):
    """What the linker does against attacks, in the program and in the library."""
    if not its.has("hardening", "readelf"):
        return
    for file in (f"{its.usr}/bin/dimacs", f"{its.usr}/lib/{its.triplet}/libdimacs.so.0"):
        its.run("readelf", "-dhlW", file)
        for name, pattern in HARDENED.items():
            its.expect(f"{name} of {file}", re.search(pattern, its.message) is not None)
        its.expect(f"no search path of {file}", not re.search("RPATH|RUNPATH|TEXTREL", its.message))


def test_tarball(its):
    name = f"dimacs-{its.version}-{its.system}-linux"
    its.run("tar", "-xzf", f"{its.dist}/{name}.tar.gz")
    test_program(its, f"{its.place}/{name}/bin/dimacs")


def test_wheel(its):
    """A verdict of lists, and one of arrays of numpy, after pip installed the wheel in a new environment."""
    wheel = its.only("*.whl")
    its.expect("one wheel", wheel is not None)
    its.environment.pop("PYTHONPATH", None)
    made = its.run("python3", "-m", "venv", "--system-site-packages", "venv")
    if not wheel or "ensurepip is not available" in made:
        print("left out: the wheel: no python3-venv")
        return
    its.run("venv/bin/pip", "install", "--no-index", "--quiet", "--disable-pip-version-check", wheel)
    answer = f"{its.version.replace('-dev', '.dev0')} 3\n"
    its.expect("lists in Python", its.run("venv/bin/python", "-c", IN_PYTHON.format(imports="", array="list")) == answer)
    if "ok" not in its.run("venv/bin/python", "-c", "import numpy; print('ok')"):
        print("left out: arrays in Python: no numpy")
        return
    over = IN_PYTHON.format(imports="import numpy", array="numpy.array")
    its.expect("arrays of numpy", its.run("venv/bin/python", "-c", over) == answer)


def test_library_of_wheel(its):
    """The program in C with the library of the wheel, which takes the place of that of Debian's package."""
    its.run("sh", "-c", f"rm {its.environment['LD_LIBRARY_PATH']}/libdimacs.so*")
    its.run(*its.by, "./shown")
    its.expect("C without a library", not its.succeeded)
    with zipfile.ZipFile(its.only("*.whl")) as it:
        put(f"{its.place}/libdimacs.so.0", it.read("dimacs/libdimacs.so"))
    its.environment["LD_LIBRARY_PATH"] = its.place
    its.expect_shown("C with the library of the wheel", "./shown")


def test_man(its):
    if not os.path.isdir(f"{its.usr}/share/man") or not its.has("man pages", "man"):
        print("left out: man pages")
        return
    for name, section in (("dimacs", "1"), ("dimacs", "5"), ("dimacs-batch", "1"), ("dimacs-draw", "1")):
        output = its.run("man", "-P", "cat", section, name)
        its.expect(f"man {section} {name}", "NAME" in output and name in output)


def test_completion(its):
    """That bash completes the words of dimacs, if there is completion. tests/completion.py tests which it offers."""
    script = f"{its.usr}/share/bash-completion/completions/dimacs"
    if not os.path.exists(script) or not its.has("completion", "bash"):
        print("left out: completion")
        return
    its.expect("completion", its.run("bash", "-c", f". {script} && complete -p dimacs").endswith(" dimacs\n"))


def test_all(dist, is_root):
    """Tests the packages here; what passed and what failed."""
    with tempfile.TemporaryDirectory() as place:
        its = Packages(dist, place, is_root)
        before = files_of_system() if is_root else None
        test_sums(its)
        test_contents(its)
        if its.system == "x86_64":
            test_everywhere(its)
        if not is_root:
            test_again(its)
        if its.system != "windows" and (not its.is_foreign or its.has(f"runs on {its.system}", its.by[0])):
            test_runs(its, before)
    its.end()


def test_runs(its, before):
    """What is in the packages for Linux, by running it."""
    is_root = before is not None
    test_debian(its, is_root)
    test_program(its, f"{its.usr}/bin/dimacs")
    test_hardening(its)
    test_tarball(its)
    its.test_by_pkg_config()
    if its.is_foreign:
        test_library_of_wheel(its)
        return
    its.test_tools()
    its.test_by_cmake()
    test_package_for_python(its)
    test_wheel(its)
    test_man(its)
    test_completion(its)
    if is_root:
        test_removal(its, before)


def is_clean(dist):
    """Whether Debian's own test of packages finds no error and nothing to warn of."""
    if not shutil.which("lintian"):
        print("left out: lintian")
        return True
    words = ["lintian", "--allow-root", *glob.glob(f"{dist}/*.deb")]
    ran = subprocess.run(words, capture_output=True, text=True, check=False)
    print(ran.stdout + ran.stderr, end="")
    return ran.returncode == 0 and not ran.stdout


def test_in_root(dist):
    """Makes an empty Debian, and tests the packages in it, after lintian has."""
    if not is_clean(dist):
        print("lintian finds something\n0 passed, 1 failed")
        return 1
    with tempfile.TemporaryDirectory() as root:
        words = ["debootstrap", "--variant=minbase", f"--include={TOOLS}", "stable", root]
        made = subprocess.run(words, stdout=subprocess.PIPE, stderr=subprocess.STDOUT, text=True, check=False)
        if made.returncode:
            print(f"{made.stdout[-2000:]}\ndebootstrap made no Debian\n0 passed, 1 failed")
            return 1
        shutil.copytree(dist, f"{root}/packages/dist")
        os.mkdir(f"{root}/packages/tests")
        for it in ("packages", "installed", "scripts"):
            shutil.copy(f"{TOP}/tests/{it}.py", f"{root}/packages/tests")
        shutil.copy(f"{TOP}/VERSION", f"{root}/packages")
        words = ["unshare", "--mount", "sh", "-c", 'mount -t proc proc "$0/proc" && exec chroot "$0" "$@"', root]
        words += ["python3", "/packages/tests/packages.py", "/packages/dist", "--installed"]
        return subprocess.run(words, check=False, env={"PATH": "/usr/sbin:/usr/bin:/sbin:/bin", "HOME": "/root"}).returncode


def main():
    words = argparse.ArgumentParser(description="Tests the packages without the kit on the path.")
    words.add_argument("dist")
    words.add_argument("--root", action="store_true", help="in an empty Debian, made by debootstrap")
    words.add_argument("--installed", action="store_true", help=argparse.SUPPRESS)  # inside of that Debian
    asked = words.parse_args()
    dist = os.path.abspath(asked.dist)
    if not os.path.exists(f"{dist}/SHA256SUMS"):
        sys.exit(f"there are no packages in {dist}: make dist makes them")
    if asked.root and shutil.which("debootstrap") and os.geteuid() == 0:
        return test_in_root(dist)
    if asked.root:
        print("left out: an empty Debian: no debootstrap, or not by root")
    return test_all(dist, asked.installed)


if __name__ == "__main__":
    sys.exit(main())
