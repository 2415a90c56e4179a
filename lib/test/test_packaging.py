"""The wheel and the archive of sources."""

import email
import importlib.util
import os
import pathlib
import subprocess
import sys
import tarfile
import tempfile
import unittest
import zipfile
from unittest import mock

import dimacs
from dimacs import library

FOLDER = pathlib.Path(dimacs.__file__).parents[1]
LIBRARY = os.environ.get("DIMACS_LIBRARY", "")

# Where the library is looked for: what Python calls the system, what DIMACS_LIBRARY names, and the places.
PLACES = """
linux  |           | PACKAGE/libdimacs.so, TOP/build/libdimacs.so
linux  | other.so  | other.so
win32  |           | PACKAGE/dimacs.dll, TOP/build/windows/dimacs.dll
win32  | other.dll | other.dll
darwin |           | there is no library of dimacs for darwin
darwin | other     | other
"""


def elf(machine, *texts):
    """The beginning of a library for Linux, and texts in it."""
    return b"\x7fELF\2\1\1".ljust(18, b"\0") + machine.to_bytes(2, "little") + b"".join(b"\0" + it for it in texts)


def pe(machine, *texts):
    """The beginning of one for Windows."""
    header = b"MZ".ljust(60, b"\0") + (128).to_bytes(4, "little")
    return header.ljust(128, b"\0") + b"PE\0\0" + machine.to_bytes(2, "little") + b"".join(texts)


GLIBC, LATER, IDENT = b"GLIBC_2.17", b"GLIBC_2.4", b"rattle logic=00"

# Libraries, by the numbers of machines that the formats have: what the wheel's name has after the version, and its library.
# The other files are of no system that is known.
LIBRARIES = {
    "-py3-none-manylinux_2_17_x86_64.whl libdimacs.so": elf(62, GLIBC, LATER, IDENT),
    "+unproved-py3-none-manylinux_2_17_aarch64.whl libdimacs.so": elf(183, LATER, GLIBC),
    "-py3-none-manylinux_2_4_aarch64.whl libdimacs.so": elf(183, LATER, IDENT),
    "+translated-py3-none-win_amd64.whl dimacs.dll": pe(0x8664, b"0.2.0 (proved by rattle)"),
    "+unproved-py3-none-win_amd64.whl dimacs.dll": pe(0x8664, b"0.2.0 (not proved)"),
}
OTHERS = [elf(40, GLIBC, IDENT), pe(0xAA64, b" (proved by "), pe(0x14C), b"MZ", b"\xcf\xfa\xed\xfe", b""]


@unittest.skipUnless((FOLDER / "hatch_build.py").is_file(), "the package is installed")
@unittest.skipUnless(importlib.util.find_spec("hatchling"), "no hatchling")
class Built(unittest.TestCase):
    def setUp(self):
        made = tempfile.TemporaryDirectory()
        self.addCleanup(made.cleanup)
        self.place = pathlib.Path(made.name)
        self.library = pathlib.Path(LIBRARY or FOLDER.parents[1] / "build" / "libdimacs.so")

    def built(self, name, call="build_wheel", sources=FOLDER):
        """What hatchling makes of sources and of the library, in a new folder."""
        from hatchling import build

        (self.place / name).mkdir()
        self.addCleanup(os.chdir, os.getcwd())
        os.chdir(sources)
        with mock.patch.dict(os.environ, {"DIMACS_LIBRARY": str(self.library)}):
            return self.place / name / getattr(build, call)(str(self.place / name))

    def test_the_same_files_give_the_same_bytes(self):
        for call in "build_wheel", "build_sdist":
            one, other = self.built(f"one {call}", call), self.built(f"other {call}", call)
            self.assertEqual((one.name, one.read_bytes()), (other.name, other.read_bytes()))
            self.assertTrue(one.name.startswith(f"dimacs-{dimacs.__version__}"))

    def test_what_describes_the_package(self):
        with zipfile.ZipFile(self.built("wheel")) as it:
            name = next(name for name in it.namelist() if name.endswith("/METADATA"))
            found = email.message_from_bytes(it.read(name))
            self.assertIn("dimacs/py.typed", it.namelist())
        self.assertEqual((found["Name"], found["Version"]), ("dimacs", dimacs.__version__))
        self.assertIn("Typing :: Typed", found.get_all("Classifier"))
        # Python 3.9 cuts off the fraction of a Decimal in an array.
        self.assertEqual(found["Requires-Python"], ">=3.10")
        self.assertIn("scipy>=1.8; extra == 'scipy'", found.get_all("Requires-Dist"))
        self.assertEqual(found.get_payload(), (FOLDER / "README.md").read_text(encoding="utf-8"))

    def test_a_wheel_of_the_archive(self):
        archive = self.built("archive", "build_sdist")
        with tarfile.open(archive) as it:
            it.extractall(self.place)
        made = self.built("again", sources=self.place / archive.name.removesuffix(".tar.gz"))
        self.assertEqual(made.read_bytes(), self.built("here").read_bytes())

    def test_a_wheel_for_each_system(self):
        version = dimacs.__version__.partition("+")[0]
        self.library = self.place / "library"
        for wanted, content in LIBRARIES.items():
            self.library.write_bytes(content)
            wheel = self.built(wanted)
            with zipfile.ZipFile(wheel) as it:
                name = next(name for name in it.namelist() if "libdimacs.so" in name or "dimacs.dll" in name)
                tag = next(it.read(name).decode() for name in it.namelist() if name.endswith("/WHEEL"))
                self.assertEqual(it.read(name), content)
            self.assertEqual(f"{wheel.name} {name.removeprefix('dimacs/')}", f"dimacs-{version}{wanted}")
            self.assertIn(f"Tag: {wheel.stem.partition('-')[2].partition('-')[2]}\n", tag)

    def says(self, name, message):
        """hatchling ends with a message, which pip shows."""
        with self.assertRaises(SystemExit) as caught:
            self.built(name)
        self.assertIn(message, str(caught.exception))

    def test_a_library_for_no_system_that_is_known(self):
        self.library = self.place / "library"
        for number, content in enumerate(OTHERS):
            self.library.write_bytes(content)
            self.says(str(number), "library isn't a library for x86-64 Linux, aarch64 Linux or 64-bit Windows")

    def test_no_library(self):
        self.library = "nowhere.so"
        self.says("wheel", f"{FOLDER.parents[1]}/nowhere.so isn't there. There are three ways to get it:\n    make ")


class Loaded(unittest.TestCase):
    def test_where_the_library_is_looked_for(self):
        places = {"PACKAGE": str(FOLDER / "dimacs"), "TOP": str(FOLDER.parents[1])}
        for line in PLACES.strip().splitlines():
            platform, named, wanted = (it.strip() for it in line.split("|"))
            with self.subTest(line):
                try:
                    found = ", ".join(map(str, library.places(platform, named)))
                except ImportError as caught:
                    found = str(caught).partition(",")[0]
                for short, long in places.items():
                    wanted = wanted.replace(short, long)
                self.assertEqual(found, wanted)

    def test_no_library(self):
        words = [sys.executable, "-c", "import dimacs"]
        environment = {**os.environ, "DIMACS_LIBRARY": "nowhere.so", "PYTHONPATH": str(FOLDER)}
        ran = subprocess.run(words, env=environment, capture_output=True, text=True, check=False)
        self.assertIn("nowhere.so isn't there: build it by `make`, or by `make rust` without the kit, unproved", ran.stderr)
