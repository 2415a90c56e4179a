"""Makes the packages for Debian by debhelper: tools/dist.py calls it.

lib/package/debian is the folder `debian` of their source, with words between @ that are replaced.
"""
import os
import re
import subprocess
import sys
import time

import texts
from texts import TOP, read

SOURCES = f"{TOP}/lib/package/debian"

# What Debian calls the machines.
ARCHITECTURES = {"x86_64": "amd64", "aarch64": "arm64"}

NO_MAINTAINER = 'make dist: name the contact of the packages as MAINTAINER="Name <name@example.org>"'
CONTACT = r"[^<>]+ <[^<>@\s]+@[^<>@\s]+>"
PLACEHOLDER = "nobody yet <nobody@example.invalid>"


def maintainer(version):
    """Who the packages name as their contact. A release isn't made without one."""
    named = os.environ.get("MAINTAINER") or ("" if "-" not in version else PLACEHOLDER)
    if not re.fullmatch(CONTACT, named):
        sys.exit(f"{NO_MAINTAINER}, and not as {named}" if named else NO_MAINTAINER)
    return named


def words_for(release):
    """What stands in place of the words between @."""
    version = release.version
    date = time.strftime("%a, %d %b %Y %H:%M:%S +0000", time.gmtime(release.epoch))
    licence, _, text = read(f"{TOP}/LICENCE-STATUS").partition("\n\n")
    words = {"LICENCE": licence.replace(" OR ", " or ")}
    words["LICENCE_TEXT"] = "\n".join(f" {line}" if line else " ." for line in text.strip().split("\n"))
    words |= {"VERSION": version.replace("-", "~") + "-1", "DATE": date, "MAINTAINER": maintainer(version)}
    return words | {"DISTRIBUTION": "UNRELEASED" if "-" in version else "unstable", "GLIBC": str(release.glibc)}


def symbols():
    """The calls, each with the version that it first was in, or what came before that: its ~ sorts first."""
    listed = [line.split()[:2] for line in read(f"{TOP}/abi").splitlines() if line.startswith("dimacs_")]
    lines = sorted(f" {name}@Base {since}~" for name, since in listed)
    return "\n".join(["libdimacs.so.0 libdimacs0 #MINVER#", "* Build-Depends-Package: libdimacs-dev", *lines, ""])


def make(build, room, wheel, release, out):
    """Makes all packages of a build and of its wheel. The release has a version, a time, the machine and the oldest C
    library."""
    words = words_for(release)
    for name in os.listdir(SOURCES):
        text = re.sub(r"@([A-Z_]+)@", lambda it: words[it[1]], read(f"{SOURCES}/{name}"))
        texts.write(f"{room}/debian/{name}", text)
    texts.write(f"{room}/debian/libdimacs0.symbols", symbols())
    os.chmod(f"{room}/debian/rules", 0o755)
    given = {"TOP": TOP, "BUILD": build, "WHEEL": wheel, "OUT": out, "SOURCE_DATE_EPOCH": str(release.epoch)}
    command = ["dpkg-architecture", "-a", ARCHITECTURES[release.machine], "-c", "debian/rules", "binary"]
    ran = subprocess.run(command, cwd=room, env={**os.environ, **given}, capture_output=True, text=True, check=False)
    if ran.returncode:
        sys.exit(f"{ran.stdout}{ran.stderr}debhelper made no packages")
