"""The box that a solver runs in, if bubblewrap may make one: its own processes, and a file system that is read-only."""
import os
import shutil
import subprocess

from dimacs_batch import fail
from dimacs_batch.files import temporary

NO_BOX, BOX, WITH_NETWORK = "none", "box", "box with network"
TEMPORARY = "/tmp"  # of which each box has its own


def boxed(words, folder, box, files=()):
    """The words that run others in a box. It may write to this folder alone, which has its temporary ones; of others'
    it sees the one that it begins in, and those of its files and of those that the words name."""
    if box == NO_BOX:
        return words
    own = os.path.join(folder, "tmp")
    os.mkdir(own)
    named = [it for it in (os.curdir, shutil.which(words[0]) or "", *words, *files) if os.path.exists(it)]
    named = {of(it) for it in named for of in (os.path.abspath, os.path.realpath)}
    seen = {it if os.path.isdir(it) or os.path.dirname(it) == TEMPORARY else os.path.dirname(it) for it in named}
    seen = [("--ro-bind", it, it) for it in sorted(seen) if it.startswith(f"{TEMPORARY}/")]
    mounts = [("--bind", own, TEMPORARY), ("--bind", own, "/dev/shm"), *seen, ("--bind", folder, folder)]
    return [
        "bwrap", "--ro-bind", "/", "/", "--dev", "/dev", "--remount-ro", "/dev", "--proc", "/proc",
        "--remount-ro", "/proc", *sum(mounts, ()),
        "--setenv", "TMPDIR", TEMPORARY, "--unshare-pid", "--unshare-ipc", "--cap-drop", "ALL", "--die-with-parent",
        *(["--unshare-net"] if box == BOX else []), "--", *words,
    ]


def box_of(options):
    """The box that solvers have: the one that may be made here, unless it is asked for otherwise."""
    box = WITH_NETWORK if options.solver_network else BOX
    if not options.solvers or options.box is False:
        return NO_BOX
    with temporary() as folder:
        words = ["sh", "-c", 'exec "$@"', "sh", *boxed(["true"], folder, box)]
        ran = subprocess.run(words, stdin=subprocess.DEVNULL, capture_output=True, text=True, check=False)
    if ran.returncode and options.box:
        fail(f"--box: none can be made here: {ran.stderr.strip()}")
    return NO_BOX if ran.returncode else box
