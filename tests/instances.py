"""Small random instances, their texts, and runs of the program over them, for the scripts here and for lib/test/agree.py.

An arc is its tail, head, lower bound, capacity and cost. A list by node has an item for node 0 too, which is no node.
"""
import contextlib
import os
import subprocess
import tempfile

HERE = os.path.dirname(os.path.abspath(__file__))
BINARY = os.path.join(HERE, "../crates/dimacs/out/dimacs")

# Where small files take least time; None for where temporary files are.
MEMORY = "/dev/shm" if os.path.isdir("/dev/shm") else None


@contextlib.contextmanager
def compiled_once():
    """Has Python keep the modules of the scripts that are run, else compiled for each run, and not beside their sources."""
    with tempfile.TemporaryDirectory(dir=MEMORY) as folder:
        os.environ["PYTHONPYCACHEPREFIX"] = folder
        os.environ.pop("PYTHONDONTWRITEBYTECODE", None)
        yield


def refusing_library(folder, unseen=None):
    """Compiles refusals.c, which doesn't see one of the calls that it refuses, if that is named."""
    library = os.path.join(folder, f"refusals{unseen or ''}.so")
    renamed = [f"-D{unseen}=unseen", f"-D{unseen}64=unseen64"] if unseen else []
    words = ["cc", "-O2", "-shared", "-fPIC", *renamed, "-o", library, os.path.join(HERE, "refusals.c")]
    subprocess.run(words, check=True)
    return library


def text(*lines):
    return "".join(f"{line}\n" for line in lines)


def max_text(nodes, source, sink, arcs):
    ends = f"n {source} s", f"n {sink} t"
    return text(f"p max {nodes} {len(arcs)}", *ends, *(f"a {arc[0]} {arc[1]} {arc[3]}" for arc in arcs))


def min_text(nodes, supplies, arcs):
    named = (f"n {node} {supply}" for node, supply in enumerate(supplies) if supply)
    return text(f"p min {nodes} {len(arcs)}", *named, *("a " + " ".join(map(str, arc)) for arc in arcs))


def graph_text(nodes, arcs):
    """The text of a graph, whose arcs are their tails, heads and weights."""
    return text(f"p sp {nodes} {len(arcs)}", *("a " + " ".join(map(str, arc)) for arc in arcs))


def network(rng, least_nodes, most_nodes, most_arcs=6):
    """A number of nodes, and arcs between them, with small numbers, loops and arcs with the same ends."""
    nodes = rng.randint(least_nodes, most_nodes)
    arcs = []
    for _ in range(rng.randint(0, most_arcs)):
        low = rng.choice([0, 0, 0, 1, 2])
        ends = rng.randint(1, nodes), rng.randint(1, nodes)
        arcs.append((*ends, low, low + rng.randint(0, 3), rng.randint(-4, 6)))
    return nodes, arcs


def nets(nodes, arcs, flow):
    """What a flow takes out of each node."""
    taken = [0] * (nodes + 1)
    for arc, amount in zip(arcs, flow):
        taken[arc[0]] += amount
        taken[arc[1]] -= amount
    return taken


def cost(arcs, flow):
    return sum(arc[4] * amount for arc, amount in zip(arcs, flow))


class Folder:
    """A folder of texts, by their names."""

    encoding = "utf-8", "surrogateescape"

    def __init__(self, folder):
        self.folder = folder

    def path(self, name):
        return os.path.join(self.folder, name)

    def write(self, name, text):
        with open(self.path(name), "wb") as it:
            it.write(text if isinstance(text, bytes) else text.encode(*self.encoding))

    def read(self, name):
        with open(self.path(name), "rb") as it:
            return it.read().decode(*self.encoding)


class Program(Folder):
    """Runs of the program in one folder, in which its words name files."""

    def __init__(self, binary, folder):
        super().__init__(folder)
        self.binary = os.path.abspath(binary)

    def run(self, *words):
        """What it prints; or its status, if it is none of an answer."""
        words = [self.binary, *words]
        ran = subprocess.run(words, capture_output=True, text=True, check=False, cwd=self.folder)
        return ran.stdout.strip() if ran.returncode in (0, 1, 5) else f"status {ran.returncode}"
