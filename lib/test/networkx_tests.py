#!/usr/bin/env python3
"""Runs networkx' own tests of flows and shortest paths with the backend in place: networkx_tests.py

They are those of the networkx that is found, 3.3 or later, and need pytest, numpy and SciPy. Each call that the
backend takes is answered by it, the others by networkx itself. It prints of each function how many calls were answered
by the backend; then the tests that fail. Those that are known to are counted as passed, and printed with the reason.
"""
import collections
import os
import sys

os.environ.update(NETWORKX_TEST_BACKEND="dimacs", NETWORKX_FALLBACK_TO_NX="True")

# The tests that fail, and why.
OTHER_FLOW = "it expects one of several flows that cost least"
OTHER_TREE = "networkx compares the tree with its own, and several are right"
KNOWN = {
    "test_mincost.py::TestMinCostFlow::test_digraph1": OTHER_FLOW,
    "test_networksimplex.py::test_digraph1": OTHER_FLOW,
    "test_gomory_hu.py::TestGomoryHuTree::test_default_flow_function_karate_club_graph": OTHER_TREE,
    "test_gomory_hu.py::TestGomoryHuTree::test_karate_club_graph_cutset": OTHER_TREE,
}


def lacking():
    """The first module that isn't there."""
    for name in "networkx", "numpy", "scipy.sparse", "pytest":
        try:
            __import__(name)
        except (ImportError, SyntaxError):  # of a Python that networkx is too new for
            return name
    import networkx

    return None if hasattr(networkx, "_dispatchable") else "networkx 3.3"


class Counted:
    """What becomes of calls and of tests."""

    def __init__(self):
        self.answered = collections.Counter()
        self.passed, self.failed = [], []

    def watch(self, backend, names):
        for name in names:
            setattr(backend, name, self.counting(name, getattr(backend, name), backend.Unable))

    def counting(self, name, function, unable):
        def counted(*words, **more):
            self.answered[name] += 1
            try:
                return function(*words, **more)
            except unable:
                self.answered[name] -= 1
                raise

        return counted

    def pytest_runtest_logreport(self, report):
        if report.when == "call" and report.outcome == "passed":
            self.passed.append(report.nodeid)
        elif report.outcome == "failed":
            self.failed.append(report.nodeid.rpartition("tests/")[2])


def main():
    lack = lacking()
    if lack:
        print(f"left out: no {lack}")
        return 0
    import pytest
    import scipy.sparse

    if not hasattr(scipy.sparse, "sparray"):  # SciPy before 1.11; networkx' test mode imports it
        scipy.sparse.sparray = scipy.sparse._arrays._sparray
    from dimacs import backend
    from dimacs.backend import info

    counted = Counted()
    counted.watch(backend, info.FUNCTIONS)
    packages = [f"networkx.algorithms.{it}" for it in ("flow", "shortest_paths")]
    pytest.main(["-q", "--tb=no", "-p", "no:cacheprovider", "--pyargs", *packages], [counted])
    print(*(f"{name}: {counted.answered[name]} answered" for name in info.FUNCTIONS), sep="\n")
    new = [it for it in counted.failed if it not in KNOWN]
    print(*(f"failed: {it}{': ' * (it in KNOWN)}{KNOWN.get(it, '')}" for it in counted.failed), sep="\n")
    answered = all(counted.answered[name] for name in info.FUNCTIONS)
    print(f"{len(counted.passed) + len(counted.failed) - len(new)} passed, {len(new) or int(not answered)} failed")
    return int(bool(new) or not answered)


if __name__ == "__main__":
    sys.exit(main())
