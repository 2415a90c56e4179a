#!/usr/bin/env python3
"""A maximum flow by SciPy, certified: scipy_max.py INSTANCE SOLUTION CUT

Reads INSTANCE, deals what flows between two nodes out to parallel arcs, writes SOLUTION, and runs `dimacs certify-max` on
the two, which writes CUT. The variable DIMACS names the program. SciPy's capacities have 32 bits; a greater one ends it
with a message.
"""
import sys

from scipy.sparse.csgraph import maximum_flow

import command


def solve(instance):
    """The flow's value, and the flow of each arc. SciPy counts nodes from 0."""
    caps = instance.to_scipy()  # an entry has the capacities of parallel arcs, added up
    both = (caps.astype(float) + caps.T).tocoo()
    if both.nnz and both.data.max() >= 2**31:
        at = both.data.argmax()
        sys.exit(f"the capacities between {both.row[at] + 1} and {both.col[at] + 1} don't fit 32 bits")
    found = maximum_flow(caps.astype("int32"), instance.source - 1, instance.sink - 1)
    return found.flow_value, instance.flows_from(found), None


command.maximum_flow(__doc__, solve)
