#!/usr/bin/env python3
"""A maximum flow and a minimum cut by OR-Tools, judged: ortools_max.py INSTANCE SOLUTION CUT

NOT RUN YET: written after the documentation of OR-Tools 9, since no package of it was at hand.
"""
import sys

from ortools.graph.python import max_flow

import command


def solve(instance):
    """The flow's value, the flow of each arc, and the source's side of a minimum cut. OR-Tools counts from 0: its node 0
    stays alone."""
    solver = max_flow.SimpleMaxFlow()
    arcs = solver.add_arcs_with_capacity(instance.tails, instance.heads, instance.caps)
    status = solver.solve(instance.source, instance.sink)
    if status != solver.OPTIMAL:
        sys.exit(f"OR-Tools ended with status {status}")
    return solver.optimal_flow(), solver.flows(arcs), solver.get_source_side_min_cut()


command.maximum_flow(__doc__, solve)
