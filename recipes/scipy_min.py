#!/usr/bin/env python3
"""A flow of least cost and its potentials by SciPy (HiGHS), judged: scipy_min.py INSTANCE SOLUTION POTENTIALS

Reads INSTANCE, writes SOLUTION and POTENTIALS, and runs `dimacs judge-min` on the three. The variable DIMACS names the
judge. HiGHS computes in floating point: numbers beyond 2^53 come out rounded, and are refused. If it finds no feasible
flow, that is certified: a set of nodes takes the place of POTENTIALS.
"""
import sys

from scipy.optimize import linprog

import command


def solve(instance):
    """The flow of each arc and the potential of each node, if there is a flow. A row is what leaves a node minus what
    enters it, so its dual is a potential with the sign that the judge wants. The simplex method ends in a corner, where
    all are whole, up to rounding; an interior point needn't be."""
    found = linprog(**instance.to_scipy(), method="highs-ds")
    if found.status == 2:
        return None
    if found.status != 0:
        sys.exit(found.message)
    return instance.flows_from(found).tolist(), [round(y) for y in found.eqlin.marginals]


command.least_cost(__doc__, solve)
