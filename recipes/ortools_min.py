#!/usr/bin/env python3
"""A flow of least cost by OR-Tools, certified: ortools_min.py INSTANCE SOLUTION POTENTIALS

NOT RUN YET: written after the documentation of OR-Tools 9, since no package of it was at hand.

If OR-Tools finds no feasible flow, that is certified: a set of nodes takes the place of POTENTIALS.
"""
import sys

from ortools.graph.python import min_cost_flow

import command


def solve(instance):
    """The flow of each arc. OR-Tools knows no lower bounds: its flow is what flows above them."""
    solver, rest = min_cost_flow.SimpleMinCostFlow(), [0, *instance.supplies.tolist()]
    for tail, head, low, cap, cost in zip(*(it.tolist() for it in list(instance)[1:6])):
        solver.add_arc_with_capacity_and_unit_cost(tail, head, cap - low, cost)
        rest[tail] -= low
        rest[head] += low
    for node, units in enumerate(rest):
        solver.set_node_supply(node, units)
    status = solver.solve()
    if status == solver.INFEASIBLE:
        return None
    if status != solver.OPTIMAL:
        sys.exit(f"OR-Tools ended with status {status}")
    return [low + solver.flow(number) for number, low in enumerate(instance.lows.tolist())], None


command.least_cost(__doc__, solve)
