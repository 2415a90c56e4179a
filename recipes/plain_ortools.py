#!/usr/bin/env python3
"""A flow of least cost of OR-Tools, written by OR-Tools alone: plain_ortools.py INSTANCE SOLUTION

NOT RUN YET: written after the documentation of OR-Tools 9, since no package of it was at hand.
"""
import sys

from ortools.graph.python import min_cost_flow

solver = min_cost_flow.SimpleMinCostFlow()  # its nodes are numbered from 0, and those of a text from 1
for tail, head, capacity, cost in [(0, 1, 4, 2), (0, 2, 2, 2), (1, 2, 2, 1), (1, 3, 3, 3), (2, 3, 5, 1)]:
    solver.add_arc_with_capacity_and_unit_cost(tail, head, capacity, cost)
for node, supply in enumerate([4, 0, 0, -4]):
    solver.set_node_supply(node, supply)
if solver.solve() != solver.OPTIMAL:
    sys.exit("OR-Tools found no flow")

with open(sys.argv[1], "w", encoding="ascii") as text:
    print("p min", solver.num_nodes(), solver.num_arcs(), file=text)
    for node in range(solver.num_nodes()):
        print("n", node + 1, solver.supply(node), file=text)
    for arc in range(solver.num_arcs()):
        print("a", solver.tail(arc) + 1, solver.head(arc) + 1, 0, solver.capacity(arc), solver.unit_cost(arc), file=text)
with open(sys.argv[2], "w", encoding="ascii") as text:
    print("s", solver.optimal_cost(), file=text)
    for arc in range(solver.num_arcs()):
        print("f", solver.tail(arc) + 1, solver.head(arc) + 1, solver.flow(arc), file=text)
