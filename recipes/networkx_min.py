#!/usr/bin/env python3
"""A flow of least cost by networkx, certified: networkx_min.py INSTANCE SOLUTION POTENTIALS

If networkx finds no feasible flow, that is certified: a set of nodes takes the place of POTENTIALS.
"""
import networkx as nx

import command


def solve(instance):
    """The flow of each arc, if there is one. networkx knows no lower bounds: its flow is what flows above them."""
    try:
        _, flow = nx.network_simplex(instance.to_networkx())
    except nx.NetworkXUnfeasible:
        return None
    return instance.flows_from(flow).tolist(), None


command.least_cost(__doc__, solve)
