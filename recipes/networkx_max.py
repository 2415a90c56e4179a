#!/usr/bin/env python3
"""A maximum flow and a minimum cut by networkx, judged: networkx_max.py INSTANCE SOLUTION CUT"""
import networkx as nx
from networkx.algorithms.flow import preflow_push
from networkx.algorithms.flow.utils import build_flow_dict

import command


def solve(instance):
    """The flow's value, the flow of each arc, and the source's side of a minimum cut: one search finds all three, where
    nx.maximum_flow and nx.minimum_cut make two."""
    graph = instance.to_networkx()  # an edge has the capacities of parallel arcs, added up
    left = preflow_push(graph, instance.source, instance.sink)
    value, flow = left.graph["flow_value"], build_flow_dict(graph, left)
    left.remove_edges_from([(tail, head) for tail, head, it in left.edges(data=True) if it["flow"] == it["capacity"]])
    side = {*graph} - {*nx.single_target_shortest_path(left, instance.sink)}
    return value, instance.flows_from(flow), side


command.maximum_flow(__doc__, solve)
