#!/usr/bin/env python3
"""A maximum flow and a minimum cut by igraph, judged: igraph_max.py INSTANCE SOLUTION CUT

igraph's flows are floating point numbers (`4.0`): they are exact below 2^53.
"""
import igraph

import command


def solve(instance):
    """The flow's value, the flow of each arc, and the source's side of a minimum cut. igraph counts nodes from 0."""
    ends = zip((instance.tails - 1).tolist(), (instance.heads - 1).tolist())
    graph = igraph.Graph(instance.nodes, ends, directed=True)
    found = graph.maxflow(instance.source - 1, instance.sink - 1, capacity=instance.caps.tolist())
    return int(found.value), map(int, found.flow), [node + 1 for node in found.partition[0]]


command.maximum_flow(__doc__, solve)
