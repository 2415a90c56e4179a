#!/usr/bin/env python3
"""Distances by igraph (Dijkstra), certified: igraph_paths.py GRAPH QUERY DISTANCES

No weight may be negative. igraph's distances are floating point numbers: they are exact below 2^53.
"""
import math

import igraph

import command


def solve(graph, sources):
    """The distances from each source, by node. igraph counts nodes from 0."""
    ends = zip((graph.tails - 1).tolist(), (graph.heads - 1).tolist())
    roads, found = igraph.Graph(graph.nodes, ends, directed=True), {}
    for source in sources:
        (far,) = roads.distances(source - 1, weights=graph.weights.tolist())
        found[source] = {node: length for node, length in enumerate(far, 1) if length < math.inf}
    return found


command.shortest_paths(__doc__, solve)
