#!/usr/bin/env python3
"""Distances by SciPy (Dijkstra), certified: scipy_paths.py GRAPH QUERY DISTANCES

No weight may be negative. SciPy's distances are floating point numbers: they are exact below 2^53.
"""
import numpy as np
from scipy.sparse.csgraph import dijkstra

import command


def solve(graph, sources):
    """The distances from each source, by node. SciPy counts them from 0."""
    roads, found = graph.to_scipy(), {}  # an entry has the weight of the shortest of parallel arcs
    for source in sources:
        far = dijkstra(roads, indices=source - 1)
        found[source] = {int(node) + 1: far[node] for node in np.flatnonzero(np.isfinite(far))}
    return found


command.shortest_paths(__doc__, solve)
