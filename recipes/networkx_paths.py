#!/usr/bin/env python3
"""Distances by networkx (Dijkstra), certified: networkx_paths.py GRAPH QUERY DISTANCES

No weight may be negative.
"""
import networkx as nx

import command


def solve(graph, sources):
    """The distances from each source, by node."""
    roads = graph.to_networkx()
    return {source: nx.single_source_dijkstra_path_length(roads, source) for source in sources}


command.shortest_paths(__doc__, solve)
