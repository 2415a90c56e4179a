#!/usr/bin/env python3
"""A maximum flow and distances of networkx, written by networkx alone: plain_networkx.py INSTANCE SOLUTION GRAPH DISTANCES"""
import sys

import networkx

graph = networkx.DiGraph()  # its nodes are numbered from 1
graph.add_weighted_edges_from([(1, 2, 10), (1, 3, 6), (2, 3, 3), (2, 4, 4), (3, 5, 8), (4, 3, 5), (4, 5, 7)], weight="capacity")
value, flow = networkx.maximum_flow(graph, 1, 5)

with open(sys.argv[1], "w", encoding="ascii") as text:
    print(f"p max {len(graph)} {graph.number_of_edges()}\nn 1 s\nn 5 t", file=text)
    for tail, head, capacity in graph.edges(data="capacity"):
        print("a", tail, head, capacity, file=text)
with open(sys.argv[2], "w", encoding="ascii") as text:
    print("s", value, file=text)
    for tail, head in graph.edges:
        if flow[tail][head]:
            print("f", tail, head, flow[tail][head], file=text)

roads = networkx.DiGraph()  # numbered from 1, too
roads.add_weighted_edges_from([(1, 2, 300), (2, 3, 400), (3, 4, 500), (4, 5, 200), (6, 5, 700)])
distances = networkx.single_source_dijkstra_path_length(roads, 1)
del distances[1]  # the source has no line, and node 6, which can't be reached, none either

with open(sys.argv[3], "w", encoding="ascii") as text:
    print(f"p sp {len(roads)} {roads.number_of_edges()}", file=text)
    for tail, head, weight in roads.edges(data="weight"):
        print("a", tail, head, weight, file=text)
with open(sys.argv[4], "w", encoding="ascii") as text:
    print(f"p distances {len(roads)} 1\nt 1 {len(distances)}", file=text)
    for node, distance in distances.items():
        print("d", node, distance, file=text)
