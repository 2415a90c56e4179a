"""A maximum flow by networkx, in a network whose nodes have names, certified; and then a unit too much on an edge."""

import dimacs
import networkx

graph = networkx.DiGraph()
graph.add_edge("spring", "mill", capacity=6)
graph.add_edge("spring", "farm", capacity=8)
graph.add_edge("mill", "farm", capacity=3)
graph.add_edge("mill", "fort", capacity=4)
graph.add_edge("farm", "town", capacity=8)
graph.add_edge("fort", "town")

_, flow = networkx.maximum_flow(graph, "spring", "town")
value, cut = dimacs.certify_networkx_max(graph, "spring", "town", flow)
print("v max", value, sorted(cut))
flow["farm"]["town"] += 1
try:
    dimacs.certify_networkx_max(graph, "spring", "town", flow)
except dimacs.Refused as refused:
    print("x", refused)
