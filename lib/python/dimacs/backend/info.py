"""What networkx shows of this backend."""

from __future__ import annotations

from typing import Any

_NUMBERS = "Numbers are whole; where some are floats, up to 2^53, what is answered is too."
_FLOW = f"{_NUMBERS} A capacity may be inf. With a flow_func networkx goes on by itself."
_CUT = f"The cut is the certificate by which the flow was judged. {_FLOW}"
_COST = f"{_NUMBERS} A capacity may be inf. The flow was judged by potentials."
_SIGNED = f"{_NUMBERS} No function computes the weights. The distances were judged by predecessors."
_PATHS = f"No weight is negative. {_SIGNED}"
_ENDS = ("", "_path", "_path_length")

#: The functions, and what stands of each below the docstring of networkx.
FUNCTIONS = {
    **dict.fromkeys(("maximum_flow", "maximum_flow_value", "minimum_cut_value"), _FLOW),
    **dict.fromkeys(("minimum_cut", "gomory_hu_tree"), _CUT),
    **dict.fromkeys(("network_simplex", "min_cost_flow", "min_cost_flow_cost"), _COST),
    **dict.fromkeys(("max_flow_min_cost", "capacity_scaling"), _COST),
    "cost_of_flow": _NUMBERS,
    **{f"{start}_dijkstra{end}": _PATHS for start in ("single_source", "multi_source", "all_pairs") for end in _ENDS},
    **{f"single_source_bellman_ford{end}": _SIGNED for end in _ENDS},
    **dict.fromkeys(("dijkstra_path", "dijkstra_path_length"), _PATHS),
    **dict.fromkeys(("bellman_ford_path", "bellman_ford_path_length", "negative_edge_cycle"), _SIGNED),
    **dict.fromkeys(("shortest_path", "shortest_path_length", "has_path"), _PATHS),
    **dict.fromkeys(("single_source_shortest_path", "single_source_shortest_path_length"), "Each edge is 1 long."),
}


def get_info() -> dict[str, Any]:
    """networkx calls it when it is imported."""
    return {
        "backend_name": "dimacs",
        "project": "dimacs",
        "package": "dimacs",
        "short_summary": "Flows and distances that were judged by functions that are proved.",
        "functions": {name: {"additional_docs": text} for name, text in FUNCTIONS.items()},
    }
