"""How networkx calls this backend."""

from __future__ import annotations

import inspect
from functools import cache
from typing import Any

import networkx as nx

from . import costs, flows, paths
from .given import Graph, Unable

_GOES_ON = tuple(int(it) for it in nx.__version__.split(".")[:2]) >= (3, 4)

#: What networkx does in one pass over a graph, or a part of it.
_FASTER_THERE = ("cost_of_flow", "has_path", "single_source_shortest_path", "single_source_shortest_path_length")


def function_of(name: str) -> Any:
    return next(getattr(it, name) for it in (costs, flows, paths) if hasattr(it, name))


_signature_of = cache(lambda name: inspect.signature(function_of(name)))


def can_run(name: str, args: tuple[Any, ...], kwargs: dict[str, Any]) -> bool:
    """Whether a call is answered here. If it isn't, the function raises Unable with the reason, and networkx goes on by
    itself; but not before version 3.4: there the call is tried."""
    if _GOES_ON:
        return True
    try:
        function_of(name)(*args, **kwargs)
    except Unable:
        return False
    except Exception:  # the call itself raises it again
        return True
    return True


def should_run(name: str, args: tuple[Any, ...], kwargs: dict[str, Any]) -> bool:
    """Whether a call isn't faster by networkx, which is asked of if no backend is named: it searches for the fewest edges
    faster, and ends the search for one node, or up to a cutoff, before it has seen the whole graph."""
    if name in _FASTER_THERE or not hasattr(paths, name):
        return name not in _FASTER_THERE
    try:
        asked: dict[str, Any] = {"weight": None, **_signature_of(name).bind(*args, **kwargs).arguments}
    except TypeError:  # the call itself raises it again
        return True
    if asked.get("cutoff") is not None or asked["weight"] is None and name.startswith("shortest_path"):
        return False
    is_signed = "bellman" in name or asked.get("method") == "bellman-ford"
    starts = asked.get("source", asked.get("sources"))
    if starts is None or is_signed:
        return len(asked["G"]) >= 100
    return asked.get("target") is None and len(asked["G"]) >= 1000


def convert_from_nx(graph: Any, **how: Any) -> Graph:
    """networkx calls it before a function of this backend. Nothing is copied yet."""
    return Graph(graph)


def convert_to_nx(answer: Any, **how: Any) -> Any:
    """networkx calls it with the result of a function of this backend."""
    return answer.graph if isinstance(answer, Graph) else answer
