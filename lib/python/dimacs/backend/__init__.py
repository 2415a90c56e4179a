"""A backend of networkx 3.2 and later: flows and distances that were judged by functions that are proved.

    nx.maximum_flow(G, s, t, backend="dimacs")
    nx.config.backend_priority = ["dimacs"]

networkx finds this package by itself once it is installed. With the second line each function of this backend is called
here if networkx' own isn't faster. A call that isn't answered here raises Unable, with the reason, in the function: then
networkx computes it, or with backend= raises NotImplementedError from it.
"""

from .given import Unable
from .info import FUNCTIONS
from .running import can_run, convert_from_nx, convert_to_nx, function_of, should_run

globals().update({name: function_of(name) for name in FUNCTIONS})

__all__ = ["Unable", "can_run", "convert_from_nx", "convert_to_nx", "should_run", *FUNCTIONS]
