"""Flows, shortest paths and matchings of matrices, with the arguments, the types and the answers of SciPy.

    from dimacs.scipy import maximum_flow, shortest_path

It needs SciPy 1.8 or later. Vertices are numbered from 0, as the rows and columns of the matrix. Each answer was judged;
the calls that begin with certify_ certify those of SciPy. Sums of entries at one place are exact: ValueError is raised if
one of a matrix that is given has more than 64 bits, and GaveUp if one of the answer has. Unlike in SciPy, a negative capacity
raises ValueError, a loop of negative weight is a negative cycle, and a zero that no mask hides is an edge.
"""

from .flows import MaximumFlowResult, certify_maximum_flow, maximum_flow
from .matching import Assignment, CertifiedAssignment, certify_assignment, linear_sum_assignment
from .matching import maximum_bipartite_matching, min_weight_full_bipartite_matching
from .paths import NO_PREDECESSOR, certify_shortest_path, shortest_path
from .programs import CertifiedProgram, certify_linprog

__all__ = [
    "NO_PREDECESSOR", "Assignment", "CertifiedAssignment", "CertifiedProgram", "MaximumFlowResult",
    "certify_assignment", "certify_linprog", "certify_maximum_flow", "certify_shortest_path",
    "linear_sum_assignment", "maximum_bipartite_matching", "maximum_flow", "min_weight_full_bipartite_matching",
    "shortest_path",
]


def __dir__() -> list[str]:
    return __all__
