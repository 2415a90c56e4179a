"""Claims about flows and distances, judged, certified and made in this process by functions that are proved.

A yes is returned, and a no is raised as Refused. Nothing is written to files or printed, and other threads run meanwhile:
the premises of dimacs.h on threads, signals, fork and the stack are the caller's.
Claims are texts (certify_max, ..), arrays (certify_max_arrays, ..), those of networkx (certify_networkx_max, ..), or in a
DataFrame of pandas (from_frame); dimacs.scipy has those of SciPy. read makes arrays of texts. proved is whether the library
that was loaded is proved, and __version__ its version.

>>> import dimacs
>>> dimacs.certify_max_arrays(3, 1, 3, [1, 2], [2, 3], [5, 4], [4, 4])
Certified(value=4, certificate=[True, True, False])
"""

from __future__ import annotations

import importlib
from typing import TYPE_CHECKING, Any

from . import library as _library
from .answers import UNREACHED, Beyond, Certified, Feasible, GaveUp, Infeasible, NotOptimal, Pair, PastLimit, Refused
from .answers import Solved, Unbounded, Verdict
from .arrays import certify_infeasible_arrays, certify_max_arrays, certify_min_arrays, certify_paths_arrays
from .arrays import judge_infeasible_arrays, judge_max_arrays, judge_min_arrays, judge_paths_arrays, solve_max_arrays
from .arrays import solve_min_arrays, solve_paths_arrays
from .graphs import certify_networkx_infeasible, certify_networkx_max, certify_networkx_min, certify_networkx_paths
from .graphs import judge_networkx_max, judge_networkx_min, solve_networkx_max, solve_networkx_min, solve_networkx_paths
from .instances import Blocks, Cut, Distances, Graph, Labels, MaxInstance, MinInstance, Potentials, Queries, Solution
from .reading import read
from .spread import spread_max_arrays, spread_min_arrays
from .texts import certify_infeasible, certify_max, certify_min, certify_paths, convert, judge_infeasible, judge_max
from .texts import judge_min, judge_paths, show, solve_max, solve_min, solve_paths, spread_max, spread_min
from .writing import write

if TYPE_CHECKING:
    from . import backend, drawing, scipy
    from .drawing import Drawing
    from .frames import from_frame
    from .pictures import draw

#: Where that lies which is imported if it is asked for.
_LATER = {"Drawing": "drawing", "draw": "pictures", "from_frame": "frames"}

__version__: str = _library.version
proved: bool = _library.proved

__all__ = [
    "UNREACHED", "Beyond", "Blocks", "Certified", "Cut", "Distances", "Drawing", "Feasible", "GaveUp", "Graph", "Infeasible",
    "Labels", "MaxInstance", "MinInstance", "NotOptimal", "Pair", "PastLimit", "Potentials", "Queries", "Refused",
    "Solution", "Solved", "Unbounded", "Verdict",
    "certify_infeasible", "certify_max", "certify_min", "certify_paths", "convert", "draw", "from_frame",
    "judge_infeasible", "judge_max", "judge_min", "judge_paths", "proved", "read", "show", "solve_max", "solve_min",
    "solve_paths", "spread_max", "spread_min", "write",
    "certify_infeasible_arrays", "certify_max_arrays", "certify_min_arrays", "certify_paths_arrays",
    "judge_infeasible_arrays", "judge_max_arrays", "judge_min_arrays", "judge_paths_arrays", "solve_max_arrays",
    "solve_min_arrays", "solve_paths_arrays", "spread_max_arrays", "spread_min_arrays",
    "certify_networkx_infeasible", "certify_networkx_max", "certify_networkx_min", "certify_networkx_paths",
    "judge_networkx_max", "judge_networkx_min", "solve_networkx_max", "solve_networkx_min", "solve_networkx_paths",
]


def __getattr__(name: str) -> Any:
    """What draws, or needs pandas, SciPy or networkx, is imported if it is asked for."""
    if name in _LATER:
        return getattr(importlib.import_module(f".{_LATER[name]}", __name__), name)
    if name not in ("backend", "drawing", "scipy"):
        raise AttributeError(f"module 'dimacs' has no attribute {name!r}")
    try:
        return importlib.import_module(f".{name}", __name__)
    except ModuleNotFoundError as it:
        raise AttributeError(f"dimacs.{name} needs {it.name}, which isn't installed") from it


def __dir__() -> list[str]:
    return [*__all__, "__version__"]
