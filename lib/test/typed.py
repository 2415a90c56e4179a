"""What mypy sees of answers: test_docs.py has it read this, and nothing runs it."""

import pathlib
from mmap import mmap
from typing import Any, assert_type

import numpy
from numpy.typing import NDArray

import dimacs
from dimacs import Certified, Pair, Solved, Verdict
from dimacs import scipy as certified
from dimacs.answers import AmountsLike, IdsLike, Lengths, MarksLike, Number, Scaled


def texts(text: str, packed: bytes, path: pathlib.Path, mapped: mmap) -> None:
    assert_type(dimacs.judge_max(text, text, text), Verdict[int])
    assert_type(dimacs.judge_min(text, text, text), Verdict[int])
    assert_type(dimacs.judge_infeasible(text, text), Verdict[None])
    assert_type(dimacs.judge_paths(text, text, text), Verdict[int | None])
    assert_type(dimacs.certify_max(text, packed), Certified[int, str])
    assert_type(dimacs.certify_min(packed, text), Certified[int, bytes])
    assert_type(dimacs.certify_infeasible(path), Certified[None, str])
    assert_type(dimacs.certify_paths(bytearray(packed), text), Certified[None, bytes])
    assert_type(dimacs.solve_max(text), Solved[int, str, str])
    assert_type(dimacs.solve_min(packed), Solved[int, bytes, bytes])
    assert_type(dimacs.solve_paths(text, text), Solved[None, tuple[Pair, ...], str])
    assert_type(dimacs.spread_max(text, packed), bytes)
    assert_type(dimacs.spread_min(packed, text), str)
    assert_type(dimacs.convert("max", text), str)
    assert_type(dimacs.show("max", mapped), bytes)
    value, cut = dimacs.certify_max(text, text)
    assert_type(value, int)
    assert_type(cut, str)
    assert_type(dimacs.certify_max(text, text).certificate, str)
    assert_type(dimacs.solve_paths(text, text).pairs, tuple[Pair, ...])


def arrays(it: list[int], text: str) -> None:
    assert_type(dimacs.judge_max_arrays(2, 1, 2, it, it, it, it, it), Verdict[int])
    assert_type(dimacs.judge_min_arrays(2, it, it, it, it, it, it, it, it, scale=10), Verdict[Number])
    either = dimacs.judge_min_arrays(2, it, it, it, it, it, it, it, it, scale=10 if text else None)
    assert_type(either, Verdict[int] | Verdict[Number])
    assert_type(dimacs.judge_infeasible_arrays(2, it, it, it, it, it, it, it), Verdict[None])
    assert_type(dimacs.judge_paths_arrays(2, it, it, it, 1, it, it), Verdict[int])
    assert_type(dimacs.certify_max_arrays(2, 1, 2, it, it, it, it), Certified[int, MarksLike])
    assert_type(dimacs.certify_min_arrays(2, it, it, it, it, it, it, it), Certified[int, AmountsLike])
    assert_type(dimacs.certify_infeasible_arrays(2, it, it, it, it, it, it), Certified[None, MarksLike])
    assert_type(dimacs.certify_paths_arrays(2, it, it, it, 1, it), Certified[None, IdsLike])
    most = dimacs.read("max", text)
    assert_type(dimacs.certify_max_arrays(most, it), Certified[int, MarksLike])
    assert_type(dimacs.solve_max_arrays(most), Solved[int, NDArray[numpy.int64], NDArray[numpy.bool_]])
    labels = dimacs.solve_paths_arrays(dimacs.read("gr", text), 1)
    assert_type(labels, Solved[None, NDArray[numpy.int64], NDArray[numpy.uint32] | NDArray[numpy.int64]])
    assert_type(dimacs.solve_max_arrays(2, 1, 2, it, it, it).inside, MarksLike)
    assert_type(dimacs.solve_min_arrays(2, it, it, it, it, it, it, scale="exact"), Solved[Number, Scaled, Scaled])
    assert_type(dimacs.solve_paths_arrays(2, it, it, it, 1), Solved[None, AmountsLike, IdsLike])
    assert_type(dimacs.solve_paths_arrays(2, it, it, it, 1, scale=10).distances, Lengths)
    assert_type(dimacs.spread_max_arrays(2, 1, 2, it, it, it, it, it, it), AmountsLike)


def others(graph: Any) -> None:
    assert_type(dimacs.certify_networkx_max(graph, 1, 2, {}), Certified[Number, set[Any]])
    assert_type(dimacs.solve_networkx_min(graph).potentials, dict[Any, Number])
    assert_type(certified.certify_maximum_flow(graph, 1, 2, graph), Certified[int, NDArray[numpy.bool_]])
    assert_type(certified.shortest_path(graph), NDArray[numpy.float64])
    both = certified.shortest_path(graph, return_predecessors=True)
    assert_type(both, tuple[NDArray[numpy.float64], NDArray[numpy.int32]])
