"""Reads texts in canonical form, as dimacs writes them: it has found no fault in them."""

from __future__ import annotations

import io
from dataclasses import dataclass, field
from typing import Dict, Iterable, Iterator, List, Optional, Set, Tuple

from .network import ENDS, MOST_ARCS, MOST_NODES, Arc, Network, Node, TooLarge


#: The flows of a solution by the ends of arcs, in the order of their lines.
Solution = Dict[Tuple[int, int], List[int]]


@dataclass
class Block:
    """The claimed distances from a source; predecessors are those of labels."""

    source: int
    radius: Optional[int] = None
    distances: Dict[int, int] = field(default_factory=dict)
    predecessors: Dict[int, int] = field(default_factory=dict)


def records(text: bytes) -> Iterator[Tuple[str, List[str]]]:
    """The letter and the fields of each line."""
    for line in io.BytesIO(text):
        letter, *fields = line.decode("ascii").split()
        yield letter, fields


# ---- instances


def read_instance(kind: str, text: bytes, only: Iterable[int]) -> Network:
    """The part of an instance that is drawn: all of it, or only these nodes and their neighbours."""
    _, (_, nodes, arcs) = next(records(text))
    network = Network(kind, int(nodes), int(arcs))
    drawn = _neighbourhood(network, text, set(only)) if only else _all_nodes(network, text)
    network.nodes = {node: Node() for node in sorted(drawn)}
    for letter, fields in records(text):
        if letter == "a":
            break
        if letter == "n":
            _read_node(network, int(fields[0]), fields[1])
    for arc in arcs_of(kind, text):
        if arc.tail in drawn and arc.head in drawn:
            network.arcs.append(arc)
            _test_size(network, len(drawn), len(network.arcs))
    return network


def arcs_of(kind: str, text: bytes) -> Iterator[Arc]:
    number = 0
    for letter, fields in records(text):
        if letter == "a":
            number += 1
            yield _arc(kind, number, [int(it) for it in fields])


def _test_size(network: Network, nodes: int, arcs: int) -> None:
    if nodes > MOST_NODES or arcs > MOST_ARCS:
        counted = f"the network has {network.node_count:,} nodes and {network.arc_count:,} arcs"
        raise TooLarge(f"{counted}, and a picture has room for {MOST_NODES} and {MOST_ARCS}")


def _all_nodes(network: Network, text: bytes) -> Set[int]:
    """All nodes; of many those that have an arc or a node line."""
    _test_size(network, 0, network.arc_count)
    if network.node_count <= MOST_NODES:
        return set(range(1, network.node_count + 1))
    used = {int(it) for letter, fields in records(text) for it in fields[: {"n": 1, "a": 2}.get(letter, 0)]}
    _test_size(network, len(used), network.arc_count)
    network.notes.append(f"{network.node_count - len(used):,} nodes without arcs aren't drawn")
    return used


def _neighbourhood(network: Network, text: bytes, only: Set[int]) -> Set[int]:
    for node in only:
        if not 1 <= node <= network.node_count:
            raise ValueError(f"there is no node {node}: the network has nodes 1 to {network.node_count}")
    drawn = set(only)
    for letter, fields in records(text):
        if letter == "a":
            ends = {int(fields[0]), int(fields[1])}
            if ends & only:
                drawn |= ends
    if len(drawn) > MOST_NODES:
        raise TooLarge(f"these nodes and their neighbours are {len(drawn):,}, and a picture has room for {MOST_NODES}")
    if len(drawn) < network.node_count:
        named = ", ".join(map(str, sorted(only)))
        network.notes.append(f"{len(drawn)} of {network.node_count:,} nodes: {named} and the neighbours")
    return drawn


def _read_node(network: Network, node: int, word: str) -> None:
    """A node line: an end of the flow, or a supply."""
    if word == "s":
        network.source = node
    elif word == "t":
        network.sink = node
    elif node in network.nodes:
        network.nodes[node].supply = int(word)
    if word in "st" and node in network.nodes:
        network.nodes[node].marks.add(ENDS)


def _arc(kind: str, number: int, fields: List[int]) -> Arc:
    tail, head, *numbers = fields
    if kind == "max":
        return Arc(number, tail, head, cap=numbers[0])
    if kind == "gr":
        return Arc(number, tail, head, cost=numbers[0])
    low, cap, cost = numbers
    return Arc(number, tail, head, low, cap, cost)


# ---- claims and certificates


def read_solution(text: bytes) -> Solution:
    solution: Solution = {}
    for letter, fields in records(text):
        if letter == "f":
            tail, head, flow = map(int, fields)
            solution.setdefault((tail, head), []).append(flow)
    return solution


def read_set(text: bytes) -> Set[int]:
    return {int(fields[0]) for letter, fields in records(text) if letter == "u"}


def read_potentials(text: bytes) -> Dict[int, int]:
    return {int(fields[0]): int(fields[1]) for letter, fields in records(text) if letter == "y"}


def read_blocks(text: bytes) -> List[Block]:
    blocks: List[Block] = []
    for letter, fields in records(text):
        if letter == "t":
            source, _, *radius = map(int, fields)
            blocks.append(Block(source, radius[0] if radius else None, {source: 0}))
        elif letter == "d":
            node, distance, *predecessor = map(int, fields)
            blocks[-1].distances[node] = distance
            if predecessor:
                blocks[-1].predecessors[node] = predecessor[0]
    return blocks


def text_of(kind: str, nodes: int, block: Block) -> bytes:
    """The text that has this block alone."""
    far = [node for node in block.distances if node != block.source]
    ends = [block.source, len(far), *([] if block.radius is None else [block.radius])]
    lines = [f"p {kind} {nodes} 1", f"t {' '.join(map(str, ends))}"]
    lines += [f"d {node} {block.distances[node]} {block.predecessors.get(node, '')}" for node in far]
    return "".join(f"{it}\n" for it in lines).encode()


def read_targets(text: bytes, source: int) -> Set[int]:
    """The nodes whose distance from a source is asked for by name."""
    return {int(fields[1]) for letter, fields in records(text) if letter == "q" and int(fields[0]) == source}
