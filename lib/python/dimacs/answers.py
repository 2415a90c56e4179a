"""What calls return, and what they raise."""

from __future__ import annotations

import reprlib
from collections import namedtuple
from decimal import Decimal
from fractions import Fraction
from typing import TYPE_CHECKING, Any, Generic, NamedTuple, TypeAlias, TypeVar, Union, cast

if TYPE_CHECKING:
    from array import array

    from numpy import bool_, int64, object_, uint32
    from numpy.typing import NDArray

#: Arrays of numpy in values, and in answers over these: of whether nodes are inside, of nodes, and of other numbers.
Marks: TypeAlias = "NDArray[bool_]"
Ids: TypeAlias = "NDArray[uint32]"
Amounts: TypeAlias = "NDArray[int64]"

#: The same in the form of an array that came. With base=0 nodes have a sign.
MarksLike = Union[list[bool], "array[int]", Marks]
IdsLike = Union[list[int], "array[int]", Ids, Amounts]
AmountsLike = Union[list[int], "array[int]", Amounts]

#: What scale= may be but None. With it a number, and an array of them, or of distances.
Number = Union[int, Fraction, Decimal]
Scales = Union[Number, tuple[Number, Number], str]
Scaled = Union[list[Number], "NDArray[object_]"]
Lengths = Union[list[Union[Number, float]], "NDArray[object_]"]

_Value = TypeVar("_Value")
_Claim = TypeVar("_Claim")
_Shown = TypeVar("_Shown")

#: The distance of a node that isn't reached. Its predecessor is 0.
UNREACHED = 2**63 - 1


class Beyond(NamedTuple):
    r"""In place of a distance: it is greater than this radius, or there is no walk.

    >>> import dimacs
    >>> dimacs.judge_paths("p sp 2 1\na 1 2 5\n", "p aux sp p2p 1\nq 1 2\n", "p dist 2 1\nt 1 0 3\n").pairs[0].distance
    Beyond(radius=3)
    """

    radius: int


class Pair(NamedTuple):
    r"""The answer to a query. The distance is None if there is no walk.

    >>> import dimacs
    >>> dimacs.judge_paths("p sp 2 1\na 1 2 5\n", "p aux sp p2p 1\nq 1 2\n", "p dist 2 1\nt 1 1\nd 2 5 1\n").pairs[0]
    Pair(source=1, target=2, distance=5)
    """

    source: int
    target: int
    distance: int | Beyond | None


class Explainable:
    """An answer that keeps what it was asked of: its texts or arrays live as long."""

    _asked: Any = None
    #: What a certificate or solution is of: "max", "min", "infeasible" or "paths", if a call gave the answer.
    _kind: str | None = None

    def _of(self, shown: _Value, *kinds: str) -> _Value:
        """What an answer of these kinds has by another name. Raises AttributeError for one of another kind."""
        if self._kind is not None and self._kind not in kinds:
            raise AttributeError(f"this is an answer about {self._kind}, and only one about {' or '.join(kinds)} has that")
        return shown

    def explain(self) -> str:
        """The lines that `dimacs explain` prints: the printed line, and what the test compared or what shows the yes.

        The command runs once more, over the same texts, or over texts made of the arrays or the graph, whose nodes and arcs
        the lines then name by numbers, with a line that says which is which. No call proves more than the first line. Raises
        ValueError if the answer was pickled since, or no call of the library gave it, as a value that SciPy's result claims.

        >>> import dimacs
        >>> dimacs.judge_max_arrays(2, 1, 2, [1], [2], [4], [4], [True, False]).explain().splitlines()[3:5]
        ['arcs out of it, all full: 1', '  arc 1: 1 -> 2, CAP 4']
        """
        if self._asked is None:
            raise ValueError("this answer doesn't keep what it was asked of")
        return str(self._asked.explain())


def _items(part: Any) -> Any:
    """A part of an answer that == compares: the items of an array, those of a Series or frame with their index, if it isn't
    that of their places."""
    if hasattr(part, "to_numpy"):
        index, items = getattr(part, "index", None), part.to_numpy().tolist()
        return items if index is None or callable(index) or [*index] == [*range(len(items))] else (list(index), items)
    return part.tolist() if hasattr(part, "tolist") else part


class Parts(Explainable):
    """An answer that unpacks into its parts, and is equal to a tuple of the same items."""

    def __eq__(self, other: Any) -> bool:
        return isinstance(other, tuple) and [*map(_items, cast(Any, self))] == [*map(_items, other)]

    __ne__, __hash__ = object.__ne__, tuple.__hash__


if TYPE_CHECKING:

    class _Verdict(NamedTuple, Generic[_Value]):
        kind: str
        value: _Value
        pairs: tuple[Pair, ...] = ()

    class _Certified(NamedTuple, Generic[_Value, _Shown]):
        value: _Value
        certificate: _Shown

    class _Solved(NamedTuple, Generic[_Value, _Claim, _Shown]):
        value: _Value
        solution: _Claim
        certificate: _Shown

else:  # Python 3.10 has no generic ones
    _Verdict = namedtuple("_Verdict", "kind value pairs", defaults=(None, ()))
    _Certified = namedtuple("_Certified", "value certificate")
    _Solved = namedtuple("_Solved", "value solution certificate")


class Verdict(Parts, _Verdict[_Value]):
    """A yes.

    kind is "max", "min", "infeasible", "sp" (all distances from so many sources) or "pairs"; value the value of the
    flow, its cost, or the number of sources; pairs the answers to queries for pairs.

    >>> import dimacs
    >>> dimacs.judge_max_arrays(3, 1, 3, [1, 2], [2, 3], [5, 4], [4, 4], [True, True, False])
    Verdict(kind='max', value=4, pairs=())
    """

    def __bool__(self) -> bool:
        return True


class _Shows(Parts, Generic[_Shown]):
    """An answer with a certificate."""

    def _shown(self, *kinds: str) -> _Shown:
        certificate: _Shown = cast(Any, self).certificate
        return self._of(certificate, *kinds)

    @property
    def inside(self) -> _Shown:
        """The certificate of calls about max and infeasible over arrays and graphs."""
        return self._shown("max", "infeasible")

    @property
    def potentials(self) -> _Shown:
        """That of calls about min."""
        return self._shown("min")

    @property
    def predecessors(self) -> _Shown:
        """That of calls about paths."""
        return self._shown("paths")


class Certified(_Shows[_Shown], _Certified[_Value, _Shown], Generic[_Value, _Shown]):
    """A yes, with a certificate by which the judge answers yes too.

    value is the value of the flow, or its cost; None if the claim has neither. The certificate is the text of a cut, of
    potentials, of a set or of labels. Over arrays it has an item for each node: true on the source's side of a cut, a
    potential, or a predecessor. Over a graph it is a set of nodes, or a dict by node. inside, potentials and predecessors are
    the certificate of a call that gives one.

    >>> import dimacs
    >>> value, inside = dimacs.certify_max_arrays(3, 1, 3, [1, 2], [2, 3], [5, 4], [4, 4])
    """


class Solved(_Shows[_Shown], _Solved[_Value, _Claim, _Shown], Generic[_Value, _Claim, _Shown]):
    """An answer, which was judged before it was returned.

    value is the value of the flow, or its cost; None if there is neither. The solution is a text; over arrays the
    amount of each arc, or the distance of each node; over a graph a dict of those; for queries in texts the answers to
    pairs. The certificate is as in Certified; for queries in texts it is the text of labels. flows and distances are the
    solution of a call that gives them.

    >>> import dimacs
    >>> value, flows, inside = dimacs.solve_max_arrays(3, 1, 3, [1, 2], [2, 3], [5, 4])
    """

    @property
    def flows(self) -> _Claim:
        """The solution of calls about max and min."""
        return self._of(self.solution, "max", "min")

    @property
    def distances(self) -> _Claim:
        """That of calls about paths."""
        return self._of(self.solution, "paths")

    @property
    def pairs(self) -> _Claim:
        """That of queries for pairs in texts, as of a Verdict."""
        return self._of(self.solution, "paths")


#: What an exception says of the numbers that were compared, by its reason: the first line that has all of them.
_SAID = {
    "AboveCap": ["it carries {flow}, its capacity is {capacity}"],
    "BackFlow": ["it enters the cut and carries {flow}"],
    "Balance": ["{leaves} leaves, its supply is {supply}", "{leaves} leaves, {enters} enters"],
    "BelowLow": ["it carries {flow}, its lower bound is {low}"],
    "BoundOrder": ["its lower bound is {low}, its capacity {capacity}", "its capacity is {capacity}"],
    "CostRange": ["the cost up to it is {cost}"],
    "Escapes": ["its tail is at {tail}, its head isn't reached"],
    "Infeasible": ["supplies add up to {supply}, and not to 0", "demands add up to {demand}, and not to 0"],
    "NegativeWeight": ["its weight is {weight}"],
    "NoTightArc": ["no arc from {predecessor} gives its distance {distance}", "no walk gives its distance {distance}"],
    "NodeRange": [
        "{it_is}, and its predecessor is {predecessor}",
        "its predecessor is {predecessor}, and there are {nodes} nodes",
        "it goes from {tail} to {head}; nodes are numbered from {base}, and there are {nodes}{hint}",
        "nodes are numbered from {base}, and there are {nodes}{hint}",
    ],
    "NodeTwice": ["it is the source and the sink"],
    "NotLeast": ["it costs {value}, and a better flow {better_value}"],
    "NotMaximum": ["its value is {value}, and that of a better flow {better_value}"],
    "NotSaturated": ["it leaves the cut and carries {flow}, its capacity is {capacity}"],
    "NotShortest": ["{tail} and its weight {weight} are less than {head}", "the source is at {distance}"],
    "NotTight": ["its reduced cost is {reduced_cost}, and it carries {flow} of {low} to {capacity}"],
    "NotViolated": ["the set supplies {supply}, and from {least} to {most} can leave it"],
    "NumberRange": ["at most {most} nodes"],
    "PredUnknown": ["its predecessors don't lead back to the source"],
    "UnknownArc": ["no arc goes from {tail} to {head}"],
    "ValueDiffers": ["{claimed} is claimed, it is {value}"],
}


def _said(reason: str, numbers: dict[str, Any]) -> str:
    for line in _SAID.get(reason, ()) if numbers else ():
        try:
            return f": {line.format(**numbers)}"
        except KeyError:
            continue
    return ""


class Placed(Exception):
    """An exception about an arc, a node, or a field of a text, and the numbers that were compared there."""

    _PLACES = ("text", "line", "field", "arc", "node", "numbers")

    def __init__(
        self, reason: str,
        *, text: str | None = None, line: int | None = None, field: int | None = None, arc: Any = None,
        node: Any = None, numbers: dict[str, Any] | None = None,
    ) -> None:
        super().__init__(reason)
        self.reason, self.text, self.line, self.field = reason, text, line, field
        self.arc, self.node, self.numbers = arc, node, numbers or {}

    @property
    def printed(self) -> str:
        """The line that the command prints, as "x arc 3 AboveCap"."""
        return f"x {self._place()} {self.reason}"

    def _place(self) -> str:
        if self.text:
            return f"{self.text} {self.line} {self.field}"
        return f"arc {self.arc!r}" if self.arc is not None else f"node {self.node!r}"

    def __str__(self) -> str:
        return f"{self._place()} {self.reason}{_said(self.reason, self.numbers)}"

    def __repr__(self) -> str:
        fields = [repr(self.reason)]
        for name, it in vars(self).items():
            if name != "reason" and name[0] != "_" and not (it is None or isinstance(it, dict) and not it):
                fields.append(f"{name}={it!r}" if name in self._PLACES else f"{name}={reprlib.repr(it)}")
        return f"{type(self).__name__}({', '.join(fields)})"


class Refused(Placed, Explainable):
    """A no: the fault of a text, or the first test that fails.

    A fault has its text ("instance", "query", "solution", "distances" or "certificate"), line and field, from 1; field 0 is
    the whole line. A test has the number of an arc or the ID of a node, or over graphs the edge or the node itself, and over
    arrays and graphs the numbers that were compared. What doesn't apply is None. reason is the command's word.

    >>> import dimacs
    >>> dimacs.certify_min_arrays(2, [1], [2], [0], [9], [1], [5, -5], [4])
    Traceback (most recent call last):
    dimacs.answers.Refused: node 1 Balance: 4 leaves, its supply is 5
    """

    def is_about_value(self) -> bool:
        """Whether a flow is feasible, and not optimal."""
        return self.reason in ("NotMaximum", "NotLeast")


class PastLimit(Placed, ValueError):
    """The first number of an instance in arrays, or of a graph, that is past its limit: nothing was judged.

    arc is the number of an arc, or node the ID of a node, as in Refused. reason is that of a text with this number.

    >>> import dimacs
    >>> dimacs.solve_max_arrays(2, 1, 2, [1], [2], [-5])
    Traceback (most recent call last):
    dimacs.answers.PastLimit: arc 1 BoundOrder: its lower bound is 0, its capacity -5
    """


class NotOptimal(Refused):
    """The flow is feasible and has the claimed value, but there is a better one.

    better is such a flow, in the form of the claimed one; None if its cost is out of the range of solutions. value is the
    value or the cost of the claimed flow, better_value that of the better one; None as better.

    >>> import dimacs
    >>> try:
    ...     dimacs.certify_max_arrays(3, 1, 3, [1, 2], [2, 3], [5, 4], [3, 3])
    ... except dimacs.NotOptimal as no:
    ...     print(no.value, no.better_value, no.better)
    3 4 [4, 4]
    """

    def __init__(self, reason: str, better: Any = None, **place: Any) -> None:
        super().__init__(reason, **place)
        self.better = better

    @property
    def value(self) -> Any:
        return self.numbers.get("value")

    @property
    def better_value(self) -> Any:
        return self.numbers.get("better_value")


class Infeasible(Refused):
    """No flow is feasible, as the certificate shows: the text of a set, over arrays whether each node is inside, or over a
    graph a set of nodes.

    >>> import dimacs
    >>> try:
    ...     dimacs.solve_min_arrays(2, [1], [2], [0], [5], [3], [6, -6])
    ... except dimacs.Infeasible as no:
    ...     print(no, no.inside)
    no flow is feasible [True, False]
    """

    #: The command's status is that of a yes.
    printed = "v infeasible"

    def __init__(self, certificate: Any, numbers: dict[str, Any] | None = None) -> None:
        super().__init__("Infeasible", numbers=numbers)
        self.certificate = certificate

    @property
    def inside(self) -> Any:
        """The certificate of solve_min_arrays and solve_networkx_min."""
        return self.certificate

    def __str__(self) -> str:
        return "no flow is feasible" + _said(self.reason, self.numbers)


class Feasible(Refused):
    """The instance that was claimed to have no feasible flow has one.

    flow is such a flow: the text of a solution, over arrays the amount of each arc, or over a graph a dict of those; None
    if its cost is out of the range of solutions.

    >>> import dimacs
    >>> try:
    ...     dimacs.certify_infeasible_arrays(2, [1], [2], [0], [9], [3], [6, -6])
    ... except dimacs.Feasible as no:
    ...     print(no, no.flow)
    a flow is feasible [6]
    """

    def __init__(self, flow: Any = None) -> None:
        super().__init__("Feasible", text="instance", line=0, field=0)
        self.flow = flow

    def __str__(self) -> str:
        return "a flow is feasible"


class Unbounded(ValueError):
    """An optimum would be infinite: arcs with an infinite capacity lead from the source to the sink, or around a cycle that
    costs less than nothing. Over graphs of networkx it is a NetworkXUnbounded.

    >>> import dimacs
    >>> dimacs.solve_max_arrays(2, 1, 2, [1], [2], [float("inf")])
    Traceback (most recent call last):
    dimacs.answers.Unbounded: arcs without a limit lead from the source to the sink: 1
    """


class GaveUp(OverflowError):
    """A limit was reached before the best was found, or the answer has numbers that don't fit.

    >>> import dimacs
    >>> dimacs.solve_max_arrays(2, 1, 2, [1], [2], [5], limit=0)
    Traceback (most recent call last):
    dimacs.answers.GaveUp: limit=0 flows that aren't maximum were found
    """
