"""The calls over arrays, made with arguments that are ready, for all layers. Each yes and each answer is for arcs without a
limit too: they have one in the library, and the answer is tested for it."""

from __future__ import annotations

from typing import Any, Callable, TypeVar, Union

from . import library
from .answers import UNREACHED, Certified, Feasible, GaveUp, Infeasible, NotOptimal, Refused, Solved, Verdict
from .buffers import LIMIT, LIMITS, UNLIMITED, Room, value_of
from .explained import AskedOfArrays, kept
from .given import COSTS, DISTANCES, FLOWS, GRAPH, HEADS, INSIDE, MAX, MIN, POTENTIALS, PREDECESSORS, SUPPLIES, TAILS
from .given import Array, Given

_Valued = TypeVar("_Valued", bound=Union[Certified[Any, Any], Verdict[Any]])

#: What shows each kind of claim.
_CERTIFICATES = {"max": INSIDE, "min": POTENTIALS, "infeasible": INSIDE, "paths": PREDECESSORS}


def _claimed(given: Given) -> str:
    """What a claim is about. One of least cost has flows."""
    kinds = {MAX: "max", MIN: "min" if given.has(FLOWS) else "infeasible", GRAPH: "paths"}
    return kinds[given.form]


def _shown_by(given: Given, kind: str, **found: Room) -> AskedOfArrays:
    """The call by which the judge answers yes too, over what was found."""
    given.forget()
    return AskedOfArrays(f"judge_{kind}", given, **found)


def judge(given: Given) -> Verdict[Any]:
    words, kind = given.words(), _claimed(given)
    asked = AskedOfArrays(f"judge_{kind}", given)
    with given.named(asked):
        status, line = library.call(getattr(library, f"judge_{kind}_arrays"), *words)
        if status == library.REFUSED:
            raise library.refusal(line)
        found = library.verdict(line)
        if given.limitless():
            _test_judged(given, kind)
    value = given.value(found.value) if kind in ("max", "min") else found.value
    given.forget()
    return kept(Verdict(found.kind, value), asked)


def certify(given: Given, came: Any = ()) -> Certified[Any, Any]:
    """What is handed out has the form of an array that came."""
    words, kind = given.words(owned=True), _claimed(given)
    asked, certificate = AskedOfArrays(f"certify_{kind}", given), _CERTIFICATES[kind]
    with given.named(asked):
        shown, *better = rooms = [given.room(it) for it in (certificate, *[FLOWS] * (kind != "paths"))]
        status, line = library.call_with_rooms(getattr(library, f"certify_{kind}_arrays"), words, rooms, given.count(TAILS))
        if status == library.REFUSED:
            raise _refusal(given, library.refusal(line), asked, came, *better)
        if kind == "infeasible":
            _test_found_set(given, shown)
        elif _taken_for_full(given, kind, shown):
            raise GaveUp(f"arcs without a limit carry {UNLIMITED}, and may have to carry more")
        value = given.value(library.verdict(line).value) if kind in ("max", "min") else None
        answer = Certified(value, given.shown(certificate, shown, came))
        return kept(answer, _shown_by(given, kind, **{certificate.name: shown}))


def _refusal(given: Given, no: Refused, asked: AskedOfArrays, came: Any, *better: Room) -> Refused:
    """A refusal, with the flow that shows it if one does."""
    if no.reason != "Feasible" and not no.is_about_value():
        return no
    (flows,) = better
    asked.add(better=flows)
    if no.reason == "Feasible":
        return Feasible(given.shown(FLOWS, flows, came))
    values = {"value": given.value_of(given.column(FLOWS)), "better_value": given.value_of(flows)}
    numbers = {name: given.value(it) for name, it in values.items()}
    shown = given.shown(FLOWS, flows, came)
    return NotOptimal(no.reason, shown, text=no.text, line=no.line, field=no.field, numbers=numbers)


def of_value(certified: _Valued, claimed: Any, name: str) -> _Valued:
    """The same. Raises Refused if it has another value than is claimed."""
    number = value_of(claimed, name)
    if number != certified.value:
        numbers = {"claimed": number, "value": certified.value}
        raise Refused("ValueDiffers", text="solution", line=0, field=0, numbers=numbers)
    return certified


def solve_max(given: Given, came: Any = (), limit: Any = LIMIT) -> Solved[Any, Any, Any]:
    given.add_number("limit", limit, LIMITS)
    found, rooms = _solve_bounded("max", given, _test_bounded_max, FLOWS, INSIDE)
    if _taken_for_full(given, "max", rooms[INSIDE]):
        _test_bounded_max(given)
        raise GaveUp("the capacities have a sum that is out of range")
    return _solved(given, "max", given.value(found.value), rooms, came)


def solve_min(given: Given, came: Any = (), limit: Any = LIMIT) -> Solved[Any, Any, Any]:
    given.add_number("limit", limit, LIMITS)
    found, rooms = _solve_bounded("min", given, _test_bounded_min, FLOWS, POTENTIALS, INSIDE)
    inside = rooms.pop(INSIDE)
    if found.kind == "infeasible":
        _test_found_set(given, inside)
        no = Infeasible(given.shown(INSIDE, inside, came), _imbalance(given))
        raise kept(no, _shown_by(given, "infeasible", inside=inside))
    if _taken_for_full(given, "min", rooms[POTENTIALS]):
        _test_bounded_min(given)
        raise GaveUp("the capacities and supplies have a sum that is out of range")
    return _solved(given, "min", given.value(found.value), rooms, came)


def solve_paths(given: Given, came: Any = ()) -> Solved[Any, Any, Any]:
    _, rooms = _solve("paths", given, given.words(owned=True), DISTANCES, PREDECESSORS)
    return _solved(given, "paths", None, rooms, came)


def _solved(given: Given, kind: str, value: Any, rooms: dict[Array, Room], came: Any) -> Solved[Any, Any, Any]:
    answer = Solved(value, *(given.shown(*it, came) for it in rooms.items()))
    return kept(answer, _shown_by(given, kind, **{it.name: room for it, room in rooms.items()}))


def _imbalance(given: Given) -> dict[str, Any]:
    """What all nodes supply, or demand, if it isn't 0."""
    supply = sum(given.column(SUPPLIES))
    name, found = ("demand", -supply) if given.names.has_demands else ("supply", supply)
    return {name: given.amount("amount", found)} if found else {}


def _solve_bounded(
    kind: str, given: Given, test: Callable[[Given], None], *handed: Array
) -> tuple[Verdict[Any], dict[Array, Room]]:
    """Solves with a bound in place of inf. If the library gives up, the bound may be why: then the test raises Unbounded."""
    words = given.words(owned=True)
    if not given.limitless():
        return _solve(kind, given, words, *handed)
    given.bound_limitless()
    try:
        return _solve(kind, given, words, *handed)
    except GaveUp:
        if kind == "max" or _has_flow(given, words[:1]):
            test(given)
        raise


def _has_flow(given: Given, instance: list[Any]) -> bool:
    words = library.certify_infeasible_arrays, instance, [given.room(INSIDE), given.room(FLOWS)], given.count(TAILS)
    return library.call_with_rooms(*words)[0] == library.REFUSED


def _solve(kind: str, given: Given, words: list[Any], *handed: Array) -> tuple[Verdict[Any], dict[Array, Room]]:
    with given.named(AskedOfArrays(f"solve_{kind}", given)):
        rooms = {it: given.room(it) for it in handed}
        call = getattr(library, f"solve_{kind}_arrays")
        status, line = library.call_with_rooms(call, words, rooms.values(), given.count(TAILS))
        if status == library.REFUSED:
            raise library.refusal(line)
        return library.verdict(line), rooms


# ---- arcs without a limit


def _limitless_ends(given: Given) -> list[tuple[int, int]]:
    limitless = given.limitless()
    if not limitless:
        return []
    tails, heads = given.column(TAILS), given.column(HEADS)
    return [(tails[arc], heads[arc]) for arc in limitless]


def _taken_for_full(given: Given, kind: str, shown: Any) -> list[int]:
    """The arcs without a limit that have to be full by a certificate, as they are in the library by what stands for inf."""
    ends = list(zip(given.limitless(), _limitless_ends(given)))
    if kind == "max":
        return [arc for arc, (tail, head) in ends if shown[tail - 1] and not shown[head - 1]]
    costs = given.column(COSTS) if ends else []
    return [arc for arc, (tail, head) in ends if costs[arc] - shown[tail - 1] + shown[head - 1] < 0]


def _test_judged(given: Given, kind: str) -> None:
    """Raises Refused for a certificate by which an arc without a limit has one."""
    shown = given.column(_CERTIFICATES[kind])
    if kind == "infeasible":
        if not _is_violated(given, shown):
            raise Refused("NotViolated", text="certificate", line=0, field=0)
    elif full := _taken_for_full(given, kind, shown):
        raise Refused("NotSaturated" if kind == "max" else "NotTight", arc=full[0] + 1)


def _test_bounded_max(given: Given) -> None:
    """Raises Unbounded if arcs without a limit lead from the source to the sink."""
    tails, heads = zip(*_limitless_ends(given))
    graph = Given(GRAPH, given.number("nodes"), tails, heads, [0] * len(tails))
    source, node = given.number("source"), given.number("sink")
    _, distances, before = solve_paths(graph.add_number("source", source))
    if distances[node - 1] == UNREACHED:
        return
    ends, arcs = dict(zip(zip(tails, heads), given.limitless())), []
    while node != source:
        arcs.append(ends[before[node - 1], node])
        node = before[node - 1]
    raise given.names.unbounded(f"arcs without a limit lead from the source to the sink: {_named(given, arcs[::-1])}")


def _named(given: Given, arcs: list[int]) -> str:
    """The names of arcs; of many the first ones."""
    names = [repr(given.names.arc(it)) for it in arcs[:8]]
    return ", ".join([*names, *([".."] if len(arcs) > 8 else [])])


def _test_bounded_min(given: Given) -> None:
    """Raises Unbounded if a cycle of arcs without a limit costs less than nothing: if each arc carries at most 1 and no node
    has a supply, flows of 0 cost least exactly if there is none."""
    limitless = given.limitless()
    tails, heads = zip(*_limitless_ends(given))
    costs = [given.column(COSTS)[arc] for arc in limitless]
    none, nodes = [0] * len(limitless), given.number("nodes")
    claim = Given(MIN, nodes, tails, heads, none, [1] * len(none), costs, [0] * nodes).add(FLOWS, none)
    try:
        certify(claim)
    except NotOptimal as it:
        arcs = _named(given, [arc for arc, amount in zip(limitless, it.better) if amount])
        message = f"a cycle of arcs without a limit costs less than nothing: {arcs}"
        raise given.names.unbounded(message) from None


def _test_found_set(given: Given, inside: Room) -> None:
    """A set that was found to show that no flow is feasible has to show it of arcs without a limit too."""
    if given.limitless() and not _is_violated(given, inside):
        raise GaveUp("no flow is feasible that stays below 2^63 - 1 on the arcs without a limit")


def _is_violated(given: Given, inside: Any) -> bool:
    """Whether a set supplies more than can leave it, or less than has to."""
    from .compared import crossing

    supply = sum(it for it, is_inside in zip(given.column(SUPPLIES), inside) if is_inside)
    leaving, entering = (crossing(given, inside, direction) for direction in (1, -1))
    return not -entering <= supply <= leaving
