"""The arguments of a call over arrays, as whole numbers in memory; and its answers, in the numbers and names that came."""

from __future__ import annotations

import ctypes
import math
import operator
import sys
from array import array
from contextlib import contextmanager
from functools import partial
from numbers import Integral
from typing import Any, Callable, Iterable, Iterator, NamedTuple, Sequence

from .answers import UNREACHED, PastLimit, Refused, Unbounded
from .buffers import CAPACITIES, IDS, LENGTHS, MARKS, NUMBERS, UNLIMITED, Buffer, Items, Name, Room, array_of, gone_through
from .buffers import in_form_of, is_bool, is_numpy, is_single, item, number_of, room_of, test_array, unlabelled, written
from .library import is_long
from .scales import units_of

#: The greatest number of nodes.
MOST_NODES = 2**27

#: A demand is a supply negated.
_DEMANDS = NUMBERS._replace(least=-NUMBERS.greatest, greatest=-NUMBERS.least)

_UNLIMITED_BYTES = UNLIMITED.to_bytes(CAPACITIES.width, sys.byteorder)

#: Predecessors that count from 0: -1 is none.
_FROM_ZERO = Items("q", 8, -1, 2**32 - 2)


class Array(NamedTuple):
    """The name of an array, the type of its items, whether there is one for each node or arc, and its unit."""

    name: str
    items: Items
    each: str
    unit: str = ""


TAILS, HEADS = (Array(name, IDS, "arcs") for name in ("tails", "heads"))
LOWS, FLOWS = (Array(name, NUMBERS, "arcs", "amount") for name in ("lows", "flows"))
CAPS = Array("caps", CAPACITIES, "arcs", "amount")
COSTS, WEIGHTS = (Array(name, NUMBERS, "arcs", "cost") for name in ("costs", "weights"))
SUPPLIES = Array("supplies", NUMBERS, "nodes", "amount")
POTENTIALS = Array("potentials", NUMBERS, "nodes", "cost")
INSIDE = Array("inside", MARKS, "nodes")
DISTANCES = Array("distances", LENGTHS, "nodes", "cost")
PREDECESSORS = Array("predecessors", IDS, "nodes")
FROMS, TOS = (Array(name, IDS, "queries") for name in ("froms", "tos"))
PAIR_TAILS, PAIR_HEADS = (Array(name, IDS, "pairs") for name in ("pair_tails", "pair_heads"))
SUMS = Array("sums", NUMBERS, "pairs")


class Form:
    """An instance in memory: its numbers, and then the address and the length of each array. Its name is the kind of its
    text."""

    def __init__(self, name: str, numbers: str, *arrays: Array) -> None:
        self.name = name
        self.numbers = numbers.split()
        self.arrays = arrays
        fields: list[tuple[str, Any]] = [(name, ctypes.c_uint32) for name in self.numbers]
        for it in arrays:
            fields += [(it.name, ctypes.c_void_p), (f"{it.name}_length", ctypes.c_size_t)]
        self.structure = type("Instance", (ctypes.Structure,), {"_fields_": fields})


MAX = Form("max", "nodes source sink", TAILS, HEADS, CAPS)
MIN = Form("min", "nodes", TAILS, HEADS, LOWS, CAPS, COSTS, SUPPLIES)
GRAPH = Form("gr", "nodes", TAILS, HEADS, WEIGHTS)


class Names:
    """How nodes, arcs and items of arrays are named: by numbers from a base, or nodes by names of their own."""

    #: Whether supplies come as demands, negated.
    has_demands = False
    #: Whether each number is a distance: only inf says that a node isn't reached.
    has_inf_alone = False

    def __init__(self, base: int = 1, nodes: Sequence[Any] | None = None) -> None:
        if type(base) is not int and (not isinstance(base, Integral) or is_bool(base)):  # abstract classes go before the end
            raise TypeError(f"base is {base!r}, and has to be the int 0 or 1")
        if base not in (0, 1):
            raise ValueError(f"base is {written(base)}, and has to be 0 or 1")
        self.base: int = int(base)
        self.nodes: Any = nodes

    def arc(self, place: int) -> Any:
        """The name of an arc by its place, from 0."""
        return place + self.base

    def node(self, place: int) -> Any:
        return place + self.base if self.nodes is None else self.nodes[place]

    def item(self, name: str, place: int) -> str:
        return f"{name}[{place}]"

    def formed(self, kind: Array, items: Any) -> Any:
        """What is handed out, in the form of the caller."""
        return items

    def unbounded(self, message: str) -> Any:
        """What is raised if an optimum would be infinite."""
        return Unbounded(message)


#: In place of a scale where there is no such argument.
UNSCALED = object()


class Given:
    """The arguments of a call: an instance, and those that are added. Keeps the memory of all arrays."""

    def __init__(self, form: Form, *given: Any, scale: Any = UNSCALED, names: Names | int = 1) -> None:
        self.form, self.names = form, names if isinstance(names, Names) else Names(names)
        #: A call over a value takes neither scale= nor base=, and no hint names one.
        self.is_of_value = type(names) is Names
        self._may_be_scaled = scale is None and not self.is_of_value
        self._scale = None if scale is UNSCALED else scale
        count = len(form.numbers)
        self._singles = dict(zip(form.numbers, given))
        self._raw: dict[Array, Any] = {}
        self._words: list[Any] = []
        self._buffers: dict[str, Buffer] = {}
        self._limitless: list[int] | None = None
        #: How many nodes, arcs and so on there are: an item for each in the first array.
        self._count: dict[str, int] = {}
        for kind, numbers in zip(form.arrays, given[count:]):
            self._keep(kind, numbers)

    def _keep(self, kind: Array, numbers: Any) -> None:
        numbers = unlabelled(numbers)
        self._raw[kind] = list(numbers) if hasattr(numbers, "__next__") else numbers

    def add(self, kind: Array, numbers: Any) -> Given:
        """Adds an array after the instance."""
        self._keep(kind, numbers)
        self._words.append(kind)
        return self

    def add_number(self, name: str, number: Any, items: Items = IDS) -> Given:
        """Adds a number after the instance."""
        self._singles[name] = number
        self._words.append((name, items))
        return self

    # ---- the arguments as the library takes them

    def words(self, owned: bool = False) -> list[Any]:
        """The arguments, which own the memory of a long call if they have to. Raises ValueError or TypeError for a wrong one."""
        self._buffers = {}
        numbers = {name: self._single(name, IDS) for name in self.form.numbers}
        self._count = {"nodes": numbers["nodes"]} if numbers else {}
        #: The scales of amounts and costs, if numbers aren't whole.
        self.units = units_of(self._scale, self._groups)
        for kind in self._raw:
            self._convert(kind)
        self._test_lengths()
        if owned and is_long(self.count(TAILS)):
            self._buffers = {name: it.owned() for name, it in self._buffers.items()}
        fields = [*numbers.values(), *(it for kind in self.form.arrays for it in self._buffers[kind.name].words())]
        self._instance = self.form.structure(*fields)
        self._instance.kept = self._buffers
        words: list[Any] = [ctypes.byref(self._instance)]
        for added in self._words:
            if isinstance(added, Array):
                words += self._buffers[added.name].words()
            else:
                words.append(self._single(*added))
        return words

    def instance(self, copied: Callable[[Buffer, Items], Any]) -> list[Any]:
        """The numbers and copies of the arrays of the instance, as whole numbers."""
        self.words()
        numbers = [self._single(name, IDS) for name in self.form.numbers]
        return [*numbers, *(self.array(kind, copied) for kind in self.form.arrays)]

    def array(self, kind: Array, copied: Callable[[Buffer, Items], Any]) -> Any:
        return copied(self._buffers[kind.name], kind.items)

    def forget(self) -> None:
        """Drops what words() made of the arguments; it makes the same again."""
        self._buffers = {}

    def _single(self, name: str, items: Items) -> int:
        number, is_node = self._singles[name], name in ("source", "sink")
        if is_node and self.is_of_value and isinstance(number, str):
            raise TypeError(f"{name} is {number!r}, a name: pass its place in names, from {self.names.base}")
        if self.names.base or not is_node:
            return number_of(number, items, name)
        return number_of(number, items._replace(greatest=items.greatest - 1), name) + 1

    def _convert(self, kind: Array) -> None:
        numbers = self._raw[kind]
        if isinstance(numbers, Buffer):  # of a value: it was tested, and its nodes count from 1
            self._buffers[kind.name] = numbers
            self._count.setdefault(kind.each, numbers.length)
            return
        wanted = f"an array of {self._count[kind.each]}" if kind.each in self._count else "an array"
        test_array(numbers, kind.items, kind.name, wanted)
        if self.units and kind.unit:
            scale, name = self.units.of(kind.unit), self._namer(kind)
            numbers = [scale.whole(it, partial(item, name, k)) for k, it in enumerate(gone_through(numbers, name))]
        self._buffers[kind.name] = found = self._buffer(kind, numbers)
        if kind.items is LENGTHS and (self.units or self.names.has_inf_alone):
            self._test_reached(kind, numbers)
        self._count.setdefault(kind.each, found.length)

    def _buffer(self, kind: Array, numbers: Any) -> Buffer:
        """An array in memory, as the library takes it."""
        name, hint = self._namer(kind), ": scale= takes multiples of a unit" if kind.unit and self._may_be_scaled else ""
        if kind is SUPPLIES and self.names.has_demands:
            # A number is an int before it is negated: those of numpy have an end.
            items = _DEMANDS._replace(hint=hint)
            found = array("q", (-number_of(it, items, item(name, k)) for k, it in enumerate(numbers)))
        elif kind.items is IDS and self.names.base == 0:
            return _from_one(numbers, name)
        else:
            return array_of(numbers, kind.items._replace(hint=hint) if hint else kind.items, name)
        return Buffer(found, *found.buffer_info())

    def _test_reached(self, kind: Array, numbers: Any) -> None:
        """No number says that a node isn't reached."""
        for place, found in enumerate(self.column(kind)):
            if found == UNREACHED and numbers[place] != math.inf:
                most = self.amount(kind.unit, UNREACHED)
                limit = most if self.units else "2^63 - 1"
                raise ValueError(f"{self.names.item(kind.name, place)} is {most}, not below {limit}")

    def _namer(self, kind: Array) -> Callable[[int], str] | str:
        if type(self.names) is Names:
            return kind.name
        return partial(self.names.item, kind.name)

    def _groups(self, unit: str) -> Iterable[tuple[Sequence[Any], Callable[[int], str]]]:
        for kind, numbers in self._raw.items():
            if kind.unit == unit and not is_single(numbers):
                name = self._namer(kind)
                yield gone_through(numbers, name), partial(item, name)

    def _test_lengths(self) -> None:
        """The library tests the lengths too, but doesn't report which one is wrong."""
        for kind in self._raw:
            found, wanted = self._buffers[kind.name].length, self._count[kind.each]
            if found != wanted:
                raise ValueError(f"{kind.name} has {found} items, and there are {wanted} {kind.each}")

    # ---- arcs without a limit

    def limitless(self) -> list[int]:
        """The places of the arcs whose capacity is inf."""
        if self._limitless is None:
            caps = self._buffers.get(CAPS.name)
            may_be = caps is not None and _UNLIMITED_BYTES in ctypes.string_at(caps.address, caps.length * CAPACITIES.width)
            self._limitless = infinite(self._raw[CAPS]) if may_be else []
        return self._limitless

    def bound_limitless(self) -> None:
        """Gives arcs without a limit more than a best flow needs to carry anywhere: without cycles that cost nothing or less
        it goes along paths that bring what is supplied, and along cycles that have an arc with a limit. What has to flow is
        supplied at the arc's head, beside what it carries itself."""
        limitless = self.limitless()
        caps = array("q", self.column(CAPS))
        bound = 1 + sum(it for it in caps if it > 0) - UNLIMITED * len(limitless)
        if self.form is MIN:
            bound += sum(it for it in self.column(SUPPLIES) if it > 0) + 2 * sum(it for it in self.column(LOWS) if it > 0)
        for place in limitless:
            caps[place] = min(bound, UNLIMITED)
        self._buffers[CAPS.name] = Buffer(caps, *caps.buffer_info())
        self._instance.caps = caps.buffer_info()[0]

    # ---- answers

    def column(self, kind: Array) -> list[int]:
        """An array as whole numbers."""
        return self._buffers[kind.name].listed(kind.items)

    def has(self, kind: Array) -> bool:
        return kind in self._raw

    def number(self, name: str) -> int:
        return self._count[name] if name in self._count else self._single(name, IDS)

    def ends(self) -> list[Any]:
        """The number of nodes and the ends of arcs, as calls take them."""
        return [self.number("nodes"), *(word for it in (TAILS, HEADS) for word in self._buffers[it.name].words())]

    def count(self, kind: Array) -> int:
        """The number of items that an array has."""
        return self._count[kind.each]

    def room(self, kind: Array) -> Room:
        """Memory for an array that is handed out. If there are too many nodes, the library hands out none."""
        return room_of(kind.items, min(self.count(kind), MOST_NODES) if kind.each == "nodes" else self.count(kind))

    def shown(self, kind: Array, room: Room, came: Any) -> Any:
        """An array that was handed out, in the user's numbers, and in the form of one that came."""
        return self.names.formed(kind, self._in_numbers(kind, room, came))

    def _in_numbers(self, kind: Array, room: Room, came: Any) -> Any:
        if kind.items is IDS and self.names.base == 0:
            return in_form_of(came, room).astype("q") - 1 if is_numpy(came) else [it - 1 for it in room]
        if not (self.units and kind.unit):
            return in_form_of(came, room)
        scale = self.units.of(kind.unit)
        is_distance = kind.items is LENGTHS
        shown = [math.inf if is_distance and it == UNREACHED else scale.shown(it) for it in room]
        return sys.modules["numpy"].array(shown, "O") if is_numpy(came) else shown

    def value(self, number: int | None) -> Any:
        """The value of a maximum flow, or a cost, in the user's numbers."""
        if self.units is None or number is None:
            return number
        amount, cost = self.units
        return (amount if self.form is MAX else amount.times(cost)).shown(number)

    def value_of(self, flows: Sequence[int]) -> int:
        if self.form is MIN:
            return sum(map(operator.mul, flows, self.column(COSTS)))
        return self.sent(self.number("source"), flows)

    def sent(self, node: int, flows: Sequence[int]) -> int:
        """What leaves a node less what enters it."""
        return sum(flows[k] for k in self._at(TAILS, node)) - sum(flows[k] for k in self._at(HEADS, node))

    def _at(self, kind: Array, node: int) -> list[int]:
        """The places of an array that have this node."""
        numpy, buffer = sys.modules.get("numpy"), self._buffers[kind.name]
        if numpy is None:
            return [k for k, it in enumerate(self.column(kind)) if it == node]
        ids = numpy.frombuffer(ctypes.string_at(buffer.address, buffer.length * kind.items.width), kind.items.code)
        return list(numpy.flatnonzero(ids == node).tolist())

    def node(self, number: int) -> Any:
        """The name of a node by its number, which may be that of none."""
        is_node = 0 < number <= self.number("nodes")
        return self.names.node(number - 1) if is_node else number - 1 + self.names.base

    def amount(self, unit: str, number: int) -> Any:
        """A number of this unit, in the user's numbers."""
        return self.units.of(unit).shown(number) if self.units else number

    @contextmanager
    def named(self, asked: Any = None) -> Iterator[None]:
        """Exceptions raised inside name arcs and nodes as the caller does, with the numbers that were compared, and keep what
        was asked."""
        try:
            yield
        except (Refused, PastLimit) as it:
            from .compared import compared
            from .explained import kept

            if asked is not None and isinstance(it, Refused):
                asked.printed = it.printed
                kept(it, asked)
            it.numbers = {**it.numbers, **compared(self, it)}
            if it.arc is not None:
                it.arc = self.names.arc(it.arc - 1)
            if it.node is not None:
                it.node = self.node(it.node)
            if asked is not None:
                asked.said = str(it)
            self.forget()
            raise


def _from_one(numbers: Any, name: Name) -> Buffer:
    """IDs that come numbered from 0, or -1 for none, as those from 1."""
    given = array_of(numbers, _FROM_ZERO, name)
    ids = sys.modules["numpy"].add(given.kept, 1) if is_numpy(numbers) else [it + 1 for it in given.listed(_FROM_ZERO)]
    try:
        return array_of(ids, IDS, name)
    except ValueError:
        for place, it in enumerate(given.listed(_FROM_ZERO)):
            number_of(it, _FROM_ZERO, item(name, place))  # raises, and names the first as it came
        raise


def infinite(numbers: Any) -> list[int]:
    """The places of items that are inf."""
    if is_numpy(numbers):
        return list((numbers == math.inf).nonzero()[0].tolist())
    kind = getattr(numbers, "typecode", None) or getattr(numbers, "format", None)
    if isinstance(kind, str) and kind[-1] in "?bBhHiIlLqQ":
        return []
    return [place for place, it in enumerate(numbers) if type(it) is not int and it == math.inf]
