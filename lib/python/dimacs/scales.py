"""Numbers in the user's unit: whole numbers after they are multiplied by a factor, exactly or not at all."""

from __future__ import annotations

import decimal
import math
import sys
from fractions import Fraction
from functools import partial
from numbers import Rational, Real
from typing import Any, Callable, Iterable, Mapping, NamedTuple, Sequence, cast

from .buffers import is_bool, is_infinite, rounded, written

#: Digits enough for each product that is shown.
_EXACT = decimal.Context(prec=200)

#: Up to here a float stands for one multiple of a unit at most: the multiples next to it are other floats.
_MOST_PLAIN = 2**52


class Scale(NamedTuple):
    """Each number is a multiple of 1 / factor. Answers are decimals if the unit was one, else fractions; ints by a factor
    of 1."""

    factor: Fraction
    is_decimal: bool = False

    @classmethod
    def of(cls, given: Any) -> Scale:
        """The scale that an argument names: a factor, or a decimal as the unit itself."""
        try:
            is_float = isinstance(given, Real) and not isinstance(given, Rational)
            if is_bool(given) or is_float and not cast(Any, given).is_integer():
                raise TypeError
            exact = fraction_of(given, lambda: "scale")
        except TypeError:
            ways = "pass an int or a Fraction, by which numbers are multiplied, or a Decimal, their unit"
            raise TypeError(f"scale is {given!r}: {ways}") from None
        if exact <= 0:
            raise ValueError(f"scale is {written(given)}, and has to be above 0")
        is_decimal = isinstance(given, decimal.Decimal)
        factor = 1 / exact if is_decimal else exact
        return cls(factor, is_decimal)

    def times(self, other: Scale) -> Scale:
        is_decimal = all(it.is_decimal for it in (self, other) if it != _WHOLE)
        return Scale(self.factor * other.factor, is_decimal and (self, other) != (_WHOLE, _WHOLE))

    def shown(self, number: int) -> int | Fraction | decimal.Decimal:
        """A whole number in the user's unit."""
        if self == _WHOLE:
            return number
        if not self.is_decimal:
            return number / self.factor
        return _EXACT.divide(decimal.Decimal(number * self.factor.denominator), decimal.Decimal(self.factor.numerator))

    def whole(self, number: Any, name: Callable[[], str]) -> Any:
        """A number as a whole one; inf as it is. Raises ValueError with the nearest that is one if it isn't."""
        if type(number) is int:
            return self._whole(Fraction(number), number, name)
        factor = self.factor.numerator
        is_short = self.factor.denominator == 1 and factor < _MOST_PLAIN
        if type(number) is float and is_short and abs(number) * factor < _MOST_PLAIN:
            found = round(number * factor)
            if found / factor == number:
                return found
        if is_infinite(number):
            return math.inf
        return self._whole(fraction_of(number, name), number, name)

    def _whole(self, exact: Fraction, number: Any, name: Callable[[], str]) -> int:
        product = exact * self.factor
        found = round(product)
        if not -(2**63) <= found < 2**63:
            wide = f"more than 64 bits in units of {written(self._unit())}"
            raise ValueError(f"{name()} is {written(number)}, which has {wide}")
        is_exact = isinstance(number, (int, Fraction, decimal.Decimal)) or self == _WHOLE
        if product == found if is_exact else self._stands_for(found, number):
            return found
        shown, unit = f"{name()} is {written(number)}", written(self._unit())
        if product == found:
            raise ValueError(f"{shown}, the nearest float to more than one multiple of {unit}: pass it as a Decimal")
        raise ValueError(f"{shown}, not a multiple of {unit}: the nearest is {_readable(self.shown(found))}")

    def _unit(self) -> Any:
        return self.shown(1)

    def _stands_for(self, multiple: int, number: Any) -> bool:
        """Whether a float is the nearest one to this multiple of the unit, and to no other."""
        try:
            same = [_is_nearest(number, it / self.factor) for it in (multiple - 1, multiple, multiple + 1)]
        except OverflowError:  # it is above all floats
            return False
        return same == [False, True, False]


_WHOLE = Scale(Fraction(1))


class _Exact(Scale):
    """That by which each float is the fraction that it is."""

    def _stands_for(self, multiple: int, number: Any) -> bool:
        return True


def fraction_of(number: Any, name: Callable[[], str]) -> Fraction:
    """The exact value of a number. Raises ValueError if it isn't finite, and TypeError if it is none."""
    try:
        if isinstance(number, str) or getattr(number, "shape", ()) != ():  # a Fraction reads texts too
            raise TypeError
        found = number.item() if hasattr(number, "item") else number
        if _is_long(found):
            return Fraction(*found.as_integer_ratio())
        return Fraction(found)
    except TypeError:
        raise TypeError(f"{name()} is {number!r}, not a number") from None
    except (ValueError, OverflowError):
        raise ValueError(f"{name()} is {number}, not a finite number") from None


def _is_long(number: Any) -> bool:
    """Whether this is a long double of numpy, which no float of Python holds."""
    return isinstance(number, Real) and hasattr(number, "item") and hasattr(number.item(), "item")


def _is_nearest(number: Any, value: Fraction) -> bool:
    """Whether a float is the nearest one of its type to a value."""
    if not _is_long(number):
        return bool(type(number)(float(value)) == number)
    numpy = sys.modules["numpy"]
    beside = (numpy.nextafter(number, type(number)(end)) for end in (-math.inf, math.inf))
    here, low, high = (Fraction(*it.as_integer_ratio()) for it in (number, *beside))
    return here + low < 2 * value < here + high


def _readable(number: Any) -> Any:
    try:
        return float(number) if isinstance(number, Fraction) else number
    except OverflowError:
        return rounded(number)


def exact_scale(groups: Iterable[tuple[Sequence[Any], Callable[[int], str]]]) -> Scale:
    """The scale by the least common denominator of these numbers. Raises ValueError if one of them has more than 64 bits
    then."""
    exact: list[tuple[Fraction, Callable[[], str]]] = []
    for numbers, name in groups:
        for k, number in enumerate(numbers):
            if not is_infinite(number):
                exact.append((fraction_of(number, partial(name, k)), partial(name, k)))
    common = math.lcm(*(it.denominator for it, _ in exact))
    for it, named in exact:
        if not -(2**63) <= it * common < 2**63:
            shown, by = f"{named()} is {written(_readable(it))}", written(common)
            raise ValueError(f"{shown}: with the least common denominator {by} it has more than 64 bits")
    return _Exact(Fraction(common))


class Units(NamedTuple):
    """The scales of amounts (capacities, flows, supplies) and of costs (weights, potentials, distances)."""

    amount: Scale
    cost: Scale

    def of(self, unit: str) -> Scale:
        return self.amount if unit == "amount" else self.cost

    def ones(self) -> tuple[Any, Any] | None:
        """What 1 stands for, in amounts and in costs; None if it is 1."""
        found = self.amount.shown(1), self.cost.shown(1)
        return None if found == (1, 1) else found


#: What attributes of graphs and frames call their units, which are a text, as "1/100 1": each format of these keeps it.
UNITS = "dimacs_units"


#: Columns, or attributes of edges and nodes: what they are called, and how to_frame and to_networkx call them.
Called = Sequence[tuple[Any, tuple[str, ...]]]


def units_kept(attributes: Mapping[Any, Any], scale: Any, amounts: Called, costs: Called) -> tuple[Any, Any] | None:
    """What 1 stands for by the attributes of a graph or frame, which have it if its numbers are whole ones made by a scale:
    those that to_frame and to_networkx wrote. Others are what they are. Raises ValueError if there is another scale too, or
    only some of the amounts are those: which numbers it would be of isn't known."""
    text = attributes.get(UNITS)
    of_amounts = {called in written for called, written in amounts} or {True}  # supplies have no column
    of_costs = {called in written for called, written in costs} or of_amounts
    if text is None or {False} == of_amounts == of_costs:
        return None
    if len(of_amounts) > 1:
        named = " and ".join(repr(called) for called, _ in amounts)
        raise ValueError(f"the attribute {UNITS!r} isn't of all of {named}: delete it if numbers aren't whole by it")
    if scale is not None:
        raise ValueError(f"scale= comes beside the attribute {UNITS!r}, {text!r}: delete it if numbers aren't whole by it")
    try:
        amount, cost = (decimal.Decimal(it) if {*it} & {*".E"} else Fraction(it) for it in text.split())
    except (AttributeError, TypeError, ValueError, ArithmeticError):
        raise ValueError(f"the attribute {UNITS!r} is {text!r}, and has to be two numbers, as '1/100 1'") from None
    return amount if True in of_amounts else 1, cost if True in of_costs else 1


def ones_of(given: Any) -> tuple[Any, Any] | None:
    """A pair of what 1 stands for, None if it is 1. Raises TypeError and ValueError for others."""
    if not isinstance(given, tuple) or len(given) != 2:
        raise TypeError(f"units is {given!r}, and has to be a pair: what 1 stands for in amounts, and in costs")
    exact = [fraction_of(it, partial("units[{}]".format, k)) for k, it in enumerate(given)]
    if min(exact) <= 0:
        raise ValueError(f"units is {given!r}, and both have to be above 0")
    return Units(*(Scale(1 / it, isinstance(unit, decimal.Decimal)) for it, unit in zip(exact, given))).ones()


def units_of(scale: Any, groups: Callable[[str], Iterable[tuple[Sequence[Any], Callable[[int], str]]]]) -> Units | None:
    """The scales that an argument names: None, "exact", one for all, or a pair."""
    if scale is None:
        return None
    if isinstance(scale, str) and scale == "exact":
        return Units(exact_scale(groups("amount")), exact_scale(groups("cost")))
    if isinstance(scale, tuple) and len(scale) != 2:
        raise TypeError(f"scale is {scale!r}: a pair is one for amounts and one for costs")
    amount, cost = scale if isinstance(scale, tuple) else (scale, scale)
    return Units(Scale.of(amount), Scale.of(cost))
