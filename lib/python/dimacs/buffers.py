"""Where the items of a text or of an array lie in memory, and how many there are."""

from __future__ import annotations

import array
import ctypes
import math
import operator
import os
import struct
import sys
from collections.abc import Mapping, Set
from decimal import MAX_EMAX, MIN_EMIN, Context, Decimal
from functools import partial
from numbers import Number, Rational
from typing import TYPE_CHECKING, Any, Callable, Iterable, NamedTuple, Sequence, TypeAlias, Union

from .answers import UNREACHED

if TYPE_CHECKING:
    from numpy.typing import ArrayLike

    #: An array that is given, as an editor shows it: see dimacs.arrays.
    Numbers = Union[ArrayLike, Iterable[Any]]
else:
    Numbers = Iterable[Any]


class Buffer(NamedTuple):
    """What keeps the memory of items, their address and number. If it is bytes, it is the address too."""

    kept: Any
    address: int | bytes
    length: int

    def words(self) -> tuple[Any, int]:
        return self.address, self.length

    def owned(self) -> Buffer:
        """The same items where nobody else can write to them."""
        if memoryview(self.kept).readonly or not self.length:
            return self
        copy = memoryview(memoryview(self.kept).tobytes())
        return Buffer(copy, _address_of(copy), self.length)

    def listed(self, items: Items) -> list[int]:
        return array.array(items.code, ctypes.string_at(self.address, self.length * items.width)).tolist()


#: Room for Python's Py_buffer, of which the address is the first field. It has 11 fields, none longer than an address.
_VIEW = ctypes.c_void_p * 11


def _address_of(view: memoryview) -> int:
    """The address of the bytes of a view. They stay there as long as the view lives."""
    seen = _VIEW()
    ctypes.pythonapi.PyObject_GetBuffer(ctypes.py_object(view), ctypes.byref(seen), 0)
    address = int(seen[0] or 0)
    ctypes.pythonapi.PyBuffer_Release(ctypes.byref(seen))
    return address


def _bytes_in(named: Any) -> bytes:
    """The bytes of a file. Raises ValueError with its name if it ends with .gz and isn't whole, or is no such file."""
    import gzip
    import zlib

    path: str = os.fspath(named)
    if not path.endswith(".gz"):
        with open(path, "rb") as file:
            return file.read()
    try:
        with gzip.open(path) as packed:
            text = packed.read()
        if not text and not os.path.getsize(path):
            raise EOFError("the file is empty")
        return text
    except (EOFError, gzip.BadGzipFile, zlib.error) as it:
        raise ValueError(f"{path}: {it}") from None


def bytes_of(text: Any, call: str = "this call") -> Buffer:
    """The bytes of a text, or of the file that a Path names: what is packed in it, if the name ends with .gz. A str is one of
    ASCII; a letter beyond that becomes bytes that no text has."""
    if isinstance(text, os.PathLike):
        text = _bytes_in(text)
    if isinstance(text, str):
        text = text.encode("utf-8", "surrogatepass")
    if type(text) is bytes:
        return Buffer(text, text, len(text))
    try:
        view = memoryview(text)
    except TypeError:
        kind, is_value = type(text).__name__, _is_of(text, "dimacs.instances", "Value")
        hint = "pass dimacs.write(..) of it" if is_value else "for a file pass pathlib.Path(..)"
        raise TypeError(f"{call} takes texts, not {kind}: {hint}") from None
    if view.ndim != 1 or view.itemsize != 1 or not view.c_contiguous or not view.readonly:
        view = memoryview(view.tobytes())  # nobody writes to these, also while a call goes on after Ctrl-C
    return Buffer(view, _address_of(view) if len(view) else 0, len(view))


#: How an item of an array is named in an exception: by the name of the array, or by a function of its place, from 0.
Name = Union[str, Callable[[int], str]]


def item(name: Name, place: int) -> str:
    return f"{name}[{place}]" if isinstance(name, str) else name(place)


class Items(NamedTuple):
    """The type and range of an array's items."""

    code: str
    width: int
    least: int
    greatest: int
    #: The item for an infinite number, if one is allowed.
    infinity: int | None = None
    #: What may be done about a number that isn't whole.
    hint: str = ""


IDS = Items("I", 4, 0, 2**32 - 1)
NUMBERS = Items("q", 8, -(2**63), 2**63 - 1)
MARKS = Items("B", 1, 0, 2**8 - 1)
#: The capacity of an arc with inf. If a flow stays below it there, the same arcs have room left as if there were no limit, and
#: so it is as good as it would be then; else no certificate may take the arc for full.
UNLIMITED = 2**63 - 1
CAPACITIES = NUMBERS._replace(infinity=UNLIMITED)
LENGTHS = NUMBERS._replace(infinity=UNREACHED)
LIMITS = Items("Q", 8, 0, 2**64 - 1)
#: A value or a cost, which may have more than 64 bits.
VALUES = Items("q", 16, -(2**127), 2**127 - 1)

#: The limit if none is given.
LIMIT = 1_000_000

#: Six digits, and any exponent.
_ROUNDED = Context(prec=6, Emin=MIN_EMIN, Emax=MAX_EMAX)

#: The codes of buffers that have such items already, by their code here.
_SAME = {"I": ("I", "L", "=I", "@I", "<I"), "q": ("q", "l", "=q", "@q", "<q"), "B": ("B", "?", "<B", "<?")}


def rounded(number: Any) -> Decimal:
    """An int or a fraction to six digits, however great."""
    return _ROUNDED.divide(Decimal(number.numerator), Decimal(number.denominator)).normalize(_ROUNDED)


def written(number: Any) -> str:
    """A number as an exception shows it. Python doesn't write ints of thousands of digits."""
    try:
        return str(number)
    except ValueError:
        return f"about {rounded(number)}"


def _is_of(given: Any, module: str, name: str) -> bool:
    """Whether this is of a class of a module, which may not be imported."""
    return isinstance(given, getattr(sys.modules.get(module), name, ()))


def is_bool(number: Any) -> bool:
    return isinstance(number, bool) or _is_of(number, "numpy", "bool_")


def is_infinite(number: Any) -> bool:
    """Whether a number is inf. What is no number isn't compared with one, nor is a NaN of the decimal module."""
    is_compared = isinstance(number, Number) and not (isinstance(number, Decimal) and number.is_nan())
    return is_compared and bool(number == math.inf)


def _whole(number: Any, items: Items, name: str) -> int:
    if _is_of(number, "numpy", "bool_"):
        return int(number)
    if hasattr(number, "__index__"):
        return _as_int(operator.index, number, name)
    if not (hasattr(number, "is_integer") or isinstance(number, (Decimal, Rational))):
        raise TypeError(f"{name} is {number!r}, not a number")
    if items.infinity is not None and is_infinite(number):
        return items.infinity
    if not _is_whole(number):
        is_near = not (isinstance(number, Decimal) and number.is_nan()) and NUMBERS.least <= number <= NUMBERS.greatest
        raise ValueError(f"{name} is {written(number)}, not a whole number{items.hint if is_near else ''}")
    return _as_int(int, number, name)


def _as_int(convert: Callable[[Any], int], number: Any, name: str) -> int:
    """An object as an int. Arrays and times of numpy seem to be numbers until they are converted."""
    try:
        return convert(number)
    except TypeError:
        raise TypeError(f"{name} is {number!r}, not a number") from None


def _is_whole(number: Any) -> bool:
    if isinstance(number, Rational):
        return bool(number.denominator == 1)
    if isinstance(number, Decimal):
        return number.is_finite() and number == number.to_integral_value()
    return bool(number.is_integer())


def _from_numbers(numbers: Sequence[Any], items: Items, name: Name) -> Buffer:
    """An array of numbers, each of which is converted."""
    try:
        found = array.array(items.code, numbers)
    except (OverflowError, TypeError):
        found = array.array(items.code, (0,)) * len(numbers)
        for place, number in enumerate(numbers):
            if type(number) is not int or not items.least <= number <= items.greatest:
                number = number_of(number, items, item(name, place))
            found[place] = number
    return Buffer(found, *found.buffer_info())


def _from_numpy(numpy: Any, numbers: Any, items: Items, name: Name) -> Buffer:
    """Takes a numpy array as it is if its items have the width, else converts it."""
    test_mask(numbers, name)
    numbers = numpy.asarray(numbers)  # other subclasses have a least and a greatest item of their own
    wanted = numpy.dtype(items.code)
    kind = numbers.dtype.kind
    if numbers.ndim != 1:
        raise ValueError(f"{_array(name)} has {numbers.ndim} dimensions, and not one")
    if kind == "O":
        return _from_numbers(numbers.tolist(), items, name)
    if kind == "b":
        numbers = numbers.view(numpy.uint8)
    elif kind == "f":
        numbers = _whole_numpy(numpy, numbers, items, name)
    elif kind not in "iu":
        raise TypeError(f"{_array(name)} has items of {numbers.dtype}, which are no numbers")
    if numbers.dtype != wanted:
        if len(numbers) and not (items.least <= int(numbers.min()) and int(numbers.max()) <= items.greatest):
            return _from_numbers(numbers.tolist(), items, name)  # raises, and names the first
        fits = numbers.dtype.itemsize == items.width and numbers.dtype.isnative
        numbers = numbers.view(wanted) if fits else numbers.astype(wanted)
    numbers = numpy.require(numbers, requirements=["C_CONTIGUOUS", "ALIGNED"])
    return Buffer(numbers, numbers.ctypes.data if len(numbers) else 0, len(numbers))


def whole_floats(numpy: Any, numbers: Any, items: Items = NUMBERS) -> tuple[Any, Any]:
    """An array of floats as integers, and which of them are such integers: the others are 0."""
    # The ends of the ranges are no float16: that has inf there.
    numbers = numbers.astype(numpy.result_type(numbers.dtype, numpy.float64), copy=False)
    # The end is exact as a float, where the greatest of 64 bits isn't.
    fits = (numbers >= items.least) & (numbers < items.greatest + 1) & (numbers == numpy.floor(numbers))
    return numpy.where(fits, numbers, 0).astype(items.code), fits


def _whole_numpy(numpy: Any, numbers: Any, items: Items, name: Name) -> Any:
    whole, fits = whole_floats(numpy, numbers, items)
    if items.infinity is not None:
        infinite = numbers == math.inf
        whole[infinite], fits = items.infinity, fits | infinite
    if not fits.all():
        place = int(numpy.argmin(fits))
        number_of(numbers[place], items, item(name, place))  # raises
    return whole


def _array(name: Name) -> str:
    """The name of an array itself. A function of places may begin with it."""
    if isinstance(name, partial) and name.args:
        return str(name.args[0])
    return name if isinstance(name, str) else "an array"


def test_mask(numbers: Any, name: Name) -> None:
    """Raises TypeError for a masked array."""
    if _is_of(numbers, "numpy.ma", "MaskedArray"):
        raise TypeError(f"{_array(name)} is a masked array, and what is masked has no number")


class _Single(float):
    """A float of 32 bits, from one of 64, as an item of numpy is one: it stands for what it is the nearest such float to."""

    def __new__(cls, number: float) -> _Single:
        return super().__new__(cls, struct.unpack("f", struct.pack("f", number))[0])


def gone_through(numbers: Any, name: Name) -> list[Any]:
    """The items of an object one by one: those of numpy keep their type."""
    test_mask(numbers, name)
    if isinstance(numbers, (Mapping, Set)):
        raise TypeError(f"{_array(name)} is a {type(numbers).__name__}, whose items have no places as those of an array")
    is_plain = is_numpy(numbers) and numbers.dtype.char in "?bBhHiIlLqQd"  # whose items are those of Python
    if not hasattr(numbers, "__iter__") and not hasattr(numbers, "__getitem__"):
        raise TypeError(f"{_array(name)} is {numbers!r}, not an array")
    if "f" in (getattr(numbers, "typecode", None), getattr(numbers, "format", None)):  # of an array.array or a memoryview
        return list(map(_Single, numbers))
    return list(numbers.tolist() if is_plain else numbers)


def _items_of(numbers: Any, view: memoryview, name: Name) -> list[Any]:
    """The items of an object with a buffer. A view can't read each format, but the object may."""
    try:
        return view.tolist()
    except NotImplementedError:
        pass
    try:
        return list(numbers)
    except NotImplementedError:
        raise TypeError(f"{_array(name)} has items of the format {view.format}, which Python doesn't read") from None


def is_numpy(given: Any) -> bool:
    return _is_of(given, "numpy", "ndarray")


def is_single(given: Any) -> bool:
    """Whether this is one number, or nothing, where there has to be an array."""
    if type(given) in (list, tuple):
        return False
    return given is None or isinstance(given, Number) or is_numpy(given) and given.ndim == 0


def unlabelled(given: Any) -> Any:
    """An object of pandas as a numpy array: by its places, not by its labels. Others unchanged."""
    return given.to_numpy() if hasattr(given, "to_numpy") else given


def array_of(numbers: Any, items: Items, name: Name) -> Buffer:
    """The items of an array: as they lie in memory if a buffer has them so, else converted.

    Raises ValueError if one doesn't fit or isn't whole, and TypeError if they aren't numbers.
    """
    if type(numbers) in (list, tuple):
        return _from_numbers(numbers, items, name)
    numbers = unlabelled(numbers)
    if is_numpy(numbers):
        return _from_numpy(sys.modules["numpy"], numbers, items, name)
    try:
        view = memoryview(numbers)
    except TypeError:
        return _from_numbers(gone_through(numbers, name), items, name)
    if view.ndim != 1:
        raise ValueError(f"{_array(name)} has {view.ndim} dimensions, and not one")
    if view.format not in _SAME[items.code] or view.itemsize != items.width or not view.c_contiguous:
        return _from_numbers(_items_of(numbers, view, name), items, name)
    if isinstance(numbers, array.array):
        return Buffer(view, *numbers.buffer_info())
    address = _address_of(view) if len(view) else 0
    if address % items.width == 0:
        return Buffer(view, address, len(view))
    kept = array.array(items.code, view.tobytes())  # it isn't aligned to their width
    return Buffer(kept, *kept.buffer_info())


def test_array(numbers: Any, items: Items, name: str, wanted: str = "an array") -> None:
    """Raises TypeError for the bytes of a text, which may only be marks, and for one number, or nothing."""
    if isinstance(numbers, (bytes, bytearray)) and items is not MARKS:
        raise TypeError(f"{name} is a text, {numbers!r}, and no array of numbers")
    if is_single(numbers):
        raise TypeError(f"{name}: {'None' if numbers is None else 'one number'}, {wanted} is wanted")


def number_of(number: Any, items: Items, name: str) -> int:
    whole = number if type(number) is int else _whole(number, items, name)
    if not items.least <= whole <= items.greatest:
        is_parent = name.startswith("predecessors")  # with base=0 none is -1
        least = 0 if items.least == -1 and not is_parent else items.least
        width = "64 bits" if items.least < 0 and items.greatest == 2**63 - 1 else f"{least} to {items.greatest}"
        hint = "; base=0 numbers nodes from 0" if is_parent and items.least == 0 and whole == -1 else ""
        raise ValueError(f"{name} is {written(number)}, not a whole number of {width}{hint}")
    return whole


def value_of(claimed: Any, name: str) -> int:
    """A value or a cost that is claimed, as an int: numpy compares a float with an int by the nearest float."""
    if is_numpy(claimed):
        claimed = claimed[()]  # one of no dimension is a number
    if not is_single(claimed):
        raise TypeError(f"{name} is {claimed!r}, not a number")
    return number_of(claimed, VALUES, name)


#: Memory for items that a call hands out.
Room: TypeAlias = "array.array[int]"


def room_of(items: Items, length: int) -> Room:
    return array.array(items.code, (0,)) * length


def in_form_of(came: Any, kept: Room) -> Any:
    """Items that a call handed out: a numpy array or an array.array if the argument is one, else a list. Marks are bools, and
    in array.array bytes that aren't 0 if they are true."""
    are_marks = kept.typecode == MARKS.code
    if is_numpy(came):
        found = sys.modules["numpy"].frombuffer(kept, kept.typecode)
        return found != 0 if are_marks else found
    if isinstance(came, array.array):
        return kept
    return list(map(bool, kept)) if are_marks else kept.tolist()
