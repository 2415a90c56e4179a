"""What tests share: modules of others, each of which is None if it isn't there, numbers near the ends of types in any form, and
how an exception is caught."""

import array
import importlib
import itertools
import pickle
import random
import unittest

from instances import text


def found(name):
    try:
        return importlib.import_module(name)
    except ImportError:
        return None


networkx, numpy, pandas = map(found, ("networkx", "numpy", "pandas"))
csgraph, optimize, sparse = map(found, ("scipy.sparse.csgraph", "scipy.optimize", "scipy.sparse"))

ENDS = (0, 2**31, 2**32, 2**53, 2**62, 2**63, 2**64, 10**18)
INTEGERS = [f"{sign}int{bits}" for bits in (8, 16, 32, 64) for sign in ("", "u")]


def near(chance, ends=ENDS):
    """A number at most 3 from one of the ends."""
    return chance.choice(ends) + chance.randrange(-3, 4)


def fits(numbers, bits=64):
    return all(-(2 ** (bits - 1)) <= it < 2 ** (bits - 1) for it in numbers)


def numpy_of(chance, numbers):
    """An array of numpy, of any type that holds these numbers."""
    kinds = [it for it in INTEGERS if all(numpy.iinfo(it).min <= number <= numpy.iinfo(it).max for number in numbers)]
    kinds += ["float64"] * all(int(float(it)) == it for it in numbers)
    return numpy.array(numbers, chance.choice(kinds + ["object"]))


def form(chance, numbers):
    """The same numbers in another form."""
    forms = [list, tuple]
    forms += [lambda items: array.array("q", items)] * fits(numbers)
    forms += [lambda items: numpy_of(chance, items)] * (numpy is not None)
    return chance.choice(forms)(numbers)


def cut_text(inside):
    """The text of a set, by whether each node is inside."""
    members = [node for node, is_inside in enumerate(inside, 1) if is_inside]
    return text(f"p cut {len(inside)} {len(members)}", *(f"u {node}" for node in members))


def solution_text(value, ends, flows):
    """The text of a flow with a value, by the ends of each arc."""
    return text(f"s {value}", *(f"f {tail} {head} {it}" for (tail, head), it in zip(ends, flows)))


def draws(seed, count):
    """What draws random numbers, so many times: the same ones in each run."""
    return itertools.repeat(random.Random(seed), count)


def raised(kind, call, *words, **more):
    """The exception of a kind that a call raises."""
    try:
        call(*words, **more)
    except kind as it:
        return it
    raise AssertionError(f"it raised no {kind}")


class Said(unittest.TestCase):
    def says(self, kind, message, call, *words, **more):
        """The exception that a call raises, which is of exactly this kind, and says this, also once it was pickled."""
        it = raised(kind, call, *words, **more)
        again = pickle.loads(pickle.dumps(it))
        self.assertEqual((type(it), str(it)), (kind, message))
        self.assertEqual((type(again), str(again), repr(again)), (kind, message, repr(it)))
        return it
