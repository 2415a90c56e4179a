"""The calls over arrays, from Python."""

import array
import ctypes
import functools
import pickle
import unittest
from unittest import mock

import dimacs
from dimacs import buffers, given
from shared import numpy, pandas, raised

INF = float("inf")
LAST = 2**63 - 1

# 1 to 4; a maximum flow has the value 6.
ENDS = ([1, 1, 2, 2, 3], [2, 3, 3, 4, 4])
MAX = (4, 1, 4, *ENDS, [4, 2, 2, 3, 5])
FLOW, SLOW = [4, 2, 1, 3, 3], [3, 2, 0, 3, 2]
CUT = [True, False, False, False]

# Four units from 1 to 4 cost 14 at least.
MIN = (4, *ENDS, [0] * 5, [4, 2, 2, 3, 5], [2, 2, 1, 3, 1], [4, 0, 0, -4])
LEAST, DEAR = [2, 2, 2, 0, 4], [2, 2, 1, 1, 3]
POTENTIALS = [4, 2, 1, 0]

GRAPH = (4, [1, 3, 4], [2, 4, 3], [5, 0, 0])
DISTANCES, PREDECESSORS = [0, 5, dimacs.UNREACHED, dimacs.UNREACHED], [0, 1, 0, 0]


def improved(certify, *words):
    """What is certified of a flow in the end, where each better one is asked of again."""
    *instance, flow = words
    while True:
        try:
            return certify(*instance, flow)
        except dimacs.NotOptimal as it:
            flow = it.better


#: No flow leaves node 1, which supplies 6 of 5 that can.
NARROW = (2, [1], [2], [0], [5], [1], [6, -6])


class Rooms(unittest.TestCase):
    def test_more_arcs_than_the_most_nodes(self):
        for certify, instance, claim, better in [
            (dimacs.certify_max_arrays, MAX, SLOW, FLOW),
            (dimacs.certify_min_arrays, MIN, DEAR, LEAST),
        ]:
            with mock.patch.object(given, "MOST_NODES", 4), self.assertRaises(dimacs.NotOptimal) as caught:
                certify(*instance, claim)
            self.assertEqual(len(caught.exception.better), len(better))


class Misuse(unittest.TestCase):
    def test_buffers_that_are_not_read(self):
        doubles = memoryview((ctypes.c_double.__ctype_be__ * 5)(*FLOW))
        letters = (ctypes.c_char * 5)(*b"42133")
        for flows in (doubles, letters, array.array("u", "42133")):
            with self.subTest(type(flows)), self.assertRaises(TypeError):
                dimacs.judge_max_arrays(*MAX, flows, CUT)


class Forms(unittest.TestCase):
    """The same arrays in other forms."""

    def judged(self, numbers, ids, marks):
        tails, heads = map(ids, ENDS)
        words = 4, 1, 4, tails, heads, numbers(MAX[5]), numbers(FLOW), marks(CUT)
        self.assertEqual(dimacs.judge_max_arrays(*words).value, 6)

    def all_judged(self, of, *kinds):
        """Judges arrays that `of` makes of items and a kind, by the kinds of numbers, of nodes and of marks."""
        for some in kinds:
            self.judged(*(functools.partial(of, it) for it in some))

    def test_a_buffer_that_is_no_sequence(self):
        def packed(items):
            return pickle.PickleBuffer(bytes(items))

        self.judged(packed, lambda items: array.array("I", items), packed)

    def test_lists_and_buffers(self):
        def read_only(code, items):
            return memoryview(array.array(code, items)).toreadonly()

        def spread(code, items):
            return memoryview(array.array(code, [it for item in items for it in (item, 77)]))[::2]

        self.all_judged(array.array, "qIB", "lLB", "ihb", "ddq")
        self.all_judged(read_only, "qIB")
        self.all_judged(spread, "qIB")
        self.judged(list, list, list)
        self.judged(tuple, iter, bytes)
        self.judged(list, list, bytearray)
        self.judged(lambda items: map(float, items), one_by_one, one_by_one)

    def test_arrays_of_ctypes(self):
        self.all_judged(
            lambda kind, items: (kind * len(items))(*items),
            (ctypes.c_int64, ctypes.c_uint32, ctypes.c_uint8),
            (ctypes.c_longlong, ctypes.c_uint, ctypes.c_bool),
            (ctypes.c_int32, ctypes.c_int16, ctypes.c_int8),
            (ctypes.c_double, ctypes.c_float, ctypes.c_int64),
            (ctypes.c_int64.__ctype_be__, ctypes.c_uint32.__ctype_be__, ctypes.c_uint16.__ctype_be__),
        )

    def aligned(self, view):
        """Judges views of arrays with their first item at each offset, few of which are multiples of its width."""
        for offset in range(8):

            def of(code, items):
                return view(bytes(offset) + array.array(code, items).tobytes(), code, offset)

            for items, code in [(buffers.NUMBERS, "q"), (buffers.IDS, "I")]:
                found = buffers.array_of(of(code, FLOW), items, "flows")
                self.assertEqual((found.address % items.width, found.length), (0, len(FLOW)))
            self.all_judged(of, "qIB")

    def test_views_at_any_address(self):
        self.aligned(lambda content, code, offset: memoryview(content)[offset:].cast(code))

    @unittest.skipUnless(numpy, "numpy isn't there")
    def test_numpy_at_any_address(self):
        self.aligned(lambda content, code, offset: numpy.frombuffer(content, code, offset=offset))

    @unittest.skipUnless(pandas, "pandas isn't there")
    def test_pandas(self):
        def of(kind, items):
            return pandas.Series(items, dtype=kind, index=range(len(items), 0, -1))

        def column(kind, items):
            return pandas.DataFrame({"a": items, "b": [77] * len(items)}, dtype=kind)["a"]

        self.all_judged(of, ("int64", "uint32", "bool"), ("Int64", "UInt32", "boolean"))
        self.all_judged(of, ("float64", "Float32", "uint8"), ["object"] * 3)
        self.all_judged(column, ("int64", "uint32", "uint8"))
        self.judged(pandas.Index, pandas.Index, pandas.array)

    @unittest.skipUnless(pandas, "pandas isn't there")
    def test_pandas_that_does_not_fit(self):
        for flows, kind in [
            (pandas.DataFrame({"flow": FLOW}), ValueError),
            (pandas.DataFrame([FLOW], columns=FLOW), ValueError),
            (pandas.Series([*FLOW[:4], None], dtype="Int64"), TypeError),
            (pandas.Series([*FLOW[:4], None]), ValueError),
            (pandas.Series(FLOW, dtype="string"), TypeError),
            (pandas.Series(FLOW, dtype="datetime64[ns]"), TypeError),
        ]:
            with self.subTest(flows), self.assertRaises(kind):
                dimacs.judge_max_arrays(*MAX, flows, CUT)

    @unittest.skipUnless(numpy, "numpy isn't there")
    def test_numpy(self):
        def of(kind, items):
            return numpy.array(items, kind)

        self.all_judged(
            of,
            ("int64", "uint32", "uint8"),
            ("int64", "uint32", "bool"),
            ("uint64", "int64", "int8"),
            ("float64", "float32", "float64"),
            (">i8", ">u4", "uint16"),
            *([kind] * 3 for kind in ("int32", "float16", "longdouble", "object")),
        )
        self.all_judged(lambda kind, items: numpy.repeat(of(kind, items), 2)[::2], ("int64", "uint32", "bool"))
        self.judged(lambda items: list(of("uint8", items)), list, lambda items: list(map(bool, of("bool", items))))

    def test_arrays_come_back(self):
        found = dimacs.solve_max_arrays(*MAX[:-1], array.array("q", MAX[-1])).flows
        better = raised(dimacs.NotOptimal, dimacs.certify_max_arrays, *MAX, array.array("q", SLOW)).better
        self.assertEqual([type(it) for it in (found, better)], [array.array] * 2)
        self.assertEqual(dimacs.certify_max_arrays(*MAX, array.array("q", FLOW)).inside, array.array("B", CUT))

    @unittest.skipUnless(numpy, "numpy isn't there")
    def test_numpy_comes_back(self):
        """agree.py compares the numbers."""
        ids, caps = [numpy.array(it, numpy.uint32) for it in ENDS], numpy.array(MAX[-1])
        max_graph, min_graph = (4, 1, 4, *ids, caps), (MIN[0], *map(numpy.array, MIN[1:]))
        not_least = raised(dimacs.NotOptimal, dimacs.certify_min_arrays, *MIN, numpy.array(DEAR, "int32"))
        feasible = raised(dimacs.Feasible, dimacs.certify_infeasible_arrays, *min_graph)
        paths = dimacs.solve_paths_arrays(4, *ids, numpy.array([5, 1, 0, 2, 3]), 1)
        shown_paths = dimacs.certify_paths_arrays(*GRAPH, 1, numpy.array([0, 5, INF, INF]))
        nothing = numpy.zeros(0, "int64")
        for found, kind, wanted in [
            (dimacs.solve_max_arrays(*max_graph).flows, "int64", FLOW),
            (dimacs.solve_max_arrays(*max_graph).inside, "bool", CUT),
            (dimacs.certify_max_arrays(*MAX, numpy.array(FLOW)).inside, "bool", CUT),
            (dimacs.certify_min_arrays(*MIN, numpy.array(LEAST)).potentials, "int64", [3, 1, 0, -1]),
            (dimacs.certify_min_arrays(0, *[nothing] * 6, nothing).potentials, "int64", []),
            (not_least.better, "int64", LEAST),
            (dimacs.certify_infeasible_arrays(NARROW[0], *map(numpy.array, NARROW[1:])).inside, "bool", [True, False]),
            (feasible.flow, "int64", feasible.flow.tolist()),
            (paths.distances, "int64", [0, 5, 1, 4]),
            (paths.predecessors, "uint32", [0, 1, 1, 3]),
            (shown_paths.predecessors, "uint32", PREDECESSORS),
        ]:
            self.assertEqual((str(found.dtype), found.tolist()), (kind, wanted))

    @unittest.skipUnless(numpy, "numpy isn't there")
    def test_numpy_that_does_not_fit(self):
        kinds = ("float16", "float32", "longdouble", "float64")
        past = [numpy.full(5, end, kind) for end in (INF, -INF) for kind in kinds], numpy.full(5, 2.0**63)
        for flows in *past[0], past[1], numpy.array(FLOW) + 0.5, numpy.array([2**63] * 5, "object"):
            with self.subTest(flows.dtype), self.assertRaises(ValueError):
                dimacs.judge_max_arrays(*MAX, flows, CUT)
        for tails in (numpy.array([2**32 + 1, 1, 2, 2, 3]), numpy.array([-1, 1, 2, 2, 3], "int8")):
            with self.subTest(tails.dtype), self.assertRaises(ValueError):
                dimacs.judge_max_arrays(4, 1, 4, tails, *MAX[4:], FLOW, CUT)
        self.assertRaises(TypeError, dimacs.judge_max_arrays, *MAX, numpy.array(FLOW, "complex128"), CUT)

    @unittest.skipUnless(numpy, "numpy isn't there")
    def test_numpy_with_masks(self):
        for kind in ("int64", "int32", "float64"):
            for mask in ([0] * 5, [0, 0, 0, 0, 1]):
                for scale in None, 10, "exact":
                    words = *MAX, numpy.ma.array(FLOW, kind, mask=mask), CUT
                    self.assertRaisesRegex(TypeError, "masked", dimacs.judge_max_arrays, *words, scale=scale)
        tails = numpy.ma.array([1, 1, 2, 2, 2**32 + 3], mask=[0, 0, 0, 0, 1])
        self.assertRaises(TypeError, dimacs.judge_max_arrays, 4, 1, 4, tails, *MAX[4:], FLOW, CUT)

    @unittest.skipUnless(numpy, "numpy isn't there")
    def test_numpy_with_its_own_ends(self):
        class Narrow(numpy.ndarray):
            def min(self, *words, **named):
                return numpy.int64(1)

            max = min

        tails = numpy.array([1, 1, 2, 2, 2**32 + 3]).view(Narrow)
        self.assertRaises(ValueError, dimacs.judge_max_arrays, 4, 1, 4, tails, *MAX[4:], FLOW, CUT)
        self.judged(lambda items: numpy.array(items, "int32").view(Narrow), list, list)

    def test_infinite_distances(self):
        for distances in ([0, 5.0, INF, INF], [0, 5, LAST, INF]):
            self.assertEqual(dimacs.certify_paths_arrays(*GRAPH, 1, distances).predecessors, PREDECESSORS)


def one_by_one(items):
    """The items one by one, and not at once."""
    yield from items


if __name__ == "__main__":  # tests/targets.py runs it through node
    unittest.main()
