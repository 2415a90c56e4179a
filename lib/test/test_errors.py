"""What exceptions say, whole: one row for each."""

import collections
import importlib.util
import pathlib
import pickle
import tempfile
import unittest
from decimal import Decimal
from fractions import Fraction
from functools import partial

import dimacs
from shared import Said, networkx, numpy, pandas, raised

INF, NAN, LAST = float("inf"), float("nan"), 2**63 - 1
NOT_WHOLE = "not a whole number: scale= takes multiples of a unit"
TEXT = "p max 2 1\nn 1 s\nn 2 t\na 1 2 3\n"
MAX = 3, 1, 3, [1, 2], [2, 3], [5, 4]
MIN = 2, [1, 1], [2, 2], [1, 0], [5, 5], [3, 7], [6, -6]
PATHS = 3, [1, 2], [2, 3], [5, 4]

PLACELESS = {0: 4, 1: 4}, collections.OrderedDict({0: 4, 1: 4}), {4, 5}, frozenset((4, 5)), {4: 1, 5: 1}.keys()


def changed(words, place, item):
    return (*words[:place], item, *words[place + 1 :])


def solve(number, scale=None, base=1):
    """A maximum flow with this capacity of the second arc."""
    return dimacs.solve_max_arrays(*changed(MAX, 5, [5, number]), scale=scale, base=base)


class Errors(Said):
    def rows(self, kind, *rows):
        for message, call, *words in rows:
            with self.subTest(message):
                it = self.says(kind, message, call, *words)
                if message.startswith(("arc ", "node ")):
                    self.assertEqual((it.text, it.line, it.field), (None, None, None))


class Arrays(Errors):
    def test_refused(self):
        """tests/rows/calls has what is said of most tests."""
        unmet = "certificate 0 0 NotViolated: the set supplies 6, and from 1 to 10 can leave it"
        self.says(dimacs.Refused, unmet, dimacs.judge_infeasible_arrays, *MIN, [1, 0])
        most = 4 * 10**18
        message, words = f"arc 1 CostRange: the cost up to it is {most * most}", ([0], [most], [most], [most, -most], [most])
        self.says(dimacs.Refused, message, dimacs.certify_min_arrays, 2, [1], [2], *words)

    def test_not_optimal(self):
        certify_max = dimacs.certify_max_arrays
        better = "its value is 1, and that of a better flow 3"
        self.says(dimacs.NotOptimal, f"solution 1 2 NotMaximum: {better}", dimacs.certify_max, TEXT, "s 1\nf 1 2 1\n")
        it = raised(dimacs.NotOptimal, certify_max, *MAX, [3, 3])
        self.assertEqual((it.value, it.better_value), (3, 4))
        shown = "NotOptimal('NotMaximum', text='solution', line=0, field=0, numbers={'value': 3, 'better_value': 4}, better=[4, 4])"
        self.assertEqual(repr(it), shown)

    def test_numbers(self):
        flows, certify, judge, last = [0, 4], dimacs.certify_max_arrays, dimacs.judge_max_arrays, LAST
        far = partial(dimacs.certify_paths_arrays, *PATHS, 1, scale=10)
        spread = dimacs.spread_max_arrays
        range_32, range_64 = "not a whole number of 0 to 4294967295", "not a whole number of 64 bits"
        self.rows(
            ValueError,
            ("flows[1] is nan, not a whole number", certify, *MAX, [0, NAN]),
            (f"flows[1] is 2.5, {NOT_WHOLE}", certify, *MAX, [0, 2.5]),
            (f"flows[0] is 5/2, {NOT_WHOLE}", certify, *MAX, [Fraction(5, 2), 0]),
            (f"flows[0] is 3.5, {NOT_WHOLE}", certify, *MAX, [Decimal("3.5"), 0]),
            ("flows[0] is inf, not a whole number", certify, *MAX, [INF, 0]),
            (f"flows[1] is 1e+30, {range_64}", certify, *MAX, [0, 1e30]),
            (f"flows[1] is {-last - 2}, {range_64}", certify, *MAX, [3.0, -last - 2]),
            (f"caps[0] is {last + 1}, {range_64}", certify, *changed(MAX, 5, [2**63, 0]), flows),
            (f"tails[1] is -1, {range_32}", certify, *changed(MAX, 3, [1, -1]), flows),
            (f"tails[0] is 4294967297, {range_32}", certify, *changed(MAX, 3, [2**32 + 1, 1]), flows),
            (f"nodes is -1, {range_32}", certify, *changed(MAX, 0, -1), flows),
            (f"nodes is 4294967296, {range_32}", certify, *changed(MAX, 0, 2**32), flows),
            ("source is 1.5, not a whole number", certify, *changed(MAX, 1, 1.5), flows),
            ("distances[1] is -inf, not a whole number", dimacs.certify_paths_arrays, *PATHS, 1, [0, -INF, 0]),
            ("inside[2] is 256, not a whole number of 0 to 255", judge, *MAX, flows, [1, 0, 256]),
            ("limit is -1, not a whole number of 0 to 18446744073709551615", dimacs.solve_max, TEXT, -1),
            ("limit is -1, not a whole number of 0 to 18446744073709551615", dimacs.solve_max_arrays, *MAX, -1),
            ("base is 2, and has to be 0 or 1", lambda: certify(*MAX, flows, base=2)),
            (f"distances[1] is {last}/10, not below {last}/10", far, [0, Fraction(last, 10), 9]),
        )
        no_places = "whose items have no places as those of an array"
        self.rows(
            TypeError,
            ("caps: one number, an array of 2 is wanted", certify, *changed(MAX, 5, 5), flows),
            ("tails: one number, an array is wanted", certify, *changed(MAX, 3, 5), flows),
            ("flows: None, an array of 2 is wanted", certify, *MAX, None),
            ("flows[0] is '4', not a number", certify, *MAX, ["4", 0]),
            ("source is '1', not a number", certify, *changed(MAX, 1, "1"), flows),
            ("caps is a text, b'5', and no array of numbers", certify, *changed(MAX, 5, b"5"), flows),
            ("sums is a text, bytearray(b'5'), and no array of numbers", spread, *MAX, [1], [2], bytearray(b"5")),
            *((f"flows is a {type(it).__name__}, {no_places}", certify, *MAX, it) for it in PLACELESS),
            (f"inside is a dict, {no_places}", judge, *MAX, flows, {3: False, 1: True, 2: False}),
        )

    def test_numbers_that_are_not_easily_shown(self):
        """Exceptions name the item whatever stands there, with each scale."""
        long, shown, third = 10**5000, "about 1E+5000", "about 3.33333E+4999"
        no, nan, wide = object(), Decimal("sNaN"), "with the least common denominator 1 it has more than 64 bits"

        values = [
            (f"caps[1] is {shown}, not a whole number of 64 bits", solve, long),
            (f"caps[1] is {third}, not a whole number", solve, Fraction(long, 3)),
            (f"caps[1] is {shown}, which has more than 64 bits in units of 1/10", solve, long, 10),
            (f"caps[1] is {third}, which has more than 64 bits in units of 1/10", solve, Fraction(long, 3), 10),
            (f"caps[1] is 1E+5000: {wide}", solve, long, "exact"),
            ("caps[1] is sNaN, not a whole number", solve, nan),
            ("caps[1] is sNaN, not a finite number", solve, nan, 10),
            (f"limit is {shown}, not a whole number of 0 to 18446744073709551615", dimacs.solve_max_arrays, *MAX, long),
            ("scale is NaN, not a finite number", solve, 4, Decimal("NaN")),
            ("scale is Infinity, not a finite number", solve, 4, (10, Decimal("inf"))),
            ("scale is about -1E+5000, and has to be above 0", solve, 4, -long),
            ("caps[0] is 5, which has more than 64 bits in units of about 1E-5000", solve, 4, long),
            (f"base is {shown}, and has to be 0 or 1", solve, 4, None, long),
        ]
        self.rows(ValueError, *values)
        kinds = "pass an int or a Fraction, by which numbers are multiplied, or a Decimal, their unit"
        scales = [[10], 1j, no, (10, None), True, INF, 2.5, b"1"]
        bases = [0.0, True, None, "0", Decimal(0), no]
        self.rows(
            TypeError,
            *((f"caps[1] is {no!r}, not a number", solve, no, scale) for scale in (None, 10, "exact")),
            *((f"scale is {it[1] if type(it) is tuple else it!r}: {kinds}", solve, 4, it) for it in scales),
            *((f"base is {it!r}, and has to be the int 0 or 1", solve, 4, None, it) for it in bases),
            (f"caps is {no!r}, not an array", dimacs.solve_max_arrays, *changed(MAX, 5, no)),
        )

    @unittest.skipUnless(numpy, "no numpy")
    def test_numbers_of_numpy(self):
        wide = numpy.zeros(20)
        wide[17] = NAN
        graph = 2, 1, 2, [1] * 20, [2] * 20, [3] * 20
        certify, past = dimacs.certify_max_arrays, f"flows[1] is {2**63}, not a whole number of 64 bits"
        from_zero = "tails[0] is {}, not a whole number of 0 to 4294967294"

        def labels(first=-1, **base):
            return dimacs.Labels(0, [0, 3], [first, 0], **base)

        def from_0(tails, source=0):
            return dimacs.solve_max_arrays(2, source, 1, tails, [1, 0], [3, 3], base=0)

        self.rows(
            ValueError,
            ("flows[17] is nan, not a whole number", certify, *graph, wide),
            (past, certify, *MAX, numpy.array([0, 2**63], "uint64")),
            *((from_zero.format(it), from_0, kind([it, 0])) for kind in (list, numpy.array) for it in (2**32 - 1, LAST, -2)),
            ("source is 4294967295, not a whole number of 0 to 4294967294", from_0, [0, 1], 2**32 - 1),
            ("predecessors[0] is -1, not a whole number of 0 to 4294967295; base=0 numbers nodes from 0", labels),
            ("predecessors[0] is -2, not a whole number of -1 to 4294967294", partial(labels, -2, base=0)),
            ("flows has 2 dimensions, and not one", certify, *MAX, numpy.zeros((2, 2))),
        )
        single = changed(MAX, 5, numpy.array(5))
        self.says(TypeError, "caps: one number, an array of 2 is wanted", certify, *single, [0, 0])

    @unittest.skipUnless(numpy, "no numpy")
    def test_numbers_of_numpy_and_pandas(self):
        pandas = importlib.util.find_spec("pandas") and importlib.import_module("pandas")
        no = [numpy.array([5]), numpy.complex128(1)]
        no += [pandas.NA, pandas.NaT, pandas.Series([5])] if pandas else []

        time = numpy.timedelta64(5, "s")
        for scale in None, 10, "exact":
            self.rows(TypeError, *((f"caps[1] is {it!r}, not a number", solve, it, scale) for it in [*no, time]))
        self.rows(TypeError, *((f"base is {it!r}, and has to be the int 0 or 1", solve, 4, None, it) for it in no))
        for scale in 10, "exact":
            nan = "caps[1] is nan, not a finite number"
            self.rows(ValueError, *((nan, solve, kind(NAN), scale) for kind in (numpy.longdouble, numpy.float16)))
            self.assertEqual(solve(numpy.longdouble(2.5), scale).value, Fraction(5, 2))

    def test_past_limit(self):
        solve, range_3 = dimacs.solve_max_arrays, "nodes are numbered from 1, and there are 3"
        self.rows(
            dimacs.PastLimit,
            (f"arc 1 NodeRange: it goes from 0 to 2; {range_3}; base=0 numbers them from 0", solve, *changed(MAX, 3, [0, 2])),
            (f"node 0 NodeRange: {range_3}; base=0 numbers them from 0", solve, *changed(MAX, 1, 0)),
            (f"arc 2 NodeRange: it goes from 2 to 4; {range_3}", solve, *MAX[:4], [2, 4], [5, INF]),
        )

    def test_unbounded(self):
        message = "arcs without a limit lead from the source to the sink: 1, 2"
        self.says(dimacs.Unbounded, message, dimacs.solve_max_arrays, *changed(MAX, 5, [INF, INF]))
        message = "a cycle of arcs without a limit costs less than nothing: 2, 3"
        words = 2, [1, 1, 2], [2, 2, 1], [0] * 3, [4, INF, INF], [0, 1, -2], [0, 0]
        self.says(dimacs.Unbounded, message, dimacs.solve_min_arrays, *words)
        long = 20, 1, 20, list(range(1, 20)), list(range(2, 21)), [INF] * 19
        message = "arcs without a limit lead from the source to the sink: 1, 2, 3, 4, 5, 6, 7, 8, .."
        self.says(dimacs.Unbounded, message, dimacs.solve_max_arrays, *long)

    def test_gave_up(self):
        judged = 2, [1], [2], [0], [5], [3], [4, -4]
        wide = 4, [1, 2, 3], [2, 3, 4], [0] * 3, [2] * 3, [2**63 - 1] * 3, [1, 0, 0, -1], [1] * 3
        apart = "two of the potentials that were found are 2^64 or more apart; others may fit"
        less = "limit=0 steps led to better flows, or the least cost"
        text = "p min 2 1\nn 1 4\nn 2 -4\na 1 2 0 5 3\n"
        self.rows(
            dimacs.GaveUp,
            ("limit=0 flows that aren't maximum were found", dimacs.solve_max_arrays, *MAX, 0),
            ("limit=1 flows that aren't maximum were found", dimacs.solve_max_arrays, *MAX, 1),
            ("limit=0 flows that aren't maximum were found", dimacs.solve_max, TEXT, 0),
            (f"{less} or a potential is out of range", dimacs.solve_min_arrays, *judged, 0),
            (f"{less} is out of range", dimacs.solve_min, text, 0),
            (apart, dimacs.certify_min_arrays, *wide),
            ("a distance is 2^63 - 1 or more", dimacs.solve_paths_arrays, 3, [1, 2], [2, 3], [2**62] * 2, 1),
        )

    def test_supplies_that_do_not_add_up(self):
        self.says(dimacs.Feasible, "a flow is feasible", dimacs.certify_infeasible_arrays, *MIN)
        words = 2, [1], [2], [0], [9], [1], [5, -3]
        message = "no flow is feasible: supplies add up to 2, and not to 0"
        it = self.says(dimacs.Infeasible, message, dimacs.solve_min_arrays, *words)
        self.assertEqual((it.printed, it.explain().split("\n")[0]), ("v infeasible", "v infeasible"))
        with self.assertRaisesRegex(dimacs.Infeasible, "add up to 1/5, and"):
            dimacs.solve_min_arrays(*words[:3], [0], [1], [1], [0.5, -0.3], scale=10)

    @unittest.skipUnless(numpy and pandas and networkx, "no numpy, pandas or networkx")
    def test_shown_and_compared(self):
        """Over each form of numbers exceptions have a repr, and answers are equal if their items are."""
        edges = pandas.DataFrame({"u": [1, 2], "v": [2, 3], "capacity": [5, 4], "flow": [3, 3]})
        graph = networkx.from_pandas_edgelist(edges, "u", "v", "capacity", networkx.DiGraph)
        frame, never = (dimacs.from_frame(edges, "u", "v", capacity="capacity", supply={1: it, 3: -it}) for it in (4, 6))
        certify, flow = dimacs.certify_max_arrays, {1: {2: 3}, 2: {3: 3}}
        rows = [("NotO", frame.certify_max, 1, 3, "flow"), ("Infe", never.solve_min), ("NotO", dimacs.certify_networkx_max, graph, 1, 3, flow)]
        solved = dimacs.solve_max_arrays(*MAX)
        self.assertEqual(solved, (4, pandas.Index([4, 4]), [True, True, False]))
        self.assertEqual(solved, (4, pandas.Series([4, 4]), [True, True, False]))
        self.assertNotEqual(solved, (4, pandas.Series([4, 4], [2, 1]), [True, True, False]))
        for of in list, numpy.array, pandas.Series:
            rows += [("NotO", certify, *MAX, of([3, 3])), ("Refu", certify, *MAX, of([6, 6]))]
            least = 2, [1], [2], [0], of([9]), [3]
            rows += [("Infe", dimacs.solve_min_arrays, *least, [10, -10]), ("Feas", dimacs.certify_infeasible_arrays, *least, [6, -6])]
            one, again, other = (dimacs.solve_max_arrays(*MAX[:5], of([5, cap])) for cap in (4, 4, 3))
            self.assertTrue(one == again and not one != again and one != other and one == (4, [4, 4], [True, True, False]))
        for begins, call, *words in rows:
            self.assertTrue(repr(raised(dimacs.Refused, call, *words)).startswith(begins))
        self.assertTrue(frame.solve_max(1, 3) == frame.solve_max(1, 3) != frame.solve_max(1, 2))
        self.assertEqual(len({dimacs.certify_max(TEXT, "s 3\nf 1 2 3\n") for _ in range(2)}), 1)

    def test_names_of_answers(self):
        """An answer has the names of what it is about, and keeps them if it is pickled."""
        is_max, is_min = dimacs.solve_max_arrays(*MAX), dimacs.solve_min_arrays(*MIN)
        is_paths = dimacs.certify_paths_arrays(*PATHS, 1, [0, 5, 9])
        texts = dimacs.certify_max(TEXT, "s 3\nf 1 2 3\n")
        names = {"inside", "potentials", "predecessors", "flows", "distances"}
        for answer, wanted in (
            (is_max, {"inside", "flows"}),
            (is_min, {"potentials", "flows"}),
            (is_paths, {"predecessors"}),
            (texts, {"inside"}),
            (dimacs.Certified(1, None), {"inside", "potentials", "predecessors"}),
        ):
            for it in answer, pickle.loads(pickle.dumps(answer)):
                self.assertEqual({name for name in names if hasattr(it, name)}, wanted)
        with self.assertRaisesRegex(AttributeError, "about max, and only one about min has that"):
            is_max.potentials


class Scales(Errors):
    def test_what_is_no_multiple(self):
        def certify(caps, scale):
            return dimacs.certify_max_arrays(*changed(MAX, 5, caps), [0, 0], scale=scale)

        wide = "with the least common denominator 1 it has more than 64 bits"
        self.rows(
            ValueError,
            ("caps[1] is 0.125, not a multiple of 1/100: the nearest is 0.12", certify, [1, 0.125], 100),
            ("caps[0] is 1/3, not a multiple of 1/100: the nearest is 0.33", certify, [Fraction(1, 3), 1], 100),
            ("caps[0] is nan, not a finite number", certify, [NAN, 1], 100),
            ("caps[1] is 1e+18, which has more than 64 bits in units of 1/100", certify, [1, 1e18], 100),
            (f"caps[1] is 1e+30: {wide}", certify, [1, 1e30], "exact"),
        )
        pair = "scale is (1,): a pair is one for amounts and one for costs"
        self.rows(TypeError, ("caps[0] is 'x', not a number", certify, ["x", 1], 100), (pair, certify, [1, 1], (1,)))


class Texts(Errors):
    def test_texts(self):
        certify = dimacs.certify_max
        with tempfile.TemporaryDirectory() as folder:
            name = pathlib.Path(folder, "net.max")
            name.write_text(TEXT)
            self.assertEqual(certify(name, "s 3\nf 1 2 3\n"), (3, "p cut 2 1\nu 1\n"))
            message = f"certify_max takes texts, and {str(name)!r} names a file: pass pathlib.Path({str(name)!r})"
            self.says(ValueError, message, certify, str(name), "s 3\n")
            self.says(ValueError, message.replace("certify_max", "show"), dimacs.show, "max", str(name))
        message = "certify_max takes texts, and 'net.mx' is none, but may be a name: pass pathlib.Path('net.mx')"
        self.says(ValueError, message, certify, "net.mx", "s 3\n")
        self.says(dimacs.Refused, "instance 2 0 EndMissing", certify, "p max 2 1", "s 3\n")
        kinds = "max, min, gr, query, solution, cut, pot, dist, distances"
        self.says(ValueError, f"'graph' is no kind of text: these are {kinds}", dimacs.convert, "graph", "")
        for given in (None, 5, ["p max"]):
            message = f"certify_max takes texts, not {type(given).__name__}: for a file pass pathlib.Path(..)"
            self.says(TypeError, message, certify, given, "s 3\n")
        self.says(dimacs.Refused, "instance 1 2 BadWord", dimacs.judge_min, TEXT, "s 3\n", "")


@unittest.skipUnless(networkx, "no networkx")
class Graphs(Errors):
    def graph(self, **data):
        made = networkx.DiGraph([("Leeds", "York", data)])
        networkx.set_node_attributes(made, {"Leeds": -30, "York": 30}, "demand")
        return made

    def test_what_minimum_cut_returns(self):
        graph = self.graph(capacity=3)
        value, sides = networkx.minimum_cut(graph, "Leeds", "York")
        words = graph, "Leeds", "York", {"Leeds": {"York": 3}}
        self.assertEqual(dimacs.judge_networkx_max(*words, sides[0]).value, value)
        for side in sides, (value, sides):
            message = f"side is {side!r}, and has to be a set of nodes: the first of the two of minimum_cut"
            self.says(TypeError, message, dimacs.judge_networkx_max, *words, side)

    def test_edges_without_a_capacity(self):
        graph = self.graph(capcity=3)
        message = "arcs without a limit lead from the source to the sink: ('Leeds', 'York')"
        self.says(networkx.NetworkXUnbounded, message, dimacs.solve_networkx_max, graph, "Leeds", "York")
        graph.nodes["York"]["demand"] = 31
        message = "no flow is feasible: demands add up to 1, and not to 0"
        self.says(dimacs.Infeasible, message, dimacs.solve_networkx_min, graph)

    def test_what_is_shown(self):
        flow, message = {"Leeds": {"York": 31}}, "node 'Leeds' Balance: 31 leaves, its supply is 30"
        it = self.says(dimacs.Refused, message, dimacs.certify_networkx_min, self.graph(), flow)
        self.assertEqual(repr(it), "Refused('Balance', node='Leeds', numbers={'leaves': 31, 'supply': 30})")

    def test_arguments(self):
        certify, name = dimacs.certify_networkx_max, "of edge ('Leeds', 'York')"
        certify_min, certify_paths = dimacs.certify_networkx_min, dimacs.certify_networkx_paths
        ends = "Leeds", "York", {}
        far = f"distance of node 'York' is {2**63 - 1}, not below 2^63 - 1"
        self.rows(
            ValueError,
            (f"capacity {name} is 2.5, {NOT_WHOLE}", certify, self.graph(capacity=2.5), *ends),
            (f"weight {name} is 2.5, {NOT_WHOLE}", dimacs.solve_networkx_paths, self.graph(weight=2.5), "Leeds"),
            (f"flow {name} is -0.5, {NOT_WHOLE}", certify, self.graph(), *ends[:2], {"Leeds": {"York": -0.5}}),
            (f"capacity {name} is {2**63}, not a whole number of 64 bits", certify, self.graph(capacity=2**63), *ends),
            (f"weight {name} is 0.5, {NOT_WHOLE}", certify_min, self.graph(weight=0.5), {}),
            (f"weight {name} is inf, not a whole number", certify_paths, self.graph(weight=INF), "Leeds", {"Leeds": 0}),
            (f"distance of node 'York' is 0.5, {NOT_WHOLE}", certify_paths, self.graph(), "Leeds", {"York": 0.5}),
            (far, certify_paths, self.graph(), "Leeds", {"Leeds": 0, "York": 2**63 - 1}),
        )
