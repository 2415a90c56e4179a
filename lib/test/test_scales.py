"""Numbers that aren't whole, infinite capacities, and numbers from 0: next to fractions, by trying all."""

import array
import math
import unittest
from decimal import Decimal
from fractions import Fraction

import dimacs
from dimacs.scales import Scale
from shared import Said, draws, networkx, numpy, raised

INF = math.inf


def multiples(number, factor, count=6):
    """Each multiple of 1 / factor near a float that is the same float."""
    near = round(Fraction(number) * factor)
    return [it for it in range(near - count, near + count + 1) if float(it / Fraction(factor)) == number]


class Floats(unittest.TestCase):
    def test_the_multiple_that_a_float_stands_for(self):
        """The only one that is this float; the float itself by a factor of 1; none otherwise."""
        taken = 0
        for chance in draws(1, 20_000):
            factor = chance.choice([1, 3, 7, 10, 100, 1000, 10**6, 2**20, Fraction(1, 3), Fraction(5, 7)])
            most = chance.choice([9, 10**4, 10**9, 2**52, 2**53, 10**18])
            number = float(chance.randrange(-most, most) / Fraction(factor))
            number = chance.choice([number, number, math.nextafter(number, INF), number + 1 / 3])
            same = multiples(number, factor)
            exact = Fraction(number) * factor
            wanted = same[0] if len(same) == 1 else int(exact) if factor == 1 and exact.denominator == 1 else None
            try:
                found = Scale.of(factor).whole(number, lambda: "it")
            except ValueError as it:
                found = None
                self.assertRegex(str(it), "the nearest is|more than one multiple" if same else "the nearest is")
            self.assertEqual(found, wanted, (number, factor))
            taken += found is not None
        self.assertGreater(taken, 9000)

    def test_the_ends_of_floats(self):
        for factor in 100, 10**400, Fraction(1, 10**400), Fraction(3, 10**20):
            for number in 1e308, -1e308, 5e-324, 1e300:
                with self.assertRaises(ValueError):
                    Scale.of(factor).whole(number, lambda: "it")

    def test_decimals_and_fractions(self):
        for number in Decimal("0.07"), Fraction(7, 100), 0.07:
            self.assertEqual(Scale.of(100).whole(number, str), 7)
            self.assertEqual(Scale.of(Decimal("0.01")).whole(number, str), 7)
        self.assertEqual(repr(Scale.of(Decimal("0.01")).shown(7)), "Decimal('0.07')")
        self.assertEqual(repr(Scale.of(100).shown(7)), "Fraction(7, 100)")
        self.assertEqual(Scale.of(Decimal("0.01")).shown(10**40 + 7), Decimal(f"{10**38}.07"))
        for number in Decimal("0.075"), Fraction(1, 3), Decimal("NaN"), Decimal("sNaN"):
            with self.assertRaises(ValueError):
                Scale.of(100).whole(number, str)

    def test_floats_of_32_bits(self):
        """They stand for the multiples that they are the nearest of their type to, wherever they come from."""
        short = array.array("f", [0.1, 0.3])
        forms = [short, memoryview(short)]
        if numpy:
            forms += [numpy.array(short), numpy.array(short)[:1].repeat(2) + numpy.array([0, 0.2], "f")]
        for caps in forms:
            found = dimacs.solve_max_arrays(2, 1, 2, [1, 1], [2, 2], caps, scale=10)
            self.assertEqual(found.value, Fraction(4, 10))
            exact = dimacs.solve_max_arrays(2, 1, 2, [1, 1], [2, 2], caps, scale="exact")
            self.assertEqual(exact.value, sum(Fraction(it) for it in short))
        with self.assertRaisesRegex(ValueError, r"caps\[1\] is 0.2\d*, not a multiple of 1/10"):
            dimacs.solve_max_arrays(2, 1, 2, [1, 1], [2, 2], array.array("f", [0.1, 0.25]), scale=10)

    @unittest.skipUnless(numpy, "no numpy")
    def test_floats_of_numpy(self):
        self.assertEqual(Scale.of(10).whole(numpy.float32(0.1), str), 1)
        self.assertEqual(Scale.of(10).whole(numpy.float64(0.1), str), 1)
        with self.assertRaises(ValueError):
            Scale.of(10).whole(float(numpy.float32(0.1)), str)

    @unittest.skipUnless(numpy, "no numpy")
    def test_long_doubles(self):
        """Each that is read from a decimal stands for it, and its neighbours for nothing."""
        for chance in draws(2, 300):
            digits = chance.randrange(1, 18)
            most = chance.choice([99, 10**9, 10 ** (numpy.finfo(numpy.longdouble).precision - 1)])
            multiple = chance.randrange(-most, most)
            number = numpy.longdouble(f"{multiple}e-{digits}")
            self.assertEqual(Scale.of(10**digits).whole(number, str), multiple)
        tenth = numpy.longdouble("0.1")
        others = [numpy.nextafter(tenth, numpy.longdouble(end)) for end in (0, 1)]
        for number in [*others, numpy.longdouble("1e4000"), numpy.longdouble("nan"), numpy.longdouble("-inf")]:
            with self.assertRaises(ValueError):
                Scale.of(10).whole(number, lambda: "it")


class Flows(unittest.TestCase):
    def test_what_whole_numbers_get(self):
        """A value of so many units, where the numbers of units get it."""
        for chance in draws(2, 1000):
            nodes, count = chance.randrange(2, 5), chance.randrange(1, 7)
            ends = [[chance.randrange(nodes) for _ in range(count)] for _ in range(2)]
            factor = chance.choice([1, 10, 100, 8, Decimal("0.05"), "exact"])
            unit = Fraction(1, 8) if factor == "exact" else 1 / Scale.of(factor).factor
            whole = [chance.randrange(60) for _ in range(count)]
            caps = [chance.choice([float, Fraction])(it * unit) for it in whole]
            form = numpy.array if numpy and all(isinstance(it, float) for it in caps) else list
            words, how = (nodes, 0, nodes - 1, *ends, form(caps)), {"scale": factor, "base": 0}
            found, wanted = dimacs.solve_max_arrays(*words, **how), dimacs.solve_max_arrays(*words[:-1], whole, base=0)
            self.assertEqual(found.value, wanted.value * unit)
            self.assertEqual([it / unit for it in map(Fraction, found.flows)], wanted.flows)
            again = dimacs.certify_max_arrays(*words, list(found.flows), **how)
            self.assertEqual((again.value, again.inside), (found.value, list(found.inside)))
            if found.value:
                no = raised(dimacs.NotOptimal, dimacs.certify_max_arrays, *words, [0] * count, **how)
                self.assertEqual((no.value, no.better_value > 0), (0, True))

    def test_costs(self):
        words = [0, 0], [1, 1], [0, 0], [2.5, 9], [0.03, 0.07], [4.5, -4.5]
        cost, flows, prices = dimacs.solve_min_arrays(2, *words, scale=(10, 100), base=0)
        self.assertEqual((cost, flows), (Fraction(215, 1000), [Fraction(5, 2), 2]))
        self.assertEqual(prices[0] - prices[1], Fraction(7, 100))
        self.assertEqual(dimacs.judge_min_arrays(2, *words, flows, prices, scale=(10, 100), base=0).value, cost)
        no = raised(dimacs.NotOptimal, dimacs.certify_min_arrays, 2, *words, [2, 2.5], scale=(10, 100), base=0)
        self.assertEqual((no.value, no.better), (Fraction(235, 1000), flows))

    def test_distances(self):
        graph, before = (4, [0, 1], [1, 2], [0.5, 0.25], 0), [-1, 0, 1, -1]
        found = dimacs.solve_paths_arrays(*graph, scale="exact", base=0)
        self.assertEqual(found, (None, [0, Fraction(1, 2), Fraction(3, 4), INF], before))
        certified = dimacs.certify_paths_arrays(*graph, [0, 0.5, 0.75, INF], scale=4, base=0)
        self.assertEqual(certified.predecessors, before)

    @unittest.skipUnless(networkx, "no networkx")
    def test_graphs(self):
        graph = networkx.DiGraph([("a", "b", {"capacity": 2.5, "weight": Decimal("0.1")})])
        networkx.set_node_attributes(graph, {"a": -1.5, "b": 1.5}, "demand")
        cost, flow, prices = dimacs.solve_networkx_min(graph, scale=10)
        self.assertEqual((cost, flow["a"]["b"]), (Fraction(15, 100), Fraction(3, 2)))
        self.assertEqual(dimacs.certify_networkx_min(graph, flow, scale=10).value, cost)
        self.assertEqual(dimacs.judge_networkx_min(graph, flow, prices, scale=10).value, cost)
        self.assertEqual(dimacs.certify_networkx_paths(graph, "a", {"a": 0, "b": 0.1}, scale=10).predecessors["b"], "a")


class Limitless(Said):
    """Capacities of inf."""

    def test_what_is_best(self):
        """As with a capacity that no answer reaches, or infinite."""
        kinds = {"yes": 0, "unbounded": 0}
        for chance in draws(3, 1500):
            nodes, count = chance.randrange(2, 5), chance.randrange(1, 7)
            ends = [[chance.randrange(nodes) for _ in range(count)] for _ in range(2)]
            caps = [chance.choice([INF, chance.randrange(9)]) for _ in range(count)]
            graph, given = (nodes, 0, nodes - 1, *ends), chance.choice([list(caps), array.array("d", caps)])
            wanted = dimacs.solve_max_arrays(*graph, [min(it, 100) for it in caps], base=0).value
            try:
                value, flows, inside = dimacs.solve_max_arrays(*graph, given, base=0)
            except dimacs.Unbounded:
                kinds["unbounded"] += 1
                self.assertGreaterEqual(wanted, 100)
                continue
            kinds["yes"] += 1
            self.assertEqual(value, wanted)
            words = *graph, given, list(map(int, flows))
            self.assertEqual(dimacs.certify_max_arrays(*words, base=0).value, wanted)
            self.assertEqual(dimacs.judge_max_arrays(*words, inside, base=0).value, wanted)
        self.assertGreater(min(kinds.values()), 200, kinds)

    def test_what_costs_least(self):
        """As with a great capacity, unless a greater one makes it cheaper."""
        kinds = {"yes": 0, "unbounded": 0, "infeasible": 0}
        for chance in draws(5, 1500):
            nodes, count = chance.randrange(2, 5), chance.randrange(1, 7)
            ends = [[chance.randrange(nodes) for _ in range(count)] for _ in range(2)]
            caps = [chance.choice([INF, chance.randrange(4)]) for _ in range(count)]
            costs = [chance.randrange(-2, 6) for _ in range(count)]
            lows = [chance.choice([0, 0, min(cap, chance.randrange(3))]) for cap in caps]
            supplies = [0] * nodes
            for tail, head, cap in zip(*ends, caps):
                amount = chance.randrange(min(cap, 3) + 1 + (chance.random() < 0.1))
                supplies[tail] += amount
                supplies[head] -= amount
            words = nodes, ends, lows, caps, costs, supplies
            wanted = [self.least(*words, most) for most in (1000, 2000)]
            found = self.least(*words, INF)
            self.assertEqual(found, wanted[0] if wanted[0] == wanted[1] else "unbounded")
            kinds[found if isinstance(found, str) else "yes"] += 1
        self.assertGreater(min(kinds.values()), 20, kinds)

    def least(self, nodes, ends, lows, caps, costs, supplies, most):
        words = nodes, *ends, lows, [min(it, most) for it in caps], costs, supplies
        try:
            cost, flows, prices = dimacs.solve_min_arrays(*words, base=0)
        except dimacs.Unbounded:
            return "unbounded"
        except dimacs.Infeasible as no:
            self.assertTrue(dimacs.judge_infeasible_arrays(*words, no.inside, base=0))
            return "infeasible"
        self.assertEqual(dimacs.judge_min_arrays(*words, flows, prices, base=0).value, cost)
        self.assertEqual(dimacs.certify_min_arrays(*words, flows, base=0).value, cost)
        return cost

    def test_giving_up(self):
        """It is unbounded only if a flow is feasible."""
        words = 3, [1, 2], [2, 1], [0, 0], [INF, INF], [-1, 0]
        self.assertRaises(dimacs.Unbounded, dimacs.solve_min_arrays, *words, [0, 0, 0], limit=0)
        for limit in 0, 10:
            self.assertRaises((dimacs.Infeasible, dimacs.GaveUp), dimacs.solve_min_arrays, *words, [1, 0, -1], limit=limit)

    def test_bounds(self):
        """The bound in place of inf is neither below a lower bound nor blamed for another arc."""
        self.assertEqual(dimacs.solve_min_arrays(2, [1], [2], [10], [INF], [3], [10, -10]).value, 30)
        no = raised(dimacs.PastLimit, dimacs.solve_max_arrays, 3, 1, 3, [1, 2], [2, 3], [INF, -5])
        self.assertEqual(no.arc, 2)

    def test_an_arc_that_is_full_to_the_library(self):
        """Without a limit it may carry 2^63 - 1, unless a certificate takes it for full."""
        most = 2**63 - 1
        for kind, *words in [
            ("max", 4, 1, 4, [2, 1, 1, 3], [4, 2, 3, 4], [INF, most, most, 5]),
            ("min", 2, [1], [2], [0], [INF], [0], [most, -most]),
        ]:
            solve, certify, judge = (getattr(dimacs, f"{it}_{kind}_arrays") for it in ("solve", "certify", "judge"))
            value, flows, shown = solve(*words)
            self.assertEqual(flows[0], most)
            self.assertEqual((certify(*words, flows).value, judge(*words, flows, shown).value), (value, value))
        full, paid = (2, 1, 2, [1], [2], [INF], [most]), (2, [1], [2], [0], [INF], [-1], [most, -most], [most])
        message = f"arc 1 NotSaturated: it leaves the cut and carries {most}, its capacity is inf"
        no = self.says(dimacs.Refused, message, dimacs.judge_max_arrays, *full, [1, 0])
        self.assertEqual(no.explain(), f"x arc 1 NotSaturated\n{message}\n")
        self.assertRaises(dimacs.GaveUp, dimacs.certify_max_arrays, *full)
        message = f"arc 1 NotTight: its reduced cost is -1, and it carries {most} of 0 to inf"
        self.says(dimacs.Refused, message, dimacs.judge_min_arrays, *paid, [0, 0])
        self.assertEqual(dimacs.judge_min_arrays(*paid, [0, 1]).value, -most)

    def test_a_set_that_shows_nothing(self):
        """It is violated by less than 2^63, and not by an arc without a limit."""
        supplies = [2**63 - 1, 2**62, -(2**63) + 1, -(2**62)]
        words = 4, [1, 2], [3, 3], [0, 0], [INF, INF], [0, 0], supplies
        two = 2, [1], [2], [0], [INF], [0], [2**63 - 1, -(2**63) + 1]
        for supply, claim in (2**63 - 1, (*two, [1, 0])), (2**63 - 1 + 2**62, (*words, [1, 1, 0, 0])):
            message = f"certificate 0 0 NotViolated: the set supplies {supply}, and from 0 to inf can leave it"
            self.says(dimacs.Refused, message, dimacs.judge_infeasible_arrays, *claim)


class FromZero(Said):
    def test_the_same_by_both(self):
        for chance in draws(4, 300):
            nodes = chance.randrange(2, 6)
            arcs = [[chance.randrange(nodes) for _ in range(6)] for _ in range(2)]
            shifted = [[it + 1 for it in some] for some in arcs]
            weights = [chance.randrange(9) for _ in range(6)]
            form = chance.choice([list, tuple, numpy.array] if numpy else [list])
            one = dimacs.solve_paths_arrays(nodes, *shifted, weights, 1)
            zero = dimacs.solve_paths_arrays(nodes, *map(form, arcs), form(weights), 0, base=0)
            self.assertEqual(list(zero.distances), one.distances)
            self.assertEqual(list(zero.predecessors), [it - 1 for it in one.predecessors])
            words = nodes, *map(form, arcs), weights, 0, zero.distances, zero.predecessors
            self.assertTrue(dimacs.judge_paths_arrays(*words, base=0))

    def test_refusals(self):
        message = "arc 1 AboveCap: it carries 4, its capacity is 3"
        self.says(dimacs.Refused, message, dimacs.certify_max_arrays, 2, 0, 1, [0, 0], [1, 1], [3, 3], [3, 4], base=0)
        message = "node 1 NodeRange: its predecessor is 2, and there are 2 nodes"
        self.says(dimacs.Refused, message, dimacs.judge_paths_arrays, 2, [0], [1], [3], 0, [0, 3], [-1, 2], base=0)
