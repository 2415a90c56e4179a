"""dimacs.scipy, next to SciPy's own answers."""

import functools
import random
import unittest
import warnings
from decimal import Decimal

import dimacs
from shared import csgraph, draws, numpy, optimize, raised, sparse

if csgraph:
    from dimacs import scipy as ours


def drawn(chance, vertices, least, greatest, share=0.4, dtype="int32", loops=True):
    """A matrix with empty places."""
    places = range(vertices)
    rows = [[chance.randint(least, greatest) if chance.random() < share else 0 for _ in places] for _ in places]
    found = numpy.array(rows, dtype)
    if not loops:
        numpy.fill_diagonal(found, 0)
    return sparse.csr_matrix(found)


def stored(values, columns, rows):
    """A matrix with these entries, several at a place and zeros among them."""
    parts = [numpy.array(it) for it in (values, columns, rows)]
    return sparse.csr_matrix(tuple(parts), shape=(len(rows) - 1, len(rows) - 1))


def asked(chance, *indices):
    """What is asked of shortest paths."""
    ways = {name: chance.choice([True, False]) for name in ("directed", "unweighted")}
    return {**ways, "indices": chance.choice(indices)}


@unittest.skipUnless(csgraph, "no SciPy")
class Scipy(unittest.TestCase):
    def raises(self, kind, message, call, *words, **more):
        with self.assertRaisesRegex(kind, message) as it:
            call(*words, **more)
        return it.exception


class MaximumFlow(Scipy):
    PIPES = [[0, 4, 2, 0], [1, 0, 2, 2], [0, 0, 0, 5], [0, 0, 0, 0]]

    def test_what_scipy_finds(self):
        for chance in draws(1, 300):
            vertices = chance.randrange(2, 9)
            graph = drawn(chance, vertices, 1, 9)
            ends = chance.sample(range(vertices), 2)
            theirs, found = csgraph.maximum_flow(graph, *ends), ours.maximum_flow(graph, *ends)
            self.assertEqual(found.flow_value, theirs.flow_value)
            self.assertIs(type(found.flow_value), type(theirs.flow_value))
            self.is_flow(graph, *ends, found)
            for it in "indptr", "indices":
                self.assertEqual(getattr(found.flow, it).tolist(), getattr(theirs.flow, it).tolist())
            self.assertEqual((found.flow.dtype, type(found.flow)), (theirs.flow.dtype, type(theirs.flow)))
            for it in theirs, theirs.flow, found, found.flow.toarray():
                value, inside = ours.certify_maximum_flow(graph, *ends, it)
                self.assertEqual(value, theirs.flow_value)
                self.assertEqual((inside[ends[0]], inside[ends[1]]), (True, False))

    def is_flow(self, graph, source, sink, found):
        flow, caps = found.flow.toarray(), graph.toarray()
        self.assertTrue((flow == -flow.T).all() and (flow <= caps).all())
        net = [0] * len(caps)
        net[source], net[sink] = found.flow_value, -found.flow_value
        self.assertEqual(flow.sum(axis=1).tolist(), net)
        self.assertEqual(caps[found.inside][:, ~found.inside].sum(), found.flow_value)

    def test_what_is_refused(self):
        graph = sparse.csr_matrix(self.PIPES)
        flow = csgraph.maximum_flow(graph, 0, 3).flow.toarray()
        certify = ours.certify_maximum_flow
        no = self.raises(dimacs.NotOptimal, "NotMaximum", certify, graph, 0, 3, flow * 0)
        self.assertTrue((no.better.toarray() == -no.better.toarray().T).all() and no.better[0].sum() > 0)
        flow[0, 2], flow[2, 0] = 3, -3
        no = self.raises(dimacs.Refused, "AboveCap", certify, graph, 0, 3, flow)
        self.assertEqual((no.arc, no.node), ((0, 2), None))
        flow[0, 2], flow[2, 0] = 1, -1
        no = self.raises(dimacs.Refused, "Balance", certify, graph, 0, 3, flow)
        self.assertEqual((no.arc, no.node), (None, 2))
        flow[2, 0] = 0
        self.raises(ValueError, r"at \(0, 2\) isn't that at \(2, 0\)", certify, graph, 0, 3, flow)
        self.raises(ValueError, "shape", certify, graph, 0, 3, flow[1:, 1:])
        self.raises(ValueError, r"at \(0, 1\) is 0.5", certify, graph, 0, 3, flow / 8)
        masked = numpy.ma.masked_equal(flow, 1)
        self.raises(TypeError, "the flow is a masked array", certify, graph, 0, 3, masked)
        flow[:] = 0
        flow[0, 3], flow[3, 0] = 6, -6
        no = self.raises(dimacs.Refused, "AboveCap", certify, graph, 0, 3, flow)
        self.assertEqual(no.arc, (0, 3))
        claim = ours.maximum_flow(graph, 0, 3)
        claim.flow_value += 1
        self.raises(dimacs.Refused, "ValueDiffers", certify, graph, 0, 3, claim)

    def test_types(self):
        for dtype, wanted in ("uint8", "int32"), ("int64", "int32"), ("uint64", "int32"):
            found = ours.maximum_flow(sparse.csr_matrix(numpy.array(self.PIPES, dtype)), 0, 3)
            self.assertEqual((found.flow_value, found.flow.dtype), (6, wanted))
        wide = sparse.csr_array(numpy.array([[0, 2**40], [0, 0]]))
        found = ours.maximum_flow(wide, numpy.int64(0), 1)
        self.assertEqual((int(found.flow_value), found.flow.dtype, type(found.flow)), (2**40, "int64", type(wide)))
        self.assertEqual(repr(found), f"MaximumFlowResult with value of {2**40}")
        for most, wanted in (2**31 - 1, "int32"), (2**31, "int64"):
            mixed = sparse.csr_matrix(numpy.array([[0, most, 0], [0, 0, 3], [0, 0, 0]]))
            self.assertEqual(ours.maximum_flow(mixed, 0, 2).flow.dtype, wanted)
        past = sparse.csr_matrix(numpy.array([[0, 2**63], [0, 0]], "uint64"))
        self.raises(ValueError, rf"the entry at \(0, 1\) is {2**63}, not", ours.maximum_flow, past, 0, 1)
        widest = numpy.zeros((4, 4), "int64")
        widest[0, 1:3] = widest[1:3, 3] = 2**63 - 1
        self.assertEqual(ours.maximum_flow(sparse.csr_matrix(widest), 0, 3).flow_value, 2**64 - 2)

    def test_sums_at_one_place_past_64_bits(self):
        ends, last = ([1] * 4, [0, 4, 4]), 2**63 - 1
        nothing = sparse.csr_matrix((2, 2), dtype="int64")
        for caps in [2**63 - 1024, 511, 511, 511], [2**61] * 4:
            message = rf"the capacity at \(0, 1\) is {sum(caps)}, which has more than 64 bits"
            self.raises(ValueError, message, ours.certify_maximum_flow, stored(caps, *ends), 0, 1, nothing)
        flow = sparse.coo_matrix(([last, 1, -(2**63)], ([0, 0, 1], [1, 1, 0])), shape=(2, 2))
        message = r"the flow at \(0, 1\) is 9223372036854775808, which has more than 64 bits"
        self.raises(ValueError, message, ours.certify_maximum_flow, nothing, 0, 1, flow)
        both = sparse.coo_matrix(([-(2**63), -(2**63)], ([0, 1], [1, 0])), shape=(2, 2))
        self.raises(ValueError, r"at \(0, 1\) isn't that at", ours.certify_maximum_flow, nothing, 0, 1, both)
        twice = stored([last, last], [1, 1], [0, 2, 2])
        message = r"the flow at \(0, 1\) is 18446744073709551614, which has more than 64 bits"
        self.raises(dimacs.GaveUp, message, ours.maximum_flow, twice, 0, 1)

    def test_claimed_values(self):
        for amount, rounded in (2**53 + 1, 2**53), (2**63 - 1, 2**63):
            graph = stored([amount], [1], [0, 1, 1])
            claim = ours.maximum_flow(graph, 0, 1)
            for value in numpy.int64(amount), numpy.uint64(amount), Decimal(amount), numpy.array(amount):
                claim.flow_value = value
                self.assertEqual(ours.certify_maximum_flow(graph, 0, 1, claim).value, amount)
            for value in numpy.float64(rounded), float(rounded), numpy.longdouble(rounded), rounded:
                claim.flow_value = value
                no = self.raises(dimacs.Refused, "ValueDiffers", ours.certify_maximum_flow, graph, 0, 1, claim)
                self.assertEqual(no.numbers, {"claimed": rounded, "value": amount})
        for value, kind, message in (
            (numpy.array([4]), TypeError, r"flow_value is array\(\[4\]\), not a number"),
            (None, TypeError, "flow_value is None, not a number"),
            ("4", TypeError, "flow_value is '4', not a number"),
            (numpy.nan, ValueError, "flow_value is nan, not a whole number"),
            (0.5, ValueError, "flow_value is 0.5, not a whole number"),
        ):
            claim.flow_value = value
            self.raises(kind, message, ours.certify_maximum_flow, graph, 0, 1, claim)

    def test_no_edges(self):
        found = ours.maximum_flow(sparse.csr_matrix((3, 3), dtype="int32"), 0, 2)
        self.assertEqual((found.flow_value, found.flow.nnz), (0, 0))

    def test_misuse(self):
        graph = sparse.csr_matrix(self.PIPES)
        others = graph.toarray(), graph.tocsc(), graph.astype(float), graph.astype(bool), graph[:3]
        for words, more in (
            *(((it, 0, 1), {}) for it in others),
            *(((graph, *ends), {}) for ends in ((0, 0), (0, 4), (-1, 3))),
            ((graph, 0, 3), {"method": "another"}),
        ):
            theirs = raised((TypeError, ValueError), csgraph.maximum_flow, *words, **more)
            no = self.raises(type(theirs), "", ours.maximum_flow, *words, **more)
            self.assertEqual(str(no), str(theirs))
        self.raises(ValueError, "from 0 to 1 is -4", ours.maximum_flow, -graph, 0, 3)


class ShortestPath(Scipy):
    def same(self, graph, **more):
        theirs = csgraph.shortest_path(graph, **more)
        found = ours.shortest_path(graph, **more)
        for one, other in zip(theirs, found) if isinstance(theirs, tuple) else [(theirs, found)]:
            self.assertEqual((one.shape, one.dtype), (other.shape, other.dtype))
        theirs, found = (it[0] if isinstance(it, tuple) else it for it in (theirs, found))
        self.assertEqual(found.tolist(), theirs.tolist())

    def test_what_scipy_finds(self):
        for chance in draws(2, 300):
            dtype = chance.choice(["int64", "float64", "int8", "float32"])
            graph = drawn(chance, chance.randrange(1, 8), 1, 9, dtype=dtype)
            graph = chance.choice([graph, graph.toarray(), graph.tocsc()])
            last = graph.shape[0] - 1
            more = asked(chance, None, 0, -1, [0], [last, 0], [], [[0], [last]])
            self.same(graph, return_predecessors=chance.choice([True, False]), **more)

    def test_predecessors(self):
        graph = drawn(random.Random(3), 30, 1, 99, 0.1)
        found = ours.shortest_path(graph, return_predecessors=True)
        self.assertEqual(found[0].tolist(), csgraph.shortest_path(graph).tolist())
        self.assertEqual(ours.certify_shortest_path(graph, *found).tolist(), found[1].tolist())

    def test_negative_weights(self):
        kinds = {"cycle": 0, "none": 0}
        for chance in draws(4, 300):
            # SciPy finds a loop of negative weight by some methods, and not by others.
            graph = drawn(chance, chance.randrange(2, 8), -3, 9, loops=False)
            more = {"indices": chance.choice([None, 0, [0, 1]]), "method": chance.choice(["auto", "BF", "J"])}
            try:
                csgraph.shortest_path(graph, **more)
            except csgraph.NegativeCycleError:
                kinds["cycle"] += 1
                self.raises(csgraph.NegativeCycleError, "negative", ours.shortest_path, graph, **more)
            else:
                kinds["none"] += 1
                self.same(graph, **more)
        self.assertTrue(all(it > 30 for it in kinds.values()), kinds)
        loop = sparse.csr_matrix([[-1, 1], [0, 0]])
        self.raises(csgraph.NegativeCycleError, "negative", ours.shortest_path, loop)

    def test_entries_that_are_no_edges(self):
        inf, nan = numpy.inf, numpy.nan
        for graph in (
            numpy.array([[0, inf, 1], [0, 0, nan], [2, 0, 0]]),
            numpy.ma.masked_equal([[0, 3], [4, 0]], 4),
            stored([0.0, 2, inf], [1, 2, 0], [0, 2, 3, 3]),
            stored([5.0, 2], [1, 1], [0, 2, 2]),
        ):
            self.same(graph)
            self.same(graph, directed=False)
            if not (sparse.issparse(graph) and inf in graph.data):
                self.same(graph, unweighted=True)

    def test_a_mask(self):
        """What isn't masked is an edge, of weight 0 too, by the methods of SciPy but for "FW", which has no such edges."""
        for chance in draws(12, 300):
            places = range(chance.randrange(2, 7))
            weights = [[chance.choice([0, 0, 1, 2, 5]) for _ in places] for _ in places]
            mask = [[place == 0 or chance.random() < 0.6 for place in places] for _ in places]
            graph = numpy.ma.masked_array(weights, mask, dtype=chance.choice(["int64", "float64"]))
            words = {"directed": chance.choice([True, False]), "unweighted": chance.choice([True, False])}
            theirs = csgraph.shortest_path(graph, "D", return_predecessors=True, **words)
            self.assertEqual(ours.shortest_path(graph, **words).tolist(), theirs[0].tolist())
            ours.certify_shortest_path(graph, *theirs, **words)
        graph = numpy.ma.masked_equal([[9.0, 0, 5], [9, 9, 0], [9, 9, 9]], 9)
        no = self.raises(dimacs.Refused, "", ours.certify_shortest_path, graph, [[0, numpy.inf, 5]], indices=[0])
        self.assertEqual((no.arc, no.reason), ((0, 1), "Escapes"))

    def test_formats(self):
        """Zeros that are stored, entries of one place, and sums of bools, in each format."""
        for chance in draws(13, 300):
            count, vertices = chance.randrange(12), chance.randrange(1, 5)
            ends = [[chance.randrange(vertices) for _ in range(count)] for _ in range(2)]
            weights = numpy.array([chance.randrange(4) for _ in range(count)], chance.choice(["bool", "int64", "float64"]))
            graph = sparse.coo_matrix((weights, ends), shape=(vertices, vertices))
            if chance.random() < 0.5:
                starts = numpy.searchsorted(sorted(ends[0]), range(vertices + 1))
                graph = sparse.csr_matrix((weights, ends[1], starts), shape=graph.shape)
            graph = graph.asformat(chance.choice(["coo", "csr", "csc", "lil", "dok", "bsr", "dia"]))
            self.same(graph, method="D", unweighted=chance.choice([True, False]), directed=chance.choice([True, False]))
        self.same(sparse.coo_matrix(([True, True], ([0, 0], [1, 1])), shape=(2, 2)), method="D")

    def test_room_after_the_entries(self):
        """The arrays of a matrix may be longer than its entries."""
        for form in "csr", "csc":
            graph = sparse.coo_matrix(([1, 5, 7], ([0, 0, 1], [1, 2, 2])), shape=(3, 3)).asformat(form)
            wanted = csgraph.shortest_path(graph, "D")
            graph.data, graph.indices = numpy.append(graph.data, 9), numpy.append(graph.indices, 0)
            self.assertEqual(ours.shortest_path(graph).tolist(), wanted.tolist())
            ours.certify_shortest_path(graph, wanted)
            self.assertEqual(ours.maximum_flow(graph.tocsr() if form == "csc" else graph, 0, 2).flow_value, 6)

    def test_infinite_entries_that_are_stored(self):
        """By some of SciPy's methods these are edges if weights aren't asked for, and lead to vertices that aren't reached."""
        for graph in (
            sparse.csr_matrix(([numpy.inf, 3.0], ([0, 0], [1, 2])), shape=(3, 3)),
            numpy.ma.masked_equal([[9.0, numpy.inf, 3], [9, 9, 9], [9, 9, 9]], 9),
        ):
            theirs = [csgraph.shortest_path(graph, it, return_predecessors=True) for it in ("D", "FW")]
            self.assertNotEqual(theirs[0][1].tolist(), theirs[1][1].tolist())
            for dist, before in theirs:
                ours.certify_shortest_path(graph, dist)
                self.raises(ValueError, r"\(0, 1\) is inf", ours.certify_shortest_path, graph, dist, before)
            self.raises(ValueError, r"\(0, 1\) is inf", ours.shortest_path, graph, unweighted=True)
        graph = sparse.csr_matrix(([numpy.nan, 3.0], ([0, 0], [1, 2])), shape=(3, 3))
        self.raises(ValueError, r"\(0, 1\) is nan: by some methods", ours.shortest_path, graph, unweighted=True)

    def test_sums_of_entries(self):
        """Where SciPy adds entries up, in their own type, the sum is exact here."""
        narrow = sparse.coo_matrix((numpy.array([100, 100], "int8"), ([0, 0], [1, 1])), shape=(2, 2))
        self.assertEqual(ours.shortest_path(narrow).tolist(), [[0, 200], [numpy.inf, 0]])
        wide = sparse.coo_matrix(([2**63 - 1, 1], ([0, 0], [1, 1])), shape=(2, 2))
        self.raises(ValueError, r"the weight at \(0, 1\) is 9223372036854775808,", ours.shortest_path, wide)
        infinite = sparse.coo_matrix(([numpy.inf, 1, 3], ([0, 0, 1], [1, 1, 0])), shape=(2, 2))
        self.same(infinite, method="D")

    def test_a_distance_that_is_the_number_of_no_distance(self):
        graph = sparse.csr_matrix(numpy.array([[0, 2**63 - 1], [-(2**61), 0]]))
        self.raises(dimacs.GaveUp, "out of range", ours.shortest_path, graph)

    def test_what_is_refused(self):
        call = ours.shortest_path
        self.raises(ValueError, r"entry at \(1, 0\) is 2.5", call, numpy.array([[0, 1], [2.5, 0]]))
        self.raises(ValueError, "unrecognized method", call, numpy.eye(2), method="another")
        self.raises(ValueError, "square", call, numpy.zeros((2, 3)))
        self.raises(ValueError, "out of range", call, numpy.eye(2), indices=[2])
        self.raises(ValueError, "indices", call, numpy.eye(2), indices=[1], method="FW")
        self.raises(TypeError, "no numbers", call, sparse.csr_matrix(numpy.eye(2) * 1j))
        self.raises(ValueError, r"indices\[0\] is 0.9, not a whole number", call, numpy.eye(2), indices=[0.9])
        self.raises(ValueError, "indices is 0.9, not a whole number", call, numpy.eye(2), indices=0.9)
        self.raises(TypeError, "no numbers", call, numpy.eye(2), indices=["0"])
        far = sparse.csr_matrix(numpy.array([[0, 2**53, 0], [0, 0, 1], [0, 0, 0]]))
        self.raises(dimacs.GaveUp, "from 0 to 2 is 9007199254740993", call, far)
        self.assertEqual(call(far, indices=1)[2], 1)


class Tables(Scipy):
    def test_what_scipy_finds(self):
        kinds = {"yes": 0, "no": 0}
        for chance in draws(5, 300):
            graph = drawn(chance, chance.randrange(1, 8), 1, 9, dtype=chance.choice(["int64", "float64"]))
            last = graph.shape[0] - 1
            more = asked(chance, None, 0, [0], [last, 0])
            dist, before = csgraph.shortest_path(graph, return_predecessors=True, **more)
            for words in (dist,), (dist, before):
                found = ours.certify_shortest_path(graph, *words, **more)
                self.assertEqual((found.shape, found.dtype), (before.shape, before.dtype))
            ours.certify_shortest_path(graph, dist, found, **more)
            wrong = dist.copy()
            place = chance.randrange(dist.size)
            wrong.flat[place] = chance.choice([numpy.inf, dist.flat[place] + 1, max(0, dist.flat[place] - 1)])
            if wrong.flat[place] == dist.flat[place]:
                kinds["yes"] += 1
                continue
            kinds["no"] += 1
            for words in (wrong,), (wrong, before):
                no = self.raises(dimacs.Refused, "", ours.certify_shortest_path, graph, *words, **more)
                self.assertEqual(len(no.arc or no.node), 2)
        self.assertGreater(kinds["no"], 100)

    def test_what_is_named(self):
        graph, certify = [[0, 5, 0], [0, 0, 4], [0, 0, 0]], ours.certify_shortest_path
        dist = numpy.array([[0, 5, 9], [numpy.inf, 0, 4], [numpy.inf, numpy.inf, 0]])
        dist[0, 2] = 8
        no = self.raises(dimacs.Refused, "NoTightArc: no walk gives its distance 8", certify, graph, dist)
        self.assertEqual(no.node, (0, 2))
        dist[0, 2] = 10
        message = r"arc \(1, 2\) NotShortest: 5 and its weight 4 are less than 10"
        self.raises(dimacs.Refused, message, certify, graph, dist)
        dist[0, 2] = 9.5
        self.raises(ValueError, r"distances\[0, 2\] is 9.5, not a whole number", certify, graph, dist)
        self.raises(ValueError, r"dist has the shape \(2, 3\), and has to have \(3, 3\)", certify, graph, dist[:2])

    def test_predecessors(self):
        graph, dist, certify = [[0, 5, 0], [0, 0, 4], [0, 0, 0]], [[0, 5, 9]], ours.certify_shortest_path
        true = [-9999, 0, 1]
        for kind in "int16", "int64", "float32", "float64", "object":
            self.assertEqual(certify(graph, dist, numpy.array([true], kind), indices=[0]).tolist(), [true])
        for place, wrong, message in (
            (1, 0.9, r"predecessors\[0, 1\] is 0.9, not a whole number"),
            (2, numpy.nan, r"predecessors\[0, 2\] is nan, not a whole number"),
            (0, numpy.inf, r"predecessors\[0, 0\] is inf, not a whole number"),
            (0, -1, r"predecessors\[0, 0\] is -1, which is no vertex, and not -9999"),
            (2, 3, r"predecessors\[0, 2\] is 3, which is no vertex, and not -9999"),
            (2, 2**32, r"predecessors\[0, 2\] is 4294967296, which is no vertex, and not -9999"),
        ):
            claim = [[*true[:place], wrong, *true[place + 1 :]]]
            self.raises(ValueError, message, certify, graph, dist, claim, indices=[0])
        none = numpy.array([[2**64 - 1, 0, 1]], "uint64")
        self.raises(ValueError, r"\[0, 0\] is 18446744073709551615, not", certify, graph, dist, none, indices=[0])
        texts = [["-9999", "0", "1"]]
        self.raises(TypeError, "no numbers", certify, graph, dist, texts, indices=[0])
        no = self.raises(dimacs.Refused, "", certify, graph, dist, [[-9999, 0, 0]], indices=[0])
        self.assertEqual(no.node, (0, 2))
        masked = numpy.ma.array(dist, mask=[[0, 1, 0]])
        self.raises(TypeError, "dist is a masked array", certify, graph, masked, indices=[0])

    def test_negative_weights(self):
        graph = numpy.array([[0, -5, 0], [0, 0, 4], [0, 0, 0]])
        dist, before = csgraph.shortest_path(graph, return_predecessors=True)
        self.assertEqual(ours.certify_shortest_path(graph, dist, before).tolist(), before.tolist())


class Assignments(Scipy):
    def drawn(self, chance):
        shape = chance.randrange(1, 6), chance.randrange(1, 6)
        costs = numpy.array([[chance.randrange(-9, 9) for _ in range(shape[1])] for _ in range(shape[0])], float)
        for _ in range(chance.choice([0, 0, 3])):
            costs[chance.randrange(shape[0]), chance.randrange(shape[1])] = numpy.inf
        return costs

    def test_what_scipy_finds(self):
        for chance in draws(6, 400):
            costs, maximize = self.drawn(chance), chance.random() < 0.5
            costs = -costs if maximize else costs
            try:
                theirs = optimize.linear_sum_assignment(costs, maximize)
            except ValueError as it:
                self.raises(ValueError, str(it), ours.linear_sum_assignment, costs, maximize)
                continue
            rows, columns = found = ours.linear_sum_assignment(costs, maximize)
            self.assertEqual(rows.tolist(), sorted(set(rows.tolist())))
            self.assertEqual((len(rows), costs[found].sum()), (len(theirs[0]), costs[theirs].sum()))
            value, u, v = ours.certify_assignment(costs, *theirs, maximize)
            self.assertEqual(value, costs[theirs].sum())
            self.is_shown(-costs if maximize else costs, theirs, u, v)
            other = chance.sample(range(costs.shape[1]), len(rows)) if len(rows) == len(costs) else None
            if other and costs[rows, other].sum() != value and numpy.isfinite(costs[rows, other]).all():
                no = self.raises(dimacs.NotOptimal, "NotLeast", ours.certify_assignment, costs, rows, other, maximize)
                self.assertEqual(no.value, costs[rows, other].sum())
                self.assertEqual(no.better_value, costs[no.better].sum())

    def is_shown(self, costs, found, u, v):
        rests = costs - u[:, None] - v[None, :]
        narrow = v if len(u) <= len(v) else u
        self.assertTrue((rests >= 0).all() and (rests[found] == 0).all() and (narrow <= 0).all())
        self.assertEqual(u.sum() + v.sum(), costs[found].sum())

    def test_what_is_refused(self):
        costs, certify = [[4, 1], [2, 3]], ours.certify_assignment
        no = self.raises(dimacs.Refused, "Balance: 0 leaves, its supply is 1", certify, costs, [0], [0])
        self.assertEqual(no.node, ("row", 1))
        no = self.raises(dimacs.Refused, "AboveCap: it carries 2, its capacity is 1", certify, costs, [0, 1], [0, 0])
        self.assertEqual(no.arc, ("column", 0))
        no = self.raises(dimacs.Refused, "AboveCap: it carries 3, its capacity is 2", certify, costs, [1] * 3, [0] * 3)
        self.assertEqual(no.arc, (1, 0))
        self.raises(ValueError, r"\(0, 2\) is no place", certify, costs, [0, 1], [2, 0])
        self.raises(ValueError, r"the entry at \(0, 1\) is 0.5", certify, [[4, 0.5], [2, 3]], [0, 1], [1, 0])
        self.raises(ValueError, r"row_ind\[1\] is 1.2, not a whole number", certify, costs, [0, 1.2], [1, 0])
        self.raises(ValueError, r"col_ind\[0\] is 0.9, not a whole number", certify, costs, [0, 1], [0.9, 0])
        self.raises(TypeError, "'0', not a number", certify, costs, ["0", "1"], [1, 0])
        self.raises(ValueError, "row_ind has 2 items, and col_ind 1", certify, costs, [0, 1], [1])
        for wrong in ([1, 2], [[numpy.nan]], [[-numpy.inf]]):
            theirs = raised(ValueError, optimize.linear_sum_assignment, wrong)
            self.assertEqual(str(self.raises(ValueError, "", ours.linear_sum_assignment, wrong)), str(theirs))

    def test_costs_at_the_ends_of_64_bits(self):
        last, certify = 2**63 - 1, ours.certify_assignment
        value, u, v = certify(numpy.full((3, 3), last), range(3), range(3))
        self.assertEqual((value, u.tolist(), v.tolist()), (3 * last, [last] * 3, [0] * 3))
        no = self.raises(dimacs.NotOptimal, "NotLeast", certify, [[last, 0], [-last - 1, last]], [0, 1], [0, 1])
        self.assertEqual((no.value, no.better_value, no.better.col_ind.tolist()), (2 * last, -last - 1, [1, 0]))
        # The second column is 2^64 - 1 dearer for both rows.
        dear = [[-last - 1, last]] * 2
        self.assertEqual(sorted(ours.linear_sum_assignment(dear).col_ind.tolist()), [0, 1])
        self.raises(dimacs.GaveUp, "which would show it, has more than 64 bits", certify, dear, [0, 1], [0, 1])
        self.raises(ValueError, "the cost -9223372036854775808 can't be negated", certify, dear, [0, 1], [0, 1], True)
        past = numpy.array([[2**63]], "uint64")
        self.raises(ValueError, rf"the entry at \(0, 0\) is {2**63}, not", ours.linear_sum_assignment, past)

    def test_nothing_to_assign(self):
        for shape in (0, 3), (3, 0), (0, 0):
            rows, columns = ours.linear_sum_assignment(numpy.zeros(shape))
            self.assertEqual((rows.tolist(), columns.tolist()), ([], []))
            self.assertEqual(ours.certify_assignment(numpy.zeros(shape), [], []).value, 0)

    def test_entries_at_one_place(self):
        twice = [1, 1, 3], ([0, 0, 0], [0, 0, 1])
        self.assertEqual(ours.min_weight_full_bipartite_matching(sparse.coo_matrix(twice)).col_ind.tolist(), [0])
        narrow = sparse.coo_matrix((numpy.array([100, 100, 127], "int8"), twice[1]))
        self.assertEqual(ours.min_weight_full_bipartite_matching(narrow).col_ind.tolist(), [1])

    def test_entries_that_are_no_edges(self):
        """SciPy takes away zeros that are stored, and says so, and what is infinite; it sees no mask."""
        one, other = ([0, 0, 1, 1], [0, 1, 0, 1]), (2, 2)
        for worst, maximize in (0.0, False), (numpy.inf, False), (-numpy.inf, True):
            graph = sparse.csr_matrix(([worst, 3.0, 4.0, 9.0], one), other)
            with warnings.catch_warnings(record=True) as told:
                warnings.simplefilter("always")
                theirs, found = (it.min_weight_full_bipartite_matching(graph, maximize) for it in (csgraph, ours))
            self.assertEqual(found.col_ind.tolist(), theirs[1].tolist())
            self.assertEqual([str(it.message) for it in told[1:]], [str(it.message) for it in told[:1]])
        self.assertEqual(ours.maximum_bipartite_matching(stored([0, 0], [0, 1], [0, 1, 2])).tolist(), [0, 1])
        masked = numpy.ma.masked_equal([[1, 9], [9, 1]], 1)
        self.raises(TypeError, "the cost matrix is a masked array", ours.linear_sum_assignment, masked)
        self.raises(TypeError, "the cost matrix is a masked array", ours.certify_assignment, masked, [0, 1], [0, 1])

    def test_matchings(self):
        for chance in draws(7, 300):
            shape = chance.randrange(1, 6), chance.randrange(1, 6)
            graph = numpy.array([[chance.choice([0, 0, 3, 5, 8]) for _ in range(shape[1])] for _ in range(shape[0])])
            graph = sparse.csr_matrix(graph)
            for kind in "row", "column":
                theirs, found = (it.maximum_bipartite_matching(graph, kind) for it in (csgraph, ours))
                self.assertEqual((found.shape, (found >= 0).sum()), (theirs.shape, (theirs >= 0).sum()))
                for place, other in enumerate(found):
                    row, column = (other, place) if kind == "row" else (place, other)
                    self.assertTrue(other == -1 or graph[row, column])
                self.assertEqual(len(set(found[found >= 0])), (found >= 0).sum())
            if (theirs >= 0).sum() < min(shape):  # SciPy 1.10 may run for ever then
                self.raises(ValueError, "no full matching exists", ours.min_weight_full_bipartite_matching, graph)
                continue
            theirs, found = (it.min_weight_full_bipartite_matching(graph) for it in (csgraph, ours))
            self.assertEqual(graph[found].sum(), graph[theirs].sum())


def certify_program(x, fun, **program):
    """What is certified of the result of a program."""
    return ours.certify_linprog(optimize.OptimizeResult(x=x, fun=fun, status=0), **program)


class Programs(Scipy):
    def drawn(self, chance):
        """A program of a network, or one that is near it."""
        rows, count = chance.randrange(1, 5), chance.randrange(1, 7)
        matrix = numpy.zeros((rows, count), int)
        for column in range(count):
            for row, sign in zip(chance.sample(range(rows), min(rows, chance.choice([1, 2, 2]))), (1, -1)):
                matrix[row, column] = sign
        x = [chance.randrange(5) for _ in range(count)]
        right = matrix @ x
        matrix[(flipped := [row for row in range(rows) if chance.random() < 0.4])] *= -1
        right[flipped] *= -1
        cut = chance.randrange(rows + 1)
        words = {"c": [chance.randrange(-3, 9) for _ in range(count)]}
        if cut:
            words |= {"A_ub": matrix[:cut], "b_ub": right[:cut] + chance.randrange(2)}
        if cut < rows:
            words |= {"A_eq": matrix[cut:], "b_eq": right[cut:] + (chance.random() < 0.1)}
        low = chance.choice([0, 0, -2, 1])
        words["bounds"] = chance.choice([(min(low, 0), None), (min(low, 0), 6), [(min(low, it), it + 2) for it in x]])
        return words

    def test_what_scipy_finds(self):
        kinds = dict.fromkeys((0, 2, 3), 0)
        for chance in draws(8, 300):
            words = self.drawn(chance)
            theirs = optimize.linprog(**words)
            kinds[theirs.status] = kinds.get(theirs.status, 0) + 1
            if theirs.status == 2:
                self.assertIsNone((found := ours.certify_linprog(theirs, **words)).value)
                self.cannot_be_met(found.duals, **words)
            elif theirs.status == 0:
                found = ours.certify_linprog(theirs, **words)
                self.assertAlmostEqual(found.value, theirs.fun)
                self.is_shown(found, **words)
            else:
                self.raises(ValueError, "status 3", ours.certify_linprog, theirs, **words)
        self.assertGreater(min(kinds.values()), 5, kinds)

    def cannot_be_met(self, names, c, bounds, **words):
        """These constraints alone are infeasible by linprog too."""
        self.assertTrue(names)
        for side in "ub", "eq":
            rows = [int(it[5:-1]) for it in names if it.startswith(f"A_{side}")]
            for name in f"A_{side}", f"b_{side}":
                if name in words:
                    words[name] = numpy.array(words[name])[rows]
        self.assertEqual(optimize.linprog(c, **words, bounds=bounds).status, 2)

    def test_constraints_that_cannot_be_met(self):
        """The set that shows it may have the node that is no constraint: those outside of it are named then."""
        pair = [[1, -1], [-1, 1]]
        rows = [
            (["A_eq[0]"], {"c": [3, 7], "A_eq": [[1, 1]], "b_eq": [-1]}),
            (["A_eq[0]"], {"c": [3, 7], "A_eq": [[1, 1]], "b_eq": [11]}),
            (["A_eq[1]"], {"c": [3, 7], "A_eq": [[1, 0], [0, 1]], "b_eq": [1, -1]}),
            (["A_ub[0]"], {"c": [1], "A_ub": [[1]], "b_ub": [-1]}),
            (["A_eq[0]", "A_eq[1]"], {"c": [1, 1], "A_eq": pair, "b_eq": [1, 1]}),
            (["A_eq[0]", "A_eq[1]"], {"c": [1, 1], "A_eq": pair, "b_eq": [-1, -1]}),
        ]
        for wanted, words in rows:
            with self.subTest(words):
                words["bounds"] = 0, 5
                found = ours.certify_linprog(optimize.linprog(**words), **words)
                self.assertEqual((found.value, found.x, found.duals), (None, None, wanted))
                self.cannot_be_met(found.duals, **words)

    def is_shown(self, found, c, A_ub=None, b_ub=None, A_eq=None, b_eq=None, bounds=None):
        parts = [it for it in (A_ub, A_eq) if it is not None]
        reduced = c - numpy.vstack(parts).T @ found.duals
        table = [bounds] * len(c) if isinstance(bounds, tuple) else bounds
        for it, cost, (low, high) in zip(found.x, reduced, table):
            self.assertTrue(low <= it and (high is None or it <= high))
            self.assertTrue((cost >= 0 or it == high) and (cost <= 0 or it == low))

    def test_what_is_no_network(self):
        for A_eq, message in [
            ([[1, 1], [1, -1], [1, 0]], r"x\[0\] has 3 entries, and may have two"),
            ([[2, 1], [0, 1]], r"x\[0\] has an entry of 2, not 1 or -1"),
            ([[1, 1], [1, -1]], r"no signs of constraints give x\[1\] entries"),
        ]:
            program = {"c": [1, 1], "A_eq": A_eq, "b_eq": [1] * len(A_eq)}
            self.raises(ValueError, message, certify_program, [1, 1], 2, **program)
        program = {"c": [1], "A_eq": [[numpy.nan]], "b_eq": [1]}
        self.raises(ValueError, r"A_eq\[0, 0\] is nan", certify_program, [1, 1], 2, **program)
        free = {"c": [1], "A_eq": [[1]], "b_eq": [1], "bounds": (None, None)}
        self.raises(ValueError, r"x\[0\] has no lower bound", certify_program, [1, 1], 2, **free)

    def test_what_is_refused(self):
        certify = functools.partial(certify_program, c=[3, 7], A_eq=[[1, 1]], b_eq=[6], bounds=(0, 5))
        self.assertEqual(certify([5 + 1e-9, 1.0], 22).x.tolist(), [5, 1])
        no = self.raises(dimacs.NotOptimal, "it costs 26, and a better flow 22", certify, [4.0, 2.0], 26)
        self.assertEqual(no.better.tolist(), [5, 1])
        no = self.raises(dimacs.Refused, "Balance: 5 leaves, its supply is 6", certify, [5.0, 0.0], 15)
        self.assertEqual(no.node, "A_eq[0]")
        no = self.raises(dimacs.Refused, "AboveCap: it carries 6, its capacity is 5", certify, [6.0, 0.0], 18)
        self.assertEqual(no.arc, "x[0]")
        self.raises(dimacs.Refused, "ValueDiffers: 23 is claimed, it is 22", certify, [5.0, 1.0], 23)
        self.raises(ValueError, r"x\[0\] is 4.5, not a whole number: the nearest is 4", certify, [4.5, 1.5], 24)
        self.raises(ValueError, r"x\[1\] is nan, not a finite number", certify, [5.0, numpy.nan], 22)
        self.raises(ValueError, "fun is nan, not a finite number", certify, [5.0, 1.0], numpy.nan)
        self.raises(ValueError, "fun is inf, not a finite number", certify, [5.0, 1.0], numpy.inf)

    def test_a_tolerance(self):
        last = 2**53 + 1
        certify = functools.partial(certify_program, [last], c=[1], A_eq=[[1]], b_eq=[last], bounds=(0, None))
        self.assertEqual(certify(last, tolerance=0).x.tolist(), [last])
        for fun in 2.0**53, numpy.float64(2**53):
            self.raises(dimacs.Refused, "ValueDiffers", certify, fun, tolerance=0)
        for wrong in numpy.nan, numpy.inf, -1e-9:
            self.raises(ValueError, f"tolerance is {wrong}, and has to be", certify, last, tolerance=wrong)

    def test_sizes(self):
        program = {"c": [3], "A_ub": [[1]], "b_ub": [9], "A_eq": [[1]], "b_eq": [5]}
        self.assertEqual(certify_program([5.0], 15, **program).value, 15)
        for name, numbers, message in (
            ("b_eq", [5, 9], "b_eq has 2 numbers, and A_eq has 1 rows"),
            ("b_eq", [], "b_eq has 0 numbers, and A_eq has 1 rows"),
            ("b_eq", None, "b_eq has 0 numbers, and A_eq has 1 rows"),
            ("b_ub", [9, 5], "b_ub has 2 numbers, and A_ub has 1 rows"),
            ("A_ub", None, "b_ub has 1 numbers, and A_ub has 0 rows"),
        ):
            self.raises(ValueError, message, certify_program, [5.0], 15, **{**program, name: numbers})
        self.raises(ValueError, "x has 4 numbers, and c has 1", certify_program, [5, 0, 7, 8], 15, **program)

    def test_bounds(self):
        """A pair for each variable or for all, in each form that linprog takes, and no other."""
        inf, nan = numpy.inf, numpy.nan
        program = {"c": [3, 7], "A_eq": [[1, 1]], "b_eq": [6]}
        forms = [[(0, 5)], (0, 5), [[0], [5]], [(0, 5), (0, nan)], [(0, 5), (0, None)], numpy.array([[0, 5], [0, inf]])]
        for bounds in *forms, [], [[]], None, (0, nan), (0, inf):
            result = optimize.linprog(**program, bounds=bounds)
            found = ours.certify_linprog(result, **program, bounds=bounds)
            self.assertEqual((found.value, found.x.tolist()), (round(result.fun), result.x.round().tolist()))
        for bounds in [(0, 5)] * 3, [0, 5, 6], [[[0, 5]]]:
            self.raises(ValueError, "", optimize.linprog, **program, bounds=bounds)
            self.raises(ValueError, "bounds have the shape", ours.certify_linprog, result, **program, bounds=bounds)
        for bounds in [(None, 5)], [(nan, 5)], [(-inf, 5)]:
            self.raises(ValueError, "no lower bound", ours.certify_linprog, result, **program, bounds=bounds)
        for name in "c", "A_eq", "b_eq", "bounds":
            words = {**program, "bounds": [(0, 5), (0, 5)]}
            words[name] = numpy.ma.masked_equal(words[name], 7)
            self.raises(TypeError, f"{name} is a masked array", ours.certify_linprog, result, **words)

    def test_numbers_of_numpy(self):
        """The numbers of a program are exact, also where those of numpy wrap around or are rounded."""
        program = {"c": [4], "A_eq": [[1]], "b_eq": [5], "bounds": numpy.array([[-(2**62), 2**61]])}
        self.assertEqual(certify_program([5.0], 20, **program).value, 20)
        for name, numbers, message in (
            ("b_eq", [1e-17], r"b_eq\[0\] is 1e-17, not a whole number"),
            ("c", [4.5], r"c\[0\] is 4.5, not a whole number"),
            ("bounds", [(-0.5, 5.5)], r"bounds\[0\] is -0.5, not a whole number"),
        ):
            low = {"bounds": (-1, None), name: numbers}
            self.raises(ValueError, message, certify_program, [5.0], 20, **{**program, **low})
        last = 2**53 + 1
        program = {"c": [last, 0.0], "A_eq": [[1, 1]], "b_eq": [1], "bounds": [(0, 1), (0, 0)]}
        self.assertEqual(certify_program([1.0, 0.0], last, **program).value, last)
        wrapped = sparse.coo_matrix((numpy.array([127, 127, 3], "int8"), ([0] * 3, [0] * 3)), shape=(1, 1))
        program = {"c": [1], "A_eq": wrapped, "b_eq": [1]}
        self.raises(ValueError, r"x\[0\] has an entry of 257", certify_program, [1.0], 1, **program)


class Lists(Scipy):
    """In a list of ints and floats numpy rounds the ints."""

    def test_what_numpy_rounds(self):
        inf, wide = numpy.inf, 2**53 + 1
        message = rf"the entry at \(0, 1\) is {wide}, and beside floats it would be {2**53}"
        self.raises(ValueError, message, ours.linear_sum_assignment, [[inf, wide], [1, 2]])
        self.raises(ValueError, message, ours.certify_assignment, [[inf, wide], [1, 2]], [0, 1], [1, 0])
        self.raises(ValueError, message, ours.shortest_path, [[0, wide], [1.0, 0]])
        graph = sparse.csr_matrix(numpy.array([[0, 2**53, 0], [0, 0, 0], [0, 0, 0]]))
        certify = ours.certify_shortest_path
        self.raises(ValueError, message, certify, graph, [[0, wide, inf]], indices=[0])
        self.assertEqual(certify(graph, [[0, 2**53, inf]], indices=[0])[0, 1], 0)
        flow = [[0, wide, 0.0], [-wide, 0, 0], [0, 0, 0]]
        self.raises(ValueError, message, ours.certify_maximum_flow, graph, 0, 1, flow)


class Names(Scipy):
    def test_what_is_there(self):
        self.assertEqual(dir(ours), sorted(ours.__all__))
        self.assertTrue(all(hasattr(ours, it) for it in ours.__all__))
