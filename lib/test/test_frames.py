"""Networks in DataFrames of pandas."""

import unittest
import warnings
from fractions import Fraction

import dimacs
from shared import Said, pandas, raised


@unittest.skipUnless(pandas, "no pandas")
class Frames(Said):
    def setUp(self):
        rows = [("spring", "mill", 6, 2), ("spring", "farm", 8, 1), ("mill", "town", 4, 3), ("farm", "town", 5, 1)]
        self.edges = pandas.DataFrame(rows, columns=["from", "to", "room", "price"], index=list("abcd"))

    def network(self, **more):
        return dimacs.from_frame(self.edges, "from", "to", capacity="room", cost="price", **more)

    def test_a_maximum_flow(self):
        value, edges, nodes = answer = self.network().solve_max("spring", "town")
        flows = answer.flows
        self.assertEqual((list(edges.columns), list(edges.index)), (["from", "to", "flow"], list(self.edges.index)))
        self.assertEqual((value, flows.to_dict()), (9, {"a": 4, "b": 5, "c": 4, "d": 5}))
        self.assertEqual(nodes["inside"].to_dict(), {"spring": True, "mill": True, "farm": True, "town": False})
        self.edges["flow"] = flows
        for claim in "flow", flows, flows.tolist():
            self.assertEqual(self.network().certify_max("spring", "town", claim).value, 9)
        self.edges["flow"] -= [1, 0, 1, 0]
        no = raised(dimacs.NotOptimal, self.network().certify_max, "spring", "town", "flow")
        self.assertEqual((no.value, no.better.to_dict()), (8, flows.to_dict()))
        self.edges.loc["d", "flow"] = 6
        message = "arc 'd' AboveCap: it carries 6, its capacity is 5"
        self.says(dimacs.Refused, message, self.network().certify_max, "spring", "town", "flow")

    def test_what_the_caller_changes_later(self):
        """A frame is of the edges and the supplies as they were when it was made."""
        supply = pandas.Series({"spring": 9, "town": -9})
        self.edges["sent"] = [5, 4, 5, 4]
        network, named = self.network(supply=supply), self.network()
        self.edges.sort_values("room", inplace=True)
        self.edges.loc[:, "room"], supply["spring"] = 99, 0
        message = "arc 'c' AboveCap: it carries 5, its capacity is 4"
        self.says(dimacs.Refused, message, named.certify_max, "spring", "town", "sent")
        self.assertEqual(network.solve_min().flows.to_dict(), {"a": 4, "b": 5, "c": 4, "d": 5})

    def test_floats_of_32_bits(self):
        self.edges["room"] = pandas.Series([0.6, 0.8, 0.4, 0.5], self.edges.index, "float32")
        network = self.network(scale=10)
        self.assertEqual(network.solve_max("spring", "town").value, Fraction(9, 10))
        flows = pandas.Series([0.4, 0.5, 0.4, 0.5], self.edges.index, "float32")
        self.assertEqual(network.certify_max("spring", "town", flows).value, Fraction(9, 10))
        supply = pandas.Series({"spring": 0.7, "town": -0.7}, dtype="float32")
        self.assertEqual(self.network(scale=(10, 1), supply=supply).solve_min().value, Fraction(2))

    def test_least_cost(self):
        network = self.network(supply=pandas.Series({"spring": 7, "town": -7}))
        answer = network.solve_min()
        cost, flows, nodes = answer.value, answer.flows, answer.nodes
        self.assertEqual((cost, flows.to_dict()), (20, {"a": 2, "b": 5, "c": 2, "d": 5}))
        self.assertEqual(nodes.loc["spring", "potential"] - nodes.loc["town", "potential"], 5)
        self.assertEqual(network.certify_min(flows).value, 20)
        self.says(dimacs.Refused, "node 'spring' Balance: 0 leaves, its supply is 7", network.certify_min, flows * 0)
        no = raised(dimacs.Feasible, network.certify_infeasible)
        self.assertEqual(list(no.flow.index), list("abcd"))

    def test_no_flow(self):
        network = self.network(supply={"spring": 10, "town": -10})
        no = raised(dimacs.Infeasible, network.solve_min)
        self.assertEqual(no.inside["inside"].to_dict(), network.certify_infeasible().nodes["inside"].to_dict())
        self.assertFalse(no.inside.loc["town", "inside"])

    def test_distances(self):
        found = self.network().solve_paths("mill").nodes
        self.assertEqual(found["distance"].to_dict(), {"spring": float("inf"), "mill": 0, "farm": float("inf"), "town": 3})
        self.assertEqual(found["predecessor"].to_dict(), {"spring": None, "mill": None, "farm": None, "town": "mill"})
        again = self.network().certify_paths("mill", found["distance"]).nodes
        self.assertEqual(again["predecessor"].to_dict(), found["predecessor"].to_dict())
        message = "node 'town' NoTightArc: no walk gives its distance 2"
        self.says(dimacs.Refused, message, self.network().certify_paths, "mill", {"mill": 0, "town": 2})

    def test_numbers(self):
        self.edges["room"] = [0.6, 0.8, 0.4, 0.5]
        message = "room of row 'a' is 0.6, not a whole number: scale= takes multiples of a unit"
        self.says(ValueError, message, self.network().solve_max, "spring", "town")
        self.says(ValueError, "'sea' is no node of the frame", self.network().solve_max, "spring", "sea")
        message = "the frame has no column 'where': it has 'from', 'to', 'room', 'price'"
        self.says(ValueError, message, dimacs.from_frame, self.edges, "from", "where")

    def test_lower_bounds(self):
        """A maximum flow has none: a flow that breaks one is no answer."""
        self.edges["least"] = [0, 8, 0, 0]
        network = self.network(low="least")
        for call, *words in (network.solve_max,), (network.certify_max, [4, 5, 4, 5]):
            self.says(ValueError, "a maximum flow has no lower bounds: column 'least'", call, "spring", "town", *words)

    def test_distances_above_2_to_53(self):
        """They stay what they are beside a node that isn't reached."""
        self.edges["price"] = [1, 2, 2**53 + 1, 4]
        network = self.network()
        found = network.solve_paths("mill").nodes["distance"]
        self.assertEqual(found["town"], 2**53 + 1)
        self.assertEqual(found["spring"], float("inf"))
        for claim in found, found.to_dict(), {"mill": 0, "town": 2**53 + 1}:
            again = network.certify_paths("mill", claim).nodes["distance"]
            self.assertEqual([again["town"], again["farm"]], [2**53 + 1, float("inf")])
        message = f"node 'town' NoTightArc: no walk gives its distance {2**53}"
        self.says(dimacs.Refused, message, network.certify_paths, "mill", {"mill": 0, "town": 2**53})

    def test_a_label_twice(self):
        twice = pandas.Series([3, 4, -7], index=["spring", "spring", "town"])
        self.says(ValueError, "supply has the node 'spring' twice", lambda: self.network(supply=twice))
        twice = pandas.Series([9, 0, 3], index=["town", "mill", "town"])
        self.says(ValueError, "distances has the node 'town' twice", self.network().certify_paths, "mill", twice)
        twice = pandas.Series([1, 1.0], index=[0, 0.0])
        self.says(ValueError, "supply has the node 0.0 twice", lambda: self.network(supply=twice))
        self.edges.columns = ["from", "to", "room", "room"]
        message = "the frame has the column 'room' twice"
        self.says(ValueError, message, lambda: dimacs.from_frame(self.edges, "from", "to", capacity="room"))

    def test_what_is_given_wrongly(self):
        edges, network, frame = self.edges, self.network(), dimacs.from_frame
        lists, missing = edges.assign(to=[["mill"]] * 4), edges.assign(to=["mill", "farm", None, "town"])
        twice = edges.assign(flow=0)[[*edges, "flow", "flow"]]
        tables = edges.rename(columns={"from": "flow"}), pandas.concat({"ends": edges}, axis=1)
        tables += (pandas.concat({"flow": edges}, axis=1),)
        by_node, own = "and has to be a dict or a Series by node", "and answers have a column 'flow' of their own"
        has = "it has 'from', 'to', 'room', 'price'"
        types = [
            ("edges is a dict, and has to be a DataFrame", frame, {"from": ["a"], "to": ["b"]}, "from", "to"),
            ("edges is a NoneType, and has to be a DataFrame", frame, None, "from", "to"),
            ("a Series names no column: pass the name of one", frame, edges, edges["from"], "to"),
            ("a list names no column: pass the name of one", frame, edges, "from", ["to"]),
            (f"supply is a list, {by_node}", lambda: self.network(supply=[1, 2])),
            (f"supply is a DataFrame, {by_node}", lambda: self.network(supply=edges)),
            (f"distances is a list, {by_node}", network.certify_paths, "mill", [0, 1]),
            ("to of row 'a' is ['mill'], which can't name a node", frame, lists, "from", "to"),
            ("['mill'] can't name a node", network.solve_max, ["mill"], "town"),
            ("flows: one number, an array of 4 is wanted", network.certify_max, "mill", "town", 5),
            ("flows is <NA>, not an array", network.certify_min, pandas.NA),
            ("flows is a dict, whose items have no places as those of an array", network.certify_min, {"a": 4}),
        ]
        values = [
            ("to of row 'c' is None, which can't name a node", frame, missing, "from", "to"),
            (f"the column 'flow' is one of ends, {own}", frame, tables[0], "flow", "to"),
            (f"the column ('flow', 'from') is one of ends, {own}", frame, tables[2], ("flow", "from"), ("flow", "to")),
            (f"the frame has no column 'flw': {has}", network.certify_max, "spring", "town", "flw"),
            (f"the frame has no column ('f', 'w'): {has}", network.certify_max, "spring", "town", ("f", "w")),
            ("the frame has the column 'flow' twice", frame(twice, "from", "to").certify_min, "flow"),
            (
                "the frame has no column 'ends': it has ('ends', 'from'), ('ends', 'to'), ('ends', 'room'), ('ends', 'price')",
                *(frame, tables[1], "ends", ("ends", "to")),
            ),
        ]
        for kind, rows in (TypeError, types), (ValueError, values):
            for message, call, *words in rows:
                with self.subTest(message):
                    self.assertEqual(str(raised(kind, call, *words)), message)

    def test_flows_in_each_form(self):
        network, flows = self.network(), [4, 5, 4, 5]
        for claim in iter(flows), tuple(flows), pandas.Series(flows, list("abcd")), (it for it in flows):
            self.assertEqual(network.certify_max("spring", "town", claim).flows.tolist(), flows)
        self.edges[1] = flows
        self.assertEqual(self.network().certify_max("spring", "town", 1).value, 9)

    def test_columns_of_two_levels(self):
        self.edges["carried"] = [4, 5, 4, 5]
        edges = pandas.concat({"mine": self.edges}, axis=1)
        network = dimacs.from_frame(edges, ("mine", "from"), ("mine", "to"), capacity=("mine", "room"))
        found = network.certify_max("spring", "town", ("mine", "carried"))
        self.assertEqual((found.value, found.flows.tolist()), (9, [4, 5, 4, 5]))

    def test_no_edges(self):
        with warnings.catch_warnings():
            warnings.simplefilter("error")
            network = dimacs.from_frame(self.edges[:0], "from", "to", capacity="room", supply={"mill": 0, "town": 0})
            for answer in network.solve_max("mill", "town"), network.solve_min(), network.certify_min([]):
                self.assertEqual((answer.value, answer.flows.tolist()), (0, []))

    def test_nodes_of_any_name(self):
        edges = pandas.DataFrame({"u": [(0, 0), 1, "x"], "v": [1, "x", (0, 0)]})
        self.assertEqual(dimacs.from_frame(edges, "u", "v").solve_paths((0, 0)).nodes["distance"].tolist(), [0, 1, 2])
