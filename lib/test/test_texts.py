"""The calls over texts, from Python."""

import array
import ctypes
import mmap
import tempfile
import unittest
from unittest import mock

import dimacs
from dimacs import library
from rows import rows  # tests/rows.py
from shared import Said, raised

FILES = dict(rows("files"))
MAX, FLOW, CUT, MIN, LEAST, POT, SURPLUS = map(FILES.get, ("max", "flow", "cut", "min", "least", "pot", "unmet"))
GRAPH, PAIRS, SOURCE, DIST, CLAIMED = map(FILES.get, ("cycle", "pairs", "source", "labels", "near"))
DEAR = "s 15\nf 1 2 2\nf 1 3 2\nf 2 3 1\nf 2 4 1\nf 3 4 3\n"


class Judges(Said):
    """Their answers are in tests/rows/calls."""

    def test_forms(self):
        """What is handed out is str if the instance, or the claim, is."""
        for form in str, lambda text: text.encode():
            handed = [dimacs.certify_max(form(MAX), FLOW).certificate, dimacs.certify_paths(form(GRAPH), CLAIMED).certificate]
            handed += raised(dimacs.NotOptimal, dimacs.certify_min, MIN, form(DEAR)).better, dimacs.solve_max(form(MAX)).solution
            handed += raised(dimacs.Feasible, dimacs.certify_infeasible, form(MIN)).flow, dimacs.convert("max", form(MAX))
            handed += [raised(dimacs.Infeasible, dimacs.solve_min, form(SURPLUS)).certificate]
            self.assertEqual({type(it) for it in handed}, {type(form(""))})
        self.says(dimacs.Refused, "instance 1 4 BadNumber", dimacs.show, "gr", "p sp 2 1\u00b9\n")
        self.assertTrue(dimacs.Verdict("pairs"))

    def test_pairs_of_many_lines(self):
        pairs = "".join(f"q 1 {k % 4 + 1}\n" for k in range(1000))
        answers = dimacs.judge_paths(GRAPH, f"p aux sp p2p 1000\n{pairs}", DIST).pairs
        self.assertEqual([it.target for it in answers], [k % 4 + 1 for k in range(1000)])

    def test_what_the_second_call_answers(self):
        """A text that is longer than a line is asked for again."""
        words = GRAPH, "p aux sp p2p 40\n" + "q 1 2\n" * 40, DIST
        judge, calls = library.judge, []

        def second_has_no_memory(*words):
            calls.append(words)
            return judge(*words) if len(calls) == 1 else library.NO_MEMORY

        with mock.patch.object(library, "judge", second_has_no_memory), self.assertRaises(MemoryError):
            dimacs.judge_paths(*words)
        self.assertEqual(len(calls), 2)


class Spreads(Said):
    def test_forms(self):
        """What is handed out has the form of the sums."""
        parallel, arcs = "p max 2 2\nn 1 s\nn 2 t\na 1 2 3\na 1 2 5\n", ([1, 1, 2], [2, 2, 1], [3, 5, 4])
        self.assertEqual(dimacs.spread_max(parallel, b"s 6\nf 1 2 4\nf 1 2 2\n"), b"s 6\nf 1 2 3\nf 1 2 3\n")
        self.assertEqual(dimacs.spread_min("p min 2 1\na 1 2 0 3 9\n", "s 0\nf 1 2 3\n"), "s 0\nf 1 2 3\n")
        given = array.array("q", [6])
        self.assertEqual(dimacs.spread_max_arrays(2, 1, 2, *arcs, [1], [2], given), array.array("q", [3, 3, 0]))
        for call, words in (dimacs.spread_max, (parallel, "s 6\nf 2 1 6\n")), (dimacs.spread_max_arrays, (3, 1, 2, *arcs, [3], [1], [6])):
            it = raised(dimacs.Refused, call, *words)
            self.assertEqual((it.text, it.line, it.reason), ("solution", 2, "UnknownArc"))

    def test_sums_past_64_bits(self):
        """What the other arcs leave to the first one."""
        arcs, last = ([1, 1], [2, 2]), 2**63 - 1
        self.assertEqual(dimacs.spread_max_arrays(2, 1, 2, *arcs, [0, 1], [1, 1], [2, 2], [last, 1]), [last, 1])
        for sums, reason in ([last, 1], "AboveCap"), ([-last, -2], "BelowLow"):
            it = raised(dimacs.Refused, dimacs.spread_max_arrays, 2, 1, 2, *arcs, [0, 0], [1, 1], [2, 2], sums)
            self.assertEqual((it.arc, it.reason), (1, reason))

    def test_forms_of_arrays(self):
        numbers = (ctypes.c_int64 * 3)(3, 5, 4)
        self.assertEqual(
            dimacs.spread_max_arrays(2.0, 1.0, 2, [1, 1, 2], [2, 2, 1], numbers, [1.0], [2], [6]), [3, 3, 0]
        )
        none = [[]] * 6
        self.assertRaisesRegex(TypeError, "nodes is '2', not a number", dimacs.spread_max_arrays, "2", 1, 2, *none)
        self.assertRaisesRegex(ValueError, "sink is 4294967296, not", dimacs.spread_max_arrays, 2, 1, 2**32, *none)
        arcs, message = ([1, 1, 2], [2, 2, 1], [3, 5, 4]), "pair_heads has 2 items, and there are 1 pairs"
        self.says(ValueError, message, dimacs.spread_max_arrays, 2, 1, 2, *arcs, [1], [2, 1], [6])

    def test_numbers_from_0(self):
        arcs = [0, 0, 1], [1, 1, 0], [3, 5, 4]
        self.assertEqual(dimacs.spread_max_arrays(2, 0, 1, *arcs, [0, 1], [1, 0], [6, 1], base=0), [3, 3, 1])
        message = "arc 1 NodeRange: it goes from 0 to 2; nodes are numbered from 0, and there are 2"
        words = 2, 0, 1, [0, 0], [1, 2], [3, 5], [], [], []
        self.says(dimacs.PastLimit, message, dimacs.spread_max_arrays, *words, base=0)
        words = 3, [0], [1], [0], [3], [1], [0, 2], [1, 1], [3, 1]
        message = "solution 3 0 UnknownArc: no arc goes from 2 to 1"
        self.says(dimacs.Refused, message, dimacs.spread_min_arrays, *words, base=0)

    def test_limits_of_arrays(self):
        none, spread_max, spread_min = [[]] * 3, dimacs.spread_max_arrays, dimacs.spread_min_arrays
        for call, *words, message in [
            (spread_max, 2, 0, 2, *none, *none, "node 0 NodeRange"),
            (spread_max, 2, 1, 3, *none, *none, "node 3 NodeRange"),
            (spread_max, 2, 1, 1, *none, *none, "node 1 NodeTwice"),
            (spread_max, 2**27 + 1, 1, 2, *none, *none, "node 134217729 NumberRange"),
            (spread_max, 2, 1, 2, [1, 0], [2, 1], [1, 1], *none, "arc 2 NodeRange"),
            (spread_max, 2, 1, 2, [1], [2], [-1], *none, "arc 1 BoundOrder"),
            (spread_min, 2, [1, 1], [2, 2], [0, 3], [1, 2], [1, 1], *none, "arc 2 BoundOrder"),
            (spread_min, 2**27 + 1, *[[]] * 5, *none, "node 134217729 NumberRange"),
        ]:
            self.assertRaisesRegex(dimacs.PastLimit, f"^{message}:", call, *words)


class Solves(unittest.TestCase):
    def test_longer_answers_than_texts(self):
        nodes = 200
        arcs = "".join(f"a {node} {node + 1} 1000000000000\n" for node in range(1, nodes))
        graph = f"p sp {nodes} {nodes - 1}\n{arcs}"
        queries = f"p aux sp ss {nodes}\n" + "".join(f"s {node}\n" for node in range(1, nodes + 1))
        solved = dimacs.solve_paths(graph, queries)
        self.assertEqual(solved.pairs, solved.solution)
        labels = solved.certificate
        self.assertGreater(len(labels), 3 * len(graph))
        self.assertEqual(dimacs.judge_paths(graph, queries, labels).value, nodes)


class Texts(unittest.TestCase):
    def test_buffers(self):
        plain = MAX.encode()
        with tempfile.TemporaryFile() as file:
            file.write(plain)
            file.flush()
            with mmap.mmap(file.fileno(), 0, access=mmap.ACCESS_READ) as mapped:
                for text in (plain, bytearray(plain), memoryview(plain), memoryview(b"?" + plain)[1:], mapped):
                    self.assertEqual(dimacs.convert("max", text), plain)
        spread = memoryview(b"".join(bytes([byte, 0]) for byte in plain))[::2]
        self.assertEqual(dimacs.convert("max", spread), plain)


if __name__ == "__main__":  # tests/targets.py runs it through node
    unittest.main()
