"""Pictures, from Python. tests/draw.py tests what is in them."""

import gzip
import pathlib
import tempfile
import unittest
import xml.etree.ElementTree as ElementTree

import dimacs
from shared import raised

MAX = "p max 3 3\nn 1 s\nn 3 t\na 1 2 4\na 2 3 3\na 1 2 2\n"
FLOW = "s 3\nf 1 2 3\nf 2 3 3\n"
CUT = "p cut 3 2\nu 1\nu 2\n"
GRAPH = "p sp 3 2\na 1 2 5\na 2 3 6\n"

#: Texts, and the lines of the library about them.
CLAIMS = [
    ((MAX,), ["i max 3 3 1 3"]),
    ((MAX, FLOW), ["v max 3"]),
    ((MAX, FLOW, CUT), ["v max 3"]),
    ((MAX, "s 1\nf 1 2 1\nf 2 3 1\n"), ["x solution 1 2 NotMaximum"]),
    ((MAX, "s 5\nf 1 2 5\nf 2 3 5\n"), ["x arc 1 AboveCap"]),
    (("p min 2 1\nn 1 3\nn 2 -3\na 1 2 0 2 7\n", "p cut 2 1\nu 1\n"), ["v infeasible"]),
    (("p min 2 1\nn 1 3\nn 2 -3\na 1 2 0 5 7\n", "s 21\nf 1 2 3\n"), ["v min 21"]),
    ((GRAPH, "p distances 3 1\nt 1 2\nd 2 5\nd 3 11\n"), ["v sp distances 1"]),
    ((GRAPH, "p aux sp p2p 2\nq 1 3\nq 1 2\n", "p dist 3 1\nt 1 2\nd 2 5 1\nd 3 11 2\n"), ["v 1 3 11", "v 1 2 5"]),
]


def marks(drawing, number):
    """The marks of an arc."""
    found = ElementTree.fromstring(drawing.svg).find(f".//*[@data-arc='{number}']")
    return found.get("class").split()[1:]


class Pictures(unittest.TestCase):
    def test_claims(self):
        for texts, lines in CLAIMS:
            with self.subTest(lines[0], texts=len(texts)):
                drawn = dimacs.draw(*texts)
                self.assertEqual(drawn.lines, tuple(lines))
                self.assertIn(lines[-1], "".join(ElementTree.fromstring(drawn._repr_svg_()).itertext()))
                as_bytes = dimacs.draw(*(bytearray(it.encode()) for it in texts))
                self.assertEqual(as_bytes.svg, drawn.svg)

    def test_what_calls_return(self):
        drawn = dimacs.draw(MAX, dimacs.solve_max(MAX))
        self.assertEqual(marks(drawn, 2), ["leaves", "saturated"])
        self.assertEqual(dimacs.draw(MAX, FLOW, dimacs.certify_max(MAX, FLOW)).lines, ("v max 3",))

    def test_files(self):
        with tempfile.TemporaryDirectory() as folder:
            instance, picture = pathlib.Path(folder, "a & b.max"), pathlib.Path(folder, "made.svg")
            instance.write_text(MAX)
            drawn = dimacs.draw(instance, FLOW)
            packed = pathlib.Path(folder, "a & b.max.gz")
            packed.write_bytes(gzip.compress(MAX.encode()))
            self.assertEqual(dimacs.draw(packed, FLOW).svg, drawn.svg.replace("b.max", "b.max.gz"))
            drawn.save(picture)
            self.assertEqual(picture.read_text(encoding="utf-8"), drawn.svg)
            self.assertIn("a & b.max", "".join(ElementTree.parse(picture).getroot().itertext()))
            drawn.save(f"{folder}/made.dot")
            self.assertEqual(pathlib.Path(folder, "made.dot").read_text(encoding="utf-8"), drawn.dot)

    def test_only(self):
        chain = "p sp 900 899\n" + "".join(f"a {k} {k + 1} 1\n" for k in range(1, 900))
        self.assertRaisesRegex(ValueError, "900 nodes and 899 arcs, and a picture .* only=", dimacs.draw, chain)
        self.assertIn('data-node="401"', dimacs.draw(chain, only=[400], layers=True).svg)

    def test_source(self):
        distances = "p distances 3 2\nt 1 2\nd 2 5\nd 3 11\nt 2 1\nd 3 6\n"
        self.assertIn("distance 6", dimacs.draw(GRAPH, distances, source=2).svg)
        self.assertRaisesRegex(ValueError, "no distances from 3", dimacs.draw, GRAPH, distances, source=3)

    def test_misuse(self):
        self.assertRaisesRegex(ValueError, "is followed by", dimacs.draw, MAX, CUT)
        it = raised(dimacs.Refused, dimacs.draw, "p max 3 3\nn 1 s\nn 9 t\n", FLOW)
        self.assertEqual(it.line, 3)
        for wrong in (None, 5, ["p sp 1 0"]):
            self.assertRaisesRegex(TypeError, "draw takes texts", dimacs.draw, wrong)
        self.assertRaisesRegex(ValueError, "names a file: pass pathlib.Path", dimacs.draw, __file__)
