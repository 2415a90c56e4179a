#!/usr/bin/env python3
"""Has answers explained, a refusal for each reason: tests/explain.py [BINARY [COUNT [SEED]]]

`dimacs explain WORDS ..` has to print first what `dimacs WORDS ..` prints, and to end with its status. Lines follow, of
which a case has parts, worked out by hand; `$` is their end. No clause fixes their text. A second reader has to write the
same lines after a yes, also of COUNT random instances, 150 by default, that are solved, judged and certified. BINARY is
the built program; crates/dimacs/out/dimacs by default.
"""
import contextlib
import glob
import os
import re
import subprocess
import sys
import tempfile

import explained_yes
import scripts
from instances import BINARY, MEMORY, Folder, text
from rows import rows

CRATES = os.path.join(os.path.dirname(os.path.abspath(__file__)), "../crates")
FACTS = "dimacs_explain/src/facts.rt"
FILES = dict(rows("files"))
MAX, FLOW, CUT = (FILES[it] for it in ("max", "flow", "cut"))
MIN, LEAST, POT = (FILES[it] for it in ("min", "least", "pot"))
CYCLE, ASKED = (FILES[it] for it in ("cycle", "source"))
NEAR = "p sp 4 3\na 1 2 5\na 2 3 4\na 3 4 0\n"
HUGE = 9 * 10**18
DEAR = "s 15\nf 1 2 2\nf 1 3 2\nf 2 3 1\nf 2 4 1\nf 3 4 3\n"

# Each arc of a path, then arcs from its nodes to a hub, ever lighter, and as many from the hub; all distances but the last.
LONG_WALK = {
    "G": text("p sp 8302 24899", *(f"a {k} {k + 1} 1" for k in range(1, 8300)), *(f"a {k} 8301 {30000 - 2 * k}" for k in range(1, 8301)), *["a 8301 8302 0"] * 8300),
    "D": text("p distances 8302 1", "t 1 8298", *(f"d {k} {k - 1}" for k in range(2, 8300))),
}
REVERSED = dict(zip("GD", explained_yes.late_block(1001, lambda arcs: arcs[::-1])))

# Of a pipe that gives more MB nothing is kept.
MOST_KEPT = 64

# What a limit counts.
LIMIT_OF_FLOWS = "^the limit, {}, counts flows, the flow 0 first and each of a greater value than the last: none of them is maximum, so no answer is written\n"
LIMIT_OF_STEPS = "^the limit, {}, counts steps, each to a better flow: they lead to none that costs least, or the costs of one that does, added up arc by arc, leave -10^30 to 10^30: no answer is written\n"
NO_LIMIT = "no limit? then CAP is more than the others and all supplies add up to, at most 9223372036854775807; if an answer fills such an arc, there may be no best\n$"
GREATER = "a greater one may do, as --limit N: N is at most 1000000000, and 1000000 without it\n"

# The texts that commands name; a case gives others in their place.
TEXTS = {"I": MAX, "S": FLOW, "C": CUT, "MI": MIN, "MS": LEAST, "P": POT, "G": CYCLE, "Q": ASKED}

# Reason, words, texts of this case, and parts of the lines that explain, in their order.
CASES = [
    ("LineTooLong", "convert gr T", {"T": " " * 1_048_577}, ["T:1: ", "more than 1048576 bytes"]),
    ("UnknownLine", "convert gr T", {"T": "p sp 1 1\ne 1 1 0\n"}, ["T:2: e 1 1 0", "     ^", "begins with `e`"]),
    ("FieldCount", "convert gr T", {"T": "p sp 1 1\na 1 1\n"}, ["T:2: a 1 1", "3 fields, and `a TAIL HEAD WEIGHT` has 4"]),
    ("BadNumber", "convert gr T", {"T": "p sp 1 1\na 1 1 1.0\n"}, ["T:2: a 1 1 1.0", "           ^^^", "`1.0`", "write 1"]),
    ("BadNumber", "convert gr T", {"T": "p sp 1 1\na 1 1 1e6\n"}, ["`1e6`", "write 1000000"]),
    ("BadNumber", "convert gr T", {"T": "p sp 1 1\na 1 1 1.2e1\n"}, ["`1.2e1`\nwrite 12\n$"]),
    ("BadNumber", "convert gr T", {"T": "p sp 1 1\na 1 1 1.25e1\n"}, ["not `1.25e1`\n$"]),
    ("BadNumber", "convert gr T", {"T": "p sp 1 1\na 1 1 1,\n"}, ["`1,`\nwrite 1\n$"]),
    ("BadNumber", "convert gr T", {"T": "p sp 1 1\na 1 1 -1,200,345\n"}, ["`-1,200,345`\nwrite -1200345\n$"]),
    ("BadNumber", "convert gr T", {"T": "p sp 1 1\na 1 1 1,2\n"}, ["not `1,2`\n$"]),
    ("BadNumber", "convert max T", {"T": "p max 2 1\nn 1 s\nn 2 t\na 1 2 inf\n"}, ["not `inf`\n" + NO_LIMIT]),
    ("NumberRange", "convert dist T", {"T": "p dist 3 1\nt 1 1\nd 2 5 -1\n"}, ["PRED is a number from 1 to 134217728 (2^27), and not -1\na node that no walk reaches has no line: leave it out\n$"]),
    ("BadWord", "convert min T", {"T": "p asn 2 1\n"}, ["that of an assignment problem, which a min text states with supplies 1 and -1, LOW 0 and CAP 1, in the place of a minimum cost"]),
    ("FieldCount", "convert gr T", {"T": "p aux sp co 3\nv 1 2 3\n"}, ["that of coordinates (co), which are no kind of text here, in the place of a graph (gr)\n"]),
    ("NumberRange", "convert gr T", {"T": "p sp 1 1\na 0 1 0\n"}, ["TAIL is a number from 1 to 134217728", "not 0\n", "IDs count from 1: numbered from 0? add 1 to each"]),
    ("BadWord", "convert gr T", {"T": "p max 1 1\n"}, ["`max` stands where `sp` is wanted"]),
    ("ProblemMissing", "convert gr T", {"T": ""}, ["T: is empty\n", "`p sp NODES ARCS`"]),
    ("ProblemTwice", "convert gr T", {"T": "p sp 1 0\np sp 1 0\n"}, ["T:2: p sp 1 0", "line 1 is a p line already"]),
    ("RecordOrder", "convert min T", {"T": "p min 2 1\na 1 2 0 1 0\nn 1 1\n"}, ["T:3: n 1 1", "before all arc lines"]),
    ("NodeRange", "convert gr T", {"T": "p sp 1 1\na 1 2 0\n"}, ["node 2 is above the 1 nodes that line 1 declares"]),
    ("NodeTwice", "convert cut T", {"T": "p cut 4 2\nu 3\nu 3\n"}, ["T:3: u 3", "line 2 names the node already"]),
    ("EndTwice", "convert max T", {"T": "p max 2 1\nn 1 s\nn 2 s\n"}, ["T:3: n 2 s", "line 2 has the same letter already"]),
    ("EndTwice", "convert max T", {"T": "p max 3 1\nn 1 s\nn 2 t\nn 3 s\n"}, ["T:4: n 3 s", "line 2 has the same letter already"]),
    ("EndMissing", "convert max T", {"T": "p max 2 1\nn 1 s\na 1 2 1\n"}, ["`n ID t`, the sink,"]),
    ("ProblemMissing", "convert gr T", {"T": "c\n"}, ["T: ends after line 1\n"]),
    ("BoundOrder", "convert max T", {"T": "p max 2 1\nn 1 s\nn 2 t\na 1 2 -5\n"}, ["CAP is -5, and has to be 0 or more\n" + NO_LIMIT]),
    ("BoundOrder", "convert min T", {"T": "p min 2 1\na 1 2 0 -1 0\n"}, ["CAP is -1, less than LOW, 0\n" + NO_LIMIT]),
    ("BoundOrder", "convert min T", {"T": "p min 2 1\na 1 2 -3 2 0\n"}, ["LOW is -3 (and CAP 2), and has to be 0 or more\n"]),
    ("BoundOrder", "convert min T", {"T": "p min 2 1\na 1 2 3 2 0\n"}, ["CAP is 2, less than LOW, 3\n$"]),
    ("TooMany", "convert gr T", {"T": "p sp 1 1\na 1 1 0\na 1 1 0\n"}, ["line 1 declares 1 arc line, and this is one more"]),
    ("TooFew", "convert gr T", {"T": "p sp 1 7\na 1 1 0\n"}, ["T: ends after line 2", "1 arc line of the 7 that line 1 declares"]),
    ("TooFew", "convert dist T", {"T": "p dist 3 1\nt 1 2\nd 2 5 1\n"}, ["declares 2 d lines, and has 1 before this place\n"]),
    ("SolutionMissing", "convert solution T", {"T": "f 1 2 3\n"}, ["one line `s VALUE`"]),
    ("SolutionTwice", "convert solution T", {"T": "s 1\ns 1\n"}, ["line 1 is an s line already"]),
    ("PredUnknown", "convert dist T", {"T": "p dist 3 1\nt 1 1\nd 2 5 3\n"}, ["PRED, 3, is neither the source"]),
    ("PastRadius", "convert dist T", {"T": "p dist 3 1\nt 1 1 4\nd 2 5 1\n"}, ["DIST is 5, above the RADIUS of the block, 4"]),
    ("UnknownArc", "judge-max I S C", {"S": "s 6\nf 1 2 4\nf 4 3 2\n"}, ["S:3: f 4 3 2", "no arc from 4 to 3", "arc 5 leads from 3 to 4"]),
    ("ArcTwice", "judge-max I S C", {"S": FLOW + "f 3 4 3\n"}, ["S:7: f 3 4 3", "I has 1 arc from 3 to 4", "S:6: f 3 4 3", "the two are the same: remove one\n$"]),
    ("ArcTwice", "judge-max I S C", {"S": FLOW.replace("f 3 4 3", "f 3 4 2\nf 3 4 1")}, ["S:7: f 3 4 1", "S:6: f 3 4 2", "\nif the arc is to carry all of them, have them added up: run dimacs spread-max I S OUT\n$"]),
    ("ArcTwice", "judge-max I S C", {"S": FLOW.replace("f 3 4 3", "f 3 4 2\nf 3 4 4")}, ["S:6: f 3 4 2\nthe f lines with these ends add up to 6, outside of 0 to 5, what the arc can carry\n$"]),
    ("ArcTwice", "judge-max I S C", {"I": "p max 2 2\nn 1 s\nn 2 t\na 1 2 1\na 1 2 3\n", "S": "s 5\n" + "f 1 2 1\n" * 2 + "f 1 2 3\n"}, ["as many earlier entries have these ends\nthe f lines with these ends add up to 5, outside of 0 to 4, what these arcs can carry: no order fits\n$"]),
    ("ArcTwice", "judge-max I S C", {"I": "p max 2 2\nn 1 s\nn 2 t\na 1 2 1\na 1 2 3\n", "S": "s 3\n" + "f 1 2 1\n" * 3}, ["I has 2 arcs from 1 to 2", "dimacs spread-max I S OUT\n"]),
    ("BelowLow", "judge-min I S P", {"I": "p min 2 1\na 1 2 1 3 0\n", "S": "s 0\n", "P": "p pot 2 0\n"}, ["I:2: a 1 2 1 3 0", "no entry", "carries 0, less than its LOW, 1"]),
    ("BelowLow", "judge-max I S C", {"S": "s 6\nf 1 2 -1\n"}, ["S:2: f 1 2 -1", "arc 1 carries -1, less than 0\n"]),
    ("AboveCap", "judge-max I S C", {"S": "s 6\nf 1 2 9\n"}, ["I:4: a 1 2 4", "S:2: f 1 2 9", "arc 1 carries 9, more than its CAP, 4"]),
    ("AboveCap", "judge-max I S C", {"I": "p max 2 2\nn 1 s\nn 2 t\na 1 2 1\na 1 2 3\n", "S": "s 3\nf 1 2 3\n", "C": "p cut 2 1\nu 1\n"}, ["2 arcs lead from 1 to 2", "arc 1 is the first of them", "dimacs spread-max I S OUT"]),
    ("AboveCap", "judge-max I S C", {"I": "p max 2 2\nn 1 s\nn 2 t\na 1 2 1\na 1 2 3\n", "S": "s 5\nf 1 2 4\nf 1 2 1\n", "C": "p cut 2 1\nu 1\n"}, ["arc 1 is the first of them", "the f lines with these ends add up to 5, outside of 0 to 4, what these arcs can carry: no order fits\n"]),
    ("Balance", "judge-max I S C", {"S": "s 4\nf 1 2 4\n"}, ["0 leaves node 2, 4 enters it: 4 too little leaves\nentries out of it: 0\nentries into it: 1\n  S:2: f 1 2 4\n"]),
    ("Balance", "judge-min MI S P", {"S": "s 0\n"}, ["MI:2: n 1 4", "0 leaves node 1, 0 enters it, and it supplies 4: 4 too little leaves\n", "entries into it: 0\nto find out whether any flow is feasible, run dimacs certify-infeasible MI\n$"]),
    ("CostRange", "judge-min I S P", {"I": f"p min 1 1\na 1 1 0 {HUGE} {HUGE}\n", "S": f"s 0\nf 1 1 {HUGE}\n", "P": "p pot 1 0\n"}, [f"at a COST of {HUGE}"]),
    ("ValueDiffers", "judge-max I S C", {"S": FLOW.replace("s 6", "s 7")}, ["S:1: s 7", "7 is claimed, and the flow has the value 6"]),
    ("BadNumber", "judge-max I S C", {"C": "p cut 4 1\nu one\n"}, ["C:2: u one", "ID is a whole number", "may be true all the same: to find out, run dimacs certify-max I S\n$"]),
    ("TooFew", "judge-infeasible MI C", {"C": "p cut 4 1\n"}, ["to find out, run dimacs certify-infeasible MI\n$"]),
    ("NodesDiffer", "judge-paths G Q L", {"L": "p dist 5 0\n"}, ["L:1: p dist 5 0", "to find out, run dimacs solve-paths G Q LABELS\n$"]),
    ("ValueDiffers", "judge-min MI S P", {"S": LEAST.replace("s 14", "s 13")}, ["S:1: s 13", "13 is claimed, and the flow costs 14\nFLOW * COST of the arcs, the greatest in size first:\n  arc 1: 1 -> 2, 2 * 2 = 4\n", "\n4 + 4 + 4 + 2 = 14, the cost\n$"]),
    ("NodesDiffer", "judge-max I S C", {"C": "p cut 5 1\nu 1\n"}, ["I:1: p max 4 5", "C:1: p cut 5 1", "may be true all the same: to find out, run dimacs certify-max I S\n$"]),
    ("SourceOutside", "judge-max I S C", {"C": "p cut 4 0\n"}, ["I:2: n 1 s", "doesn't hold it: it lists the nodes on the source's side, the source among them\n", "may be true all the same: to find out, run dimacs certify-max I S\n$"]),
    ("SourceOutside", "judge-max I S C", {"C": "p cut 4 3\nu 2\nu 3\nu 4\n"}, ["C:4: u 4", "this is the sink's side: list the other nodes, those on the source's side\n"]),
    ("SinkInside", "judge-max I S C", {"C": "p cut 4 2\nu 1\nu 4\n"}, ["I:3: n 4 t", "C:3: u 4", "holds it\n", "may be true all the same: to find out, run dimacs certify-max I S\n$"]),
    ("NotSaturated", "judge-max I S C", {"C": "p cut 4 2\nu 1\nu 2\n"}, ["I:6: a 2 3 2", "S:4: f 2 3 1", "carries 1 of its CAP, 2", "this certificate doesn't show the claim, which may be true all the same: to find out, run dimacs certify-max I S\n"]),
    ("BackFlow", "judge-max I S C", {"I": "p max 4 5\nn 1 s\nn 4 t\na 1 2 1\na 1 3 1\na 2 3 1\na 2 4 1\na 3 4 1\n", "S": "s 1\nf 1 2 1\nf 2 3 1\nf 3 4 1\n", "C": "p cut 4 2\nu 1\nu 3\n"}, ["arc 3 enters the set", "carries 1, not 0", "this certificate doesn't show the claim, which may be true all the same: to find out, run dimacs certify-max I S\n"]),
    ("NotTight", "judge-min MI S P", {"S": LEAST, "P": POT.replace("y 1 4", "y 1 3")}, ["P:2: y 1 3", "P:3: y 2 2", "= 2 - 3 + 2 = 1, above 0", "its LOW, 0, and carries 2", "may be true all the same: to find out, run dimacs certify-min MI S\n"]),
    ("NotViolated", "judge-infeasible MI C", {}, ["supplies 4, and its arcs can carry 0 to 6 out of it: it would show the claim if it supplied less than 0 or more than 6\n", "may be true all the same: to find out, run dimacs certify-infeasible MI\n"]),
    ("QueryNode", "judge-paths G Q L", {"Q": "p aux sp ss 1\ns 5\n", "L": "p dist 4 1\nt 1 0\n"}, ["Q:2: s 5", "G:1: p sp 4 3"]),
    ("BlockMissing", "judge-paths G Q L", {"L": "p dist 4 0\n"}, ["L has no block\n"]),
    ("BlockMissing", "judge-paths G Q L", {"Q": "p aux sp ss 1\ns 2\n", "L": "p dist 4 1\nt 1 0\n"}, ["Q:2: s 2", "no block from source 2", "are from 1; 1 in all"]),
    ("NoTightArc", "judge-paths G Q L", {"L": "p dist 4 1\nt 1 1\nd 2 4 1\n"}, ["L:3: d 2 4 1", "node 2 is at distance 4, and its PRED, node 1, at distance 0", "has the WEIGHT 5"]),
    ("Escapes", "judge-paths G Q L", {"L": "p dist 4 1\nt 1 0\n"}, ["G:2: a 1 2 5", "L:2: t 1 0", "in the block from source 1 (line 2) arc 1 leads from node 1, at distance 0, to node 2 with the WEIGHT 5: node 2 is at distance 5 at most, and has no label\n"]),
    ("NotShortest", "judge-paths G Q L", {"G": "p sp 2 2\na 1 2 3\na 1 2 1\n", "L": "p dist 2 1\nt 1 1\nd 2 3 1\n"}, ["G:3: a 1 2 1", "L:3: d 2 3 1\n", "node 2 is at distance 1 at most, and its label says 3\n"]),
    ("NegativeWeight", "solve-paths G Q L", {"G": "p sp 2 1\na 1 2 -4\n"}, ["G:2: a 1 2 -4", "the WEIGHT -4"]),
    # The lines are those of the block in question, and without a line of the head that of the tail.
    ("NotShortest", "certify-paths G D", {"G": NEAR, "D": "p distances 4 2\nt 2 2\nd 3 4\nd 4 4\nt 1 3\nd 3 10\nd 4 9\nd 2 5\n"}, ["G:3: a 2 3 4", "D:6: d 3 10\n", "in the block from source 1 (line 5) arc 2 leads from node 2, at distance 5,", "node 3 is at distance 9 at most, and its d line says 10\n"]),
    ("Escapes", "judge-paths G Q L", {"G": NEAR, "L": "p dist 4 1\nt 1 1\nd 2 5 1\n"}, ["G:3: a 2 3 4", "L:3: d 2 5 1\n", "node 3 is at distance 9 at most, and has no label\n"]),
    # Labels that no order or no line mends.
    ("NodeTwice", "judge-paths G Q L", {"L": "p dist 4 1\nt 1 1\nd 1 0 1\n"}, ["L:3: d 1 0 1", "node 1 is the source of the block: it has the distance 0, and no d line\n", "to find out, run dimacs solve-paths G Q LABELS\n"]),
    ("NodeTwice", "certify-paths G D", {"D": "p distances 4 1\nt 1 1\nd 1 0\n"}, ["D:3: d 1 0", "node 1 is the source of the block: it has the distance 0, and no d line\n$"]),
    ("NodeTwice", "convert dist T", {"T": "p dist 4 1\nt 1 2\nd 2 5 1\nd 2 5 1\n"}, ["T:4: d 2 5 1", "line 3 names the node already\n$"]),
    ("PredUnknown", "judge-paths G Q L", {"L": "p dist 4 1\nt 1 3\nd 2 5 4\nd 4 9 3\nd 3 9 2\n"}, ["L:3: d 2 5 4", "PRED, 4, is neither", "the PREDs lead in a circle, so that no order fits: 2 -> 4 -> 3 -> 2\n", "to find out, run dimacs solve-paths G Q LABELS\n"]),
    ("PredUnknown", "convert dist T", {"T": "p dist 9 2\nt 2 1\nd 1 5 2\nt 1 8\n" + "".join(f"d {k} 5 {k + 1}\n" for k in range(2, 9)) + "d 9 5 2\n"}, ["T:5: d 2 5 3", "no order fits: 2 -> 3 -> 4 -> 5 -> 6 -> 7 -> 8 -> ..\n"]),
    ("PredUnknown", "convert dist T", {"T": "p dist 4 1\nt 1 1\nd 2 5 2\n"}, ["no order fits: 2 -> 2\n"]),
    ("PredUnknown", "convert dist T", {"T": "p dist 4 1\nt 1 2\nd 2 5 3\nd 3 4 1\n"}, ["PRED, 3, is", "order the d lines so that each stands after that of its PRED\n$"]),
    ("PredUnknown", "convert dist T", {"T": "p dist 4 2\nt 1 2\nd 2 5 3\nd 3 4 4\nt 2 1\nd 4 1 2\n"}, ["PRED, 3, is", "node 4 has no d line in this block\n$"]),
    ("NoTightArc", "judge-paths G Q L", {"G": "p sp 4 3\na 1 2 5\na 3 4 0\na 4 3 0\n", "L": "p dist 4 1\nt 1 2\nd 2 5 1\nd 3 6 2\n"}, ["L:4: d 3 6 2", "no arc leads from 2 to 3\nif no walk leads to node 3, leave its line out\nthis certificate doesn't show the claim, which may be true all the same: to find out, run dimacs solve-paths G Q LABELS\n$"]),
    # A solver that refuses has emptied what it writes: here the queries, by files in the wrong order.
    ("FieldCount", "solve-paths G L Q", {"L": "p dist 4 1\nt 1 0\n"}, ["L:1: p dist 4 1", "that of distance labels (dist), in the place of queries (query)", "\nQ is empty: a solve run", "before it reads"]),
    ("NegativeWeight", "solve-paths G Q L", {"G": "p sp 2 1\na 1 2 -4\n"}, ["the WEIGHT -4", "\nL is empty: "]),
    ("NodeRange", "solve-max I S C", {"I": "p max 1 1\nn 1 s\nn 2 t\n"}, ["\nS and C are empty: a solve run"]),
    ("NotMaximum", "certify-max I S", {"S": "s 0\n"}, ["S:1: s 0\n       ^\nanother flow is feasible, and has 6 more than the 0 that is claimed: name a file after the solution to get it\n$"]),
    ("NotLeast", "certify-min MI S", {"S": DEAR}, ["S:1: s 15", "another flow is feasible, and costs 1 less than the 15 that is claimed: name a file after the solution to get it\n$"]),
    ("NotMaximum", "certify-max I S B", {"S": "s 0\n"}, ["S:1: s 0", "B:1: s 6", "has 6 more than the 0"]),
    ("NotLeast", "certify-min MI S B", {"S": DEAR}, ["B:1: s 14", "costs 1 less than the 15"]),
    # It isn't written, with and without a solution in its file.
    ("NotLeast", "certify-min I S B", {"I": f"p min 1 1\na 1 1 0 {HUGE} {-HUGE}\n", "S": "s 0\n"}, ["S:1: s 0", "a flow was found, but isn't written: its cost, added up arc by arc, leaves -10^30 to 10^30\n$"]),
    ("NotLeast", "certify-min I S B", {"I": f"p min 1 1\na 1 1 0 {HUGE} {-HUGE}\n", "S": "s 0\n", "B": "s -1\n"}, ["^\na flow was found, but isn't written: its cost, added up"]),
    ("Feasible", "certify-infeasible MI", {}, ["feasible flow, which costs ", ": name a file after the instance to get it\n"]),
    ("Feasible", "certify-infeasible MI B", {}, ["feasible flow, which costs ", ": it goes to B\n"]),
    ("Feasible", "certify-infeasible I B", {"I": f"p min 1 1\na 1 1 {HUGE} {HUGE} {HUGE}\n", "B": "s 0\n"}, ["^a flow was found, but isn't written: its cost, added up arc by arc, leaves -10^30 to 10^30\n$"]),
    # Solvers that gave up.
    ("limit", "solve-max I S C --limit 1", {}, [LIMIT_OF_FLOWS.format(1), f"{GREATER}S and C are empty: "]),
    ("limit", "solve-max I S C --limit 0", {}, [LIMIT_OF_FLOWS.format(0), f"{GREATER}S and C are empty: "]),
    ("limit", "solve-min I S P --limit 0", {"I": "p min 2 1\nn 1 1\nn 2 -1\na 1 2 0 1 1\n"}, [LIMIT_OF_STEPS.format(0), f"{GREATER}S and P are empty: "]),
    ("limit", "solve-min I S P --limit 1000000000", {"I": f"p min 1 1\na 1 1 0 {HUGE} {-HUGE}\n"}, [f"{LIMIT_OF_STEPS.format(10**9)}S and P are empty: "]),
    # A cycle of -1 that the source reaches, one that it doesn't, and one through it.
    ("NotShortest", "certify-paths G D", {"G": "p sp 4 4\na 1 2 3\na 2 3 4\na 3 2 -5\na 3 4 1\n", "D": "p distances 4 1\nt 1 3\nd 2 3\nd 3 7\nd 4 8\n"}, ["G:4: a 3 2 -5", "a cycle that the source reaches weighs less than 0; its arcs: 2\n  arc 2: 2 -> 3, WEIGHT 4\n  arc 3: 3 -> 2, WEIGHT -5\n4 - 5 = -1: with each round a walk weighs less, so the nodes that it leads to have no distance\n"]),
    ("NotShortest", "judge-paths G Q L", {"G": "p sp 2 2\na 1 2 3\na 2 1 -4\n", "L": "p dist 2 1\nt 1 1\nd 2 3 1\n"}, ["G:3: a 2 1 -4", "its arcs: 2\n  arc 1: 1 -> 2, WEIGHT 3\n  arc 2: 2 -> 1, WEIGHT -4\n3 - 4 = -1: "]),
    ("Escapes", "certify-paths G D", {"G": "p sp 3 3\na 1 2 3\na 2 3 4\na 3 2 -5\n", "D": "p distances 3 1\nt 1 0\n"}, ["node 2 is at distance 3 at most", "its arcs: 2\n"]),
    # 5 steps back from node 3, one more than there are arcs, end at node 4.
    ("NotShortest", "certify-paths G D", {"G": "p sp 13 4\na 1 2 3\na 2 3 4\na 3 4 1\na 4 2 -6\n", "D": "p distances 13 1\nt 1 3\nd 2 3\nd 3 7\nd 4 8\n"}, ["its arcs: 3\n  arc 4: 4 -> 2, WEIGHT -6\n  arc 2: 2 -> 3, WEIGHT 4\n  arc 3: 3 -> 4, WEIGHT 1\n-6 + 4 + 1 = -1: "]),
    ("NodesDiffer", "certify-paths G D", {"D": "p distances 5 0\n"}, ["G:1: p sp 4 3", "D:1: p distances 5 0", "they are not of one instance\n$"]),
    ("Escapes", "certify-paths G D", {"D": "p distances 4 2\nt 4 1\nd 3 0\nt 1 0\n"}, ["G:2: a 1 2 5", "D:4: t 1 0", "in the block from source 1 (line 4) ", "node 2 is at distance 5 at most, and has no d line\n"]),
    ("NotShortest", "certify-paths G D", {"G": "p sp 3 2\na 1 3 -1\na 3 1 -1\n", "D": "p distances 3 1\nt 1 1\nd 3 -1\n"}, ["node 1 is at distance -2 at most, and is the source, at distance 0\n"]),
    ("NotShortest", "certify-paths G D", {"G": "p sp 2 2\na 1 2 3\na 1 2 1\n", "D": "p distances 2 1\nt 1 1\nd 2 3\n"}, ["G:3: a 1 2 1", "D:3: d 2 3\n", "node 2 is at distance 1 at most, and its d line says 3\n"]),
    ("NoTightArc", "certify-paths G D", {"D": "p distances 4 1\nt 1 1\nd 2 4\n"}, ["D:3: d 2 4", "from source 1 (line 2) no arc leads to node 2 at distance 4: by the claimed distances the nearest leads there at distance 5\n$"]),
    ("NoTightArc", "certify-paths G D", {"D": "p distances 4 1\nt 1 3\nd 2 5\nd 3 0\nd 4 0\n"}, ["D:4: d 3 0", "in the block from source 1 (line 2) node 3 is at distance 0, but no walk from the source weighs as little\nif no walk leads to node 3, leave its line out\n$"]),
    ("NoTightArc", "certify-paths G D", {"G": "p sp 4 4\na 1 2 5\na 2 3 0\na 3 2 0\na 1 4 9\n", "D": "p distances 4 2\nt 4 0\nt 1 3\nd 2 4\nd 3 4\nd 4 9\n"}, ["D:4: d 2 4", "in the block from source 1 (line 3) node 2 is at distance 4, but no walk from the source weighs as little\n"]),
    ("NoTightArc", "certify-paths G D", {"G": "p sp 3 1\na 3 2 1\n", "D": "p distances 3 1\nt 1 1\nd 2 7\n"}, ["no arc leads to node 2 at distance 7: none comes from a node that has a distance\nif no walk leads to node 2, leave its line out\n$"]),
    # The last of three blocks that label one node.
    ("NoTightArc", "judge-paths G Q L", {"G": "p sp 4 3\na 1 4 1\na 2 4 1\na 3 4 2\n", "L": "p dist 4 3\nt 1 1\nd 4 1 1\nt 2 1\nd 4 1 2\nt 3 1\nd 4 3 3\n"}, ["L:7: d 4 3 3\n", "no arc from 3 to 4 has the WEIGHT 3\nthe lightest arc from 3 to 4 has the WEIGHT 2\nthis certificate doesn't show the claim"]),
    ("NoTightArc", "certify-paths G D", {"G": "p sp 4 3\na 1 4 1\na 2 4 1\na 3 4 2\n", "D": "p distances 4 3\nt 1 1\nd 4 1\nt 2 1\nd 4 1\nt 3 1\nd 4 1\n"}, ["D:7: d 4 1\n", "no arc leads to node 4 at distance 1: by the claimed distances the nearest leads there at distance 2\n$"]),
    # A spread flow: 2 entries of 9 * 10^18 between nodes with 2 arcs or 1, and of -9 * 10^18.
    ("AboveCap", "spread-max I S O", {"I": "p max 2 2\nn 1 s\nn 2 t\na 1 2 4\na 1 2 3\n", "S": f"s 0\nf 1 2 {HUGE}\nf 1 2 {HUGE}\n"}, ["I:4: a 1 2 4\n2 arcs from 1 to 2: ", f"add up to {2 * HUGE}\n", f"carry their CAP, 3 in all, and {2 * HUGE - 3} is left for the first, arc 1:"]),
    ("AboveCap", "spread-max I S O", {"I": "p max 2 1\nn 1 s\nn 2 t\na 1 2 5\n", "S": f"s 0\nf 1 2 {HUGE}\nf 1 2 {HUGE}\n"}, ["I:4: a 1 2 5\n1 arc from 1 to 2: ", f"add up to {2 * HUGE}\n", f"carry their CAP, 0 in all, and {2 * HUGE} is left for the first, arc 1:"]),
    ("BelowLow", "spread-min I S O", {"I": "p min 2 2\na 1 2 4 9 0\na 1 2 3 9 0\n", "S": f"s 0\nf 1 2 {-HUGE}\nf 1 2 {-HUGE}\n"}, [f"add up to {-2 * HUGE}\n", f"carry their LOW, 3 in all, and {-2 * HUGE - 3} is left for the first, arc 1:"]),
    # Sums that have wrapped around, and numbers without a sign.
    ("ValueDiffers", "judge-max I S C", {"S": FLOW.replace("s 6", f"s {6 - 2**64}")}, [f"{6 - 2**64} is claimed, and the flow has the value 6", "multiple of 2^64"]),
    ("ValueDiffers", "judge-max I S C", {"S": FLOW.replace("s 6", f"s {6 - 2**32}")}, ["the flow has the value 6", "multiple of 2^32"]),
    ("ValueDiffers", "judge-min MI S P", {"S": LEAST.replace("s 14", f"s {14 + 2**64}")}, ["the flow costs 14", "multiple of 2^64"]),
    ("NumberRange", "convert gr T", {"T": f"p sp 2 1\na 1 2 {2**64 - 1}\n"}, [f"and not {2**64 - 1}\n", "with a sign this is -1: a number may have wrapped around"]),
    ("NumberRange", "convert gr T", {"T": f"p sp 2 1\na 1 2 {2**63}\n"}, [f"with a sign this is {-(2**63)}: "]),
    ("UnknownLine", "convert gr T", {"T": b"BZh91AY\n"}, ["compressed by bzip2: give <(bzcat FILE) in its place"]),
    ("UnknownLine", "convert gr T", {"T": b"\xfd7zXZ\n"}, ["compressed by xz: give <(xzcat FILE) in its place"]),
    ("UnknownLine", "convert gr T", {"T": b"\x28\xb5\x2f\xfd\n"}, ["compressed by zstd: give <(zstdcat FILE) in its place"]),
    ("Balance", "judge-min MI S P", {"S": "s 0\nf 1 2 4\nf 2 4 3\n"}, ["3 leaves node 2, 4 enters it: 1 too little leaves\nentries out of it: 1\n  S:3: f 2 4 3\nentries into it: 1\n  S:2: f 1 2 4\n"]),
    ("Balance", "judge-min I S P", {"I": "p min 2 1\nn 1 4\nn 2 -3\na 1 2 0 9 0\n", "S": "s 0\nf 1 2 4\n"}, ["I:3: n 2 -3", "4 enters node 2, 0 leaves it, and it takes 3: 1 too much arrives\n"]),
    ("Balance", "judge-min I S P", {"I": "p min 2 1\nn 1 2\nn 2 -3\na 1 2 0 9 0\n", "S": "s 0\nf 1 2 2\n"}, ["2 enters node 2, 0 leaves it, and it takes 3: 1 too little arrives\n", "the supplies add up to -1, and not to 0: no flow is feasible\nto show it by a set, run dimacs certify-infeasible I\n$"]),
    ("Balance", "judge-min I S P", {"I": "p min 2 1\nn 1 3\nn 2 -3\na 1 2 0 9 0\n", "S": "s 0\nf 1 2 4\n"}, ["I:2: n 1 3", "4 leaves node 1, 0 enters it, and it supplies 3: 1 too much leaves\n"]),
    ("Balance", "judge-min I S P", {"I": "p min 2 2\nn 1 4\nn 2 -4\na 1 2 0 5 0\na 2 1 2 3 0\n", "S": "s 0\nf 1 2 5\n" "f 2 1 2\n"}, ["the arcs of node 1 can carry -3 to 3 out of it: no flow is feasible\nto show it by a set, run dimacs certify-infeasible I\n$"]),
    ("BadNumber", "certify-min MI S", {"S": "s infeasible\n"}, ["S:1: s infeasible", "to find out whether none is feasible, run dimacs certify-infeasible MI\n$"]),
    ("BadNumber", "convert solution T", {"T": "s infeasible\n"}, ["run dimacs certify-infeasible INSTANCE\n$"]),
    # Words that are almost numbers, or too long.
    ("BadNumber", "convert gr T", {"T": "p sp 1 1\na 1 1 \u22125 x\n".replace(" x", "")}, ["T:2: a 1 1 \u22125\n", "           ^^\n", "not `\u22125`\nwrite -5\n"]),
    ("BadNumber", "convert distances T", {"T": "p distances 3 1\nt 1 2\nd 2 5\nd 3 inf\n"}, ["not `inf`\na node that no walk reaches has no line: leave it out\n"]),
    ("BadNumber", "convert dist T", {"T": "p dist 3 1\nt 1 1\nd 2 Infinity 1\n"}, ["not `Infinity`\na node that no walk reaches has no line: leave it out\n"]),
    ("BadNumber", "convert gr T", {"T": "p sp 1 1\na 1 1 1e++6\n"}, ["and not `1e++6`\n"]),
    ("BadNumber", "convert gr T", {"T": "p sp 9 1\na \u22125 1 1\n"}, ["TAIL is a whole number, digits with a sign or without, and not `\u22125`\n$"]),
    ("BadNumber", "convert gr T", {"T": "p sp 1 1\na 1 1 0." + "0" * 70 + "5\n"}, ["0..`\n"]),
    # Texts of this kind, and files that are no such texts.
    ("FieldCount", "convert max T", {"T": "p max 4\n"}, ["the line has 3 fields"]),
    ("UnknownLine", "convert gr T", {"T": b"\x1f\x8b\x08\x00\n"}, ["compressed by gzip"]),
    ("UnknownLine", "convert gr T", {"T": b"\xef\xbb\xbfp sp 1 0\n"}, ["T:1: \\xef\\xbb\\xbfp sp 1 0", "byte order mark"]),
    ("UnknownLine", "convert gr T", {"T": "p sp 1 0\n".encode("utf-16")}, ["UTF-16"]),
    ("UnknownLine", "convert gr T", {"T": b"PK\x03\x04\x14\0\x06\0\r\xa9\n"}, ["PK\\x03\\x04", "\nthe file is a zip archive, as those of office programs are: save its text alone\n"]),
    ("UnknownLine", "convert gr T", {"T": b"\x7fELF\r\0\0"}, ["no line of a graph (gr) begins with"]),
    ("FieldCount", "convert gr T", {"T": "p sp 1 1\ra 1 1 0\r"}, ["lines end by a carriage return alone"]),
    ("BadWord", "convert gr T", {"T": MAX}, ["that of a maximum flow instance (max), in the place of a graph (gr)"]),
    ("BadWord", "certify-max I S", {"I": MIN}, ["that of a minimum cost flow instance (min), in the place of a maximum flow instance (max)\nits commands end in -min\n$"]),
    ("BadWord", "certify-infeasible I", {}, ["in the place of a minimum cost flow instance (min)\nits commands end in -max\n$"]),
    ("ProblemMissing", "convert query T", {"T": "s 1\n"}, ["T:1: s 1\na line `p aux sp ss|p2p K` has to stand first"]),
    # Files in each other's place.
    ("UnknownLine", "judge-max S I C", {}, ["S:1: s 6", "the line is that of a solution (solution), in the place of a maximum flow instance (max)\nthe files S and I are exchanged\n$"]),
    ("UnknownLine", "certify-max S I", {"S": "c a flow\nf 1 2 4\ns 6\n"}, ["S:2: f 1 2 4", "the files S and I are exchanged\n$"]),
    ("UnknownLine", "judge-max I C S", {}, ["C:1: p cut 4 1", "the files C and S are exchanged\n$"]),
    ("UnknownLine", "spread-max I C S", {}, ["C:1: p cut 4 1", "and comments, which begin with c\n$"]),
    ("UnknownLine", "judge-max I C C", {}, ["that of a set of nodes (cut), in the place of a solution (solution)\nno line of a solution"]),
    ("BadWord", "judge-paths L Q G", {"L": "p dist 4 0\n"}, ["the files L and G are exchanged\n$"]),
    ("UnknownLine", "judge-max I S T", {"T": FLOW}, ["that of a solution (solution), in the place of a set of nodes (cut)\nno line of a set", "may be true all the same: to find out, run dimacs certify-max I S\n$"]),
    ("UnknownLine", "convert gr T", {"T": "p sp 1 1\ns 1\n"}, ["     ^\nno line of a graph (gr) begins with `s`\n"]),
    ("BadWord", "certify-paths G L", {"L": "p dist 4 0\n"}, ["that of distance labels (dist), in the place of distances (distances)\ndistances have no PRED and no RADIUS; to judge labels, run dimacs judge-paths GRAPH QUERY LABELS\n"]),
    ("UnknownLine", "convert gr T", {"T": "p sp 1 1\nx" + "y" * 1000 + "\n"}, ["T:2: xyy", ".."]),
    # What a solver emptied twice, and counts of 1.
    ("NodeRange", "solve-max I N N", {"I": "p max 1 1\nn 1 s\nn 2 t\n"}, ["that line 1 declares\nN is empty: a solve run creates the files that it writes, or empties them, before it reads the others\n$"]),
    ("FieldCount", "convert gr T", {"T": "p sp 1 1\na\n"}, ["the line has 1 field, and"]),
    ("TooFew", "convert dist T", {"T": "p dist 3 1\nt 1 1\n"}, ["declares 1 d line, and has 0 before this place\n"]),
    # A line of the source, and a blank that ends no field.
    ("NumberRange", "convert dist T", {"T": "p dist 3 1\nt 1 1\nd 1 0 0\n"}, ["\nnode 1 is the source of the block: it has the distance 0, and no d line\n$"]),
    ("FieldCount", "convert gr T", {"T": "p sp 2 1\na 1\u00a02 5\n"}, ["T:2: a 1\\xc2\\xa02 5\n", "the line has 3 fields"]),
    ("FieldCount", "convert gr T", {"T": "p sp 2 1\na 1\u30002\u20095\n"}, ["T:2: a 1\\xe3\\x80\\x802\\xe2\\x80\\x895\n", "the line has 2 fields"]),
    ("UnknownLine", "convert gr T", {"T": "p sp 1 0\n".encode("utf-32")}, ["UTF-32"]),
    ("UnknownLine", "convert gr T", {"T": "p sp 1 0\n".encode("utf-32-le")}, ["UTF-32"]),
    ("UnknownLine", "convert gr T", {"T": "p sp 1 0\n".encode("utf-32-be")}, ["UTF-32"]),
    # Each maximum flow instance has a flow, and so has this one.
    ("BadNumber", "certify-max I S", {"S": "s infeasible\n"}, ["S:1: s infeasible", "a solution is a flow, and the flow 0 is one of each maximum flow instance\n$"]),
    ("Balance", "judge-min I S P", {"I": "p min 2 1\na 1 2 0 3 1\n", "S": "s 1\nf 1 2 1\n"}, ["1 leaves node 1, 0 enters it: 1 too much leaves\n", "entries into it: 0\n$"]),
    # What decides distances, by their form and by the sign of a WEIGHT.
    ("BadWord", "judge-paths G Q L", {"L": "p distances 4 0\n"}, ["to find out, run dimacs certify-paths G L\n$"]),
    ("NoTightArc", "judge-paths G Q L", {"G": "p sp 3 2\na 1 2 3\na 2 3 -2\n", "L": "p dist 3 1\nt 1 2\nd 2 3 1\nd 3 2 2\n"}, ["to find out, write `p distances` for `p dist`, drop PRED and RADIUS, and run dimacs certify-paths G DISTANCES\n$"]),
    ("Escapes", "judge-paths G Q L", {"Q": "p aux sp p2p 1\nq 1 2\n", "L": "p dist 4 1\nt 1 0 7\n"}, ["node 2 is at distance 5 at most, within the RADIUS, 7, and has no label\n"]),
    ("NotTight", "judge-min MI S P", {"S": LEAST, "P": "p pot 4 3\ny 1 -4\ny 2 -2\ny 3 -1\n"}, ["= 2 - (-4) + (-2) = 4, above 0", "with the opposite sign of each VALUE, the potentials show the claim\nthis certificate"]),
    ("NotTight", "judge-min MI S P", {"S": LEAST, "P": "p pot 4 3\ny 1 -4\ny 2 -2\ny 3 -2\n"}, ["= 2 - (-4) + (-2) = 4, above 0, so it has to carry its LOW, 0, and carries 2\nthis certificate"]),
    # A cycle of 0 that the second block's source doesn't reach.
    ("NoTightArc", "certify-paths G D", {"G": "p sp 4 3\na 1 2 5\na 2 3 0\na 3 2 0\n", "D": "p distances 4 2\nt 1 2\nd 2 5\nd 3 5\nt 4 2\nd 2 1\nd 3 1\n"}, ["D:6: d 2 1\nin the block from source 4 (line 5) node 2 is at distance 1, but no walk from the source weighs as little\n"]),
    # The tail's distance is less than 5, that of its only walk, and no walk leads to a tail that has one.
    ("NotShortest", "certify-paths G D", {"G": "p sp 3 2\na 1 2 5\na 2 3 4\n", "D": "p distances 3 1\nt 1 2\nd 2 3\nd 3 9\n"}, ["G:3: a 2 3 4\nD:3: d 2 3\n", "node 2 is at distance 3, but no walk from the source weighs as little\nso the test of arc 2, from there to node 3, fails\nif no walk leads to node 2, leave its line out\n$"]),
    ("Escapes", "certify-paths G D", {"D": "p distances 4 1\nt 1 2\nd 2 5\nd 3 1\n"}, ["G:3: a 3 4 0\nD:4: d 3 1\n", "node 3 is at distance 1, but no walk from the source weighs as little\nso the test of arc 2, from there to node 4, fails\nif no walk leads to node 3, leave its line out\n$"]),
    ("Escapes", "certify-paths G D", {"G": "p sp 4 2\na 1 2 5\na 3 4 1\n", "D": "p distances 4 1\nt 1 2\nd 2 5\nd 3 -1\n"}, ["D:4: d 3 -1\n", "node 3 is at distance -1, but no walk from the source weighs as little\n", "\nif no walk leads to node 3, leave its line out\n$"]),
    # A walk of 8,299 arcs, which isn't found in 2^26 steps: a hub that leads nowhere gets nearer each round.
    ("Escapes", "certify-paths G D", LONG_WALK, ["a 8299 8300 1\n", "d 8299 8298\n", "with the WEIGHT 1: by this distance node 8300 is at 8299 at most, and has no d line\n$"]),
    ("NoTightArc", "certify-paths G D", REVERSED, ["D:180500: d 1001 800\n", "in the block from source 200 (line 179699) node 1001 is at distance 800, but no walk from the source weighs as little\n"]),
]

# The same of a text whose file can't be read again. The command of the package for Python says more of
# these: it keeps what it reads and makes.
UNREAD = [
    ("NotMaximum", "certify-max I S /dev/null", {"S": "s 0\n"}, ["S:1: s 0", "another flow is feasible, and has 6 more than the 0 that is claimed: it goes to /dev/null\n$"]),
]

# Reasons that no case gives: one that no text is refused for, and one of 10^12 lines.
LEFT_OUT = {"ParallelArc", "LineLimit"}


FAR = "p sp 9 9\n" + "".join(f"a {k} {k + 1} {k}\n" for k in range(1, 9)) + "a 1 9 99\n"
FAR_CLAIM = "p distances 9 1\nt 1 8\n" + "".join(f"d {k + 1} {k * (k + 1) // 2}\n" for k in range(1, 9))
OUT = NEAR.replace("a 3 4 0", "a 4 3 0")
SURPLUS = "p min 2 2\nn 1 -5\nn 2 5\na 2 1 0 4 0\na 1 2 1 2 0\n"
LARGE = {"I": f"p min 2 1\nn 1 {2**62}\nn 2 -{2**62}\na 1 2 0 {2**62} 0\n", "S": f"s 0\nf 1 2 {2**62}\n", "P": f"p pot 2 2\ny 1 {10**30}\ny 2 {10**30}\n"}

# The same of a yes: all its lines are those of the second reader, too.
YES = [
    ("", "judge-max I S C", {}, ["1 of the 4 nodes: 1\n", "arcs out of it, all full: 2\n  arc 1: 1 -> 2, CAP 4\n  arc 2: 1 -> 3, CAP 2\n4 + 2 = 6, the value"]),
    # Arc 2, back into the set, is empty.
    ("", "judge-max I S C", {"I": "p max 3 3\nn 1 s\nn 3 t\na 1 2 5\na 3 1 7\na 2 3 2\n", "S": "s 2\nf 1 2 2\nf 2 3 2\n", "C": "p cut 3 2\nu 1\nu 2\n"}, ["all empty: 1\n  arc 2: 3 -> 1, FLOW 0\n", "  arc 3: 2 -> 3, CAP 2\n2, the value"]),
    # Eight arcs leave: two of them aren't shown, and carry 7 + 8.
    ("", "certify-max I S A", {"I": "p max 2 8\nn 1 s\nn 2 t\n" + "".join(f"a 1 2 {k}\n" for k in range(1, 9)), "S": "s 36\n" + "".join(f"f 1 2 {k}\n" for k in range(1, 9))}, ["  arc 6: 1 -> 2, CAP 6\n  all others: 15\n1 + 2 + 3 + 4 + 5 + 6 + 15 = 36, the value"]),
    ("", "judge-min MI S P", {"S": LEAST}, ["  arc 5: 3 -> 4, 4 * 1 = 4\n", "4 + 4 + 4 + 2 = 14, the cost\n", "  node 1: 4 * 4\n16\n", "  arc 2: 1 -> 3, r = 2 - 4 + 1 = -1, CAP 2\n-2\n16 - 2 = 14: no flow costs less\n", "3 of 5: 1 3 5\n$"]),
    ("", "judge-infeasible I C", {"I": "p min 3 3\nn 1 5\nn 3 -5\na 1 2 0 4 0\na 2 1 1 2 0\na 2 3 0 9 0\n", "C": "p cut 3 1\nu 1\n"}, ["its supply: 5\n", "  arc 1: 1 -> 2, CAP 4\n", "  arc 2: 2 -> 1, LOW 1\n", "is at most 4 - 1 = 3, but has to be its supply, 5: no flow is feasible\n$"]),
    ("", "judge-infeasible I C", {"I": "p min 2 1\nn 1 3\nn 2 -1\na 1 2 0 5 0\n", "C": "p cut 2 2\nu 1\nu 2\n"}, ["2 of the 2 nodes: 1 2\nits supply: 3 - 1 = 2\nso the supplies of all nodes don't add up to 0, "]),
    # Node 1 takes 5, and at most 4 can come.
    ("", "certify-infeasible I A", {"I": SURPLUS}, ["1 of the 2 nodes: 2\n", "at most 4 - 1 = 3, but has to be its supply, 5: "]),
    ("", "judge-infeasible I C", {"I": SURPLUS, "C": "p cut 2 1\nu 1\n"}, ["its supply: -5\n", "  arc 2: 1 -> 2, LOW 1\n", "  arc 1: 2 -> 1, CAP 4\n", "at least 1 - 4 = -3, but has to be its supply, -5: "]),
    ("", "judge-paths G Q L", {"G": OUT, "Q": "p aux sp p2p 3\nq 1 3\nq 1 1\nq 1 4\n", "L": "p dist 4 1\nt 1 2\nd 2 5 1\nd 3 9 2\n"}, ["1 -> 2 -> 3: 5 + 4 = 9\n1 to itself, without an arc: 0\nno walk from 1 to 4: no arc leads out of the nodes that 1 reaches, 3: 1 2 3\n"]),
    ("", "judge-paths G Q L", {"G": NEAR, "Q": "p aux sp p2p 1\nq 1 3\n", "L": "p dist 4 1\nt 1 1 6\nd 2 5 1\n"}, ["no walk from 1 to 3 weighs at most 6, the RADIUS: "]),
    ("", "judge-paths G Q L", {"G": OUT, "L": "p dist 4 2\nt 1 2\nd 2 5 1\nd 3 9 2\nt 4 1\nd 3 0 4\n"}, ["the farthest node from 1, of 2 that it reaches: 1 -> 2 -> 3: 5 + 4 = 9\nthe other nodes can't be reached: "]),
    # Eight arcs: 1 + 2 + 3 + 4 + 5 + 6, then 7 + 8.
    ("", "certify-paths G D A", {"G": FAR, "D": FAR_CLAIM}, ["1 -> 2 -> 3 -> 4 -> 5 -> 6 -> 7 -> .. -> 9: 1 + 2 + 3 + 4 + 5 + 6 + 15 = 36\n"]),
    ("", "solve-max I S C", {"I": "p max 3 1\nn 1 s\nn 3 t\na 1 2 5\n"}, ["2 of the 3 nodes: 1 2\n", "no flow reaches the sink, so none has a value above 0\n"]),
    ("", "certify-paths G D A", {"D": "p distances 4 0\n"}, ["no distance is claimed: there is no block\n"]),
]

# What the reader doesn't know: sums of more than 128 bits, and no explanation.
OTHERS = [
    ("", "judge-min I S P", LARGE, ["COST: the cost is 0\n", "some of these numbers don't fit 128 bits, so they are left out\n", "1 of 1: 1\n$"]),
    ("", "convert cut C", {}, ["$"]),
    ("", "spread-max I S O", {}, ["$"]),
]


@contextlib.contextmanager
def place_with(texts):
    """A folder with these texts, by their names."""
    with tempfile.TemporaryDirectory(dir=MEMORY) as folder:
        place = Folder(folder)
        for name, text in texts.items():
            place.write(name, text)
        yield place


def run(binary, words, place):
    return subprocess.run([binary, *words.split()], capture_output=True, cwd=place.folder, check=False)


def explained(binary, case):
    """What a run over the texts of a case prints without and with lines that explain it, and those of the second reader."""
    _, words, texts, _ = case
    for how in ("", "explain "):
        with place_with({**TEXTS, **texts}) as place:
            ran = run(binary, how + words, place)
            yield ran.returncode, ran.stdout.decode(), explained_yes.lines(words, place.read) if case in YES else ""


def fault_of(binary, case):
    """What is wrong with the explanation of a case; none if nothing is."""
    reason, _, _, parts = case
    (status, plain, _), (explained_status, printed, lines) = explained(binary, case)
    if status != (5 if reason == "limit" else reason > "") or not plain.endswith(f" {reason}\n" * (reason > "")):
        return f"prints {plain} without explain"
    if explained_status != status or not printed.startswith(plain):
        return f"status {explained_status}, prints {printed}"
    explanation = printed[len(plain) :]
    if case in YES and explanation != lines:
        return f"prints\n{explanation}instead of\n{lines}"
    place = 0
    for part in parts:
        found = f"^{explanation}$".find(part, place)
        if found < 0:
            return f"lacks {part!r}:\n{explanation}"
        place = found + len(part)
    return None


# Files whose names a shell would take for more.
NAMES = ["a b", "a'; touch PWNED; '.sol", "$(touch PWNED)", "`touch PWNED`", '"', "-x", "--version", "-'", "\u00e9 \u6c34", "a\nb", "a\n", "\t", "\x1b[31m%d\\", "\x07'!$(touch PWNED)\"", "a\u00a0b", "~", "#", "*", "!x"]

# Runs that name a file N, what they read, the words of the command that is advised, or of the files to exchange, and the
# word that stands there if no shell can be given the name.
NAMING = [
    ("judge-max N S C", {"N": MAX, "C": CUT + "u 2\n"}, "certify-max N S", "INSTANCE"),
    ("judge-max I N C", {"N": FLOW, "C": CUT + "u 2\n"}, "certify-max I N", "SOLUTION"),
    ("judge-max I N C", {"N": FLOW.replace("f 3 4 3", "f 3 4 2\nf 3 4 1")}, "spread-max I N OUT", "SOLUTION"),
    ("judge-min N S P", {"N": MIN, "S": "s 0\n"}, "certify-infeasible N", "INSTANCE"),
    ("certify-min N S", {"N": MIN, "S": "s infeasible\n"}, "certify-infeasible N", "INSTANCE"),
    ("judge-infeasible N C", {"N": MIN}, "certify-infeasible N", "INSTANCE"),
    ("judge-paths G N L", {"N": ASKED, "L": "p dist 5 0\n"}, "solve-paths G N LABELS", "QUERY"),
    ("judge-paths N Q L", {"N": CYCLE, "L": "p distances 4 0\n"}, "certify-paths N L", "GRAPH"),
    ("judge-paths N Q L", {"N": "p sp 2 1\na 1 2 -1\n", "L": "p dist 5 0\n"}, "certify-paths N DISTANCES", "GRAPH"),
    ("judge-max I C N", {"N": FLOW}, "the files C and N are exchanged", "CUT"),
]


def name_fault(binary, name, words, texts, wanted, instead):
    """What is wrong with the line that names a file, handed to a shell; none if it gives the words that are wanted."""
    with place_with({**TEXTS, **{name if it == "N" else it: text for it, text in texts.items()}}) as place:
        words = [binary, "explain", *(name if it == "N" else it for it in words.split())]
        printed = subprocess.run(words, capture_output=True, cwd=place.folder, check=False).stdout.decode()
        line = re.search(r"\brun dimacs (.*)$|^(the files .*)$", printed, re.MULTILINE)
        ran = subprocess.run(["sh", "-c", f"printf '%s\\0' {line and (line[1] or line[2])}"], capture_output=True, cwd=place.folder, check=False)
        typed = instead if name.endswith("\n") else "./" + name if name.startswith("-") else name
        typed = [typed if it == "N" else it for it in wanted.split()]
        good = ran.stdout.decode().split("\0") == [*typed, ""] and not os.path.exists(place.path("PWNED"))
    return None if good else f"{printed}gives {ran.stdout}"


# Of a pipe that gives more MB than are kept, the numbers aren't there to be explained.
PIPE = "'{}' explain judge-max I <(yes c | head -c {}000000; cat S) C"
LEFT_OUT_NUMBERS = "the numbers are left out: a text has changed, can't be read twice, or memory ran out\n"

# A pipe that is named twice.
TWICE = "cat I | '{}' explain certify-max /dev/stdin /dev/stdin"
LEFT_OUT_LINES = "/dev/stdin: is no file that can be read again, so its lines are left out\n"

# A claim from a pipe that isn't kept, and a better flow.
LONG = "(echo s 0; yes c | head -c {1}000000) | '{0}' explain certify-max I /dev/stdin B"
OF_BETTER = "a flow was found: it goes to B\n"

# A file whose name has a line feed.
NAMED = "printf 'p sp 1 1\\n' >$'\u00e9\\nv max 6'; '{}' explain convert gr $'\u00e9\\nv max 6'"
IN_NAME = "\u00e9\\x0av max 6: ends after line 1\n0 arc lines of the 1 that line 1 declares\n"

# A file whose name begins like a verdict, and texts that a later command can't read.
LIKE_VERDICT = "printf 'p sp 1 1\\ne 1\\n' >'v max 12'; '{}' explain convert gr 'v max 12' | head -2"
OF_LIKE = "x instance 2 1 UnknownLine\n./v max 12:2: e 1\n"
OPEN_HERE = "'{}' explain judge-max <(cat I) S <(echo p cut 4 0) | tail -1"
OF_OPEN = "this certificate doesn't show the claim, which may be true all the same: to find out, run dimacs certify-max INSTANCE S\n"

# A file that is full after the first line.
FULL = "trap '' XFSZ; ulimit -f 1; head -c 1010 /dev/zero >out; '{}' explain judge-max I S C 2>&1 >>out; echo $?; tail -c +1011 out"
OF_FULL = """dimacs: device fault
dimacs: standard output: cannot be written: File too large (os error 27)
3
v max 6
on the"""

# A line of what a pipe gave, which is empty the second time.
GIVEN = "mkfifo pipe; printf 'p sp 1 1\\ne 1 1 0\\n' >pipe & timeout 600 '{}' explain show gr pipe"
OF_PIPE = """x instance 2 1 UnknownLine
pipe:2: e 1 1 0
        ^
no line of a graph (gr) begins with `e`
its lines are `p sp NODES ARCS`, `a TAIL HEAD WEIGHT`, and comments, which begin with c
"""


def shell_runs(binary):
    """Runs that a shell makes: the commands, their status and what they print."""
    for size in (0, 60, 70):
        lines = LEFT_OUT_NUMBERS if size > MOST_KEPT else explained_yes.lines("judge-max I S C", TEXTS.get)
        yield PIPE.format(binary, size), 0, f"v max 6\n{lines}"
    yield TWICE.format(binary), 1, f"x solution 1 0 SolutionMissing\n{LEFT_OUT_LINES}"
    yield LONG.format(binary, MOST_KEPT + 6), 1, f"x solution 1 2 NotMaximum\n{LEFT_OUT_LINES}{OF_BETTER}"
    yield GIVEN.format(binary), 1, OF_PIPE
    yield LIKE_VERDICT.format(binary), 0, OF_LIKE
    yield OPEN_HERE.format(binary), 0, OF_OPEN
    yield NAMED.format(binary), 1, f"x instance 2 0 TooFew\n{IN_NAME}"
    yield FULL.format(binary), 0, OF_FULL


def shell_fault(commands, status, printed):
    """What is wrong with a run that a shell makes; none if nothing is."""
    with place_with(TEXTS) as place:
        ran = subprocess.run(["bash", "-c", commands], capture_output=True, cwd=place.folder, check=False)
    return None if (ran.returncode, ran.stdout.decode()) == (status, printed) else f"prints {ran.stdout}"


def reader_faults(binary, count, seed):
    """What the program explains otherwise than the second reader, in a line for each run."""
    for kind, instance, queries in explained_yes.seeded(count, seed):
        with place_with({"I": instance, "C": queries}) as place:
            yield from texts_faults(binary, place, kind)


def texts_faults(binary, place, kind):
    """Solves the instance I, or answers the queries C, then judges and certifies what was written."""
    runs = [f"solve-{kind} I C K", f"judge-{kind} I C K"]
    if run(binary, runs[0], place).stdout.startswith(b"v infeasible"):
        runs = [runs[0], "judge-infeasible I K", "certify-infeasible I A"]
    elif kind == "paths":
        place.write("D", explained_yes.distances_text(place.read("K")))
        runs += ["certify-paths I D A"]
    else:
        runs += [f"certify-{kind} I C A"]
    # The last once more without a name for its certificate, which is the same.
    for words, named in [*zip(runs, runs), (runs[-1].removesuffix(" A"), runs[-1])]:
        plain = run(binary, words, place).stdout.decode()
        printed = run(binary, f"explain {words}", place).stdout.decode()
        lines = explained_yes.lines(named, place.read)
        yield None if printed == plain + lines else f"{words}:\n{printed}instead of\n{plain}{lines}"


def source(path):
    with open(os.path.join(CRATES, path), encoding="utf-8") as it:
        return it.read()


def reasons():
    return set(re.findall(r'Reason::\w+ => "(\w+)"', source("dimacs_records/src/reasons.rt")))


def parts(path):
    """The parts of sentences, between colons and commas, that have at least four words, in the texts in quotes of a file."""
    code = re.sub(r"^ *//.*$", "", source(path), flags=re.MULTILINE)
    said = re.split(r"\\n|[:;,]", "\n".join(re.findall(r'"(.*?)"', code)).replace("\n", ","))
    said = (re.sub("^ *(so|but|and) ", "", it).strip() for it in said)
    return {it for it in said if len(it.replace("{}", " ").split()) > 3} - {"node {} is at distance {}"}


def asserted_elsewhere():
    """The files with a part of a sentence that asserts, beside that of the functions which require what it asserts."""
    asserted = parts(FACTS)
    others = set(glob.glob("*/src/**/*.rt", root_dir=CRATES, recursive=True)) - {FACTS}
    found = [(f"{file} asserts", it) for file in others for it in asserted & parts(file)]
    return found + [("no sentences", "")] * (len(asserted) < 15)


def main():
    binary, count, seed = [*sys.argv[1:], *[BINARY, "150", "1"][len(sys.argv) - 1 :]]
    binary = os.path.abspath(binary)
    faults = [(f"{case[0]}: explain {case[1]}", fault_of(binary, case)) for case in CASES + UNREAD + YES + OTHERS]
    faults += [(it[0], shell_fault(*it)) for it in shell_runs(binary)]
    faults += [(f"{name!r}: {it[0]}", name_fault(binary, name, *it)) for name in NAMES for it in NAMING]
    faults += [("explain", fault) for fault in reader_faults(binary, int(count), int(seed))]
    missing = reasons() - {case[0] for case in CASES} - LEFT_OUT
    faults += [(f"no case for {it}", "") for it in sorted(missing)]
    faults += asserted_elsewhere() or [("sentences that assert", None)]
    scripts.end_with((f"{words}: {fault}", fault is None) for words, fault in faults)


if __name__ == "__main__":
    main()
