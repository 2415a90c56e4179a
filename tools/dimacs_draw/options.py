"""The words that are typed."""
import argparse
import re

from dimacs_batch.options import program, version

USAGE = "dimacs-draw [OPTIONS] INSTANCE [SOLUTION [CERTIFICATE]]"


def node(word):
    if not re.fullmatch("[0-9]{1,9}", word):
        raise argparse.ArgumentTypeError(f"a node is a number, and not {word}")
    return int(word)


def parser_of():
    parser = argparse.ArgumentParser(
        prog="dimacs-draw",
        usage=USAGE,
        allow_abbrev=False,
        description="Draws a small network as SVG, with a claim and what dimacs says of it. The drawing isn't proved.",
    )
    add = parser.add_argument
    add("texts", nargs="+", metavar="TEXT", help="an instance, and what is claimed of it; - is the standard input")
    add("-o", "--output", metavar="FILE", help="the picture; the standard output")
    add("--dot", action="store_true", help="writes the network in the language of Graphviz")
    add("--only", action="append", type=node, default=[], metavar="NODE", help="draws this node and its neighbours")
    add("--source", type=node, metavar="NODE", help="draws the distances from this node")
    add("--layers", action="store_true", help="lays out by its own layers, even if Graphviz is there")
    add("--program", default=program(), metavar="FILE", help="the program; $DIMACS, or dimacs")
    add("--version", action="version", version=f"dimacs-draw {version()}")
    return parser


def options_of():
    parser = parser_of()
    options = parser.parse_args()
    if len(options.texts) > 3:
        parser.error("three texts at most: an instance, what is claimed of it, and a certificate")
    if options.texts.count("-") > 1:
        parser.error("the standard input is one text")
    return options
