"""The modules of dimacs-draw: main is the command, options has the words that are typed, and program asks dimacs.

drawing draws: those modules are of the package for Python too, and lie there in the repository.
"""
import os
import sys

__path__.append(os.path.join(os.path.dirname(os.path.realpath(__file__)), "../../lib/python/dimacs"))


def fail(message):
    """Ends with a line, and the status of arguments that are wrong and files that fail."""
    print(f"dimacs-draw: {message}", file=sys.stderr)
    sys.exit(2)
