"""The command."""
import gzip
import os
import sys
import zlib

from dimacs_batch.main import fail_of, words_of
from dimacs_draw import drawing, fail
from dimacs_draw.options import options_of
from dimacs_draw.program import Failed, Program, Refused

GZIPPED = b"\x1f\x8b"
OURS = (b"<svg", b"digraph")  # how the pictures begin


def content_of(name):
    """The bytes of a text, which may be compressed by gzip."""
    if name == "-":
        content = sys.stdin.buffer.read()
    else:
        with open(name, "rb") as it:
            content = it.read()
    if not content.startswith(GZIPPED):
        return content
    try:
        return gzip.decompress(content)
    except (EOFError, gzip.BadGzipFile, zlib.error) as error:
        raise OSError(0, f"isn't whole as gzip writes it: {error}", name) from error


def draw(options):
    """Draws, and writes the picture; the exit status."""
    texts = [drawing.Text("standard input" if it == "-" else it, content_of(it)) for it in options.texts]
    drawn = drawing.draw(Program(options.program), texts, options.only, options.source, options.layers)
    text = (drawn.dot if options.dot else drawn.svg).encode("utf-8")
    if options.output:
        write(options.output, text)
    else:
        sys.stdout.buffer.write(text)
        sys.stdout.flush()
    return 1 if drawn.lines and drawn.lines[0].startswith("x ") else 0


def write(name, text):
    """Writes a picture into a file, which may be there if it is a picture."""
    if os.path.isfile(name) and os.path.getsize(name):
        with open(name, "rb") as it:
            if not it.read(8).startswith(OURS):
                fail(f"{name} is there, and no picture: remove it first")
    with open(name, "wb") as it:
        it.write(text)


def main():
    options = words_of(options_of)
    try:
        return draw(options)
    except drawing.TooLarge as error:
        return fail(f"{error}: --only NODE draws a node with its neighbours")
    except (ValueError, Failed) as error:
        return fail(error)
    except Refused as refusal:
        print(refusal, file=sys.stderr)
        return 1
    except KeyboardInterrupt:
        return 130
    except OSError as error:
        return fail_of(error, fail)
