"""Finds the commands that pages show, for the scripts beside it."""
import re

# A line `$ COMMAND` in a block of code, of any language, fenced or indented, and the lines under it in the block.
COMMAND = re.compile(r"^( *)\$ (.*)\n((?:(?!\1(?:\$ |```))\1.*\n)*)", re.MULTILINE)


def commands(path):
    """Yields each command that a page shows, and the lines under it."""
    with open(path, encoding="utf-8") as it:
        for indent, command, lines in COMMAND.findall(it.read()):
            yield command, re.sub(f"^{indent}", "", lines, flags=re.MULTILINE)
