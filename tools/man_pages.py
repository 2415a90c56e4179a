#!/usr/bin/env python3
"""Writes the man pages: tools/man_pages.py OUT [unproved]

The sources are man/*.md, in the Markdown that the other pages use, with three kinds of lines beside it:

    @include PAGE#SECTION [N]   the section of a page, without its heading, or only its first N blocks
    @usage                      the commands of the usage text
    @version                    the version

So no text has to stand in two places. OUT gets a page for each. What they say of proofs isn't so of a build without.
"""
import os
import re
import sys

from texts import read, write

SOURCES = ["dimacs.1", "dimacs.5", "dimacs-batch.1", "dimacs-draw.1"]
UNPROVED = ("every function is proved to meet its contract", "this build isn't proved to meet them")
WIDTH, SHORT = 68, 12  # the most of a table, and of a column that isn't made narrower, in columns of text

# Pages whose text stands in a man page.
MAN_PAGES = {"TEXTS.md": "dimacs(5)", "JUDGING.md": "dimacs(1)", "SOLVING.md": "dimacs(1)"}


# ---- Markdown to blocks


def blocks(text):
    """The blocks of a text: a word for each one's kind, and its lines."""
    found = []
    lines = iter(text.split("\n"))
    for line in lines:
        kind = kind_of(line)
        before = found[-1] if found else ("blank", [])
        if kind == "code":
            found.append(("code", list(iter(lambda: next(lines), "```"))))
        elif before[0] == kind == "table" or before[0] in ("text", "item") and kind in ("text", "more"):
            before[1].append(line.strip())
        else:
            found.append(("text" if kind == "more" else kind, [line.strip()]))
    return [block for block in found if block[0] != "blank"]


def kind_of(line):
    for kind, start in (("code", "```"), ("table", "|"), ("heading", "#"), ("asked", "@")):
        if line.startswith(start):
            return kind
    if re.match(r"(- |\d+\. )", line):
        return "item"
    return "more" if line.startswith("  ") else "text" if line.strip() else "blank"


def slug(heading):
    """What a link to a heading has after the number sign."""
    return re.sub(r"[^\w\- ]", "", heading.lower()).replace(" ", "-")


def section(page, anchor):
    """The blocks of a section, with the level of its heading."""
    found, level = [], 0
    for kind, lines in blocks(read(page)):
        if kind == "heading":
            marks, title = lines[0].split(" ", 1)
            if level and len(marks) <= level:
                break
            if slug(title) == anchor:
                level = len(marks)
                continue
        if level:
            found.append((kind, lines))
    if not level:
        sys.exit(f"{page}: no section {anchor}")
    return found, level


# ---- inline text


def plain(text):
    """A text without what only a reader of the sources needs, and with links as words."""
    antt = r"\[`\w+\.antt`\]\([^)]*\)"
    text = re.sub(rf"\s*\((?:`\w+`(?:[ ,\w]*)\sin\s)?{antt}(?:,\s*{antt})*\)", "", text)
    text = re.sub(r"(^|(?<=\s))Definitions?:\s.*", "", text, flags=re.DOTALL)
    return re.sub(r"\[([^\]]*)\]\([^)]*\)", lambda it: MAN_PAGES.get(it[1], it[1]), text).strip()


def escaped(text):
    return text.replace("\\", "\\e")


def literal(text):
    for char, name in (("-", "\\-"), ("'", "\\(aq"), ("`", "\\(ga"), ("^", "\\(ha"), ("~", "\\(ti")):
        text = text.replace(char, name)
    return text


def inline(text):
    """A text for troff: code and what is strong are bold, what is stressed is in italics."""
    parts = []
    for part in re.split(r"(`[^`]+`|\*\*[^*]+\*\*|\*[^*]+\*)", escaped(text)):
        if part.startswith("`"):
            part = f"\\fB{literal(part[1:-1])}\\fR"
        elif part.startswith("**"):
            part = f"\\fB{part[2:-2]}\\fR"
        elif part.startswith("*") and len(part) > 1:
            part = f"\\fI{part[1:-1]}\\fR"
        parts.append(part)
    return "".join(parts)


def paragraph(text):
    """The lines of a text, of which none begins a request of troff's."""
    lines = inline(text).replace("<br>", "\n.br\n").split("\n")
    return [line if line == ".br" else re.sub(r"^([.'])", r"\\&\1", line) for line in lines]


# ---- blocks to troff


def cells(row):
    return [plain(cell.strip()) for cell in row.strip("|").split("|")]


def bare(cell):
    return re.sub(r"[`*]", "", cell)


def shared_out(rows):
    """Which columns share the room that the others leave: the long ones, if all together are too long."""
    needed = [max(len(bare(cell)) for cell in column) for column in zip(*rows)]
    is_too_long = sum(needed) + 3 * (len(needed) - 1) > WIDTH
    return [is_too_long and it > SHORT for it in needed]


def rows_of(lines):
    """The rows of a table. A cell with a break goes over several."""
    for line in lines:
        parts = [cell.split("<br>") for cell in cells(line)]
        for k in range(max(map(len, parts))):
            yield [part[k] if k < len(part) else "" for part in parts]


def table(lines):
    """A table of two columns is a list of terms, one of more a table."""
    head, *rows = rows_of(lines[:1] + lines[2:])
    if len(head) == 2:
        return [it for term, meaning in rows for it in (".TP", *paragraph(term), *paragraph(meaning))] + [".PP"]
    wide = shared_out([head, *rows])
    form = " ".join("lx" if is_wide else "l" for is_wide in wide)
    made = [".PP", ".TS", "tab(@);", re.sub(r"\bl", "lb", form), f"{form}."]
    for row in [head, *rows]:
        parts = zip(("".join(paragraph(cell)) for cell in row), wide)
        made.append("@".join(f"T{{\n{cell}\nT}}" if is_wide and cell else cell for cell, is_wide in parts))
    return [*made, ".TE", ".PP"]


def item(lines):
    mark, text = lines[0].split(" ", 1)
    mark = "\\(bu 2" if mark == "-" else f"{mark} 4"
    return [f".IP {mark}", *paragraph(plain("\n".join([text, *lines[1:]])))]


def heading(title, level):
    title = plain(title)
    if level == 1:
        return [f".SH {inline(title).upper()}"]
    title = re.sub(r"`", "", title)
    return [f".SS {inline(title)}"] if level == 2 else [".PP", f"\\fB{inline(title)}\\fR", ".PP"]


def usage():
    """The commands of the usage text, with their files in italics."""
    commands = re.findall(r'\(\s*"([a-z][^"]*)",\s*"[^"]*",?\s*\)', read("crates/dimacs_usage/src/usage.rt"))
    shown = (re.sub(r"\b([A-Z]+)\b", r"\\fI\1\\fR", literal(words)) for words in commands)
    return [it for words in shown for it in (f"\\fBdimacs\\fR {words}", ".br")][:-1]


def troff(found, above, base=0):
    """Yields the lines of blocks under a heading of the level `above`; their own headings begin after `base`."""
    level, last = above, ""
    for kind, lines in found:
        if kind == "heading":
            marks, title = lines[0].split(" ", 1)
            level = above + len(marks) - base
            yield from heading(title, level)
        elif kind == "asked":
            yield from asked(lines[0], level)
        elif kind == "code":
            shown = (re.sub(r"^([.'])", r"\\&\1", literal(escaped(line))) for line in lines)
            yield from [".PP", ".in +4n", ".nf", *shown, ".fi", ".in", ".PP"]
        elif kind == "table":
            yield from table(lines)
        elif kind == "item":
            yield from item(lines)
        elif text := plain("\n".join(lines)):
            yield from [".PP", *paragraph(text)]
        last = kind
    if last == "item":
        yield ".PP"


def asked(line, level):
    """The lines of troff that stand in place of a line that begins with @."""
    word, *rest = line.split()
    if word == "@usage":
        return usage()
    if word == "@version":
        return [".PP", f"This page is of dimacs {version()}."]
    page, anchor = rest[0].split("#")
    found, base = section(page, anchor)
    return list(troff(found[: int(rest[1])] if rest[1:] else found, level, base))


def version():
    return read("VERSION").strip()


def date():
    """The date of the newest version that has one."""
    return re.search(r"^## \S+, (\S+)$", read("CHANGELOG.md"), re.MULTILINE)[1]


def tidy(lines):
    """Lines without a break that only another one, or a heading, follows."""
    kept = []
    for line in lines:
        if kept and kept[-1] == ".PP" and line.startswith((".PP", ".SH", ".SS", ".TP", ".IP")):
            kept.pop()
        if line == ".PP" and kept and kept[-1].startswith((".SH", ".SS")):
            continue
        kept.append(line)
    return kept[:-1] if kept[-1] == ".PP" else kept


def page(name):
    title, number = name.split(".")
    # One page of any length: a page break may fall into a table.
    head = ["'\\\" t", f'.TH {title.upper()} {number} {date()} "dimacs {version()}"', ".if n .pl 9999v", ".nh", ".ad l"]
    text = "\n".join(head + tidy(troff(blocks(read(f"man/{name}.md")), 0))) + "\n"
    itself = f"{title}({number})"
    text = re.sub(rf"(^|\. ){re.escape(itself)} (?=says|has)", r"\1This page ", text, flags=re.MULTILINE)
    return text.replace(f"{itself} says", "this page says").replace(f"{itself} has", "this page has")


def unproved(pages):
    """The pages of a build that isn't proved."""
    told, instead = UNPROVED
    made = {name: re.sub(told.replace(" ", r"\s+"), instead, text) for name, text in pages.items()}
    if made == pages:
        sys.exit(f"no man page says that {told}")
    return made


def main():
    out, *words = sys.argv[1:] or ["-"]
    if out.startswith("-") or words not in ([], ["unproved"]):
        sys.exit("tools/man_pages.py OUT [unproved]")
    pages = {name: page(name) for name in SOURCES}
    for name, text in (unproved(pages) if words else pages).items():
        write(os.path.join(os.path.abspath(out), name), text)


if __name__ == "__main__":
    main()
