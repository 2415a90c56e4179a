#!/usr/bin/env python3
"""Tests the links of all pages: each relative one names a file or folder that is there, and a heading that it has."""
import os
import re
import subprocess

import scripts

LINK = re.compile(r"\[[^\]]*\]\(([^)\s]+)\)")
BLOCK = re.compile(r"^ *```.*?^ *```$", re.MULTILINE | re.DOTALL)


def prose(path):
    """A page without its blocks of code."""
    return BLOCK.sub("", scripts.read(path))


def anchors(path):
    """The headings of a page, as links name them."""
    heads = re.findall(r"^#+ +(.*)$", prose(path), re.MULTILINE)
    names = [re.sub(r"[^\w\- ]", "", re.sub(r"\]\([^)]*\)", "]", it)).lower().replace(" ", "-") for it in heads]
    return {f"{it}-{names[:at].count(it)}" if it in names[:at] else it for at, it in enumerate(names)}


def leads_somewhere(page, target):
    path, _, anchor = target.partition("#")
    place = os.path.normpath(os.path.join(os.path.dirname(page), path)) if path else page
    there = os.path.exists(os.path.join(scripts.TOP, place))
    return there and (not anchor or not place.endswith(".md") or anchor in anchors(place))


def cases():
    """Yields each link of each page, and whether it leads somewhere."""
    listed = subprocess.run(["git", "ls-files", "*.md", ":!tools"], cwd=scripts.TOP, capture_output=True, text=True, check=True)
    for page in listed.stdout.split():
        for target in LINK.findall(prose(page)):
            if "://" not in target:
                yield f"{page}: {target}", leads_somewhere(page, target)


if __name__ == "__main__":
    scripts.end_with(cases())
