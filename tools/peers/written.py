#!/usr/bin/env python3
"""Compares what others read of the pages of a folder with what they read of these pages written back by their tokens.

    /usr/bin/python3 tools/peers/written.py FOLDER [--pages N]

Each page is written back by the program of crates/write_back, with its texts escaped by number and by name. Python's
`html.parser` reads the same tags, texts, comments and doctypes of both, and html5lib builds trees of them that its serializer
prints alike (Debian's python3-html5lib). The pages are those of the folder and of the folders in it that are UTF-8, in a fixed
random order. Each page that differs is said, and then the status is 1.

Two things that others read otherwise than the standard's tokenizer, or by the tree, are not compared. `html.parser` reads markup
in `textarea`, `title`, `iframe`, `noembed`, `noframes` and `xmp`, so pages with markup or references in these are left to
html5lib. Content in svg or math is read here as HTML, so there html5lib may find more.
"""

import re
import subprocess
import sys

import html5lib
from rewrites import TOP, compare, events

WRITER = TOP / "crates/write_back/out/write_back"

# Raw text that html.parser reads as markup.
RAW = re.compile(rb"<(textarea|title|iframe|noembed|noframes|xmp)\b[^>]*>[^<]*([<&](?!/\1))", re.IGNORECASE)
FOREIGN = re.compile(rb"<(svg|math)\b", re.IGNORECASE)


def serialized(page):
    """What html5lib's serializer prints of the tree that html5lib builds of a page."""
    tree = html5lib.parse(page.decode(), treebuilder="etree", namespaceHTMLElements=False)
    return html5lib.serialize(tree, tree="etree", omit_optional_tags=False, quote_attr_values="always")


def with_small_keywords(read):
    """The same with `DOCTYPE`, its name and its keywords in small letters."""
    return [[kind, parts[0].lower(), *parts[1:]] if kind == "declaration" else [kind, *parts] for kind, *parts in read]


def fault_of(page, written):
    """What differs of a page that is written back, or nothing."""
    if not RAW.search(page) and with_small_keywords(events(page)) != with_small_keywords(events(written)):
        return "html.parser reads it otherwise"
    if serialized(page) != serialized(written):
        return "html5lib builds another tree" + (" (with svg or math)" if FOREIGN.search(page) else "")
    return ""


def fault(page):
    """What differs of a page, with its texts escaped by number or by name, or nothing."""
    ran = [subprocess.run([WRITER, *words], input=page, capture_output=True, check=True) for words in ([], ["--names"])]
    return fault_of(page, ran[0].stdout) or fault_of(page, ran[1].stdout)


if __name__ == "__main__":
    sys.exit(compare("tools/peers/written.py", fault))
