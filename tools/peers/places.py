#!/usr/bin/env python3
"""Compares the places of tags in pages with those that Python's html.parser gives by `getpos`.

    python3 tools/peers/places.py FOLDER [--pages N]

Each page of the folder that is UTF-8 is read by the program of crates/print_places, which `rt ci` leaves there, and by
html.parser. Said are the tags at one place, those of another name there, and those that one of both alone sees. The
status is 1 where a tag at one place has another name or a place has no tag's text. Beyond the gate: it wants pages.
"""

import argparse
import itertools
import pathlib
import subprocess
import sys
from html.parser import HTMLParser

TOP = pathlib.Path(__file__).resolve().parents[2]
sys.path.insert(0, str(TOP / "tools"))

from compare.peer import event_of_line  # noqa: E402: found by the line above
from compare.places import tokens_of  # noqa: E402

PROGRAM = TOP / "crates/print_places/out/print_places"


class Tags(HTMLParser):
    """The characters at which tags begin, each with its kind and its name."""

    def __init__(self, text):
        super().__init__(convert_charrefs=True)
        self.found = {}
        self.lines = [0, *itertools.accumulate(len(line) + 1 for line in text.split("\n"))]
        self.feed(text)
        self.close()

    def note(self, kind, name):
        line, column = self.getpos()
        self.found[self.lines[line - 1] + column] = (kind, name)

    def handle_starttag(self, tag, attrs):
        self.note("start", tag)

    def handle_endtag(self, tag):
        self.note("end", tag)

    def handle_startendtag(self, tag, attrs):
        self.note("start", tag)


def theirs(text):
    """The bytes at which html.parser sees tags begin."""
    bytes_before = [0, *itertools.accumulate(len(c.encode()) for c in text)]
    return {bytes_before[at]: tag for at, tag in Tags(text).found.items()}


def ours(page):
    """The bytes at which tags begin here, and the places that have no tag's text."""
    ran = subprocess.run([PROGRAM], input=page, capture_output=True, check=True)
    found, wrong = {}, []
    for token in tokens_of(ran.stdout.decode()):
        if token.kind not in ("start", "end"):
            continue
        found[token.begin] = (token.kind, event_of_line(token.line)[1])
        text = page[token.begin : token.end]
        if not (text.startswith(b"</" if token.kind == "end" else b"<") and text.endswith(b">")):
            wrong.append((token.line, text))
    return found, wrong


def main():
    parser = argparse.ArgumentParser(description=__doc__.splitlines()[0])
    parser.add_argument("folder", type=pathlib.Path)
    parser.add_argument("--pages", type=int, default=None)
    chosen = parser.parse_args()
    pages, size, same, apart, alone = 0, 0, 0, [], {"here": 0, "there": 0}
    for file in sorted(chosen.folder.rglob("*.html"))[: chosen.pages]:
        page = file.read_bytes()
        try:
            there = theirs(page.decode())
        except UnicodeDecodeError:
            continue
        here, wrong = ours(page)
        both = here.keys() & there.keys()
        apart += [(str(file), at, here[at], there[at]) for at in both if here[at] != there[at]]
        apart += [(str(file), *it) for it in wrong]
        pages, size, same = pages + 1, size + len(page), same + len(both)
        alone = {"here": alone["here"] + len(here) - len(both), "there": alone["there"] + len(there) - len(both)}
    for it in apart[:5]:
        print(f"tools/peers/places.py: {it}")
    print(f"tools/peers/places.py: {pages} pages, {size} bytes, {same} tags at one place, {len(apart)} otherwise, {alone} alone")
    return bool(apart)


if __name__ == "__main__":
    sys.exit(main())
