#!/usr/bin/env python3
"""Compares what `firnuubal rewrite` prints of the pages of a folder with what others read of them.

    python3 tools/peers/rewrites.py FOLDER [--pages N]

Without options each page is printed to the byte. With `--set a.rel=nofollow --remove div.class` Python's `html.parser` and
`firnuubal tokens` read what is printed as the page's own tags, texts, comments and doctypes, except these attributes. The
pages are those of the folder and of the folders in it that are UTF-8, in a fixed random order. Each page that differs is
said, and then the status is 1.
"""

import argparse
import html.parser
import json
import pathlib
import random
import subprocess
import sys

TOP = pathlib.Path(__file__).resolve().parents[2]
PROGRAM = TOP / "crates/firnuubal/out/firnuubal"
UTF8 = ["--encoding", "utf-8"]


class Events(html.parser.HTMLParser):
    """What html.parser reads, with adjacent texts as one."""

    def __init__(self):
        super().__init__()
        self.read = []

    def handle_starttag(self, tag, attrs):
        # Of two attributes of one name the first counts.
        self.read.append(["start", tag, {name: value or "" for name, value in reversed(attrs)}])

    def handle_endtag(self, tag):
        self.read.append(["end", tag])

    def handle_data(self, data):
        if self.read and self.read[-1][0] == "text":
            self.read[-1][1] += data
        else:
            self.read.append(["text", data])

    def handle_comment(self, data):
        self.read.append(["comment", data])

    def handle_decl(self, decl):
        self.read.append(["declaration", decl])

    def handle_pi(self, data):
        self.read.append(["instruction", data])


def run(words, page):
    """What the program prints of a page."""
    return subprocess.run([PROGRAM, *words, *UTF8], input=page, capture_output=True, check=True).stdout


def events(page):
    parser = Events()
    parser.feed(page.decode())
    parser.close()
    return parser.read


def tokens(page):
    """The tokens of a page, without errors and lines, each tag with its attributes by their names."""
    read = map(json.loads, filter(None, run(["tokens", "--format", "json"], page).decode().split("\n")))
    return [
        ["start", token["name"], dict(token["attributes"]), token["self_closing"]] if token["type"] == "start" else token
        for token in ({**token, "line": 0} for token in read)
        if token["type"] != "error"
    ]


def edited(read):
    """The same with what is set and removed."""
    for token in read:
        if isinstance(token, list) and token[0] == "start":
            if token[1] == "a":
                token[2]["rel"] = "nofollow"
            if token[1] == "div":
                token[2].pop("class", None)
    return read


def fault(page):
    """What differs of a page, or nothing."""
    if run(["rewrite"], page) != page:
        return "it is not printed to the byte"
    printed = run(["rewrite", "--set", "a.rel=nofollow", "--remove", "div.class"], page)
    if tokens(printed) != edited(tokens(page)):
        return "the tokens are others"
    if events(printed) != edited(events(page)):
        return "html.parser reads it otherwise"
    return ""


def pages(folder, most):
    """The pages of a folder that are UTF-8, in a fixed random order, with their files."""
    files = sorted(filter(pathlib.Path.is_file, folder.rglob("*.html")))
    random.Random(1).shuffle(files)
    for file in files[:most]:
        page = file.read_bytes()
        try:
            page.decode()
        except UnicodeDecodeError:
            continue
        if not page.startswith(b"\xef\xbb\xbf"):
            yield file, page


def compare(script, fault_of):
    """Says each page of the folder of the words that has a fault, and answers whether one has."""
    parser = argparse.ArgumentParser(description=sys.modules["__main__"].__doc__.splitlines()[0])
    parser.add_argument("folder", type=pathlib.Path)
    parser.add_argument("--pages", type=int, default=1000)
    chosen = parser.parse_args()
    count = size = faults = 0
    for file, page in pages(chosen.folder, chosen.pages):
        count, size = count + 1, size + len(page)
        if said := fault_of(page):
            faults += 1
            print(f"{script}: {file}: {said}", flush=True)
    print(f"{script}: {count} pages, {size} bytes, {faults} otherwise")
    return bool(faults)


if __name__ == "__main__":
    sys.exit(compare("tools/peers/rewrites.py", fault))
