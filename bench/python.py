#!/usr/bin/python3
"""Times the calls from Python beside others that read or clean HTML, and prints a table.

    /usr/bin/python3 bench/python.py [--quick] [--real]

It takes the library that `bindings/build.sh` left in bindings/out, or the one in dist/, and the extension that is beside
it; with FIRNUUBAL_PURE=1 in the environment the readers in Python. Beside it: the standard library's `html.parser`,
html5lib's tokenizer, lxml's feed parser and bleach, where they are (Debian's python3-html5lib, python3-lxml and
python3-bleach, for Debian's own Python). Those that take long read a prefix of the pages. Real pages are many that are
joined, of which lxml reads the first alone, so it is left out there. A time is the processor time of this process, the
best of some runs. MB are 1,000,000 bytes.

The last table is of one short text that is read again and again, as the comments of a page are.
"""

import argparse
import html.parser
import pathlib
import sys
import time

TOP = pathlib.Path(__file__).resolve().parent.parent
sys.path.insert(0, str(TOP / "bindings" / "python" / "src"))

import corpora
import firnuubal
from programs import texts

PIECE = 1 << 16
SLOW = 2 * corpora.MB
SHORT = b"<p>A <a href='https://a.example/?x&amp;y'>comment</a> of <b>two</b> lines,<br>and 1 &lt; 2.</p>\n"


def exhausted(found):
    for _ in found:
        pass


def by_html_parser(page):
    html.parser.HTMLParser().feed(page.decode(errors="replace"))


def by_lxml(page):
    import lxml.etree

    parser = lxml.etree.HTMLParser()
    for at in range(0, len(page), PIECE):
        parser.feed(page[at : at + PIECE])
    parser.close()


def by_html5lib(page):
    from html5lib._tokenizer import HTMLTokenizer

    exhausted(HTMLTokenizer(page.decode(errors="replace")))


def by_bleach(page):
    import bleach

    allowed = {tag: list(names) for tag, names in firnuubal.ALLOWED_ATTRIBUTES.items()}
    bleach.clean(page.decode(errors="replace"), tags=firnuubal.ALLOWED_TAGS, attributes=allowed, strip=True)


# What is timed: a name, a call, and whether it reads a beginning alone.
TIMED = [
    ("firnuubal.tokens", lambda page: exhausted(firnuubal.tokens(page)), False),
    ("firnuubal.tokens(parse_errors=False)", lambda page: exhausted(firnuubal.tokens(page, parse_errors=False)), False),
    ("firnuubal.links", lambda page: exhausted(firnuubal.links(page)), False),
    ("firnuubal.text", firnuubal.text, False),
    ("firnuubal.clean", firnuubal.clean, False),
    ("html.parser", by_html_parser, False),
    ("lxml, with its tree", by_lxml, False),
    ("html5lib's tokenizer", by_html5lib, True),
    ("bleach.clean", by_bleach, True),
]


def seconds_of(call, page, runs):
    """The best processor time of some calls."""
    best = None
    for _ in range(runs):
        before = time.process_time()
        call(page)
        took = time.process_time() - before
        best = took if best is None else min(best, took)
    return best


def print_rows(page, runs, timed):
    for name, call, is_slow in timed:
        part = page[:SLOW].decode(errors="ignore").encode() if is_slow else page
        try:
            seconds = seconds_of(call, part, 1 if is_slow else runs)
        except ImportError as error:
            print(f"| {name} | not here: {error} | | |")
            continue
        size = len(part) / corpora.MB
        print(f"| {name} | {size:.0f} | {seconds:.2f} | {size / seconds:.1f} |", flush=True)


def print_short_rows(runs, timed):
    print(f"\n| Call, {len(SHORT)} bytes | Microseconds |\n|---|---|")
    for name, call, is_slow in timed:
        count = 100 if is_slow else 2000
        try:
            seconds = seconds_of(lambda page: [call(page) for _ in range(count)], SHORT, runs)
        except ImportError as error:
            print(f"| {name} | not here: {error} |")
            continue
        print(f"| {name} | {1e6 * seconds / count:.0f} |", flush=True)


def main():
    parser = argparse.ArgumentParser(description=__doc__.splitlines()[0])
    parser.add_argument("--quick", action="store_true", help="smaller pages, fewer runs")
    parser.add_argument("--real", action="store_true", help="real pages, from Debian's documentation packages")
    chosen = parser.parse_args()
    timed = [row for row in TIMED if not (chosen.real and row[1] is by_lxml)]
    print(f"Python {sys.version.split()[0]}, {'the extension' if firnuubal.IS_FAST else 'the readers in Python'}\n")
    for text in texts(chosen):
        print("| Call | MB | Seconds | MB/s |\n|---|---|---|---|")
        print_rows(text, 1 if chosen.quick else 3, timed)
    print_short_rows(1 if chosen.quick else 3, TIMED)


if __name__ == "__main__":
    main()
