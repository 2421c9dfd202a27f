"""Compares the trees of examples/html5lib_tree.py with those that html5lib makes of its own tokens.

    python3 trees.py [--cases 10000] [--seed 1] [--pages 1000] [FOLDER...]

The cases are random texts; the pages are the .html files below the folders. Left out is what html5lib's tokenizer reads
otherwise than the standard: texts with a NUL directly after `<!--`, where a `>` that follows ends its comment, and with
one in a CDATA section, which it makes U+FFFD. So are framesets: of a text in one html5lib keeps white space or doesn't,
as its tokenizer happens to cut it.
"""

import argparse
import pathlib
import random
import re
import sys
import time
from xml.etree import ElementTree

HERE = pathlib.Path(__file__).resolve().parent
sys.path[:0] = [str(HERE.parent / "examples"), str(HERE.parent / "src")]

import html5lib
import html5lib_tree

NOT_COMPARED = re.compile(r"<!---?\0|<!\[CDATA\[[^>]*\0")
NAMES = """p b i a div span table tr td th tbody thead caption colgroup col select option optgroup ul li dl dt dd h1 h2 form
button input br hr pre textarea title style script xmp iframe noembed noframes plaintext svg math mi mo mtext annotation-xml
foreignobject desc image nobr ruby rt rp head body html meta link base applet object font listing""".split()
TEXTS = [
    "x", " ", "\n", "&amp;", "&lt", "&#0;", "\0", "]]>", "--", "-->", "<", "</", "<!", "<!doctype html>", "<!--c-->", "<!-->",
    "<![CDATA[y<b>]]>", "é", "'", '"', "=", ">", "/", "</script", "<!--<script>", "&notit;",
]  # fmt: skip
ATTRIBUTES = ["", "", "", " a=1", " type=hidden", " encoding='text/html'", " href", " color=red", " /"]


def random_tag(choose):
    name = choose.choice(NAMES)
    if choose.random() < 0.4:
        return f"</{name}>"
    return f"<{name}{choose.choice(ATTRIBUTES)}>"


def random_page(choose):
    """A text of tags, most of them whole, and of text between tags."""
    parts = (random_tag(choose) if choose.random() < 0.6 else choose.choice(TEXTS) for _ in range(choose.randrange(1, 24)))
    return "".join(parts)


def shown(parser, page):
    """The tree of a page, or that html5lib's tree construction fails an assertion of its own, as it does for some."""
    try:
        return ElementTree.tostring(parser.parse(page), encoding="unicode")
    except AssertionError:
        return "html5lib fails"


def differs(page):
    """The two trees of a page, where they differ."""
    own, other = shown(html5lib_tree.Parser(), page), shown(html5lib.HTMLParser(), page)
    return None if own == other else (own, other)


def compare_cases(cases, seed):
    """How many random texts were compared, and those whose trees differ."""
    choose = random.Random(seed)
    pages = [page for page in (random_page(choose) for _ in range(cases)) if not NOT_COMPARED.search(page)]
    return len(pages), [page for page in pages if differs(page)]


def pages_below(folders, count):
    """So many pages below the folders, always the same."""
    found = sorted(path for folder in folders for path in pathlib.Path(folder).rglob("*.html") if path.is_file())
    random.Random(1).shuffle(found)
    return found[:count]


def compare_pages(paths):
    """The pages whose trees differ, and the seconds that each parser took."""
    bad, own, other = [], 0.0, 0.0
    for path in paths:
        page = path.read_bytes()
        began = time.perf_counter()
        one = shown(html5lib_tree.Parser(), page)
        between = time.perf_counter()
        two = shown(html5lib.HTMLParser(), page)
        own, other = own + between - began, other + time.perf_counter() - between
        if one != two:
            bad.append(path)
    return bad, own, other


def main():
    parser = argparse.ArgumentParser(description=__doc__, formatter_class=argparse.RawDescriptionHelpFormatter)
    parser.add_argument("--cases", type=int, default=1000)
    parser.add_argument("--seed", type=int, default=1)
    parser.add_argument("--pages", type=int, default=1000)
    parser.add_argument("folders", nargs="*", metavar="FOLDER")
    asked = parser.parse_args()
    compared, bad = compare_cases(asked.cases, asked.seed)
    for page in bad[:10]:
        print(ascii(page), *differs(page), sep="\n  ")
    print(f"{compared} random texts, {len(bad)} trees differ")
    paths = pages_below(asked.folders, asked.pages)
    if paths:
        worse, own, other = compare_pages(paths)
        print(*worse[:10], sep="\n")
        print(f"{len(paths)} pages, {len(worse)} trees differ; {own:.1f} s, and html5lib over its own tokenizer {other:.1f} s")
        bad += worse
    sys.exit(1 if bad else 0)


if __name__ == "__main__":
    main()
