#!/usr/bin/env python3
"""Has a real browser build random pages, and compares its trees with the model's and with the nesting of tags.

    python3 tools/peers/trees.py [--pages N] [--seed S] [--self-test]

A page is random tags and texts of the 94 elements of crates/html5tree (tools/gen/tree_cases.py makes them; many don't fit).
Chromium (Debian's, headless) builds

    as it is    the page itself: what tools/model/tree.py builds of it
    cleaned     what `firnuubal clean` makes of it, by a policy with `tree` and these elements but embed: the nesting
                of its tags, as a div's innerHTML, for which Chromium has a short way, the same by the long way, and in the
                source of a whole page
    in a HOST   the cleaned page in the source of a page, within other elements, where it fits above these

Each tree that differs is printed. Pages as they are differ now and then, since Chromium doesn't go by the standard in two
things: `search` is no special element there, and `</form>` closes an outer form, too, where a table has let a second one
open. By --self-test pages are cleaned by `balance` in place of `tree`, and a difference has to be found. The program is
the one that `rt ci` left in crates/firnuubal/out. Status 0: each cleaned page has the tree that it shows. 1: one has not.
2: there is no browser here, or no program.
"""

import argparse
import collections
import html.parser
import os
import pathlib
import subprocess
import sys
import tempfile

import browser

sys.path.insert(0, str(browser.TOP / "tools"))

from gen import tree_cases  # noqa: E402: found by the line above
from model import tree  # noqa: E402
from model.tree import End, Start, Text  # noqa: E402

BATCH = 2000
SHOWN = 10  # differences that are printed
REFUSED = {"embed"}  # no policy allows it
HOSTS = ["td", "li", "p", "a", "b", "dd", "h1", "button", "caption", "ruby"]
AROUND = {"td": "table tbody tr", "li": "ul", "dd": "dl", "caption": "table"}
DRIVER = """<!doctype html><meta charset="utf-8"><body><pre id="found"></pre><script>
const given = GIVEN
const found = []
function shown(node) {
    let text = ""
    for (const child of node.childNodes) {
        if (child.nodeType === Node.TEXT_NODE) { text += child.data; continue }
        text += "<" + child.nodeName.toLowerCase()
        for (const {name, value} of child.attributes ?? []) text += ` ${name}=${value}`
        text += ">" + shown(child) + "</" + child.nodeName.toLowerCase() + ">"
    }
    return text
}
function inner(text) {
    const holder = document.createElement("div")
    holder.innerHTML = text
    return holder
}
function long(text) {
    const holder = inner("<!---->" + text)
    holder.firstChild.remove()
    return holder
}
const source = text => new DOMParser().parseFromString("<!doctype html><body>" + text, "text/html").body
const builders = {inner, long, source}
given.forEach(([by, text, tree], at) => {
    const built = shown(builders[by](text))
    if (built !== tree) found.push([at, built])
})
document.getElementById("found").textContent = "FOUND" + JSON.stringify(found) + "END"
</script>
"""


def markup(items):
    """Items as a page has them."""
    parts = []
    for item in items:
        if isinstance(item, Text):
            parts.append(browser.escaped(item.text))
        elif isinstance(item, End):
            parts.append(f"</{item.name}>")
        else:
            attributes = "".join(f' {name}="{browser.escaped(value)}"' for name, value in item.attributes)
            parts.append(f"<{item.name}{attributes}>")
    return "".join(parts)


class Items(html.parser.HTMLParser):
    """The items of a cleaned page, which shows where each element ends."""

    def __init__(self):
        super().__init__()
        self.items = []

    def handle_starttag(self, name, attributes):
        self.items.append(Start(name, tuple(attributes)))

    def handle_endtag(self, name):
        self.items.append(End(name))

    def handle_data(self, text):
        self.items.append(Text(text))


def items_of(page):
    reader = Items()
    reader.feed(page)
    reader.close()
    return tree.whole_texts(reader.items)


def random_items(seed, number):
    """The items of a page, of one of four kinds."""
    maker = tree_cases.Maker(f"{seed} {number}")
    kinds = [maker.items, maker.misnested_items, maker.balanced_items, maker.fitting_items]
    return kinds[number % len(kinds)]()


def cleaned(page, policy):
    words = [browser.PROGRAM, "clean", "--policy", policy]
    return subprocess.run(words, input=page.encode(), capture_output=True, check=True).stdout.decode()


def in_hosts(page, items):
    """The cases of a cleaned page within other elements, from which nothing of it may fall out."""
    for host in HOSTS:
        stack = [*AROUND.get(host, "").split(), host]
        within = [*items, *map(End, reversed(stack))]
        if tree.all_fit(within, tuple(stack)):
            around = [*map(Start, stack), *within, Text("z")]
            text = "".join(f"<{name}>" for name in stack) + page + markup(map(End, reversed(stack))) + "z"
            yield f"in {host}", "source", text, tree.shown(tree.nesting(tree.read_items(around)))


def cases_of(items, policy):
    """The cases of a page: what is compared, how it is built, its text and the tree that is due."""
    page = markup(items)
    yield "as it is", "long", page, tree.shown(tree.tree_of(items))
    kept = cleaned(page, policy)
    shown = tree.shown(tree.nesting(tree.read_items(items_of(kept))))
    for by in ("inner", "long", "source"):
        yield "cleaned", by, kept, shown
    yield from in_hosts(kept, items_of(kept))


def differing(chromium, cases):
    """The cases of which the browser builds another tree, with that tree."""
    given = [[by, text, due] for _, by, text, due in cases]
    return [(cases[at], built) for at, built in browser.found_by(chromium, DRIVER, given)]


def policy_file(folder, rule):
    rules = [f"allow {name} id class type" for name in sorted(tree.ALL - REFUSED)] + [rule]
    file = pathlib.Path(folder) / "policy"
    file.write_text("\n".join(rules), encoding="utf-8")
    return file


def compared(chromium, words):
    """How many cases of each kind there are, and those that differ."""
    counts, found = collections.Counter(), []
    with tempfile.TemporaryDirectory() as folder:
        policy = policy_file(folder, "balance" if words.self_test else "tree")
        for begin in range(0, words.pages, BATCH):
            numbers = range(begin, min(begin + BATCH, words.pages))
            cases = [case for at in numbers for case in cases_of(random_items(words.seed, at), policy)]
            counts.update(case[0] for case in cases)
            found += differing(chromium, cases)
    return counts, found


def main():
    parser = argparse.ArgumentParser(description=__doc__, formatter_class=argparse.RawDescriptionHelpFormatter)
    parser.add_argument("--pages", type=int, default=2000, help="how many pages (2,000)")
    parser.add_argument("--seed", default="1", help="of the random choices (1)")
    parser.add_argument("--self-test", action="store_true", help="clean by `balance`, and find that out")
    words = parser.parse_args()
    chromium = browser.chromium()
    if chromium is None or not os.access(browser.PROGRAM, os.X_OK):
        print(f"tools/peers/trees.py: there is no chromium here (apt-get install chromium), or no {browser.PROGRAM}")
        return 2
    counts, found = compared(chromium, words)
    differ = collections.Counter(case[0] for case, _ in found)
    for (what, by, text, due), built in found[:SHOWN] * (not words.self_test):
        print(f"{what}, by {by}: {text!r}: due {due!r}, built {built!r}")
    for what, count in counts.items():
        print(f"{what}: {count} trees, {differ[what]} otherwise")
    failed = sum(differ.values()) - differ["as it is"]
    return int(failed == 0 if words.self_test else failed > 0)


if __name__ == "__main__":
    sys.exit(main())
