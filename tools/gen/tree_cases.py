"""Random cases of crates/html5tree, as proofs: what models of tree construction and of the normaliser make of items.

    python3 tools/gen/tree_cases.py > crates/html5tree/proofs/RandomCases.antt
    python3 tools/gen/tree_cases.py --check            # says whether the file is what this script makes
    python3 tools/gen/tree_cases.py --try 20000        # tries the laws in the models, at random items

A case is items, and the tree that `tools/model/tree.py` builds of them, or whether all fit from no open elements, or
what `tools/model/normal.py` makes of them. The prover computes the same by the crate's definitions, so it says whether
they and the models agree.
"""

from __future__ import annotations

import argparse
import pathlib
import random
import re
import sys

TOP = pathlib.Path(__file__).resolve().parents[2]
sys.path.insert(0, str(TOP / "tools"))

from model import normal, tree  # noqa: E402: found by the line above
from model.tree import End, Start, Text  # noqa: E402

FILE = TOP / "crates" / "html5tree" / "proofs" / "RandomCases.antt"
TEXTS = ["x", "y", " ", "\n", " x", "x ", "\nx", "\n\n", "x y", ""]
GROUPS = [
    sorted(group)
    for group in (
        tree.ORDINARY,
        tree.FORMATTING,
        tree.BLOCKS,
        tree.HEADINGS,
        tree.PREFORMATTED,
        tree.VOID,
        tree.RUBY_PARTS | {"ruby"},
        tree.PARTS | {"table"},
        tree.names("ul ol li"),
        tree.names("dl dd dt"),
        tree.names("p button form"),
        tree.names("table tr td"),
        tree.names("a b i nobr p div"),
    )
]
BATCH = 10  # cases that are one proof
# Items that seldom come, to try the normaliser.
STRAY = [Start("video"), End("video"), End("p"), End("br"), End("hr"), Text(""), Text(" "), Text(" x y ")]
# Inputs of which a model with one line changed makes another tree: each shows what some rule is for.
CHOSEN = [
    "<p><li>",
    "<p><form>",
    "<p><u><p><u>",
    "<em><dl></em>",
    "<table><form>",
    "<ruby><rp><rp>",
    "<table><col>\nx",
    "<table><form> x",
    "<font><h3></font>",
    "<table><td></td>y",
    "<table><tr></tr>\n",
    "<nobr><s></nobr> x",
    "<p><button><table>",
    "<table><thead><h6>",
    "<table><thead><tr>",
    "<table><tr><i><td>",
    "<button><i><button>",
    "<table><code><tr>\nx",
    "<p><strong><p><abbr>",
    "<small><pre></small>",
    "<table><u><tr>x</tr>y",
    "<form><rtc></form><ol>",
    "<table><i><i><tr>y</i>y",
    "<table><tr></tfoot><th>",
    "<table><tr></tr></i><tr>",
    "<table><u><u><tr>x</tr>y",
    "<b><span><div></b></div>x",
    "<table><input type=HiDDen>",
    "<table><tfoot></tfoot><th>",
    "<table><tfoot><tr></tfoot>",
    "<nobr><strike></nobr><nobr>",
    "<table><tfoot><tr></tfoot><th>",
    "<form><table></form></table><h2>",
    "<i><table><i><i><i></table></i>y",
    "<a><b><u><div><div><div><div><div><div><div><div></b></a></a>x",
    "<p><hr>x",
    "<li><ol></li>x",
    "<li><ul></li>x",
    "<form><li></form>x",
    "<form><dd></form>x",
    "<form><p></form>x",
    "<form><rb></form>x",
    "<form><rtc></form>x",
    "<ruby><rt><rb>x<rtc>y<rt>z<rp>",
    "<table><input type=hidden><b>x",
    "<a><table><caption><a>x</caption></table>y",
    "<table><caption><b>x</caption></table>z",
    "<b><span><b><b><b></b></b></b></b>x",
    "<a><table><tr><td><a>x</td></tr></table>y",
    "<b><i><div><div><div><div><div><div><div><div><u></b></div>x",
    "<table><b type=hidden>x",
    "<table><tr></tr><i><tr>",
    "<table><p><b></p><p> ",
]
# An input that tells the kind of a name, which stands for NAME.
BY_NAME = "<p><NAME>0</p><b><NAME>1</b>2</NAME>3<li><NAME><li><ruby><NAME><rt></ruby><table><NAME>x"

# What the proofs unfold, by module, and what else they name.
READING = {
    "Names": "is_among kind_in all_names kind_of",
    "Scopes": "near",
}
FITTING = {**READING, "Fitting": "fits open_after each_fits all_open_after"}
NORMAL = {
    **READING,
    "Fitting": "open_after",
    "Tables": "leading_space after_space",
    "Normal": "count_inside run_of opened plan_of normal_above",
}
TREES = {
    **READING,
    "Items": "in_front whole_texts without_newlines",
    "Document": "joined changed changed_before found without applied built bare",
    "Parser": "has_node inside outside without_node is_bounded popped_until implied_ended has_entry without_entry"
    " last_named is_one_of are_all_of count_alike without_earliest pushed cleared last_table lost kept reopened",
    "Adoption": "ended_by furthest_block replaced inner_loop added_after adopted outer_loop",
    "InBody": "innermost",
    "Tables": "mode_of back_to is_hidden leading_space after_space",
    "Construction": "process run",
}
NAMED = {"Items": "Item", "Tree": "Tree", "Fitting": "all_fit", "Construction": "tree_of", "Normal": "normal"}
HEAD = """-- Items, with the trees that a model of the standard's tree construction builds of them, with whether they all fit, and
-- with what a model of the normaliser makes of them: by `python3 tools/gen/tree_cases.py`, and not by hand.
use Rattle.std.proofs.Common.{◌≡◌, Bool, true, false, List, [], ◌∷◌, refl}
use Rattle.std.specs.Prelude.{codes, map}
use Rattle.html5tree.specs.Items.Item.{StartTag, Text}
use Rattle.html5tree.specs.Tree.Tree.{Nothing, Element, Characters}
"""
FOOT = "use Rattle.html5tree.proofs.Shorthand.{start, end, attribute}\n"


def imports() -> str:
    """The `use` lines of what the proofs unfold and name."""
    lines = []
    for module in sorted({*TREES, *FITTING, *NORMAL, *NAMED}):
        named = dict.fromkeys(" ".join(names.get(module, "") for names in (TREES, FITTING, NORMAL, NAMED)).split())
        lines.append(f"use Rattle.html5tree.specs.{module}.{{{', '.join(named)}}}\n")
    return "".join(lines)


class Maker:
    """Makes items by random choices."""

    def __init__(self, seed: str):
        self.choices = random.Random(seed)
        self.names = self.some_names()
        self.opened: list[str] = []

    def some_names(self) -> list[str]:
        names = []
        for _ in range(self.choices.randrange(2, 9)):
            names.append(self.choices.choice(self.choices.choice([*GROUPS, sorted(tree.ALL)])))
        if self.choices.random() < 0.4:
            names += ["table", "tr", "td"][: self.choices.randrange(1, 4)]
        return names

    def attributes(self, name: str) -> tuple[tuple[str, str], ...]:
        if name == "input" and self.choices.random() < 0.5:
            return (("type", self.choices.choice(["hidden", "HiDDen", "text"])),)
        several = [(), (), (), (), (("class", "1"),), (("id", "1"), ("class", "2")), (("class", "2"), ("id", "1"))]
        return self.choices.choice(several)

    def item(self):
        """An item; the end tag of an open element is likely."""
        chance = self.choices.random()
        if chance < 0.25:
            return Text(self.choices.choice(TEXTS))
        if chance < 0.68:
            name = self.choices.choice(self.names)
            holds = sorted(tree.HOLDS.get(self.opened[-1], ())) if self.opened else []
            name = self.choices.choice(holds) if holds and self.choices.random() < 0.5 else name
            return Start(name, self.attributes(name))
        if chance < 0.92 and self.opened:
            return End(self.opened[-1 - min(int(self.choices.expovariate(1.5)), len(self.opened) - 1)])
        return End(self.choices.choice(self.names))

    def note(self, item):
        if isinstance(item, Start) and item.name not in tree.VOID:
            self.opened.append(item.name)
        elif isinstance(item, End) and item.name in self.opened:
            del self.opened[len(self.opened) - 1 - self.opened[::-1].index(item.name)]

    def items(self):
        items = []
        for _ in range(self.choices.randrange(3, 18)):
            items.append(self.item())
            self.note(items[-1])
        return items

    def misnested_items(self):
        """Formatting elements with blocks in them, which are closed in another order."""
        formatting = self.choices.sample(["a", "b", "i", "u", "nobr"], self.choices.randrange(1, 4))
        blocks = self.choices.choice(["div", "p div", "div ul li", "table tr td", "table div", "span div b"]).split()
        both = (("id", "1"), ("class", "2"))
        attributes = self.choices.choice([[()], [(), both[:1]], [both, both[::-1]]])
        items = []
        for _ in range(self.choices.randrange(1, 6)):
            names = self.choices.choices(formatting, k=self.choices.choice([1, 2, 3, 5]))
            items += [Start(name, self.choices.choice(attributes)) for name in names]
            items += [Start(name) for name in self.choices.choices(blocks, k=self.choices.choice([1, 1, 2, 3, 8]))]
            items.append(Text(self.choices.choice("xy")))
            closed = self.choices.choices([*formatting, *formatting, *blocks], k=self.choices.randrange(1, 4))
            items += [End(name) for name in closed]
            items.append(Text(self.choices.choice("xy")))
        return items

    def balanced_items(self):
        """Items of which each end tag closes the innermost element, and which may fit or not."""
        items = []
        for _ in range(self.choices.randrange(2, 12)):
            item = self.item()
            if isinstance(item, End):
                item = End(self.opened[-1]) if self.opened else Text("x")
            items.append(item)
            self.note(item)
        return items + [End(name) for name in reversed(self.opened)]

    def fitting_items(self):
        """Items of which most fit; all elements are closed at the end."""
        items = []
        loose = self.choices.choice([0, 0, 0.1])
        for _ in range(self.choices.randrange(3, 20)):
            item = self.item()
            if tree.fits(self.opened, item) or self.choices.random() < loose:
                items.append(item)
                self.note(item)
        return items + [End(name) for name in reversed(self.opened)]


def items_of(markup: str):
    """The items of tags without spaces but before attributes, and of texts."""
    items = []
    for solidus, name, attributes, text in re.findall(r"<(/?)(\w+)((?: \w+=\w+)*)>|([^<]+)", markup):
        if text:
            items.append(Text(text))
        elif solidus:
            items.append(End(name))
        else:
            items.append(Start(name, tuple(tuple(it.split("=")) for it in attributes.split())))
    return items


def term(text: str) -> str:
    """A text as an argument."""
    return '(codes "' + text.replace("\n", "\\n") + '")' if text else "[]"


def list_term(parts: list[str]) -> str:
    return "(" + " ∷ ".join([*parts, "[]"]) + ")" if parts else "[]"


def attributes_term(attributes) -> str:
    return list_term([f"attribute {term(name)} {term(value)}" for name, value in attributes])


def item_term(item) -> str:
    if isinstance(item, Text):
        return f"Text {term(item.text)}"
    if isinstance(item, End):
        return f"end {term(item.name)}"
    if not item.attributes:
        return f"start {term(item.name)}"
    return f"StartTag {term(item.name)} {attributes_term(item.attributes)}"


def items_term(items) -> str:
    return list_term([item_term(item) for item in items])


def tree_term(nodes) -> str:
    written = "Nothing"
    for node in nodes:
        if node.name:
            rest = f"{term(node.name)} {attributes_term(node.attributes)} {tree_term(node.children)}"
            written = f"(Element {written} {rest})"
        else:
            written = f"(Characters {written} {term(node.text)})"
    return written


def batches(cases: list) -> list[list]:
    return [cases[at : at + BATCH] for at in range(0, len(cases), BATCH)]


def definition(name: str, kind: str, entries: list[str]) -> str:
    return f"{name} : List {kind}\n{name} =\n    " + "\n    ∷ ".join([*entries, "[]"]) + "\n\n"


def proof(name: str, function: str, kind: str, cases: list[tuple[str, str]], unfolded: dict[str, str]) -> str:
    """Items, their answers, and the proof that these are what the function answers."""
    names = " ".join(unfolded.values())
    return (
        definition(f"{name}_items", "(List Item)", [items for items, _ in cases])
        + definition(f"{name}_answers", kind, [answer for _, answer in cases])
        + f"{name} : map {function} {name}_items ≡ {name}_answers\n"
        + f"unfolding {name}_items {name}_answers {names}\n{name} = refl\n"
    )


def built(items) -> tuple[str, str]:
    return items_term(items), tree_term(tree.tree_of(items))


def random_cases(number: int) -> list[tuple[str, str]]:
    cases = []
    for at in range(number):
        it = Maker(f"tree {at}")
        cases.append(built((it.items, it.misnested_items, it.items, it.fitting_items)[at % 4]()))
    return cases


def chosen_cases() -> list[tuple[str, str]]:
    return [built(items_of(markup)) for markup in CHOSEN]


def name_cases() -> list[tuple[str, str]]:
    return [built(items_of(BY_NAME.replace("NAME", name))) for name in sorted(tree.ALL)]


def fitting_cases(number: int) -> list[tuple[str, str]]:
    cases = []
    for at in range(number):
        it = Maker(f"fitting {at}")
        items = it.items() if at % 4 == 0 else it.fitting_items()
        cases.append((items_term(items), "true" if tree.all_fit(items) else "false"))
    return cases


def normal_cases(number: int, limit: int) -> list[tuple[str, str]]:
    cases = []
    for at in range(number):
        it = Maker(f"normal {limit} {at}")
        items = (it.items, it.balanced_items, it.items, it.misnested_items, it.fitting_items)[at % 5]()
        cases.append((items_term(items), items_term(normal.normal(limit, items))))
    return cases


def proofs() -> str:
    parts = [HEAD + imports() + FOOT]
    for head, name, function, kind, cases, unfolded in [
        ("trees of random items", "random", "tree_of", "Tree", random_cases(120), TREES),
        ("trees of items that were chosen", "chosen", "tree_of", "Tree", chosen_cases(), TREES),
        ("trees by name", "names", "tree_of", "Tree", name_cases(), TREES),
        ("which random items all fit", "fitting", "(all_fit [])", "Bool", fitting_cases(120), FITTING),
        ("random items made fit", "normal", "(normal 511)", "(List Item)", normal_cases(40, 511), NORMAL),
        ("the same with five open elements at most", "normal_within_5", "(normal 5)", "(List Item)", normal_cases(10, 5), NORMAL),
        ("and with three", "normal_within_3", "(normal 3)", "(List Item)", normal_cases(10, 3), NORMAL),
    ]:
        parts.append(f"-- ---- {head}\n")
        parts += [proof(f"{name}_{at}", function, kind, batch, unfolded) for at, batch in enumerate(batches(cases))]
    return "\n".join(parts)


def is_built_as_nested(items) -> bool:
    return tree.shown(tree.tree_of(items)) == tree.shown(tree.nesting(items))


def try_cases(number: int):
    """Of items that keep newlines: that those which fit are built as nested, and how many of the others are."""
    made = [Maker(f"try {at}") for at in range(number)]
    several = [it.fitting_items() if at % 2 == 0 else it.balanced_items() for at, it in enumerate(made)]
    fitting = [items for items in several if tree.all_fit(items) and tree.keeps_newlines(items)]
    for items in fitting:
        if not is_built_as_nested(items):
            sys.exit(f"this fits, and is built otherwise than nested: {items}")
    others = [items for items in several[1::2] if not tree.all_fit(items) and tree.keeps_newlines(items)]
    nested = sum(map(is_built_as_nested, others))
    print(f"{len(fitting)} fit, and are built as nested; of {len(others)} balanced that don't fit, {nested} are")


def cut(choices: random.Random, items: list) -> list:
    """The same items, with some texts cut."""
    pieces = []
    for item in items:
        if isinstance(item, Text) and item.text:
            at = choices.randrange(len(item.text) + 1)
            pieces += [Text(item.text[:at]), Text(item.text[at:])]
        else:
            pieces.append(item)
    return pieces


def unmet(choices: random.Random, limit: int, items: list) -> list[str]:
    """What the normaliser owes at these items, and doesn't give."""
    made = normal.normal(limit, items)
    fits = tree.all_fit(items) and tree.most_open(items) <= limit
    read = tree.read_items(made)
    owed = {
        "fits": tree.all_fit(made) and tree.most_open(made) <= limit,
        "unchanged": not fits or made == items,
        "again": normal.normal(limit, made) == made,
        "tree": tree.shown(tree.tree_of(made)) == tree.shown(tree.nesting(read)),
        "bound": len(made) <= 8 * len(items),
        "cuts": tree.whole_texts(normal.normal(limit, cut(choices, items))) == tree.whole_texts(made),
    }
    return [name for name, is_met in owed.items() if not is_met]


def is_built_the_same(items) -> bool:
    """Whether what the normaliser makes of items is built as the items are."""
    return tree.shown(tree.tree_of(normal.normal(511, items))) == tree.shown(tree.tree_of(items))


def try_normal(number: int):
    """That what the normaliser makes of items fits, and so on; and how much is built as the items themselves are."""
    wide = same = 0
    for at in range(number):
        it = Maker(f"try normal {at}")
        items = (it.items, it.misnested_items, it.items, it.fitting_items, it.balanced_items)[at % 5]()
        items.insert(it.choices.randrange(len(items) + 1), it.choices.choice(STRAY))
        limit = it.choices.choice([511, 511, 511, 0, 1, 2, 3, 4, 5, 6, 8])
        if names := unmet(it.choices, limit, items):
            sys.exit(f"the normaliser, with a limit of {limit}, at {items}: {', '.join(names)}")
        wide += limit == 511
        same += limit == 511 and is_built_the_same(items)
    print(f"{number} were made fit; of {wide} with a limit of 511, {same} are built as the items themselves")


def main():
    words = argparse.ArgumentParser(description=__doc__, formatter_class=argparse.RawDescriptionHelpFormatter)
    words.add_argument("--check", action="store_true", help="compare with the file, and print nothing")
    words.add_argument("--try", type=int, metavar="N", dest="tries", help="try the laws in the models")
    given = words.parse_args()
    if given.tries:
        try_cases(given.tries)
        try_normal(given.tries)
    elif not given.check:
        print(proofs(), end="")
    elif FILE.read_text(encoding="utf-8") != proofs():
        sys.exit(f"{FILE}: this is not what tools/gen/tree_cases.py makes")


if __name__ == "__main__":
    main()
