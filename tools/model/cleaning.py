"""What firnuubal clean makes of a text: crates/html5policy/README.md, crates/html5cleaner/README.md and, by the rule `tree`, normal.py."""

from __future__ import annotations

import functools
import html.entities
import pathlib
import re
from dataclasses import dataclass, field

from . import normal, tree
from .characters import lower_case
from .items import messages
from .messages import End, Error, Tag, Text
from .reading import DATA, Reading, normalised, table_of

VOID = set(
    "area base basefont bgsound br col embed frame hr img input keygen link meta param source track wbr".split()
)
FOREIGN = {"svg", "math"}
ALWAYS_HIDDEN = set(
    "iframe math noembed noframes noscript plaintext script style svg template textarea title xmp".split()
)
ADDRESSES = set(
    "action cite data formaction href itemid poster src xlink:href background classid codebase dynsrc icon longdesc"
    " lowsrc manifest profile usemap by code content from to".split()
)
TOP = pathlib.Path(__file__).resolve().parent.parent.parent
ESCAPED = {c: f"&#{ord(c)};" for c in '&<>"\r\ufeff'}


@dataclass
class Policy:
    """The rules of a text without faults."""

    elements: set[str] = field(default_factory=set)
    own: set[tuple[str, str]] = field(default_factory=set)
    everywhere: set[str] = field(default_factory=set)
    schemes: set[str] = field(default_factory=set)
    hidden: set[str] = field(default_factory=set)
    rel: str = ""
    balance: bool = False
    tree: bool = False
    depth: int = 256

    def add(self, rule: str, names: list[str]):
        if rule == "allow":
            self.elements.add(names[0])
            self.own |= {(names[0], name) for name in names[1:]}
        elif rule in ("rel", "noopener"):
            self.rel = " ".join(filter(None, [self.rel, *(names or ["noopener"])]))
        elif rule == "balance":
            self.balance = True
        elif rule == "tree":
            self.tree = True
            self.elements |= {"colgroup", "tbody", "tr", "td"}
        elif rule == "depth":
            self.depth = int(names[0])
        else:
            {"everywhere": self.everywhere, "schemes": self.schemes, "hide": self.hidden}[rule].update(names)

    def hides(self, name: str) -> bool:
        return name in ALWAYS_HIDDEN or name in self.hidden

    def writes_rel(self, element: str) -> bool:
        """Whether the `rel` of these elements is the policy's own."""
        return self.rel != "" and element == "a"

    def keeps(self, element: str, name: str, value: str) -> bool:
        if name not in self.everywhere and (element, name) not in self.own:
            return False
        if name == "rel" and self.writes_rel(element):
            return False
        return name not in ADDRESSES or self.is_safe(value)

    def loses(self, tag: Tag) -> bool:
        """Whether it is an image whose address is refused."""
        is_named = "src" in self.everywhere or ("img", "src") in self.own
        return tag.name == "img" and is_named and any(name == "src" and not self.is_safe(value) for name, value in tag.attributes)

    def is_safe(self, address: str) -> bool:
        """Whether an address is relative, or of one of the schemes."""
        if ":" not in re.match("[^/?#]*", address).group():
            return True
        squeezed = lower_case(re.sub("[\0- ]", "", address))
        return any(squeezed.startswith(scheme + ":") for scheme in self.schemes)


@functools.lru_cache
def standard() -> str:
    """The standard policy as a text."""
    source = TOP / "crates/html5policy/src/standard.rt"
    return re.search(r'const STANDARD: &str = "\\\n(.*?)";', source.read_text(encoding="utf-8"), re.DOTALL).group(1)


@functools.lru_cache
def policy_of(text: str) -> Policy:
    policy = Policy()
    for line in text.split("\n"):
        words = line.split()
        if words and not line.startswith("#"):
            policy.add(words[0], words[1:])
    return policy


def escaped(text: str) -> str:
    return "".join(ESCAPED.get(c, c) for c in text)


def start_tag(name: str, attributes) -> str:
    return f"<{name}" + "".join(f' {name}="{escaped(value)}"' for name, value in attributes) + ">"


@dataclass
class Cleaner:
    """A page that is cleaned: what was written, the elements that hide their content, and those that are open."""

    policy: Policy
    written: list[str] = field(default_factory=list)
    hidden: str = ""
    depth: int = 0
    opened: list[str] = field(default_factory=list)

    def take(self, run: str, token):
        """A run of text, and the token after it."""
        is_shown = self.depth == 0
        if is_shown and run:
            self.write_text(run)
        if isinstance(token, Tag):
            if is_shown:
                self.take_tag(token)
            self.count(token)
        if isinstance(token, End) and (self.policy.balance or self.policy.tree):
            self.close(len(self.opened))

    def fit(self, item):
        """Writes what the normaliser makes of an item."""
        for made in normal.fitted(self.policy.depth, self.opened, item):
            if isinstance(made, tree.Text):
                self.written.append(escaped(made.text))
            elif isinstance(made, tree.End):
                self.written.append(f"</{made.name}>")
            else:
                self.written.append(start_tag(made.name, made.attributes))
        self.opened = normal.open_after(self.policy.depth, self.opened, item)

    def write_text(self, run: str):
        if self.policy.tree:
            self.fit(tree.Text(run))
        else:
            self.written.append(escaped(run))

    def count(self, tag: Tag):
        """Counts the open elements that hide their content."""
        has_content = tag.name not in VOID and not (tag.self_closing and tag.name in FOREIGN)
        opens = not tag.is_end and self.policy.hides(tag.name) and has_content
        if self.depth == 0:
            self.hidden, self.depth = tag.name, int(opens)
        elif tag.name == self.hidden:
            self.depth += -1 if tag.is_end else int(opens)

    def take_tag(self, tag: Tag):
        if tag.name not in self.policy.elements or self.policy.loses(tag):
            return
        if tag.is_end and tag.name != "br":
            if tag.name not in VOID:
                self.take_end(tag.name)
            return
        # An end tag of br is read as its start tag, without attributes.
        said = [] if tag.is_end else tag.attributes
        attributes = [(name, value) for name, value in said if self.policy.keeps(tag.name, name, value)]
        if self.policy.writes_rel(tag.name) and any(name == "href" for name, _ in attributes):
            attributes.append(("rel", self.policy.rel))
        if self.policy.tree:
            self.fit(tree.Start(tag.name, tuple(attributes)))
            return
        self.written.append(start_tag(tag.name, attributes))
        if tag.name not in VOID:
            self.opened.append(tag.name)

    def take_end(self, name: str):
        if self.policy.tree:
            self.fit(tree.End(name))
        elif not self.policy.balance:
            self.written.append(f"</{name}>")
        elif name in self.opened:
            self.close(self.opened[::-1].index(name) + 1)

    def close(self, count: int):
        """Writes the end tags of the innermost open elements."""
        for _ in range(count):
            self.written.append(f"</{self.opened.pop()}>")


@functools.lru_cache
def standard_references():
    return table_of(tuple(sorted(html.entities.html5.items())))


def cleaned(text: str, policy: Policy) -> str:
    reading = Reading(normalised(text, keep_bom=False), False, False, standard_references())
    cleaner, run = Cleaner(policy), ""
    for token, _ in messages(reading, DATA):
        if isinstance(token, Text):
            run += token.text
        elif not isinstance(token, Error):
            cleaner.take(run, token)
            run = ""
    return "".join(cleaner.written)


def run(words: list[str], given: bytes) -> tuple[int, str, str]:
    """The status of a run, what it prints, and what it says on standard error."""
    rules = pathlib.Path(words[1]).read_text(encoding="utf-8") if words else standard()
    return 0, cleaned(given.decode(), policy_of(rules)), ""
