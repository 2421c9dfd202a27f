"""Makes random cases of firnuubal clean: a policy, or none, and a text in which allowed and hidden elements are likely."""

from __future__ import annotations

import html.entities
import pathlib
import random

from .case import Case
from .maker import Maker

POLICIES = sorted((pathlib.Path(__file__).resolve().parent / "policies").glob("*.txt"))
KEPT = ("a", "a", "b", "p", "p", "br", "img", "i", "li", "ul", "table", "td", "tr", "x-y", "form", "video", "source", "q")
HIDING = ("svg", "math", "template", "noscript", "iframe", "script", "style", "title", "textarea", "xmp", "noembed")
OTHERS = ("param", "meta", "base", "object", "image", "select", "plaintext", "body", "h\u0131", "k")
ATTRIBUTES = ("href", "href", "href", "href", "src", "src", "title", "lang", "rel", "cite", "alt", "xlink:href")
ATTRIBUTES += ("onclick", "style", "id", "data-x", "action", "poster", "content", "to", "class", "background", "srcset")
SCHEMES = ("http:", "https:", "HTTPS:", "Http:", "mailto:", "ftp:", "javascript:", "JavaScript:", "data:", "blob:")


def clean_case_of(seed: str, number: int) -> Case:
    """The case of firnuubal clean of that number."""
    return CleanMaker(random.Random(f"{seed} clean {number}")).clean_case()


class CleanMaker(Maker):
    """Makes such a case by random choices."""

    def clean_case(self) -> Case:
        self.names = self.choices.sample(sorted(html.entities.html5), 4) + ["colon;", "Tab;", "NewLine;", "lt", "amp"]
        words = (("--policy", str(self.pick(POLICIES))),) if self.choices.randrange(4) else ()
        text = "".join(self.part() for _ in range(self.choices.randint(2, 8)))
        return Case(words, text if self.choices.randrange(3) else self.text("data", "title"))

    def part(self) -> str:
        texts = (self.plain, self.plain, self.reference, self.comment, self.raw_text, super().part)
        return self.one_of(*(self.tag,) * 6, *(self.pair,) * 6, *texts)

    def pair(self) -> str:
        """An element with something in it."""
        name = self.pick(KEPT + KEPT + HIDING)
        within = self.some(2, self.part, self.tag, f"<{name}>x</{name}>")
        return f"<{self.any_case(name)}{self.some(2, self.attribute)}>{within}</{name}>"

    def name(self) -> str:
        name = self.any_case(self.pick(KEPT + KEPT + HIDING + OTHERS))
        return name + self.one_of(self.odd, "x", "<", ":") if self.one_in(20) else name

    def attribute(self) -> str:
        if self.one_in(4):
            return super().attribute()
        return f" {self.attribute_name()}={self.value()}"

    def attribute_name(self) -> str:
        return self.any_case(self.pick(ATTRIBUTES)) if self.choices.randrange(12) else super().attribute_name()

    def value(self) -> str:
        quote = self.pick("\"'")
        return super().value() if self.one_in(4) else quote + self.address() + quote

    def address(self) -> str:
        """An address, or the beginning of one, with what a browser passes over."""
        scheme = self.pick(SCHEMES)
        if self.one_in(3):
            at = self.choices.randrange(len(scheme))
            passed = self.one_of("\t", "\n", "&Tab;", "&#1;", " ", "&NewLine;", "\r")
            scheme = scheme[:at] + passed + scheme[at:]
        if self.one_in(4):
            scheme = scheme.replace(":", self.one_of("&colon;", "&#58;", "&#x3a", ""))
        before = self.one_of("", "", "", "", "", " ", "&#9;", "/", "//", "?", "#")
        return before + scheme + self.one_of("", "/x", "//h/a:b", "a(1)")
