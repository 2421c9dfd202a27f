"""What firnuubal rewrite prints of tags, texts, comments and scripts, by crates/html5edit/README.md."""

from __future__ import annotations

import urllib.parse

VOID = {"br", "img", "base", "link"}
LINKS = {"a": "href", "area": "href", "link": "href", "img": "src", "script": "src", "iframe": "src"}
ESCAPES = {"&": "&#38;", "<": "&#60;", ">": "&#62;", '"': "&#34;", "\r": "&#13;", "\ufeff": "&#65279;"}


class Rewriter:
    """What the words say: rules for attributes, elements that are dropped, and the URL of the page or none."""

    def __init__(self, words: list[str]):
        self.rules, self.dropped, self.base, self.noopener = [], [], None, False
        given = iter(words)
        for word in given:
            if word == "--noopener":
                self.noopener = True
            elif word == "--drop":
                self.dropped.append(next(given))
            elif word == "--absolute":
                self.base = next(given)
            else:
                named, _, value = next(given).partition("=")
                element, _, attribute = named.partition(".")
                self.rules.append((element, attribute, value if word == "--set" else None))

    def rewritten(self, tag):
        """A start tag anew, where it is changed."""
        _, name, attributes, closing = tag
        steps, was = [], False
        address = dict(attributes).get(LINKS.get(name))
        if self.base and address:
            steps.append((LINKS[name], urllib.parse.urljoin(self.base, address)))
        own = [(attribute, value) for element, attribute, value in self.rules if element == name]
        for attribute, value in steps + own:
            attributes, is_changed = with_value(attributes, attribute, value)
            was = was or is_changed
        if self.noopener:
            attributes, is_changed = closed_to_opener(name, attributes)
            was = was or is_changed
        written = "".join(f' {attribute}="{escaped(value)}"' for attribute, value in attributes)
        return f"<{name}{written}{'/' if closing else ''}>" if was else None

    def printed(self, pieces) -> str:
        """What is printed of a page."""
        out, hidden, depth, found = [], None, 0, False
        for written, tag in pieces:
            kind, name = tag[:2] if tag else (None, None)
            is_start, is_shown = kind == "start", depth == 0
            if not is_shown:
                if name == hidden:
                    depth += 1 if is_start else -1
            elif name in self.dropped:
                if is_start and name not in VOID:
                    hidden, depth = name, 1
            else:
                anew = self.rewritten(tag) if is_start else None
                out.append(written if anew is None else anew)
            href = dict(tag[2]).get("href") if is_start and name == "base" else None
            if self.base and href is not None and not found:
                found, self.base = True, urllib.parse.urljoin(self.base, href)
        return "".join(out)


def escaped(value: str) -> str:
    return "".join(ESCAPES.get(c, c) for c in value)


def with_value(attributes, attribute, value):
    """The attributes with this value, or none, and whether that is a change."""
    if dict(attributes).get(attribute) == value:
        return attributes, False
    left = [pair for pair in attributes if pair[0] != attribute]
    return (left if value is None else [*left, (attribute, value)]), True


def closed_to_opener(name, attributes):
    """The attributes with `noopener` where they are of a link or a form that has a target, and whether that is a change."""
    known = dict(attributes)
    if name not in ("a", "area", "form") or "target" not in known:
        return attributes, False
    rel = known.get("rel")
    there = "noopener" in (rel or "").split()
    return with_value(attributes, "rel", rel if there else "noopener" if rel is None else f"{rel} noopener")


def run(words: list[str], pieces) -> tuple[int, str, str]:
    """The status of a run over a page of these pieces, what it prints, and its line on standard error."""
    return 0, Rewriter(words).printed(pieces), ""
