"""Makes random pages for firnuubal rewrite, with words that say what is changed."""

from __future__ import annotations

import random

from .case import Page, Piece

NAMES = ["a", "img", "br", "div", "p", "link", "area", "base", "x-y", "iframe-x"]
ATTRIBUTES = ["href", "src", "class", "on\u00e9", "=b", 'c"', "d<", "target", "target", "rel"]
ADDRESSES = ["x", "/y/z", "?q=1", "#f", "https://o.example/p", "", "../w"]
RELS = ["", "1", "x noopener", "noopeners", "noopener y"]
VALUES = ["", "1", "a b", "&lt;", "a&amp;b", "\u00e9", *ADDRESSES]
VALUES_OF = {"href": ADDRESSES, "src": ADDRESSES, "rel": RELS}
TEXTS = ["a", " ", "&amp", "&lt;b&gt;", "\u00e9", "\r\n", "a < b ", "\U0001f600", "&notin;", "]]>", "<!-- <a href=x> -->", "<!x>"]
TEXTS += ["<!DOCTYPE  html>", "<? a ?>", "</>", "<!---->", "&#0;"]
URL = "https://a.example/b/c?d"


def rewrite_page_of(seed: str, number: int) -> Page:
    """The page of that number, and its words."""
    dice = random.Random(f"{seed} rewrite {number}")
    parts = tuple(part(dice) for _ in range(dice.randint(1, 40)))
    return Page(tuple(words(dice)), parts)


def words(dice: random.Random) -> list[tuple[str, ...]]:
    """What is changed: attributes, elements that are dropped, addresses, and links to new windows."""
    found: list[tuple[str, ...]] = []
    for _ in range(dice.choice([0, 1, 1, 2, 3])):
        value = dice.choice(["", "1", "a b", "x=y", '"<&>', "x", None])
        named = f"{dice.choice(['a', 'img', 'script', 'x-y'])}.{dice.choice(ATTRIBUTES[:4])}"
        found.append(("--remove", named) if value is None else ("--set", f"{named}={value}"))
    found += [("--drop", name) for name in dice.sample(["script", "div", "p", "br", "a"], dice.choice([0, 0, 1, 2]))]
    found += [("--absolute", URL)] * dice.randrange(2)
    return found + [("--noopener",)] * (dice.random() < 0.4)


def part(dice: random.Random) -> tuple[Piece, ...]:
    """A text, a tag, or a whole script."""
    kind = dice.random()
    if kind < 0.3:
        return ((dice.choice(TEXTS), None),)
    if kind < 0.5:
        name = dice.choice(NAMES)
        return ((f"</{name}{dice.choice(['', ' ', ' x=1'])}>", ("end", name)),)
    if kind < 0.6:
        content = dice.choice(["", "<a href=x>", "a && b", "</scrip>", "<!-- b -->"])
        return start_tag(dice, "script"), (content, None), (dice.choice(["</script>", "</SCRIPT >"]), ("end", "script"))
    return (start_tag(dice, dice.choice(NAMES)),)


def start_tag(dice: random.Random, name: str) -> Piece:
    """A start tag as it is written; its name, its attributes and whether a `/` stands before its `>`."""
    bare, attributes, written = False, [], "".join(dice.choice([c, c.upper()]) if c.isascii() else c for c in name)
    for _ in range(dice.choice([0, 0, 1, 1, 2, 3, 4])):
        attribute = "href" if name == "base" else dice.choice(ATTRIBUTES)
        value, space = dice.choice(VALUES_OF.get(attribute, VALUES)), dice.choice([" ", "  ", "\n"])
        if bare and attribute.startswith("="):
            # It would be the value of the name before it.
            continue
        bare = not value and dice.random() < 0.5
        written += space + attribute + ("" if bare else dice.choice(["=", " = "]) + written_value(dice, value))
        if attribute not in [known for known, _ in attributes]:
            attributes.append((attribute, value.replace("&lt;", "<").replace("&amp;", "&")))
    closing = dice.random() < 0.15
    return f"<{written}{' /' if closing else dice.choice(['', ' '])}>", ("start", name, attributes, closing)


def written_value(dice: random.Random, value: str) -> str:
    """A value as it is written. One that ends in a `/` has quotes, since the `/` of the tag would be of it."""
    if value and not any(c in value for c in " '\"=<>`\r\n/") and dice.random() < 0.3:
        return value
    quote = dice.choice("'\"")
    return f"{quote}{value}{quote}"
