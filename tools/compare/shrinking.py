"""Makes a case that fails smaller: fewer words, parts of a page and entries of a table, fewer and plainer characters."""

from __future__ import annotations

from dataclasses import replace
from typing import Callable, Sequence

from cases.case import Page, Words

Fails = Callable[[Words], bool]


def fewer(items: Sequence, fails: Callable[[Sequence], bool]) -> Sequence:
    """As few of the items as still fail, by leaving out ever shorter runs of them (delta debugging)."""
    length = len(items)
    while length > 0:
        at = 0
        while at < len(items):
            less = items[:at] + items[at + length :]
            if fails(less):
                items = less
            else:
                at += length
        length //= 2
    return items


def plainer(text: str, fails: Callable[[str], bool]) -> str:
    """The text with an `a` for each character that doesn't matter."""
    for at, c in enumerate(text):
        plain = text[:at] + "a" + text[at + 1 :]
        if c != "a" and fails(plain):
            text = plain
    return text


def with_less(case: Words, fails: Fails) -> Words:
    """The case with less of its page, or less and plainer text."""
    if isinstance(case, Page):
        return replace(case, parts=fewer(case.parts, lambda less: fails(replace(case, parts=less))))
    text = fewer(case.text, lambda less: fails(replace(case, text=less)))
    return replace(case, text=plainer(text, lambda other: fails(replace(case, text=other))))


def with_fewer_entries(case: Words, fails: Fails) -> Words:
    """The case with a smaller table."""
    for at, group in enumerate(case.words):
        if group[0] == "--table":
            words_with = lambda entries: (*case.words[:at], ("--table", ",".join(entries)), *case.words[at + 1 :])
            entries = fewer(group[1].split(","), lambda less: fails(replace(case, words=words_with(less))))
            return replace(case, words=words_with(entries))
    return case


def smallest(case: Words, fails: Fails) -> Words:
    """The case, made smaller until nothing more can go."""
    before = None
    while case != before:
        before = case
        case = replace(case, words=fewer(case.words, lambda less: fails(replace(before, words=less))))
        case = with_fewer_entries(with_less(case, fails), fails)
    return case
