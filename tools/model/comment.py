"""Comments, and what else begins with `<!`: docs/GRAMMAR.md, "One comment as source text" and "Comments"."""

from __future__ import annotations

import re

from .cdata import cdata_item
from .characters import in_value, lower_case
from .doctype import doctype_item
from .messages import Comment, Told
from .reading import CDATA, DATA, Item, Reading

COMMENT_END = re.compile("--!?>")


def declaration_item(reading: Reading, place: int) -> Item:
    """What begins with `<!`: the first keyword with which the text after it begins decides."""
    if reading.stands_at(place + 2, "--"):
        return comment_item(reading, place + 4)
    if lower_case(reading.text[place + 2 : place + 9]) == "doctype":
        return doctype_item(reading, place + 9)
    if reading.foreign and reading.stands_at(place + 2, "[CDATA["):
        return cdata_item(reading, place + 9, CDATA)
    decided = reading.after_longest(place + 2, lambda held: begins_keyword(reading, held))
    return bogus_comment(reading, place + 2, reading.saw(place + 1, "MarkupDeclarationOpen", decided))


def begins_keyword(reading: Reading, held: str) -> bool:
    in_data = "--".startswith(held) or "doctype".startswith(lower_case(held))
    return in_data or (reading.foreign and "[CDATA[".startswith(held))


def bogus_comment(reading: Reading, start: int, told: Told) -> Item:
    """A bogus comment whose content begins here, up to the first `>`."""
    stop = reading.find(">", start)
    content = reading.text[start:stop]
    end = start + len(content)
    told = told + reading.nuls(start, end, "BogusComment") + [(end, Comment(in_value(content)))]
    return Item(end, told, None) if stop is None else Item(end + 1, told, DATA)


def comment_item(reading: Reading, start: int) -> Item:
    """A comment whose content begins here, after its `<!--`."""
    for short, state in ((">", "CommentStart"), ("->", "CommentStartDash")):
        if reading.stands_at(start, short):
            stop = start + len(short) - 1
            return Item(stop + 1, reading.saw(stop, state) + [(stop, Comment(""))], DATA)
    ending = COMMENT_END.search(reading.text, start)
    if ending is None:
        return Item(reading.end, comment_errors(reading, start, reading.end) + open_comment(reading, start), None)
    stop = ending.end() - 1
    told = comment_errors(reading, start, stop)
    if ending.group() == "--!>":
        told += reading.saw(stop, "CommentEndBang")
    return Item(stop + 1, told + [(stop, Comment(in_value(reading.text[start : ending.start()])))], DATA)


def open_comment(reading: Reading, start: int) -> Told:
    """What the end tells of a comment without its end. The dashes of an end that was begun are no part of it."""
    content = reading.text[start:]
    begun = next((end for end in ("--!", "--", "-") if content.endswith(end)), "")
    state = "CommentEnd" if begun == "--" else comment_state(content)
    return reading.saw_end(state) + [(reading.end, Comment(in_value(content[: len(content) - len(begun)])))]


def comment_state(before: str) -> str:
    """The state that an error names after this much of a comment."""
    if before in ("", "-"):
        return "CommentStartDash" if before else "CommentStart"
    if before.endswith("--!"):
        return "CommentEndBang"
    return "CommentEndDash" if before.endswith("-") and not before.endswith("--") else "Comment"


def comment_errors(reading: Reading, start: int, stop: int) -> Told:
    """The errors of a comment's characters, each by the text before it in the comment."""
    told: Told = []
    for at in range(start, stop):
        before = reading.text[start:at]
        if before.endswith("<!--"):
            told += reading.saw(at, "CommentLessThanSignBangDashDash")
        told += reading.nuls(at, at + 1, comment_state(before))
    return told
