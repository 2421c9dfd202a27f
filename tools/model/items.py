"""What a text tells, item after item: docs/GRAMMAR.md, "Items", "Text" and "CDATA sections"."""

from __future__ import annotations

import re

from .cdata import cdata_item
from .characters import in_value, is_bad_character, is_letter
from .comment import bogus_comment, declaration_item
from .instruction import instruction_item
from .messages import End, Error, Event, Null, Told, texts
from .raw_text import raw_item
from .reading import DATA, ESCAPED_KINDS, Item, Mode, Reading
from .reference import reference_item
from .tag import tag_item

DATA_RUN = re.compile("[^<&]+")


def plain_item(reading: Reading, place: int, mode: Mode) -> Item:
    """Plain text: all characters up to the end."""
    told: Told = []
    for at in range(place, reading.end):
        told += reading.nuls(at, at + 1, "Plaintext") + texts(at, in_value(reading.text[at]))
    return Item(reading.end, told, mode)


def data_item(reading: Reading, place: int, mode: Mode) -> Item:
    c = reading.text[place]
    if c == "&":
        return reference_item(reading, place, mode)
    return less_than_item(reading, place) if c == "<" else data_run(reading, place)


def data_run(reading: Reading, place: int) -> Item:
    """Characters, each of which is text by itself."""
    stop = place + len(reading.run(DATA_RUN, place))
    told: Told = []
    for at in range(place, stop):
        if reading.text[at] == "\0":
            told += reading.saw(at, "Data") + [(at, Null())]
        else:
            told += texts(at, reading.text[at])
    return Item(stop, told, DATA)


def less_than_item(reading: Reading, place: int) -> Item:
    """What begins with `<` in Data."""
    c = reading.next(place + 1)
    if c == "/":
        return solidus_item(reading, place)
    if c == "!":
        return declaration_item(reading, place)
    if c == "?":
        return instruction_item(reading, place)
    return tag_item(reading, place) if is_letter(c) else lone_item(reading, place)


def lone_item(reading: Reading, place: int) -> Item:
    """`<` that begins nothing: the character after it tells it, or the end."""
    if place + 1 == reading.end:
        return Item(reading.end, reading.saw_end("TagOpen") + texts(reading.end, "<"), None)
    return Item(place + 1, reading.saw(place + 1, "TagOpen") + texts(place + 1, "<"), DATA)


def solidus_item(reading: Reading, place: int) -> Item:
    """What begins with `</` in Data."""
    c = reading.next(place + 2)
    if c == "":
        return Item(reading.end, reading.saw_end("EndTagOpen") + texts(reading.end, "</"), None)
    if c == ">":
        return Item(place + 3, reading.saw(place + 2, "EndTagOpen"), DATA)
    if is_letter(c):
        return tag_item(reading, place)
    return bogus_comment(reading, place + 2, reading.saw(place + 2, "EndTagOpen"))


ITEM_IN = {"Data": data_item, "Plain": plain_item, "Cdata": cdata_item}
ITEM_IN.update(dict.fromkeys(("Rcdata", "Rawtext", "ScriptData", *ESCAPED_KINDS), raw_item))


def messages(reading: Reading, mode: Mode):
    """The messages of a text and of its end, each with its line."""
    return ((event.token, event.line) for event in events(reading, mode))


def events(reading: Reading, mode: Mode):
    """What a text and its end tell. The error of a bad character comes before all else that its place tells."""
    told_at: dict[int, list] = {}
    begin = 0
    for item in items_of(reading, mode):
        for place, token in item.told:
            told_at.setdefault(place, []).append((token, begin, item.end))
        begin = item.end
    line = 1
    for place, c in enumerate(reading.text):
        line += c == "\n"
        if reading.exact and is_bad_character(c):
            yield Event(Error(f"Bad character {c}"), line, place, place, place + 1)
        yield from (Event(token, line, place, *item) for token, *item in told_at.get(place, []))
    at_end = [*told_at.get(reading.end, []), (End(), reading.end, reading.end)]
    yield from (Event(token, line, reading.end, *item) for token, *item in at_end)


def items_of(reading: Reading, mode: Mode):
    """The items of a text, up to an unfinished one."""
    place = 0
    while place < reading.end and mode is not None:
        item = ITEM_IN[mode.kind](reading, place, mode)
        yield item
        place, mode = item.end, item.after
    if mode is not None:
        yield Item(reading.end, reading.nothing_at_end(mode), None)
