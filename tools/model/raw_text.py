"""Raw text: docs/GRAMMAR.md, "The source of raw text" and "Raw text"."""

from __future__ import annotations

from .characters import LETTERS, WHITE_SPACE, in_value, lower_case
from .messages import texts
from .reading import ESCAPED_KINDS, Item, Mode, Reading
from .reference import reference_item
from .tag import tag_item


def raw_after(mode: Mode, c: str) -> Mode:
    """The raw text after a character."""
    if mode.kind not in ESCAPED_KINDS:
        return mode
    if c == ">" and mode.dashes == 2:
        return Mode("ScriptData", mode.name)
    return Mode(mode.kind, mode.name, min(mode.dashes + 1, 2) if c == "-" else 0)


def raw_item(reading: Reading, place: int, mode: Mode) -> Item:
    c = reading.text[place]
    if c == "<":
        return raw_less_than(reading, place, mode)
    if c == "&" and mode.kind == "Rcdata":
        return reference_item(reading, place, mode)
    told = reading.nuls(place, place + 1, mode.raw_state) + texts(place, in_value(c))
    return Item(place + 1, told, raw_after(mode, c))


def ends_name(c: str) -> bool:
    return c != "" and c in WHITE_SPACE + "/>"


def raw_less_than(reading: Reading, place: int, mode: Mode) -> Item:
    """What begins with `<` in raw text."""
    switch = switch_item(reading, place, mode)
    if switch is not None:
        return switch
    if mode.kind == "DoubleEscaped":
        return Item(place + 1, texts(place, "<"), Mode(mode.kind, mode.name))
    if mode.kind == "ScriptData" and reading.stands_at(place, "<!--"):
        return Item(place + 4, texts(place, "<!--"), Mode("Escaped", mode.name, 2))
    written = "<"
    if reading.next(place + 1) == "/":
        letters = reading.run(LETTERS, place + 2)
        if letters and lower_case(letters) == mode.name and ends_name(reading.next(place + 2 + len(letters))):
            return tag_item(reading, place)
        written = "</" + letters
    after = place + len(written)
    return Item(after, texts(after, written), Mode(mode.kind, mode.name))


def switch_item(reading: Reading, place: int, mode: Mode) -> Item | None:
    """In escaped script data `<`, letters and a character that ends their name; in double-escaped `</`, letters, maybe
    none, and such a character. At the end `<` and letters of escaped script data may still be one."""
    if mode.kind not in ESCAPED_KINDS:
        return None
    opening = "<" if mode.kind == "Escaped" else "</"
    letters = reading.run(LETTERS, place + len(opening))
    if not reading.stands_at(place, opening) or (mode.kind == "Escaped" and not letters):
        return None
    after = place + len(opening) + len(letters)
    if after == reading.end and mode.kind == "Escaped":
        return Item(after, texts(place, opening + letters) + reading.saw_end(Mode("DoubleEscaped").raw_state), None)
    if not ends_name(reading.next(after)):
        return None
    other = "DoubleEscaped" if mode.kind == "Escaped" else "Escaped"
    kind = other if lower_case(letters) == "script" else mode.kind
    return Item(after + 1, texts(place, reading.text[place : after + 1]), Mode(kind, mode.name))
