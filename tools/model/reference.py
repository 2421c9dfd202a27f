"""References: docs/GRAMMAR.md, "References by the whole text" and "References"."""

from __future__ import annotations

import re
from dataclasses import dataclass

from .characters import is_bad_character
from .messages import Error, texts
from .reading import Item, Mode, Reading, Table

NUMBER = re.compile("#(?:(?P<x>[xX])(?P<hexadecimal>[0-9A-Fa-f]*)|(?P<decimal>[0-9]*))")
LETTERS_AND_DIGITS = re.compile("[0-9A-Za-z]*")
END_AFTER_NUMBER_SIGN = "EOF after '#' in character reference"
# the characters of the numbers 80 to 9F, and NUL for the number itself
C1_CHARACTERS = dict(zip(range(0x80, 0xA0), "€\0‚ƒ„…†‡ˆ‰Š‹Œ\0Ž\0\0‘’“”•–—˜™š›œ\0žŸ"))


@dataclass(frozen=True)
class Found:
    """What the `&` before a text comes to: how much of the text it holds, how much of that it takes, its errors and its
    characters. It is decided where a character stands after all that is held."""

    held: int
    taken: int
    errors: list[str]
    characters: str
    is_decided: bool


def held_in(table: Table, text: str) -> str:
    """The longest beginning of the text that leaves a reference undecided."""
    if text.startswith("#"):
        return NUMBER.match(text).group()
    begun = 0
    while text[: begun + 1] in table.beginnings and begun < len(text):
        begun += 1
    nameless = 0
    letters = LETTERS_AND_DIGITS.match(text).group()
    while nameless < len(letters) and letters[: nameless + 1] not in table.names:
        nameless += 1
    return text[: max(begun, nameless)]


def found_in(reading: Reading, text: str, is_value: bool) -> Found:
    """What the `&` before this text comes to."""
    held = held_in(reading.table, text)
    deciding = text[len(held) : len(held) + 1]
    if held.startswith("#"):
        taken, errors, characters = number_reference(reading.exact, held, deciding)
    else:
        taken, errors, characters = named_reference(reading, held, text, is_value)
    return Found(len(held), taken, errors, characters, deciding != "")


def number_reference(exact: bool, held: str, deciding: str) -> tuple[int, list[str], str]:
    written = NUMBER.match(held)
    digits = written["hexadecimal"] or written["decimal"]
    if not digits:
        ends = held == "#" and deciding == ""
        return 0, [END_AFTER_NUMBER_SIGN if ends else "Numeric character reference without digits"], "&"
    number = int(digits, 16 if written["x"] else 10)
    errors = []
    if deciding == "":
        errors.append("EOF in numeric character reference")
    elif deciding != ";":
        errors.append("Semicolon missing after numeric character reference")
    if is_invalid_number(number):
        value = f" value 0x{number % 2**32:06X}" if exact else ""
        errors.append("Invalid numeric character reference" + value)
    return len(held) + (deciding == ";"), errors, character_of_number(number)


def is_no_character(number: int) -> bool:
    return 0xD800 <= number <= 0xDFFF or number > 0x10FFFF


def is_invalid_number(number: int) -> bool:
    return number in (0x00, 0x0D) or is_no_character(number) or is_bad_character(chr(number))


def character_of_number(number: int) -> str:
    if number == 0 or is_no_character(number):
        return "\uFFFD"
    other = C1_CHARACTERS.get(number, "\0")
    return chr(number) if other == "\0" else other


def named_reference(reading: Reading, held: str, text: str, is_value: bool) -> tuple[int, list[str], str]:
    """What the longest name comes to with which the text begins, of which so much is held."""
    names = [held[:n] for n in range(len(held), 0, -1) if held[:n] in reading.table.names]
    if not names:
        unknown = held != "" and text[len(held) : len(held) + 1] == ";"
        message = f"Invalid character reference &{held};" if reading.exact else "Invalid character reference"
        return 0, [message] if unknown else [], "&"
    name = names[0]
    if name.endswith(";"):
        return len(name), [], reading.table.names[name]
    after = text[len(name) : len(name) + 1]
    if is_value and after != "" and (after == "=" or LETTERS_AND_DIGITS.fullmatch(after)):
        return 0, [], "&"
    return len(name), ["Character reference does not end with semicolon"], reading.table.names[name]


def reference_item(reading: Reading, place: int, mode: Mode) -> Item:
    """A reference in Data or in RCDATA. Its `&` tells all of it."""
    found = found_in(reading, reading.text[place + 1 :], is_value=False)
    decided = place + 1 + found.held
    told = [(place, Error(message, decided)) for message in found.errors] + texts(place, found.characters)
    if found.is_decided:
        return Item(place + 1 + found.taken, told, mode)
    rest = texts(reading.end, reading.text[place + 1 + found.taken :])
    return Item(reading.end, told + rest + reading.nothing_at_end(mode), None)
