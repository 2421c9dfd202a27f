"""Characters: docs/GRAMMAR.md, "Characters"."""

import re

WHITE_SPACE = "\t\n\f "
LETTERS = re.compile("[A-Za-z]*")
ASCII_LOWER = {capital: capital + 32 for capital in range(ord("A"), ord("Z") + 1)}


def is_letter(c: str) -> bool:
    return LETTERS.fullmatch(c) is not None and c != ""


def is_bad_character(c: str) -> bool:
    n = ord(c)
    control = 0x01 <= n <= 0x08 or n == 0x0B or 0x0E <= n <= 0x1F or 0x7F <= n <= 0x9F
    return control or 0xFDD0 <= n <= 0xFDEF or n % 0x10000 >= 0xFFFE


def lower_case(text: str) -> str:
    """ASCII letters in lower case, and nothing else: `str.lower` knows more letters."""
    return text.translate(ASCII_LOWER)


def in_value(text: str) -> str:
    """A text as it stands in a value."""
    return text.replace("\0", "\uFFFD")


def in_name(text: str) -> str:
    """A text as it stands in a name."""
    return lower_case(in_value(text))
