"""Checks of arguments. Each error names the argument, and each answer is of exactly its type, so that it means what it says."""

import enum
import re
from operator import index
from typing import Any, Iterable, Optional, Tuple, Type, TypeVar

_Member = TypeVar("_Member", bound=enum.IntEnum)

# A name of a tag in a token: other characters end it, or become others.
_TAG = re.compile(r"[a-z][^\t\n\f\r />A-Z\0]*")


def kind_of(given: object) -> str:
    """The type of a value, as an error says it."""
    return type(given).__name__


def whole_number(argument: str, given: Any, least: int, most: int) -> int:
    """A whole number from the least to the most."""
    try:
        # The function of `int` itself: that of a subclass may answer anything.
        number = int.__index__(index(given))
    except TypeError:
        raise TypeError(f"{argument} is a whole number, not of type {kind_of(given)}") from None
    if isinstance(given, bool) or not least <= number <= most:
        raise ValueError(f"{argument} is a whole number from {least} to {most}, not {given!r}")
    return number


def member(argument: str, given: Any, kind: Type[_Member]) -> _Member:
    """A member of an enumeration of numbers, or the one that a number is."""
    if type(given) is kind:
        return given
    if isinstance(given, enum.Enum):
        raise TypeError(f"{argument} is a {kind.__name__}, not of type {kind_of(given)}")
    number = whole_number(argument, given, 0, (1 << 64) - 1)
    try:
        return kind(number)
    except ValueError:
        raise ValueError(f"{argument}: {number} is no {kind.__name__}") from None


def text_of(argument: str, given: Any) -> str:
    """A text."""
    if not isinstance(given, str):
        raise TypeError(f"{argument} is a str, not of type {kind_of(given)}")
    return exact_text(given)


def exact_text(text: str) -> str:
    """The same characters as a `str` of just that type."""
    return str.__str__(text)


def truth(argument: str, given: Any) -> Optional[bool]:
    """True, False or None."""
    if given is None or type(given) is bool:
        return given
    raise TypeError(f"{argument} is True, False or None, not {given!r}")


def names_of(argument: str, given: Iterable[str], example: str) -> Tuple[str, ...]:
    """Names, each once and in order."""
    if isinstance(given, (str, bytes, bytearray, memoryview)):
        raise TypeError(f"{argument} is a set or another iterable of names, as {example}, not of type {kind_of(given)}")
    try:
        each = iter(given)
    except TypeError:
        raise TypeError(f"{argument} is a set of names, as {example}, not of type {kind_of(given)}") from None
    names = {name if type(name) is str else _name(argument, name, example) for name in each}
    return tuple(sorted(names))


def _name(argument: str, given: Any, example: str) -> str:
    if not isinstance(given, str):
        raise TypeError(f"{argument}: a name is a str, as in {example}, not of type {kind_of(given)}")
    return exact_text(given)


def tag_name(argument: str, name: str) -> str:
    """The name of a tag, as in a token: no tag has another."""
    if not _TAG.fullmatch(name):
        raise ValueError(f"{argument}: {name!r} is not the name of a tag: it must be lower case, without spaces")
    return name
