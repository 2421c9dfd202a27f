"""Tokens, and the places that tell them."""

from __future__ import annotations

from dataclasses import dataclass
from typing import List, Tuple


@dataclass(frozen=True)
class Text:
    text: str


@dataclass(frozen=True)
class Null:
    pass


@dataclass(frozen=True)
class Error:
    message: str
    decided: int | None = None  # the place that decides it, where that is a later one


@dataclass(frozen=True)
class Tag:
    is_end: bool
    name: str
    attributes: list[tuple[str, str]]
    self_closing: bool
    duplicates: bool


@dataclass(frozen=True)
class Comment:
    text: str


@dataclass(frozen=True)
class Instruction:
    content: str


@dataclass(frozen=True)
class Doctype:
    name: str | None = None
    public_id: str | None = None
    system_id: str | None = None
    quirks: bool = False


@dataclass(frozen=True)
class End:
    pass


@dataclass(frozen=True)
class Event:
    """A token with its line, the place where it stands, and where its item begins and ends."""

    token: object
    line: int
    place: int
    begin: int
    end: int


# tokens, each at the place that tells it
Told = List[Tuple[int, object]]


def texts(place: int, characters: str) -> Told:
    """Characters that one place tells, each as a text."""
    return [(place, Text(c)) for c in characters]
