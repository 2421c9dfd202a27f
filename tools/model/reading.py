"""What is read, and by what: docs/GRAMMAR.md, "Where reading starts", "Normalised text", "Errors" and "Items"."""

from __future__ import annotations

import functools
import re
from collections.abc import Callable
from dataclasses import dataclass, field
from typing import Tuple

from .messages import Error, Told

# the entries of a table, each its name and its characters
Entries = Tuple[Tuple[str, str], ...]


@dataclass(frozen=True)
class Table:
    """Named references: the characters of each name, and all beginnings of names."""

    names: dict[str, str]
    beginnings: frozenset[str] = field(init=False)

    def __post_init__(self):
        beginnings = {name[:n] for name in self.names for n in range(1, len(name) + 1)}
        object.__setattr__(self, "beginnings", frozenset(beginnings))


@functools.lru_cache
def table_of(entries: Entries) -> Table:
    return Table(dict(entries))


ESCAPED_KINDS = ("Escaped", "DoubleEscaped")
ESCAPED_STATES = ("RawData(ScriptDataEscaped({}))", "ScriptDataEscapedDash({})", "ScriptDataEscapedDashDash({})")


@dataclass(frozen=True)
class Mode:
    """How the next character is read when nothing is open. Raw text has the name whose end tag ends it, and in escaped
    script data the dashes directly before, up to two."""

    kind: str
    name: str = ""
    dashes: int = 0

    @property
    def raw_state(self) -> str:
        """The state that an error in raw text names."""
        return ESCAPED_STATES[self.dashes].format(self.kind) if self.kind in ESCAPED_KINDS else f"RawData({self.kind})"


DATA, PLAIN, CDATA = Mode("Data"), Mode("Plain"), Mode("Cdata")


@dataclass(frozen=True)
class Reading:
    """A normalised text that is read, and what the reading goes by."""

    text: str
    exact: bool
    foreign: bool
    table: Table

    @property
    def end(self) -> int:
        return len(self.text)

    def stands_at(self, place: int, word: str) -> bool:
        return self.text.startswith(word, place)

    def next(self, place: int) -> str:
        """The character at a place, and nothing at the end."""
        return self.text[place : place + 1]

    def find(self, word: str, place: int) -> int | None:
        """Where the word stands first from a place on."""
        found = self.text.find(word, place)
        return None if found < 0 else found

    def after_longest(self, place: int, begins: Callable[[str], bool]) -> int:
        """The place after the longest beginning of the text from a place on of which each beginning is such a one."""
        after = place
        while after < self.end and begins(self.text[place : after + 1]):
            after += 1
        return after

    def run(self, kind: re.Pattern, place: int) -> str:
        """The longest run of a kind from a place on."""
        return kind.match(self.text, place).group()

    # ---- Errors

    def saw(self, place: int, state: str, decided: int | None = None) -> Told:
        """The error of the character at a place."""
        return [(place, self.error_of(self.text[place], state, decided))]

    def error_of(self, c: str, state: str, decided: int | None = None) -> Error:
        return Error("Bad character" if self.exact else f"Saw {c} in state {state}", decided)

    def saw_end(self, state: str) -> Told:
        """The error of the end."""
        return [(self.end, Error("Unexpected EOF" if self.exact else f"Saw EOF in state {state}"))]

    def nuls(self, start: int, stop: int, state: str) -> Told:
        """The errors of the NULs between two places."""
        return [error for place in range(start, stop) if self.text[place] == "\0" for error in self.saw(place, state)]

    # ---- End of input

    def nothing_at_end(self, mode: Mode) -> Told:
        """What the end tells when nothing is open."""
        if mode.kind in ESCAPED_KINDS:
            return self.saw_end(mode.raw_state)
        return self.saw_end("CdataSection") if mode.kind == CDATA.kind else []


def normalised(text: str, keep_bom: bool) -> str:
    if text.startswith("\uFEFF") and not keep_bom:
        text = text[1:]
    return text.replace("\r\n", "\n").replace("\r", "\n")


@dataclass(frozen=True)
class Item:
    """An item in its source: where it ends, what its places tell, and in which mode the text after it is read. An
    unfinished item has no such mode: it reaches to the end, and the place of the end tells what the end tells of it.
    Text that is emitted with the character after an item stands at that character's place."""

    end: int
    told: Told
    after: Mode | None
