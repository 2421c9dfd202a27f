"""Where tokens stand, in bytes of the text as it was handed in: docs/GRAMMAR.md, "Where tokens stand"."""

from __future__ import annotations

from collections.abc import Iterator
from dataclasses import dataclass

from . import program
from .items import events
from .messages import Comment, Doctype, Error, Event, Instruction, Tag, Text
from .printed import printed_lines

MARKUP = (Tag, Comment, Instruction, Doctype)
BYTE_ORDER_MARK = "\uFEFF"


@dataclass(frozen=True)
class Placed:
    """A token other than a text, with its line, the run of text before it, and where that and the token stand."""

    run: str
    token: object
    line: int
    text: int
    begin: int
    end: int

    def lines(self) -> str:
        """A line of the places, and what is printed of the run and the token."""
        printed = printed_lines([(Text(self.run), self.line), (self.token, self.line)])
        return f"{self.text} {self.begin} {self.end}\n" + printed


def character_places(source: str, keep_bom: bool) -> list[tuple[int, int]]:
    """Where each character of the normalised text stands in its source, and where the end does. Of a CR LF the CR is
    read as the line break, and nothing is left of the LF."""
    places, at, before = [], 0, ""
    for c in source:
        size = len(c.encode())
        is_mark = c == BYTE_ORDER_MARK and before == "" and not keep_bom
        if not is_mark and before + c != "\r\n":
            places.append((at, at + size))
        at, before = at + size, c
    return [*places, (at, at)]


def token_places(event: Event, places: list[tuple[int, int]]) -> tuple[int, int]:
    """Where a token stands: markup with the characters of its item, an error at the character that decides it."""
    if isinstance(event.token, MARKUP):
        return places[event.begin][0], places[event.end][0]
    if isinstance(event.token, Error) and event.token.decided is not None:
        return places[event.token.decided]
    return places[event.place]


def placed(happened: Iterator[Event], places: list[tuple[int, int]]) -> Iterator[Placed]:
    """All tokens but texts. Each but an error ends the run before it, and the next run begins where it ends."""
    run, text = "", 0
    for event in happened:
        if isinstance(event.token, Text):
            run += event.token.text
            continue
        begin, end = token_places(event, places)
        if isinstance(event.token, Error):
            yield Placed("", event.token, event.line, begin, begin, end)
            continue
        yield Placed(run, event.token, event.line, text, begin, end)
        run, text = "", end


def placed_lines(text: str, settings: program.Settings) -> str:
    """The lines of a text with the places of its tokens."""
    places = character_places(text, settings.keep_bom)
    return "".join(each.lines() for each in placed(events(*program.reading_by(text, settings)), places))


def run(words: list[str], given: bytes) -> tuple[int, str, str]:
    """The status of a run of crates/print_places, what it prints, and its line on standard error."""
    return program.run(words, given, placed_lines)
