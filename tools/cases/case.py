"""A case: words of the command line, and a text or a page of parts; and how a run of a program over one ended."""

from __future__ import annotations

from dataclasses import dataclass, replace
from typing import Tuple

# Something as it is written, and what it means.
Piece = Tuple[str, object]


@dataclass(frozen=True)
class Words:
    """Words of the command line, each with its value."""

    words: tuple[tuple[str, ...], ...]

    @property
    def flat_words(self) -> list[str]:
        return [word for group in self.words for word in group]

    def has(self, option: str) -> bool:
        return any(group[0] == option for group in self.words)

    def with_word(self, *group: str) -> Words:
        return replace(self, words=(*self.words, group))


@dataclass(frozen=True)
class Case(Words):
    """Words and a text, which a model reads."""

    text: str

    @property
    def given(self) -> bytes:
        """What a model is given."""
        return self.text.encode()


@dataclass(frozen=True)
class Page(Words):
    """Words and a page whose parts are read each by itself, so that a model needs no tokenizer. A part is some pieces."""

    parts: tuple[tuple[Piece, ...], ...]

    @property
    def given(self) -> list[Piece]:
        """What a model is given."""
        return [piece for part in self.parts for piece in part]

    @property
    def text(self) -> str:
        return "".join(written for written, _ in self.given)


@dataclass(frozen=True)
class Ended:
    """How a run ended: its status, its lines, and what it wrote to standard error."""

    status: int | None
    lines: str
    errors: str
