"""Makes random pages of tags for firnuubal check: start and end tags, texts and line breaks, without parse errors."""

from __future__ import annotations

import random

from model.checking import ATTRIBUTES, BLOCKS, ENDED, MEANT, POINTS, UNTRACKED, VOID

from .case import Page, Piece

NAMES = sorted({*ENDED, *BLOCKS, *VOID, *UNTRACKED, *MEANT, *POINTS, "b", "i", "svg", "math", "g", "select", "x-y"})
TEXTS = ["a", "\u00e9", "\n", "\r\n", "\r", "\U0001f600 "]


def check_page_of(seed: str, number: int) -> Page:
    """The page of that number."""
    dice = random.Random(f"{seed} check {number}")
    return Page((), tuple((piece(dice),) for _ in range(dice.randint(1, 60))))


def piece(dice: random.Random) -> Piece:
    """A text or a tag, as it is written and what it means."""
    kind = dice.random()
    if kind < 0.15:
        return dice.choice(TEXTS), None
    name = dice.choice(NAMES)
    if kind < 0.5:
        return f"</{name}>", ("end", name)
    own = dice.choice(["1", "2", "a b", ""]) if dice.random() < 0.2 else None
    wrong = [dice.choice([*ATTRIBUTES])] if dice.random() < 0.1 else []
    closing = dice.random() < 0.15
    written = f"<{name}" + (f" id='{own}'" if own is not None else "") + "".join(f" {it}" for it in wrong)
    return written + (" /" if closing else "") + ">", ("start", name, own, closing, wrong)
