"""The worked cases of crates/test_cases/stdin, whose lines are written by hand. Its head says how they are written."""

from __future__ import annotations

import pathlib
import re

from .case import Case, Ended

WORKED = pathlib.Path(__file__).resolve().parent.parent.parent / "crates" / "test_cases" / "stdin"
ESCAPE = re.compile(r"\\(?:u\{([0-9a-f]+)\}|(.))")
LETTERS = {"n": "\n", "r": "\r", "t": "\t", "\\": "\\"}


def meant(text: str) -> str:
    return ESCAPE.sub(lambda found: chr(int(found[1], 16)) if found[1] else LETTERS[found[2]], text)


def worked_case(lines: list[str]) -> tuple[Case, Ended, bool]:
    """A case, how it ends, and whether it ends so with exact errors, too."""
    marked = [line.partition(" ")[::2] for line in lines]
    of_mark = lambda mark: [text for other, text in marked if other == mark]
    case = Case(tuple((word,) for word in of_mark("$")), "".join(map(meant, of_mark("<"))))
    printed, errors = ("".join(f"{line}\n" for line in of_mark(mark)) for mark in ">!")
    status = int("".join(of_mark("=")) or 0)
    return case, Ended(status, printed, errors), "exact" in of_mark("+")


def worked_cases() -> list[tuple[Case, Ended]]:
    """The cases that have an end: those of a text that may go on (`~`) have none."""
    told = []
    for block in re.split(r"\n\n+", WORKED.read_bytes().decode()):
        lines = [line for line in block.strip("\n").split("\n") if not line.startswith("#")]
        if any(lines) and not any(line.startswith("~") for line in lines):
            case, ended, exact_too = worked_case(lines)
            told.append((case, ended))
            if exact_too:
                told.append((case.with_word("--exact"), ended))
    return told
