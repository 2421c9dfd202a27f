"""The program: its words, statuses and lines. docs/GRAMMAR.md, "The program", and crates/html5tok/README.md."""

from __future__ import annotations

import functools
import re
import sys
from collections.abc import Callable
from dataclasses import dataclass, field

from .items import messages
from .printed import printed_lines
from .reading import Entries, Mode, Reading, normalised, table_of
from .reference import is_no_character

FEW_NAMES = "amp=26,amp;=26,gt=3E,gt;=3E,lt=3C,lt;=3C,nGt;=226B+20D2,not=AC,not;=AC,notin;=2209,quot=22,quot;=22"
INITIAL_MODES = {"data": "Data", "plaintext": "Plain", "rcdata": "Rcdata", "rawtext": "Rawtext"}
INITIAL_MODES.update(script="ScriptData", cdata="Cdata")
USAGE = "usage: html5tok [--exact] [--keep-bom] [--foreign] [--state S] [--last NAME] [--cut N] [--table LIST]"


class UsageError(Exception):
    """The words say nothing."""


def entry_said(text: str) -> tuple[str, str]:
    """An entry of a list: its name, and its one or two characters."""
    found = re.fullmatch(r"([^=]*)=([0-9A-Fa-f]{1,6})(?:\+([0-9A-Fa-f]{1,6}))?", text, re.DOTALL)
    if found is None:
        raise UsageError
    numbers = [int(digits, 16) for digits in found.groups()[1:] if digits is not None]
    if any(map(is_no_character, numbers)):
        raise UsageError
    return found[1], "".join(map(chr, numbers))


@functools.lru_cache
def listed(text: str) -> Entries:
    return tuple(entry_said(entry) for entry in text.split(",")) if text else ()


@dataclass
class Settings:
    exact: bool = False
    keep_bom: bool = False
    foreign: bool = False
    state: str = "data"
    last: str = ""
    entries: Entries = field(default_factory=lambda: listed(FEW_NAMES))


def settings_said(words: list[str]) -> Settings:
    """The settings that the words of the command line say."""
    settings, words = Settings(), list(words)
    while words:
        word = words.pop(0)
        if word in ("--exact", "--keep-bom", "--foreign"):
            setattr(settings, word[2:].replace("-", "_"), True)
        elif word in ("--state", "--last", "--cut", "--table") and words:
            say_value(settings, word, words.pop(0))
        else:
            raise UsageError
    return settings


def say_value(settings: Settings, word: str, value: str):
    if word == "--last":
        settings.last = value
    elif word == "--table":
        settings.entries = listed(value)
    elif word == "--state" and value in INITIAL_MODES:
        settings.state = value
    elif word != "--cut" or not re.fullmatch("[0-9]+", value) or not 0 < int(value) < 2**32:
        raise UsageError


@functools.lru_cache
def table_fault(entries: Entries) -> str | None:
    """The first fault of a table's entries."""
    earlier: set[str] = set()
    for at, (name, characters) in enumerate(entries):
        if not re.fullmatch("[0-9A-Za-z]+;?", name):
            return f"table: bad name at {at}"
        if "\0" in characters:
            return f"table: zero character at {at}"
        if name in earlier:
            return f"table: repeated name at {at}"
        earlier.add(name)
    return None


def reading_by(text: str, settings: Settings) -> tuple[Reading, Mode]:
    """What is read of a text, and the mode in which it begins."""
    reading = Reading(normalised(text, settings.keep_bom), settings.exact, settings.foreign, table_of(settings.entries))
    return reading, Mode(INITIAL_MODES[settings.state], settings.last)


def printed(text: str, settings: Settings) -> str:
    """The lines of a text."""
    return printed_lines(messages(*reading_by(text, settings)))


def run(words: list[str], given: bytes, shown: Callable[[str, Settings], str] = printed) -> tuple[int, str, str]:
    """The status of a run, what it prints, and its line on standard error."""
    try:
        settings = settings_said(words)
    except UsageError:
        return 2, "", USAGE + "\n"
    fault = table_fault(settings.entries)
    if fault is not None:
        return 4, "", fault + "\n"
    try:
        return 0, shown(given.decode(), settings), ""
    except UnicodeDecodeError:
        return 3, "", "input is not UTF-8\n"


def main() -> int:
    status, lines, error = run(sys.argv[1:], sys.stdin.buffer.read())
    sys.stdout.buffer.write(lines.encode())
    sys.stderr.write(error)
    return status
