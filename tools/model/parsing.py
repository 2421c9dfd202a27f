"""The trees of pages: the tokenizer's model, which the definition of tree construction tells how to read on."""

from __future__ import annotations

from collections.abc import Iterator
from dataclasses import dataclass, replace

from .cleaning import standard_references
from .construction import Parser, with_deep_stack
from .items import ITEM_IN
from .messages import Comment, Doctype, Instruction, Null, Tag, Text
from .reading import DATA, PLAIN, Item, Mode, Reading, normalised

LIMITS = "--depth", "--formatting"


@dataclass(frozen=True)
class Settings:
    """How a page is parsed. In which pieces it arrives changes nothing."""

    scripting: bool
    limits: tuple[int | None, int | None]


def settings_said(words: list[str]) -> Settings:
    """The settings that the words of crates/print_trees say."""
    found = {word: int(words[words.index(word) + 1]) if word in words else None for word in LIMITS}
    return Settings("--scripting" in words, (found["--depth"], found["--formatting"]))


# ---- what the parser is told, and what it asks for


def message_of(token: object) -> tuple | None:
    """What a token is to the parser. An error is nothing."""
    if isinstance(token, Tag):
        kind = "end" if token.is_end else "closed" if token.self_closing else "start"
        return (kind, token.name, *[token.attributes] * (not token.is_end))
    if isinstance(token, Doctype):
        return ("doctype", token.name, token.public_id, token.system_id, token.quirks)
    if isinstance(token, Instruction):
        return ("instruction", token.content)
    if isinstance(token, (Comment, Text)):
        return (type(token).__name__.lower(), token.text)
    return ("null",) if isinstance(token, Null) else None


def messages_of(item: Item) -> Iterator[tuple]:
    """The messages of an item, with adjacent texts as one."""
    text = ""
    for message in filter(None, (message_of(token) for _, token in item.told)):
        if message[0] == "text":
            text += message[1]
            continue
        if text:
            yield "text", text
        yield message
        text = ""
    if text:
        yield "text", text


def mode_asked(request: object, name: str) -> Mode:
    """How the text after a tag of this name is read, as the parser asks."""
    if request == "ReadPlain":
        return PLAIN
    return Mode(request[1], name) if request[0] == "ReadRaw" else DATA


def tell(parser: Parser, item: Item) -> Mode | None:
    """Tells the parser an item. Answers how the text after it is read."""
    after = item.after
    for kind, *values in messages_of(item):
        request = parser.take(kind, *values)
        if kind in ("start", "closed", "end"):
            after = mode_asked(request, values[0])
    return after


# ---- pages


def parse(parser: Parser, reading: Reading):
    """Parses what is read to its end."""
    place, mode = 0, DATA
    while place < reading.end and mode is not None:
        item = ITEM_IN[mode.kind](replace(reading, foreign=parser.is_foreign()), place, mode)
        place, mode = item.end, tell(parser, item)
    parser.end()


def tree(text: str, settings: Settings, own=None) -> str:
    """The tree of a page, by the definition or another one."""
    parser = Parser(settings.scripting, limits=settings.limits, own=own)
    parse(parser, Reading(normalised(text, keep_bom=True), False, False, standard_references()))
    return parser.tree()


def run(words: list[str], given: bytes, own=None) -> tuple[int, str, str]:
    """The status of a run of crates/print_trees, what it prints, and its line on standard error."""
    return 0, with_deep_stack(lambda: tree(given.decode(), settings_said(words), own)) + "\n", ""
