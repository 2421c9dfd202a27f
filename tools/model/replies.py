"""What the printing sink replies: docs/GRAMMAR.md, the table of that name."""

from __future__ import annotations

from .messages import Tag
from .reading import DATA, PLAIN, Mode

RAW_TEXT_IN = {"title": "Rcdata", "textarea": "Rcdata", "script": "ScriptData"}
RAW_TEXT_IN.update(dict.fromkeys(("style", "xmp", "iframe", "noembed", "noframes"), "Rawtext"))


def mode_after(tag: Tag) -> Mode:
    """How the text after a tag is read. Raw text ends at the end tag of the start tag's name."""
    if tag.is_end or tag.name not in (*RAW_TEXT_IN, "plaintext"):
        return DATA
    return PLAIN if tag.name == "plaintext" else Mode(RAW_TEXT_IN[tag.name], tag.name)


def charset_of(tag: Tag) -> str | None:
    """The encoding that a start tag `meta` names."""
    is_meta = not tag.is_end and tag.name == "meta"
    return next((value for name, value in tag.attributes if is_meta and name == "charset"), None)


def runs_script(tag: Tag) -> bool:
    return tag.is_end and tag.name == "script"
