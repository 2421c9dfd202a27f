"""The lines that are printed: docs/GRAMMAR.md, "Printed lines"."""

from __future__ import annotations

from .messages import Comment, Doctype, Error, Instruction, Null, Tag, Text
from .replies import charset_of, runs_script

ESCAPES = {n: f"\\u{{{n:x}}}" for n in [*range(0x20), 0x7F]}
ESCAPES.update({ord("\\"): "\\\\", ord('"'): '\\"', ord("\n"): "\\n"})


def quoted(text: str) -> str:
    return '"' + text.translate(ESCAPES) + '"'


def tag_line(tag: Tag, line: int) -> str:
    parts = ["end" if tag.is_end else "start", str(line), quoted(tag.name)]
    parts += [f"{quoted(name)}={quoted(value)}" for name, value in tag.attributes]
    parts += ["self-closing"] * tag.self_closing + ["duplicates"] * tag.duplicates
    return " ".join(parts) + "\n" + pause_line(tag)


def pause_line(tag: Tag) -> str:
    """The line after a tag's, where the reply to it pauses."""
    if runs_script(tag):
        return "pause script\n"
    charset = charset_of(tag)
    return "" if charset is None else f"pause encoding {quoted(charset)}\n"


def doctype_line(doctype: Doctype, line: int) -> str:
    parts = [quoted(part) if part is not None else "-" for part in (doctype.name, doctype.public_id, doctype.system_id)]
    return " ".join(["doctype", str(line), *parts, *["quirks"] * doctype.quirks]) + "\n"


def message_line(token, line: int) -> str:
    if isinstance(token, Null):
        return f"null {line}\n"
    if isinstance(token, Error):
        return f"error {line} {quoted(token.message)}\n"
    if isinstance(token, Comment):
        return f"comment {line} {quoted(token.text)}\n"
    if isinstance(token, Instruction):
        return f"pi {line} {quoted(token.content)}\n"
    if isinstance(token, Tag):
        return tag_line(token, line)
    return doctype_line(token, line) if isinstance(token, Doctype) else f"eof {line}\n"


def printed_lines(told) -> str:
    """The lines of messages. Adjacent texts share one."""
    lines, text = [], ""
    for token, line in told:
        if isinstance(token, Text):
            text += token.text
            continue
        if text:
            lines.append(f"text {quoted(text)}\n")
        text = ""
        lines.append(message_line(token, line))
    return "".join(lines)
